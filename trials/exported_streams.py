"""Streams over TCP for `filer export` with nothing but roots, by which nothing is changed, and
each reply compared with what the plain reader says."""

import socket
import time

from exported_rows import ASKED, LONG, RESULTS, ROWS, octets
from peers import Client, Differs, Server, compare, connect, hold, read_all
from plain import Call, Stream, exporting
from results import GETATTR, are_results
from xdr import opaque

# This many rows make one stream.
TOGETHER = 8
# Between two pieces of a stream, so that they come apart.
PAUSE = 0.0005
WORKED = exporting(2, bytes(range(8, 0, -1)), bytes(range(16, 8, -1)))


def known(found):
    """The reply to what was heard."""
    if not isinstance(found, Call):
        return found
    reply = found.of_an_empty_server()
    hold(reply, f"procedure {found.procedure} isn't to be called here")
    return reply


def plain_reader_reads_rows():
    """The worked rows through the plain reader."""
    passed, failures = 0, []
    for number, (stream, reply) in enumerate(ROWS + LONG):
        _, _, heard = Stream(WORKED).feed(octets(stream, WORKED))
        good = [known(found) for found in heard] == [octets(reply, WORKED)]
        passed += good
        failures += [] if good else [f"the plain reader on row {number} of `export`"]
    [asked] = Stream(WORKED).feed(octets(ASKED, WORKED))[2]
    for number, (results, are_some) in enumerate(RESULTS):
        good = are_results(asked, octets(results, WORKED)) == are_some
        passed += good
        failures += [] if good else [f"the plain reader on results {number}"]
    return passed, failures


def send(address, source, pieces):
    """What comes of a stream in pieces."""
    peer = connect(address, source)
    try:
        for place, piece in enumerate(pieces):
            if place:
                time.sleep(PAUSE)
            peer.sendall(piece)
        peer.shutdown(socket.SHUT_WR)
    except TimeoutError:
        raise
    except OSError:
        # the server stopped reading at a fault
        pass
    data, was_reset = read_all(peer)
    peer.close()
    return data, was_reset


def changed(stream):
    """A stream byte by byte, cut in two everywhere, each beginning, and each byte changed in
    three ways."""
    yield "byte by byte", [stream[i : i + 1] for i in range(len(stream))]
    for i, byte in enumerate(stream):
        yield f"cut at {i}", [stream[:i], stream[i:]]
        yield f"the first {i} bytes", [stream[:i]]
        for name, other in (("00", 0), ("ff", 255), ("its top bit turned", byte ^ 128)):
            yield f"byte {i} changed, {name}", [stream[:i] + bytes([other]) + stream[i + 1 :]]


def streams_of(service):
    """The rows one by one, all in one stream, and some at a time in streams that are changed."""
    rows = [octets(stream, service) for stream, _ in ROWS + LONG]
    for number, row in enumerate(rows):
        yield f"row {number}", [row]
    yield "all rows", [b"".join(rows)]
    for first in range(0, len(ROWS), TOGETHER):
        for name, pieces in changed(b"".join(rows[first : min(first + TOGETHER, len(ROWS))])):
            yield f"rows from {first} on, {name}", pieces


def job(task):
    """Every so manieth of these streams, each on a connection of its own."""
    address, source, service, start, step = task
    passed, failures = 0, []
    for place, (name, pieces) in enumerate(streams_of(service)):
        if place % step != start:
            continue
        try:
            compare(b"".join(pieces), *send(address, source, pieces), service, known)
            passed += 1
        except (Differs, OSError) as difference:
            failures.append(f"{name}, of `export`: {type(difference).__name__}: {difference}")
            if len(failures) > 20:
                break
    return passed, failures


def begun(server):
    """What is known of a server with the times of its roots: GETATTR of one tells them."""
    client = Client(server.address, service=server.service)
    shown = client.ask(GETATTR, opaque(server.service.handle(0)))
    client.close()
    return exporting(2, server.service.verifier, shown[-8:])


def run(filer, pool, jobs):
    """All of it, in one run of a server."""
    passed, failures = plain_reader_reads_rows()
    try:
        count = sum(1 for _ in streams_of(WORKED))
        with Server(filer, count + 3, command="export") as server:
            service = begun(server)
            at = lambda k: (server.address, f"127.0.1.{k + 1}", service)
            for good, bad in pool.imap_unordered(job, [(*at(k), k, jobs) for k in range(jobs)]):
                passed += good
                failures += bad
            if not failures:
                server.end()
                passed += 1
    except (Differs, OSError) as difference:
        failures.append(f"the server of worked streams: {difference}")
    return passed, failures
