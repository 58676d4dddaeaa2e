"""Peers that harm themselves: others are served as if they weren't there, and what they asked
whole is done."""

import contextlib
import pathlib
import random
import socket
import struct
import threading
import time

from peers import (
    Client,
    Differs,
    Server,
    call,
    compare,
    connect,
    handle,
    hold,
    read_all,
    read_arguments,
    read_reply,
    records_of,
    reset,
    write_arguments,
)
from plain import accepted
from stream_rows import JOINED, LIMITS, ROWS, WAITS, octets
from xdr import opaque, words

# More than the trials take.
CONNECTIONS = 800
KIB = 1024
PIECE = 64 * KIB


def until(is_so, seconds=20):
    """Whether something comes to be so."""
    end = time.monotonic() + seconds
    while not is_so():
        if time.monotonic() > end:
            return False
        time.sleep(0.02)
    return True


class Others:
    """Peers that ask of volume 1, which nothing changes, for the same answers all the time."""

    def __init__(self, address, count=4):
        setup = Client(address)
        file = setup.look_up(1, b"kept")
        if file is None:
            file = setup.create(1, b"kept")
            setup.write(file, 0, bytes(range(256)) * 40)
        self.asked = [
            (0, b""),
            (1, handle(1)),
            (1, file),
            (3, handle(1) + opaque(b"kept")),
            (3, handle(1) + opaque(b"nothing")),
            (6, read_arguments(file, 100, 10_000)),
            (16, handle(1) + struct.pack(">Q8sI", 0, bytes(8), 4096)),
            (18, handle(1)),
        ]
        self.answers = [setup.ask(*asked) for asked in self.asked]
        hold(
            setup.read(file, 100, 10_000) == (bytes(range(256)) * 40)[100:10_100],
            "bytes that were written",
        )
        setup.close()
        self.failures, self.is_over, self.turns = [], False, 0
        self.threads = [threading.Thread(target=self.ask_on, args=(address,)) for _ in range(count)]

    def ask_on(self, address):
        try:
            client = Client(address)
            while not self.is_over:
                for asked, answer in zip(self.asked, self.answers):
                    hold(
                        client.ask(*asked) == answer,
                        f"another peer's reply to procedure {asked[0]} differs",
                    )
                self.turns += 1
            client.close()
        except (Differs, OSError) as difference:
            self.failures.append(f"another peer: {difference}")

    def __enter__(self):
        for thread in self.threads:
            thread.start()
        return self

    def __exit__(self, *_):
        before = self.turns
        is_served = until(lambda: self.turns >= before + 2 * len(self.threads))
        self.is_over = True
        for thread in self.threads:
            thread.join()
        hold(not self.failures, "; ".join(self.failures[:3]))
        hold(is_served, "other peers aren't served")


def worked_rows(address):
    """The worked streams, each on a connection of its own, and all of them joined."""
    for stream, reply in ROWS:
        peer = connect(address)
        peer.sendall(octets(stream))
        peer.shutdown(socket.SHUT_WR)
        hold(read_all(peer) == (octets(reply.removeprefix(WAITS)), False), f"the reply to {stream}")
        peer.close()
    for name, stream, _, _, reply in LIMITS:
        peer = connect(address)
        peer.sendall(stream)
        if reply is not None:
            peer.shutdown(socket.SHUT_WR)
        hold(read_all(peer) == (octets(reply or ""), False), name)
        peer.close()


def one_byte_at_a_time(address):
    peer = connect(address)
    for i in range(len(JOINED)):
        peer.sendall(JOINED[i : i + 1])
    peer.shutdown(socket.SHUT_WR)
    compare(JOINED, *read_all(peer))
    peer.close()


def one_byte_a_second(address):
    """Peers that send one byte a second, in a mark, in a head and at the end of a record, hold
    up no other, and get their replies."""
    record = call(5, 1, handle(0))
    starts = [*range(7), *range(40, 46), *range(len(record) - 7, len(record) - 4)]
    peers = [connect(address) for _ in starts]
    with Others(address):
        for peer, start in zip(peers, starts):
            peer.sendall(record[:start])
        for second in range(4):
            time.sleep(1)
            for peer, start in zip(peers, starts):
                peer.sendall(record[start + second : start + second + 1])
    for peer, start in zip(peers, starts):
        peer.sendall(record[start + 4 :] + record)
        peer.shutdown(socket.SHUT_WR)
        compare(record * 2, *read_all(peer))
        peer.close()


def fault_behind_calls(address):
    """The calls before a fault are answered, and then the server closes the connection by
    itself."""
    for fault in (octets("ffffffff"), octets("80000000"), octets("80000008 00000001 00000001")):
        stream = (
            b"".join(call(xid, xid % 2, handle(0) if xid % 2 else b"") for xid in range(200))
            + fault
        )
        peer = connect(address)
        peer.sendall(stream)
        data, was_reset = read_all(peer)
        compare(stream, data, was_reset)
        hold(not was_reset, "a reset where all bytes were taken")
        peer.close()


def half_closed(address):
    """All replies come after the peer's end of input, small ones and large ones; half a record
    is dropped."""
    client = Client(address)
    file = client.create(0, b"holes", PIECE * 4)
    calls = [
        call(xid, 1, handle(0)) if xid % 3 else call(xid, 6, read_arguments(file, 0, PIECE))
        for xid in range(300)
    ]
    for part in (b"", call(300, 1, handle(0))[:-1]):
        stream = b"".join(calls) + part
        peer = connect(address)
        peer.sendall(stream)
        peer.shutdown(socket.SHUT_WR)
        compare(stream, *read_all(peer))
        peer.close()
    client.close()


def asks_and_never_reads(address, count):
    """A connection on which a thread sends this many calls for 64 KiB, and ends its input behind
    them."""
    client = Client(address)
    file = client.look_up(0, b"large") or client.create(0, b"large", PIECE * 2)
    client.close()
    peer = connect(address, small=True)
    peer.settimeout(120)
    stream = b"".join(call(xid, 6, read_arguments(file, PIECE - 1, PIECE)) for xid in range(count))

    def ask():
        with contextlib.suppress(OSError):
            peer.sendall(stream)
            peer.shutdown(socket.SHUT_WR)

    thread = threading.Thread(target=ask)
    thread.start()
    return peer, thread


def never_reads(address):
    """Others are served while the server can't get rid of its replies. Then the peer reads them,
    and all are there."""
    count = 1000
    with Others(address):
        peer, thread = asks_and_never_reads(address, count)
        time.sleep(1)
    data, was_reset = read_all(peer)
    thread.join()
    peer.close()
    replies, rest = records_of(data)
    hold(not was_reset and not rest, "the replies don't end well")
    wanted = [read_reply(xid, bytes(PIECE), False) for xid in range(count)]
    hold(sorted(replies) == sorted(wanted), f"{len(replies)} replies of {count}, or others")


def never_read_and_gone(address):
    """Peers that never read and go away, by a reset or by a close."""
    with Others(address):
        peers = [asks_and_never_reads(address, 500) for _ in range(8)]
        time.sleep(0.5)
        for place, (peer, _) in enumerate(peers):
            reset(peer) if place % 2 else peer.shutdown(socket.SHUT_RDWR)
        for peer, thread in peers:
            thread.join()
            peer.close()


def resets_in_a_call(address):
    """A record that isn't whole has no effect, wherever it is broken off; the whole one before
    it has its own."""
    client = Client(address)
    file = client.create(0, b"broken")
    client.write(file, 0, b"a" * 5000)
    record = call(7, 7, write_arguments(file, 0, b"b" * 5000))
    with Others(address):
        for end in (1, 4, 5, 43, 44, 60, 80, 2500, len(record) - 1):
            for way in (reset, socket.socket.close):
                peer = connect(address)
                peer.sendall(record[:end])
                time.sleep(0.01)
                way(peer)
        time.sleep(0.2)
        hold(client.read(file, 0, 6000) == b"a" * 5000, "half a call had an effect")
        peer = connect(address)
        peer.sendall(record + record[:100])
        hold(until(lambda: client.read(file, 0, 6000) == b"b" * 5000), "a whole call had no effect")
        reset(peer)
    client.close()


def resets_behind_calls(address):
    """Peers that send whole calls and reset, before a reply, between replies, or with half a
    call behind, harm no other; their places are free again."""
    calls = b"".join(
        call(xid, 6, read_arguments(handle(1), 0, 10)) if xid % 2 else call(xid, 1, handle(0))
        for xid in range(99)
    )
    with Others(address):
        for turn in range(4):
            peers = [connect(address) for _ in range(24)]
            for place, peer in enumerate(peers):
                peer.sendall(calls + calls[: place * 7 if turn % 2 else 0])
            for place, peer in enumerate(peers):
                if place % 3:
                    peer.recv(1 if place % 3 == 1 else 3000)
                reset(peer)


def closes_at_once(address):
    """A peer sends one call and closes: the call is done."""
    client = Client(address)
    with Others(address):
        for k in range(100):
            name = b"closed%d" % k
            peer = connect(address)
            peer.sendall(call(k, 8, handle(0) + opaque(name) + words(1, 0, 0, 0, 0, 0, 0)))
            peer.close()
            hold(
                until(lambda: client.look_up(0, name)),
                f"the call of a peer that closed isn't done ({k})",
            )
    client.close()


def closes_while_calls_run(address):
    """A peer sends many WRITEs and goes away while they run: a beginning of them is done, the
    first at least where the peer only closes, and all others are served as without it."""
    client, rng = Client(address), random.Random(1)
    count = 16
    with Others(address):
        for k in range(24):
            file = client.create(0, b"run%d" % (k % 2))
            peer = connect(address)
            pieces = [bytes([i + 1]) * PIECE for i in range(count)]
            stream = b"".join(
                call(i, 7, write_arguments(file, i * PIECE, pieces[i])) for i in range(count)
            )
            sender = threading.Thread(target=send_quietly, args=(peer, stream))
            sender.start()
            is_reset = k % 3 == 2
            if k % 3:
                time.sleep(rng.random() * 0.01)
            else:
                sender.join()
            reset(peer) if is_reset else peer.shutdown(socket.SHUT_RDWR)
            sender.join()
            peer.close()
            is_done = lambda: client.read(file, 0, 1) == b"\1"
            hold(
                k % 3 or until(is_done), "a call that came whole before its peer closed isn't done"
            )
            hold(
                until(lambda: is_beginning(client, file, pieces)),
                "calls are done that aren't a beginning of those sent",
            )
            client.ask(12, handle(0) + opaque(b"run%d" % (k % 2)))
    client.close()


def send_quietly(peer, stream):
    with contextlib.suppress(OSError):
        peer.sendall(stream)


def is_beginning(client, file, pieces):
    """Whether the pieces that a file has are those up to some place, each whole, and stay so for
    a while."""
    found = [client.read(file, i * PIECE, PIECE) for i in range(len(pieces))]
    count = next(
        (i for i, (data, piece) in enumerate(zip(found, pieces)) if data != piece), len(pieces)
    )
    if any(any(data) for data in found[count:]):
        return False
    time.sleep(0.05)
    return count == len(pieces) or not any(client.read(file, count * PIECE, PIECE))


def many_at_once(address):
    """Many peers wait in the midst of a record, go wrong, or end, while others are served."""
    streams = (octets("ffffffff"), JOINED, JOINED[:30], octets("80020000 00000001"))
    waiting = [connect(address) for _ in range(44)]
    with Others(address):
        for place, peer in enumerate(waiting):
            peer.sendall(streams[place % 4])
        for place, peer in enumerate(waiting):
            if place % 4:
                peer.shutdown(socket.SHUT_WR)
            compare(streams[place % 4], *read_all(peer))
            peer.close()


def more_than_places(address):
    """Where 64 connections are open, those behind them are served once others have ended."""
    peers = [connect(address) for _ in range(80)]
    for xid, peer in enumerate(peers):
        peer.sendall(call(xid, 0))
        peer.shutdown(socket.SHUT_WR)
    for xid, peer in enumerate(peers):
        hold(read_all(peer) == (accepted(xid, 0), False), f"the reply to peer {xid} of 80")
        peer.close()
    peers = [connect(address) for _ in range(64)]
    for peer in peers:
        peer.sendall(call(1, 0))
        hold(peer.recv(28) == accepted(1, 0), "the reply to one of 64 peers")
    late = connect(address)
    late.sendall(call(2, 0))
    reset(peers.pop())
    hold(late.recv(28) == accepted(2, 0), "the reply to the peer behind 64 others")
    for peer in [*peers, late]:
        peer.close()


def ticks(process):
    """How long all threads of a process have run, in hundredths of a second (Linux)."""
    told = (
        pathlib.Path(f"/proc/{process.pid}/stat")
        .read_text(encoding="ascii")
        .rpartition(")")[2]
        .split()
    )
    return int(told[11]) + int(told[12])


def rests(server):
    """Where nothing comes the threads sleep, though connections are open, half a record is there
    and a peer doesn't read."""
    idle = [connect(server.address) for _ in range(10)]
    idle[0].sendall(call(1, 1, handle(0))[:30])
    peer, thread = asks_and_never_reads(server.address, 500)

    def is_at_rest():
        before = ticks(server.process)
        time.sleep(1)
        return ticks(server.process) <= before + 1

    hold(until(is_at_rest), "the threads don't sleep where nothing comes")
    with contextlib.suppress(OSError):
        peer.shutdown(socket.SHUT_RDWR)
    thread.join()
    for it in (peer, *idle):
        it.close()


TRIALS = [
    worked_rows,
    one_byte_at_a_time,
    one_byte_a_second,
    fault_behind_calls,
    half_closed,
    resets_in_a_call,
    resets_behind_calls,
    closes_at_once,
    closes_while_calls_run,
    many_at_once,
    more_than_places,
    never_reads,
    never_read_and_gone,
]


def run(filer):
    """All of these on one server, which ends well behind them."""
    passed, failures = 0, []
    with contextlib.ExitStack() as stack:
        try:
            server = stack.enter_context(Server(filer, CONNECTIONS))
            for trial in TRIALS:
                try:
                    trial(server.address)
                    passed += 1
                except (Differs, OSError) as difference:
                    failures.append(f"{trial.__name__}: {type(difference).__name__}: {difference}")
            rests(server)
            client = Client(server.address)
            client.null()
            client.close()
            server.end()
            passed += 1
        except (Differs, OSError) as difference:
            failures.append(f"the server of the peers: {difference}")
    return passed, failures
