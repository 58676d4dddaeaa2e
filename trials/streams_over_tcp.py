"""Generated hostile streams over TCP: each has a connection of its own, and its replies are
compared."""

import random
import socket

from made_streams import made
from peers import Client, Differs, Server, compare, connect, read_all, reset

# After this many streams of each process the server has to answer on another connection.
BETWEEN = 50


def send(peer, stream, rng):
    """Sends a stream whole or cut. The server may have stopped reading."""
    cuts = sorted(rng.randrange(len(stream) + 1) for _ in range(rng.choice((0, 0, 0, 0, 1, 3))))
    try:
        for i, k in zip([0] + cuts, cuts + [len(stream)]):
            peer.sendall(stream[i:k])
        peer.shutdown(socket.SHUT_WR)
    except TimeoutError:
        raise
    except OSError:
        pass


def try_stream(address, source, service, stream, rng):
    """Gives a stream to the server. One in ten peers goes away, in one of two ways."""
    peer = connect(address, source)
    try:
        way = rng.randrange(20)
        if way == 0:
            peer.sendall(stream)
            reset(peer)
        elif way == 1:
            peer.sendall(stream)
        else:
            send(peer, stream, rng)
            compare(stream, *read_all(peer), service)
    except (TimeoutError, OSError) as error:
        raise Differs(f"{type(error).__name__}: {error}") from None
    finally:
        peer.close()


def job(task):
    """This many streams of one seed, from one address."""
    address, source, service, seed, count = task
    rng, passed, failures = random.Random(seed), 0, []
    try:
        client = Client(address, source, service)
        for k in range(count):
            stream = made(rng, service)
            try:
                try_stream(address, source, service, stream, rng)
                passed += 1
            except Differs as difference:
                failures.append(
                    f"stream {k} of seed {seed} over TCP ({stream[:40].hex()}): {difference}"
                )
                if len(failures) > 20:
                    break
            if k % BETWEEN == BETWEEN - 1:
                client.null()
        client.close()
    except (Differs, OSError) as difference:
        failures.append(f"the calls between streams of seed {seed}: {difference}")
    return passed, failures


def run(filer, pool, jobs, seed, streams, command):
    """This many streams in one run of a server, by as many processes as the pool has."""
    count = -(-streams // jobs)
    passed, failures = 0, []
    try:
        # `export` has one connection more, by which its run's verifier is asked for
        with Server(filer, jobs * (count + 1) + 2, workers=4, command=command) as server:
            at = lambda k: (server.address, f"127.0.1.{k + 1}", server.service)
            tasks = [(*at(k), seed + k, count) for k in range(jobs)]
            for good, bad in pool.imap_unordered(job, tasks):
                passed += good
                failures += bad
            if not failures:
                last = Client(server.address)
                last.null()
                last.close()
                server.end()
                passed += 1
    except (Differs, OSError) as difference:
        failures.append(f"the server of generated streams ({command}): {difference}")
    return passed, failures
