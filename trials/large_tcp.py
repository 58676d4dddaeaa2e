"""Large volumes of `filer export` over TCP: many names in one directory, many bytes in one file,
a file with a hole of a tebibyte, and a volume that is full.

Calls are made as bytes, some at a time on each of some connections, and each reply is matched with
its call by its xid (RFC 5531, RFC 1813 section 3.3, docs/SPECIFICATION.md)."""

import itertools
import mmap
import random
import time
from collections import namedtuple
from pathlib import Path
from statistics import median

import wire
from peers import OPEN, Differs, Server, connect, hold, write_arguments
from results import CREATE, FSSTAT, GETATTR, LOOKUP, MKDIR, OK, READ, READDIR, REMOVE, SETATTR
from results import WRITE
from wire import NFS, Files, Reader
from xdr import hyper, words

FBIG, NOSPC = 27, 28
ROOT, BLOCK, PIECE = 1, 4096, 65_536
TEBIBYTE = 1 << 40
PEERS, DEPTH, SEED = 8, 16, 20261127
# What stands before the results of a call: its xid, REPLY, accepted, no verifier, SUCCESS.
HEAD = 24
ANSWERED = words(1, 0, 0, 0, 0)
ATTRIBUTES = 84
# Bytes of memory for an empty file, with its name of 32 bytes.
MOST_FOR_A_FILE = 1_000
# What a call among many names may cost, in costs of one among few, and how fast the last tenth of
# a file has to be written, in speeds of the first.
MOST_COST, LEAST_SPEED = 1.5, 0.9
# The memory of a volume that is full again, in that of one that is full for the first time: what a
# large cut leaves is given back as its numbers come into use.
MOST_AGAIN = 1.05
FEW = 1_000
# The MiB that two volumes of a tebibyte may take that nobody uses, of which 130 are marks; how long
# lanes may fetch before they rest, and what part of a processor they take then.
MOST_AT_REST, REST_SECONDS, MOST_BUSY = 256, 20, 0.1

# How large: names in one directory, the rounds by which a call's cost is found, the calls of each,
# bytes of a volume that is filled by one file, how many servers do that, since the speeds of one
# differ by a tenth from run to run, and whether speeds are judged and not only told.
Scale = namedtuple("Scale", "names rounds calls bytes fills judged")
LARGE = Scale(1_000_000, 9, 100_000, 4 << 30, 5, True)
SMALL = Scale(50_000, 1, 20_000, 256 << 20, 1, False)


class Peer:
    """A connection on which several calls wait for their replies."""

    def __init__(self, address):
        self.socket, self.input = connect(address), bytearray()

    def send(self, records):
        self.socket.sendall(records)

    def collect(self, count):
        """The bytes of this many replies, after which there are no more."""
        at = 0
        for _ in range(count):
            end = at + 4
            while len(self.input) < end or len(self.input) < (end := whole(self.input, at)):
                part = self.socket.recv(1 << 20)
                hold(part, "a connection ends early")
                self.input += part
            at = end
        data, self.input = bytes(self.input), bytearray()
        hold(len(data) == at, "more replies than calls")
        return data


def whole(data, at):
    """Where a record ends, whose mark is at a place."""
    return at + 4 + int.from_bytes(data[at : at + 4], "big") - (1 << 31)


def records(first, calls):
    """The records of calls, under xids from a first one on."""
    return b"".join(wire.record(first + k, NFS, *asked) for k, asked in enumerate(calls))


def replies_in(data, first, count):
    """The xids and results of the replies to this many calls, in the order in which they came."""
    at, seen = 0, set()
    while at < len(data):
        end = whole(data, at)
        record, at = data[at + 4 : end], end
        number = int.from_bytes(record[:4], "big")
        hold(
            number not in seen and first <= number < first + count and record[4:HEAD] == ANSWERED,
            f"a reply that answers nothing: {record[:60].hex()}",
        )
        seen.add(number)
        yield number, record[HEAD:]


class Client:
    """A server of one large volume, and connections to it."""

    def __init__(self, filer, *options):
        self.server = Server(filer, None, 2, "export", (*options, *OPEN))
        self.files = Files(self.server.service.verifier)
        self.peers = [Peer(self.server.address) for _ in range(PEERS)]

    def __enter__(self):
        return self

    def __exit__(self, *failure):
        for peer in self.peers:
            peer.socket.close()
        there = self.server.process.poll() is None
        self.server.__exit__()
        hold(failure[0] or there, "the server ended")

    def ask(self, calls, look):
        """Makes calls, some at a time on each connection, and lets each result be looked at with
        the call's place among them. Answers how many there were."""
        calls, place = iter(calls), 0
        while True:
            turns = []
            for peer in self.peers:
                if batch := list(itertools.islice(calls, DEPTH)):
                    peer.send(records(place, batch))
                    turns.append((peer, place, len(batch)))
                    place += len(batch)
            if not turns:
                return place
            for peer, first, count in turns:
                for number, results in replies_in(peer.collect(count), first, count):
                    look(number, results)

    def cost(self, calls, look):
        """The microseconds of the server's processor for a call. Each connection gets some calls
        when those before are answered. All are written before and looked at after, so that the
        server is never without work."""
        calls = list(calls)
        batches = [calls[place : place + DEPTH] for place in range(0, len(calls), DEPTH)]
        turns = list(zip(itertools.cycle(self.peers), itertools.count(0, DEPTH), batches))
        written, got = [records(first, batch) for _, first, batch in turns], []
        begun = self.processor()
        for (peer, _, _), data in zip(turns[:PEERS], written):
            peer.send(data)
        for (peer, _, batch), data in itertools.zip_longest(turns, written[PEERS:]):
            got.append(peer.collect(len(batch)))
            if data:
                peer.send(data)
        took = self.processor() - begun
        for (_, first, batch), data in zip(turns, got):
            for number, results in replies_in(data, first, len(batch)):
                look(number, results)
        return 1e6 * took / len(calls)

    def one(self, procedure, arguments):
        """The results of a call, its status first."""
        got = []
        self.ask([(procedure, arguments)], lambda _, results: got.append(results))
        return Reader(got[0])

    def succeed(self, procedure, arguments):
        """The results of a call behind its status, which is OK."""
        reader = self.one(procedure, arguments)
        status = reader.word()
        hold(status == OK, f"procedure {procedure} is refused with {status}")
        return reader

    def made(self, procedure, directory, name):
        """Makes a file or a directory: its fileid."""
        mode = words(0) if procedure == CREATE else b""
        entry = self.files.entry(directory, name)
        reader = self.succeed(procedure, entry + mode + wire.UNSET)
        hold(reader.word() == 1, f"no handle of {name}")
        return self.files.fileid(reader)

    def size_and_used(self, file):
        told = self.succeed(GETATTR, self.files.handle(file)).attributes()
        return told["size"], told["used"]

    def set_size(self, file, size):
        """SETATTR of a file's size: its status."""
        arguments = self.files.handle(file) + words(0, 0, 0, 1) + hyper(size) + words(0, 0, 0)
        return self.one(SETATTR, arguments).word()

    def space(self):
        """The volume's bytes, and those that are free, and its inodes so."""
        reader = self.succeed(FSSTAT, self.files.handle(ROOT))
        reader.maybe(reader.attributes)
        total, free, _, inodes, free_inodes, _ = (reader.hyper() for _ in range(6))
        return (total, free), (inodes, free_inodes)

    def told(self, file, word):
        """A line of what Linux tells of the server's process."""
        with open(f"/proc/{self.server.process.pid}/{file}") as lines:
            return next(line for line in lines if word in line)

    def memory(self):
        """Its memory in bytes."""
        return 1024 * int(self.told("status", "VmRSS").split()[1])

    def processor(self):
        """The seconds of a processor that its threads took, all of which are still there."""
        threads = Path(f"/proc/{self.server.process.pid}/task").glob("*/schedstat")
        return sum(int(told.read_text().split()[0]) for told in threads) / 1e9


def status_is(wanted, what):
    """Looks at the status of results."""

    def look(number, results):
        status = int.from_bytes(results[:4], "big")
        hold(status == wanted, f"{what} {number} has the status {status}")

    return look


# ---- many names in one directory


def name_of(number):
    """A name of 32 bytes."""
    return b"%032d" % number


def called(name):
    """A name as an argument, behind its directory's handle."""
    return words(32) + name


class Names:
    """A directory with this many empty files, whose names are numbers."""

    def __init__(self, client, name, count):
        self.client, self.count = client, count
        self.directory = client.made(MKDIR, ROOT, name)
        self.handle = client.files.handle(self.directory)
        self.fileids = [0] * count
        client.ask(self.creations(range(count)), self.note)
        hold(len(set(self.fileids)) == count, "two files have one fileid")

    def creations(self, numbers):
        behind = words(0) + wire.UNSET
        return ((CREATE, self.handle + called(name_of(k)) + behind) for k in numbers)

    def removals(self, numbers):
        return ((REMOVE, self.handle + called(name_of(k))) for k in numbers)

    def note(self, number, results):
        """Keeps a new file's fileid."""
        hold(results[:8] == words(OK, 1), f"CREATE {number}: {results[:4].hex()}")
        self.fileids[number] = int.from_bytes(results[16:24], "big")

    def lookups(self, numbers):
        return ((LOOKUP, self.handle + called(name_of(k))) for k in numbers)

    def changes(self, count):
        """Makes and removes files more, some at a time."""
        for first in range(self.count, self.count + count // 2, PEERS * DEPTH):
            numbers = range(first, first + PEERS * DEPTH)
            yield from self.creations(numbers)
            yield from self.removals(numbers)

    def listed(self):
        """The names and fileids that READDIR lists, page by page."""
        cookie, verifier, is_end = 0, bytes(8), False
        while not is_end:
            arguments = self.handle + hyper(cookie) + verifier + words(PIECE)
            reader = self.client.succeed(READDIR, arguments)
            reader.maybe(lambda: reader.bytes(ATTRIBUTES))
            verifier = reader.bytes(8)
            entries, cookie, is_end = entries_of(reader.rest(), cookie)
            yield from entries

    def costs(self, calls):
        """The microseconds of a processor for a LOOKUP, which finds the file that was made, and
        for a CREATE or REMOVE."""
        rng = random.Random(SEED)
        numbers = [rng.randrange(self.count) for _ in range(calls)]

        def look(place, results):
            fileid = int.from_bytes(results[12:20], "big")
            hold(
                results[:4] == words(OK) and fileid == self.fileids[numbers[place]],
                f"LOOKUP of {numbers[place]}: {results[:20].hex()}",
            )

        done = status_is(OK, "CREATE or REMOVE")
        client = self.client
        return [client.cost(self.lookups(numbers), look), client.cost(self.changes(calls), done)]


def entries_of(data, cookie):
    """The entries of a page of READDIR, as names and fileids, the last cookie, and whether the
    directory ends there."""
    entries, at = [], 0
    while data[at : at + 4] == words(1):
        fileid = int.from_bytes(data[at + 4 : at + 12], "big")
        size = int.from_bytes(data[at + 12 : at + 16], "big")
        entries.append((data[at + 16 : at + 16 + size], fileid))
        at += 16 + (size + 3) // 4 * 4
        cookie, at = int.from_bytes(data[at : at + 8], "big"), at + 8
    hold(len(data) == at + 8, "a page of READDIR ends badly")
    return entries, cookie, data[at + 4 :] == words(1)


def many_names(filer, scale, tell):
    """A directory of many files: each is found, listed once and removed; what a file takes, and
    what calls cost among many names and among few."""
    inodes = max(2 * scale.names, 65_536)
    with Client(filer, "--size", "64M", "--inodes", str(inodes)) as client:
        few = Names(client, "few", FEW)
        before, begun = client.memory(), time.monotonic()
        many = Names(client, "many", scale.names)
        took, for_each = time.monotonic() - begun, (client.memory() - before) / scale.names
        tell(f"{scale.names} files made in {took:.1f} s, {for_each:.0f} bytes each")
        hold(for_each <= MOST_FOR_A_FILE, f"an empty file takes {for_each:.0f} bytes")
        rounds = [(few.costs(scale.calls), many.costs(scale.calls)) for _ in range(scale.rounds)]
        for place, what in enumerate(("LOOKUP", "CREATE or REMOVE")):
            one, other = (median(costs[place] for costs in by) for by in zip(*rounds))
            tell(f"{what}: {one:.2f} us among {FEW} names, {other:.2f} among {scale.names}")
            hold(
                not scale.judged or other <= MOST_COST * one,
                f"{what} costs {other:.2f} us among many names, {one:.2f} among few",
            )
        listed = list(many.listed())
        wanted = {name_of(k): fileid for k, fileid in enumerate(many.fileids)}
        wanted |= {b".": many.directory, b"..": ROOT}
        hold(
            len(listed) == len(wanted) and dict(listed) == wanted,
            f"{len(listed)} names are listed, or others",
        )
        used = FEW + scale.names + 3
        hold(client.space()[1] == (inodes, inodes - used), f"FSSTAT: {client.space()[1]}")
        client.ask(many.removals(range(scale.names)), status_is(OK, "REMOVE"))
        hold({name for name, _ in many.listed()} == {b".", b".."}, "names are left")
        hold(client.space()[1] == (inodes, inodes - FEW - 3), f"FSSTAT: {client.space()[1]}")


def most_inodes(filer, scale, tell):
    """A volume has as many inodes as it was asked for, and no more."""
    most = 65_536 + 1
    with Client(filer, "--size", "64M", "--inodes", str(most)) as client:
        Names(client, "all", most - 2)
        entry = client.files.entry(ROOT, "one-more")
        status = client.one(CREATE, entry + words(0) + wire.UNSET).word()
        hold(status == NOSPC, f"an inode too many is made, with the status {status}")
        tell(f"{most} inodes and no more")


# ---- many bytes in one file


def piece(number):
    """The bytes of a WRITE."""
    return words(number * 2_654_435_761 % (1 << 32)) * (PIECE // 4)


class Lent:
    """Memory that is touched, and given back in tenths as the server takes as much. A virtual
    machine may have its memory of its host only when it is first touched, at a third of the speed
    (docs/PERFORMANCE.md), and how much of it has been touched before depends on what ran before."""

    PAGE = 4096

    def __init__(self, size):
        pages = size // self.PAGE + 10
        self.tenth = pages // 10 * self.PAGE
        self.memory = mmap.mmap(-1, 10 * self.tenth, mmap.MAP_PRIVATE | mmap.MAP_ANONYMOUS)
        self.memory[:: self.PAGE] = bytes(10 * self.tenth // self.PAGE)

    def give(self, k):
        self.memory.madvise(mmap.MADV_DONTNEED, self.tenth * k, self.tenth)


def write_all(client, file, count, lent=None):
    """Writes this many pieces: the mebibytes a second of each tenth."""
    speeds, handle = [], client.files.handle(file)
    for k in range(10):
        numbers = range(count * k // 10, count * (k + 1) // 10)
        calls = ((WRITE, write_arguments(handle, PIECE * n, piece(n))) for n in numbers)
        if lent:
            lent.give(k)
        begun = time.monotonic()
        client.ask(calls, status_is(OK, "WRITE"))
        speeds.append(len(numbers) * PIECE / (1 << 20) / (time.monotonic() - begun))
    return speeds


def fill(client, scale, tell):
    """A new file that fills the volume, and the speed of the last tenth in that of the first."""
    file = client.made(CREATE, ROOT, "large")
    speeds = write_all(client, file, scale.bytes // PIECE, Lent(scale.bytes // 8 * 9))
    tell("MiB/s of each tenth: " + " ".join(f"{speed:.0f}" for speed in speeds))
    return file, speeds[-1] / speeds[0]


def read_all(client, file, count):
    """Reads this many pieces, and compares them."""
    handle = client.files.handle(file)
    calls = ((READ, handle + hyper(PIECE * n) + words(PIECE)) for n in range(count))

    def look(number, results):
        hold(results[:4] == words(OK), f"READ {number}: {results[:4].hex()}")
        hold(results[-PIECE:] == piece(number), f"piece {number} isn't what was written")

    client.ask(calls, look)


def many_bytes(filer, scale, tell):
    """A file that fills its volume: written at one speed, read and compared; then there is no
    space, and once it is cut there is again, for which no more memory is taken."""
    ratios = []
    for _ in range(scale.fills - 1):
        with Client(filer, "--size", str(scale.bytes)) as client:
            ratios.append(fill(client, scale, tell)[1])
    with Client(filer, "--size", str(scale.bytes)) as client:
        hold(client.space()[0] == (scale.bytes, scale.bytes), f"FSSTAT: {client.space()[0]}")
        file, ratio = fill(client, scale, tell)
        ratios.append(ratio)
        hold(
            not scale.judged or median(ratios) >= LEAST_SPEED,
            f"the last tenth is written at {median(ratios):.2f} of the speed of the first",
        )
        count, handle = scale.bytes // PIECE, client.files.handle(file)
        full = client.memory()
        hold(client.size_and_used(file) == (scale.bytes,) * 2, "the file's size")
        hold(client.space()[0] == (scale.bytes, 0), f"FSSTAT: {client.space()[0]}")
        other = client.files.handle(client.made(CREATE, ROOT, "other"))
        status = client.one(WRITE, write_arguments(other, 0, b"one more")).word()
        hold(status == NOSPC, f"a block too many is written, with the status {status}")
        client.succeed(WRITE, write_arguments(handle, PIECE, piece(1)))
        begun = time.monotonic()
        read_all(client, file, count)
        tell(f"read at {scale.bytes / (1 << 20) / (time.monotonic() - begun):.0f} MiB/s")
        begun = time.monotonic()
        hold(client.set_size(file, 0) == OK, "the file can't be cut")
        took = 1e3 * (time.monotonic() - begun)
        blocks = scale.bytes // BLOCK
        tell(f"{blocks} blocks cut in {took:.0f} ms: {took * 100_000 / blocks:.1f} for 100000")
        hold(client.size_and_used(file) == (0, 0), "the file's size once it is cut")
        hold(client.space()[0] == (scale.bytes, scale.bytes), f"FSSTAT: {client.space()[0]}")
        again = write_all(client, file, count)
        tell("again, MiB/s of each tenth: " + " ".join(f"{speed:.0f}" for speed in again))
        now = client.memory()
        tell(f"memory of the full volume: {full >> 20} MiB, again {now >> 20} MiB")
        hold(now <= MOST_AGAIN * full, "the volume takes more memory once it is full again")
        read_all(client, file, count // 4)


def large_holes(filer, _scale, tell):
    """The last block of a file of a tebibyte takes one block, and a byte more isn't had."""
    with Client(filer, "--size", "64M", "--file-size", "1T") as client:
        file = client.made(CREATE, ROOT, "sparse")
        handle = client.files.handle(file)
        last = b"\xa5" * BLOCK
        begun = time.monotonic()
        client.succeed(WRITE, write_arguments(handle, TEBIBYTE - BLOCK, last))
        hold(client.size_and_used(file) == (TEBIBYTE, BLOCK), f"{client.size_and_used(file)}")
        refused = [
            client.one(WRITE, write_arguments(handle, TEBIBYTE, b"x")).word(),
            client.one(WRITE, write_arguments(handle, TEBIBYTE - 1, b"xx")).word(),
            client.set_size(file, TEBIBYTE + 1),
        ]
        hold(refused == [FBIG] * 3, f"above the largest size: {refused}")
        for offset in (0, PIECE, TEBIBYTE // 2, TEBIBYTE - BLOCK - PIECE):
            found = client.succeed(READ, handle + hyper(offset) + words(PIECE))
            hold(found.data[-PIECE:] == bytes(PIECE), f"the hole at {offset} has bytes")
        found = client.succeed(READ, handle + hyper(TEBIBYTE - BLOCK) + words(PIECE))
        hold(found.data[-BLOCK:] == last, "the last block isn't what was written")
        hold(client.set_size(file, TEBIBYTE - BLOCK) == OK, "the file can't be cut")
        hold(client.size_and_used(file) == (TEBIBYTE - BLOCK, 0), "the file's size once it is cut")
        tell(f"a hole of a tebibyte in {1e3 * (time.monotonic() - begun):.0f} ms")


def few_lists_at_rest(filer, _scale, tell):
    """Volumes of a tebibyte that nobody uses take their marks and few numbers of blocks, and lanes
    come to rest."""
    with Client(filer, "--size", "1T", "--inodes", "65536") as client:
        begun, busy = time.monotonic(), 1
        while busy >= MOST_BUSY and time.monotonic() < begun + REST_SECONDS:
            before = client.processor()
            time.sleep(1)
            busy = client.processor() - before
        took, size = time.monotonic() - begun, client.memory() / (1 << 20)
        tell(f"2 TiB after {took:.0f} s: {size:.0f} MiB, busy for {busy:.2f} s of a second")
        hold(busy < MOST_BUSY, f"lanes are busy for {busy:.2f} s of a second")
        hold(size < MOST_AT_REST, f"volumes of a tebibyte take {size:.0f} MiB at the start")


CHECKS = (many_names, most_inodes, many_bytes, large_holes, few_lists_at_rest)


def try_server(filer, scale):
    """Makes all checks: how many passed, and what failed."""
    passed, failures = 0, []
    for check in CHECKS:
        try:
            check(filer, scale, lambda line: print(f"{check.__name__}: {line}", flush=True))
            passed += 1
        except (Differs, OSError, ValueError) as difference:
            failures.append(f"{check.__name__}: {type(difference).__name__}: {difference}")
    return passed, failures
