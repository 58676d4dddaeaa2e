"""Streams over TCP for `export` whose calls come again from the same port, on connections that are cut: each call is done once, and
all of its replies are one."""

import random
import socket

from peers import SMALL, Client, Differs, Server, compare, hold, read_all, records_of, reset
from plain import Call, Stream
from repeats import ANN, NAMES, OK, Caller, Place, entries_of, record, status_of, take, to_set
from results import CREATE, LINK, MKDIR, MKNOD, REMOVE, RENAME, RMDIR, SYMLINK
from xdr import DIRECTORY, FIFO, REGULAR, SYMBOLIC_LINK, opaque, words

# Of each process some places of a volume are its own, where replies are remembered: these for its calls, and as many more for those by
# which it makes what they need.
PLACES, OWN = 65_536, 2500
OPTIONS = (*SMALL, "--remember", str(PLACES))
# How many rounds of some calls a process makes on connections that are cut at random.
ROUNDS, MOST_AT_ONCE = 60, 8
# The most calls that a client makes itself for one stream.
MOST_OF_A_STREAM = 500


class Bench:
    """A client that looks, and xids whose places no other process uses."""

    def __init__(self, task):
        self.address, self.source, service, start = task
        self.client = Client(self.address, self.source, service)
        self.first, self.used = 2 * OWN * start, 0
        self.begin_xids()

    def begin_xids(self):
        """The client's own calls have the first of its places again; none of them is the same as one before."""
        self.client.xid = self.begun = self.first + OWN + PLACES - self.client.peer.getsockname()[1]

    def caller(self):
        return Caller(self.address, self.source, 0)

    def xid(self, caller):
        """One whose place is the next of this process's own."""
        self.used += 1
        return PLACES + self.first + self.used % OWN - caller.port

    def is_done_once(self, places, replies):
        for place, reply in zip(places, replies):
            place.is_done_once(reply, place.look())


def by_xid(replies):
    return {reply[4:8]: reply for reply in replies}


def send(caller, pieces, count):
    """The first so many replies to a stream in pieces, on a connection that is then reset."""
    peer = caller.connect()
    try:
        for piece in pieces:
            peer.sendall(piece)
        return by_xid(take(peer) for _ in range(count))
    finally:
        reset(peer)


# ---- streams that are cut at each byte


def cut_anywhere(bench, size):
    """A stream of all calls that are done once, of which so many bytes come; it comes again whole, and byte by byte."""
    places = [Place(bench.client, procedure) for procedure in NAMES]
    with bench.caller() as caller:
        asked = [record(bench.xid(caller), place.procedure, place.arguments()) for place in places]
        stream, ends = b"".join(asked), [len(b"".join(asked[: k + 1])) for k in range(len(asked))]
        whole = sum(end <= size for end in ends)
        # of half of them the replies are read
        first = send(caller, [stream[:size]], whole if size % 2 else 0)
        again = send(caller, [stream], len(asked))
        hold(first.items() <= again.items(), "another reply is told than before")
        third = send(caller, [stream[at : at + 1] for at in range(len(stream))], len(asked))
        hold(third == again, "another reply is told the third time")
    bench.is_done_once(places, [again[one[4:8]] for one in asked])


# ---- calls that come again with a byte changed


def said(call, arguments):
    """What says that two calls are one: who asks, and what."""
    return call.xid, call.user, call.program, call.procedure, arguments


def changed_anywhere(bench, procedure, at, byte):
    """A call that is done, and comes again with a byte changed: it is told exactly if it is the same call all the same."""
    place = Place(bench.client, procedure)
    arguments = place.arguments()
    with bench.caller() as caller:
        asked = record(bench.xid(caller), procedure, arguments)
        reply = caller.ask(asked)
        place.is_done_once(reply, place.look())
        stream = asked[:at] + bytes([byte(asked[at])]) + asked[at + 1 :]
        service = bench.client.service
        [same] = Stream(service).feed(asked)[2]

        def known(found):
            is_call = isinstance(found, Call)
            is_told = is_call and said(found, stream[-len(arguments) :]) == said(same, arguments)
            return reply if is_told else found

        peer = caller.connect()
        peer.sendall(stream)
        peer.shutdown(socket.SHUT_WR)
        data, was_reset = read_all(peer)
        peer.close()
        compare(stream, data, was_reset, service, known)
        heard = [known(found) for found in Stream(service).feed(stream)[2]]
        hold((reply in heard) == (data == reply), "it is told, or not, as another call")


CHANGES = {"00": lambda _: 0, "ff": lambda _: 255, "its top bit turned": lambda byte: byte ^ 128}


# ---- a client that makes calls until they are answered


# What makes a node: what stands before the attributes to be set, its kind, and what stands behind them.
MADE = {
    CREATE: (words(1), REGULAR, b""), MKDIR: (b"", DIRECTORY, b""), SYMLINK: (b"", SYMBOLIC_LINK, opaque(b"text")),
    MKNOD: (words(FIFO), FIFO, b""),
}  # fmt: skip


class Shadow:
    """A directory that one client alone changes, and the names that it has to have."""

    def __init__(self, bench, rng):
        self.place, self.rng, self.number = Place(bench.client, CREATE), rng, 0
        # the kinds of all by name, and those names that are of a file which has its first one elsewhere
        self.kinds, self.linked = {}, set()
        self.file = self.place.make(CREATE, self.place.other, b"file")[0]

    def calls(self, count):
        """So many calls, none of which depends on another, each with what it asks."""
        home, taken = self.place.home, set()
        for _ in range(count):
            choices = [*MADE, LINK]
            there = self.kinds.keys() - taken
            directories = {it for it in there if self.kinds[it] == DIRECTORY}
            choices += [REMOVE, REMOVE, RENAME] if there - directories else []
            choices += [RMDIR, RENAME] if directories else []
            procedure = self.rng.choice(choices)
            name, new = None, None
            if procedure in (*MADE, LINK, RENAME):
                self.number += 1
                new = b"%d" % self.number
            if procedure in (REMOVE, RMDIR, RENAME):
                those = {REMOVE: there - directories, RMDIR: directories, RENAME: there}[procedure]
                name = self.rng.choice(sorted(those))
            taken |= {name, new}
            arguments = home + opaque(name or new)
            if procedure == RENAME:
                arguments += home + opaque(new)
            elif procedure == LINK:
                arguments = self.file + arguments
            elif procedure in MADE:
                before, _, behind = MADE[procedure]
                arguments += before + to_set(0o700) + behind
            yield procedure, arguments
            kind = self.kinds.pop(name) if name else REGULAR if procedure == LINK else MADE[procedure][1]
            is_linked = procedure == LINK or name in self.linked
            self.linked.discard(name)
            if new:
                self.kinds[new] = kind
                self.linked |= {new} if is_linked else set()

    def is_there(self):
        entries, _ = entries_of(self.place.look())
        kinds = {name: int.from_bytes(attributes[:4], "big") for name, attributes in entries.items()}
        hold(kinds == self.kinds, f"the names are {kinds}, not {self.kinds}")
        links = {int.from_bytes(entries[name][8:12], "big") for name in self.linked}
        hold(links <= {1 + len(self.linked)}, f"of {len(self.linked)} names of a file and another the links are {links}")


def until_answered(bench, caller, rng, calls):
    """Sends calls on one connection after the other, each cut anywhere, until all are answered; of those that are, some come again."""
    asked = [record(bench.xid(caller), procedure, arguments, ANN) for procedure, arguments in calls]
    told = {}
    for turn in range(50):
        some = [one for one in asked if one[4:8] not in told or rng.random() < 0.3]
        rng.shuffle(some)
        stream = b"".join(some)
        peer = caller.connect()
        try:
            if turn < 4 and rng.random() < 0.4:
                peer.sendall(stream[: rng.randrange(len(stream))])
                continue
            peer.sendall(stream)
            # up to any byte of the replies, or all of them
            left = rng.randrange(1, 250 * len(some)) if turn < 4 else 1 << 30
            data = b""
            while left and len(records_of(data)[0]) < len(some):
                part = peer.recv(min(left, 1 << 16))
                hold(part, "the connection ends")
                data, left = data + part, left - len(part)
        finally:
            reset(peer)
        for reply in records_of(data)[0]:
            hold(status_of(reply) == OK, f"a call is answered {status_of(reply)}")
            hold(told.setdefault(reply[4:8], reply) == reply, "another reply is told than before")
        if len(told) == len(asked):
            return
    raise Differs("calls aren't answered")


def goes_on_until_answered(bench, seed):
    rng = random.Random(seed)
    shadow = Shadow(bench, rng)
    with bench.caller() as caller:
        for _ in range(ROUNDS):
            until_answered(bench, caller, rng, list(shadow.calls(rng.randrange(1, MOST_AT_ONCE))))
            shadow.is_there()


# ---- all of it


def lengths_of(bench):
    return {p: len(record(0, p, Place(bench.client, p).arguments())) for p in NAMES}


def cut_streams(bench):
    """All streams that are cut, with their names."""
    for size in range(sum(lengths_of(bench).values())):
        yield f"the first {size} bytes", lambda s=size: cut_anywhere(bench, s)


def changed_streams(bench):
    """All calls with a byte changed, with their names."""
    for procedure, length in lengths_of(bench).items():
        for at in range(length):
            for name, byte in CHANGES.items():
                way = lambda p=procedure, a=at, b=byte: changed_anywhere(bench, p, a, b)
                yield f"{NAMES[procedure]} again, byte {at} changed, {name}", way


def job(task):
    """Every so manieth of the streams that are cut, and a client that goes on."""
    *own, seed, step = task
    bench, start = Bench(own), own[-1]
    goes_on = ("calls until they are answered", lambda: goes_on_until_answered(bench, seed + start))
    return tried(bench, [*list(cut_streams(bench))[start::step], goes_on])


def tried(bench, streams):
    passed, failures = 0, []
    for name, way in streams:
        if bench.client.xid > bench.begun + OWN - MOST_OF_A_STREAM:
            bench.begin_xids()
        try:
            way()
            passed += 1
        except (Differs, OSError) as difference:
            failures.append(f"{name}, of calls that come again: {type(difference).__name__}: {difference}")
            if len(failures) > 20:
                break
    bench.client.peer.close()
    return passed, failures


def run(filer, pool, jobs, seed):
    """All of it, in one run of a server."""
    passed, failures = 0, []
    try:
        with Server(filer, None, workers=4, command="export", options=OPTIONS) as server:
            at = lambda k: (server.address, f"127.0.2.{k + 1}", server.service, k, seed, jobs)
            for good, bad in pool.imap_unordered(job, [at(k) for k in range(jobs)]):
                passed += good
                failures += bad
            # by one process alone: a handle with a byte changed may name a directory of another's
            bench = Bench((server.address, f"127.0.2.{jobs + 1}", server.service, jobs))
            good, bad = tried(bench, changed_streams(bench))
            passed, failures = passed + good, failures + bad
            hold(server.process.poll() is None, "the server ended")
            passed += 1
    except (Differs, OSError) as difference:
        failures.append(f"the server of calls that come again: {difference}")
    return passed, failures
