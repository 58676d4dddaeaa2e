"""`filer serve` or `filer export` with one allocation refused, from the first connection on. The
server is known by its address, its output and its exit status alone."""

import os
import re
import signal
import socket
import subprocess
from collections import namedtuple

import wire
from memory import WORDS, Page, environment
from mounted import MountedOwner, mount_root
from owners import (
    BLOCK,
    ROOT,
    Call,
    Owner,
    Wrong,
    entries,
    expect,
    list_directory,
    look_at_root,
    null,
)
from repeats import NAMES
from wire import ADMIN, Files

# How long an answer, or the server's end, may take, in seconds.
PATIENCE = 30

# How many connections make calls; one more looks at what they left.
CLIENTS = 3

# How the server ends where it has no memory for a connection, or for a thread.
LACKING = (("refused 90\n", 1), ("fault 66\n", 1))

MOST_INODES = 65536

# What `export` tells people as it starts, and then of connections and calls.
TOLD = re.compile(
    rb"(exported: [^\n]+\n)*(may connect: [^\n]+\n)?(callers: [^\n]+\n)?(roots: [^\n]+\n)?(mount [^\n]+\n)*"
    rb"((connection \d+ (opened|closed)|can't be served|can't be accepted|refused): [^\n]+\n"
    rb"|(out of memory for calls|lines that were left out): \d+\n|calls \d+[:;] [^\n]+\n)*"
)


class Way(namedtuple("Way", "command options blocks owner")):
    """A way to serve: the command with what it is to tell, how many blocks its volume has, and
    what a client makes on it."""


SERVE = Way("serve", [], 4096, Owner)
# callers are checked, so that refusals are met there too
EXPORT = Way("export", ["--log", "--stats", "1", "--ranges", "16", "--root-mode", "1777"], 16384, MountedOwner)


class Server:
    """A server with the library that refuses."""

    def __init__(self, filer, way, environment, connections):
        words = [filer, way.command, "--listen", "127.0.0.1:0", "--volumes", "1", "--workers", "2"]
        words += ["--connections", str(connections), *way.options]
        self.process = subprocess.Popen(
            words,
            env=environment,
            stdin=subprocess.DEVNULL,
            stdout=subprocess.PIPE,
            stderr=subprocess.PIPE,
        )
        self.printed = None
        # the first line: where it listens, or why it doesn't
        self.first = self.process.stdout.readline().decode()
        self.port = (
            int(self.first.rsplit(":", 1)[1])
            if self.first.startswith("listening 127.0.0.1:")
            else None
        )

    def wait(self, seconds):
        """What it printed since it listens and its status, once it has ended within this many
        seconds."""
        try:
            self.process.wait(seconds)
        except subprocess.TimeoutExpired:
            return None
        status = self.process.returncode
        if status < 0:
            raise Wrong(f"the server is killed by {signal.Signals(-status).name}")
        if self.printed is None:
            self.printed = self.process.stdout.read().decode()
            told = self.process.stderr.read()
            told = told[TOLD.match(told).end() :]
            if told and (status == 0 or not WORDS.fullmatch(told)):
                raise Wrong(f"the server writes to its error output: {told[:200]!r}")
        return self.printed, status

    def kill(self):
        if self.process.poll() is None:
            self.process.kill()
            self.process.wait()
        self.process.stdout.close()
        self.process.stderr.close()


class Link:
    """A connection to the server."""

    def __init__(self, port):
        self.socket = socket.create_connection(("127.0.0.1", port), PATIENCE)
        self.socket.setsockopt(socket.IPPROTO_TCP, socket.TCP_NODELAY, 1)
        self.input = b""
        self.is_open = True

    def send(self, data):
        try:
            self.socket.sendall(data)
        except (BrokenPipeError, ConnectionResetError):
            # what was answered before is still read
            pass
        except socket.timeout:
            raise Wrong(f"no bytes are taken within {PATIENCE} seconds")

    def receive(self):
        """The next reply record; None where the connection has ended."""
        while True:
            if len(self.input) >= 4:
                size = int.from_bytes(self.input[:4], "big")
                if not size & 0x80000000:
                    raise Wrong("a reply of more than one fragment")
                end = 4 + (size & 0x7FFFFFFF)
                if len(self.input) >= end:
                    record, self.input = self.input[4:end], self.input[end:]
                    return record
            try:
                got = self.socket.recv(1 << 16)
            except ConnectionResetError:
                got = b""
            except socket.timeout:
                raise Wrong(f"no reply within {PATIENCE} seconds")
            if not got:
                self.is_open = False
                if self.input:
                    raise Wrong("a connection ends within a reply")
                return None
            self.input += got

    def close(self):
        self.is_open = False
        self.socket.close()


class Trial:
    """A server one of whose allocations is refused; its clients wait for each reply, or send
    batches, in this many rounds."""

    def __init__(self, way, filer, library, folder, refused, in_batches, rounds):
        self.way, self.rounds, self.files = way, rounds, Files()
        self.page = Page(folder, f"page-{os.getpid()}")
        self.page.set(from_accept=1, refused=refused)
        self.in_batches = in_batches
        self.xid = 0
        self.strange = 0
        self.owners = [way.owner(number, self.files) for number in range(CLIENTS)]
        self.server = Server(filer, way, environment(library, self.page), CLIENTS + 1)
        self.links = []

    def check(self):
        """Tries it; answers how many calls of the allocator there were, and whether one was
        refused."""
        try:
            self.serve()
        finally:
            for link in self.links:
                link.close()
            self.server.kill()
        return self.page.calls, self.page.refusals

    def serve(self):
        if self.server.port is None:
            raise Wrong(f"it prints {self.server.first!r} as it starts")
        for _ in range(CLIENTS):
            self.open()
        if self.way is EXPORT:
            self.run(0, lambda: mount_root(self.files))
        self.prepare()
        for number in range(self.rounds):
            self.play_round(number)
        self.open()
        self.look()
        self.finish()

    def finish(self):
        """All connections end, and then the server."""
        for link in self.links:
            link.close()
        ended = self.server.wait(PATIENCE)
        if ended is None:
            raise Wrong(f"the server doesn't end within {PATIENCE} seconds")
        expect("the server's end", ended, ("left 0\n", 0))

    def open(self):
        """Opens a connection, and makes a call. Where memory runs out at this, the connection
        ends and the others go on."""
        self.xid += 1
        got = None
        try:
            link = Link(self.server.port)
            self.links.append(link)
            link.send(null().record(self.xid))
            got = link.receive()
        except (ConnectionRefusedError, ConnectionResetError):
            pass
        if got is None:
            self.is_unanswered("NULL on a new connection")
            return
        expect("NULL", wire.reply(got)[:2], (self.xid, wire.SUCCESS))

    def is_unanswered(self, what):
        """A connection has ended without an answer."""
        self.strange += 1
        if self.strange > self.page.refusals:
            raise Wrong(f"{what} isn't answered")

    def link(self, preferred):
        """A connection that is open, the preferred one if it is."""
        open_links = [link for link in self.links if link.is_open]
        if not open_links:
            raise Wrong("no connection is left")
        chosen = self.links[preferred]
        return chosen if chosen.is_open else open_links[0]

    def take(self, call, record, xid):
        """Takes the reply to a call; answers whether it was starved."""
        got, status, reader = wire.reply(record)
        expect("the xid", got, xid)
        if status == wire.SYSTEM_ERR:
            self.strange += 1
            if not call.may_starve or self.strange > self.page.refusals:
                raise Wrong(f"{call.name} is starved")
            reader.end()
            return True
        expect(f"what becomes of {call.name}", status, call.accepted)
        call.take(reader)
        return False

    def is_remembered(self, call):
        """Whether the reply to a call that was answered is told once more where it comes again."""
        is_change = call.program == wire.NFS and call.procedure in NAMES
        return self.way is EXPORT and is_change and call.status == wire.OK

    def ask_again(self, answered):
        """Sends calls again whose replies are remembered: on each connection that is open some
        records, each with its reply. They are told these, whatever memory there is, unless the
        connection ends for want of it; and nothing changes."""
        answered = [(link, calls) for link, calls in answered if calls and link.is_open]
        for link, calls in answered:
            link.send(b"".join(calls))
        ended = False
        for link, calls in answered:
            wanted = {reply[:4]: reply for reply in calls.values()}
            while wanted and (record := link.receive()) is not None:
                if wanted.pop(record[:4], None) != record:
                    raise Wrong(f"a call that comes again is told {record.hex():.200}")
            if wanted:
                self.is_unanswered("a call that comes again")
                ended = True
        if ended:
            self.look()

    def run(self, preferred, make_call):
        """Makes a call, and waits for its reply. Where it isn't answered, or not for want of
        memory, nothing has changed, and the same call again, under its xid, succeeds. Once it is
        answered it comes again."""
        self.xid += 1
        xid = self.xid
        while True:
            call = make_call()
            link = self.link(preferred)
            link.send(call.record(xid))
            record = link.receive()
            if record is None:
                self.is_unanswered(call.name)
            elif not self.take(call, record, xid):
                if self.is_remembered(call):
                    self.ask_again([(link, {call.record(xid): record})])
                return
            self.look()

    def run_batch(self, batches):
        """Sends batches of calls, each on its connection, and waits for all replies. A
        connection that ends has answered all calls before one, and none from it on. Those that
        were answered come again."""
        sent, again = [], []
        for link, calls in batches:
            numbered = {}
            for call in calls:
                self.xid += 1
                numbered[self.xid] = call
            sent.append((link, numbered))
        for link, numbered in sent:
            link.send(b"".join(call.record(xid) for xid, call in numbered.items()))
        is_strange = False
        for link, numbered in sent:
            order, answered = list(numbered), {}
            again.append((link, answered))
            while numbered:
                record = link.receive()
                if record is None:
                    self.is_unanswered("a batch")
                    is_strange = True
                    if list(numbered) != order[len(order) - len(numbered) :]:
                        raise Wrong(
                            "a connection ends, and has answered a call after one that it hasn't"
                        )
                    break
                xid = wire.reply(record)[0]
                if xid not in numbered:
                    raise Wrong("a reply to no call, or a second one")
                call = numbered.pop(xid)
                is_starved = self.take(call, record, xid)
                is_strange |= is_starved
                if not is_starved and self.is_remembered(call):
                    answered[call.record(xid)] = record
        self.ask_again(again)
        if is_strange:
            self.look()

    def is_mounted(self):
        """Whether handles are known; those of `serve` are from the start."""
        return self.way is SERVE or self.files.verifier

    def prepare(self):
        for number, owner in enumerate(self.owners):
            self.run(number, owner.make_home)
            self.run(number, owner.make_file)
            self.run(number, lambda: owner.write(0, owner.name.encode() * BLOCK))
            self.run(number, lambda: owner.write(BLOCK, b"-" * 64))

    def calls(self, owner, number):
        """The calls of a round, none of which depends on another."""
        fresh = (2 + number) * BLOCK
        return [
            lambda: look_at_root(self.files),
            lambda: owner.create(f"r{number}"),
            lambda: owner.write(fresh, f"{owner.name}{number}".encode() * 40),
            lambda: owner.write(BLOCK + 8 * number, f"over{number:04}".encode()),
            lambda: owner.remove(f"r{number - 1}"),
            owner.read_start if owner.size else lambda: look_at_root(self.files),
            owner.lookup,
            lambda: list_directory(self.files, ROOT, self.judge_root),
            null,
            lambda: owner.make_directory(f"m{number}"),
            lambda: owner.rename(f"m{number - 1}", f"n{number - 1}"),
            self.space,
            self.census,
            *owner.further_calls(number, self.directories),
        ]

    def play_round(self, number):
        if self.in_batches:
            open_links = [(at, link) for at, link in enumerate(self.links) if link.is_open]
            batches = []
            for at, link in open_links:
                batches.append(
                    (link, [make_call() for make_call in self.calls(self.owners[at], number)])
                )
            self.run_batch(batches)
            return
        turns = [self.calls(owner, number) for owner in self.owners]
        for together in zip(*turns):
            for at, make_call in enumerate(together):
                self.run(at, make_call)

    # What is there.

    def judge_root(self, reader):
        reader.maybe(reader.attributes)
        expect("READDIR of the root", entries(reader), {".": ROOT, "..": ROOT} | self.directories())

    def directories(self):
        """The directories that the clients made in the root."""
        return {owner.name: owner.directory for owner in self.owners if owner.directory is not None}

    def space(self):
        """FSSTAT, by which only its volume's size is known while others make calls."""

        def judge(reader):
            reader.maybe(reader.attributes)
            expect("FSSTAT's size", reader.hyper(), self.way.blocks * BLOCK)
            reader.bytes(16)
            expect("FSSTAT's inodes", reader.hyper(), MOST_INODES)
            reader.bytes(20)

        return Call("FSSTAT", 18, self.files.handle(ROOT), judge)

    def exact_space(self):
        """FSSTAT where no other call runs."""
        blocks = sum(len(owner.blocks) for owner in self.owners)
        # a node may have several names
        inodes = 1 + sum((owner.directory is not None) + len(set(owner.names.values())) for owner in self.owners)

        def judge(reader):
            reader.maybe(reader.attributes)
            total, free = self.way.blocks * BLOCK, (self.way.blocks - blocks) * BLOCK
            expect(
                "FSSTAT's bytes",
                (reader.hyper(), reader.hyper(), reader.hyper()),
                (total, free, free),
            )
            left = MOST_INODES - inodes
            expect(
                "FSSTAT's inodes",
                (reader.hyper(), reader.hyper(), reader.hyper()),
                (MOST_INODES, left, left),
            )
            expect("FSSTAT's stability", reader.word(), 0)

        return Call("FSSTAT", 18, self.files.handle(ROOT), judge)

    def census(self):
        def judge(reader):
            expect(
                "CENSUS", (reader.word(), reader.word(), reader.hyper()), (1, 0, self.way.blocks)
            )
            reader.hyper()

        return Call("CENSUS", 1, b"", judge, may_starve=True, program=ADMIN, status=None)

    def look(self):
        """Compares all that is there with what the answered calls made. No other call runs."""
        if not self.is_mounted():
            # nothing was made, and no handle is known
            return
        calls = [lambda: list_directory(self.files, ROOT, self.judge_root), self.exact_space]
        for owner in self.owners:
            calls += owner.looks()
            if owner.file is not None:
                calls += [
                    lambda owner=owner, block=block: owner.read(block)
                    for block in range(2 + self.rounds)
                ]
        for make_call in calls:
            for _ in range(2):
                call = make_call()
                # the connection opened last, if it is open
                link = self.link(-1)
                self.xid += 1
                link.send(call.record(self.xid))
                record = link.receive()
                if record is None:
                    self.is_unanswered(call.name)
                elif not self.take(call, record, self.xid):
                    break
            else:
                raise Wrong(f"{call.name} isn't answered twice")


class Exhausted(Trial):
    """A server without any memory from one allocation on, which has some again once its clients
    have made their calls."""

    def __init__(self, way, filer, library, folder, refused, rounds):
        super().__init__(way, filer, library, folder, 0, True, rounds)
        self.page.set(from_accept=1, refused=refused, all_after=1)

    def serve(self):
        for _ in range(CLIENTS):
            self.open()
        if self.way is EXPORT:
            self.try_once(0, lambda: mount_root(self.files))
        for at, owner in enumerate(self.owners):
            if self.is_mounted():
                self.try_once(at, owner.make_home)
            if owner.directory is not None:
                self.try_once(at, owner.make_file)
        for number in range(self.rounds):
            batches = []
            for at, owner in enumerate(self.owners):
                if self.links[at].is_open and owner.file is not None:
                    batches.append(
                        (self.links[at], [make_call() for make_call in self.calls(owner, number)])
                    )
            self.run_batch(batches)
        self.page.refuse_no_more()
        self.open()
        if not self.is_mounted():
            self.run(-1, lambda: mount_root(self.files))
        super().look()
        self.finish()

    def try_once(self, at, make_call):
        if self.links[at].is_open:
            call = make_call()
            self.xid += 1
            self.links[at].send(call.record(self.xid))
            record = self.links[at].receive()
            if record is None:
                self.is_unanswered(call.name)
            else:
                self.take(call, record, self.xid)

    def look(self):
        """There is no memory to look."""


class Start(Trial):
    """A server one of whose allocations is refused, from its start on, that serves one
    connection."""

    def __init__(self, way, filer, library, folder, refused):
        self.page = Page(folder, f"page-{os.getpid()}")
        self.page.set(counting=1, refused=refused)
        self.xid = 0
        self.strange = 0
        self.server = Server(filer, way, environment(library, self.page), 1)
        self.links = []

    def serve(self):
        """Where it doesn't listen it tells why, and ends; else it serves and ends as any."""
        if self.server.port is None:
            output, status = self.server.wait(PATIENCE) or ("", None)
            if (self.server.first + output, status) not in LACKING + (("fault 60\n", 2),):
                raise Wrong(
                    f"it prints {self.server.first + output!r} and ends with status {status}"
                )
            if not self.page.refusals:
                raise Wrong("it has no memory where none was refused")
            return
        self.open()
        self.finish()
