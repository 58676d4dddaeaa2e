"""`filer replay` with one allocation refused."""

import itertools
import math
import os
import re
import signal
import socket
import subprocess
import tempfile

from memory import CHILD_STATUS, REFUSALS, REFUSED_CALL, SCRIPT_FROM, WORDS, Page, environment
from scripts import Event, Script, feed, is_as_typed, spelled

# The scripts, each with what it is about.
NAMES = [
    "null",
    "getattr_root",
    "readdir_empty",
    "names_and_cookies",
    "write_over_two_spans",
    "write_from_stock",
    "hole_and_cut",
    "two_overwrites",
    "full_volume",
    "blocks_in_a_hand",
    "exclusive",
    "grow_and_census",
    "directories_and_hands",
    "several_records",
]

# Those that take some minutes of a processor.
LONG_NAMES = ["full_volume", "blocks_in_a_hand"]

# How long a run may take, in seconds.
PATIENCE = 60

# A script of more events is long; this many of its events are run after the one that met the refusal was sent again.
LONG = 100
FEW = 24

# Orders of refuse.c.
GO_ON, DIVIDE = b"g", b"d"

# Procedures of NFS version 3 (RFC 1813).
LOOKUP, READ, WRITE, CREATE, MKDIR, REMOVE, RMDIR, RENAME, READDIR = 3, 6, 7, 8, 9, 12, 13, 14, 16
NAMED = (LOOKUP, WRITE, CREATE, MKDIR, REMOVE, RMDIR, RENAME)

# The events that may be refused for want of memory.
MAY_BE_REFUSED = ("open", "putdown", "survey")


class Wrong(Exception):
    """What a run shows isn't what it should."""


class Late(Wrong):
    def __init__(self):
        super().__init__(f"the program doesn't end within {PATIENCE} seconds")


class Result:
    """What a run came to."""

    def __init__(self, status, output, errors, refusals):
        if status < 0:
            raise Wrong(f"the program is killed by {signal.Signals(-status).name}")
        if errors and (status == 0 or not WORDS.fullmatch(errors)):
            raise Wrong(f"the program writes to its error output: {errors[:200]!r}")
        self.status = status
        self.lines = output.decode().split("\n")[:-1]
        self.refusals = refusals


class Divider:
    """A process that runs a plan's script without a refusal, and stands at calls of the allocator (`divides` in refuse.c). A
    child of it in which the call is refused, and which goes on with what stands in the script by then, is a run like any
    other, but what comes before the call is run once for all of them."""

    def __init__(self, plan, words, environment, page, folder, refused):
        self.plan, self.page = plan, page
        self.files = [tempfile.TemporaryFile(buffering=0, dir=folder) for _ in range(2)]
        self.link, orders = socket.socketpair()
        self.link.settimeout(PATIENCE)
        page.set(counting=1, refused=refused, divides=1)
        output, errors = self.files
        self.process = subprocess.Popen(words, env=environment, stdin=orders, stdout=output, stderr=errors)
        orders.close()
        self.wait()

    def wait(self):
        """Waits until it stands at a call, or has ended. It stands late where the script isn't read whole before."""
        try:
            stands = self.link.recv(1)
        except TimeoutError:
            self.end()
            raise Late from None
        if stands:
            self.at = self.page.calls
        else:
            self.end()

    def stands_at(self, refused):
        """Goes on to a call, unless it is behind it, and tells whether it stands there."""
        if self.at < refused:
            self.page.put(REFUSED_CALL, refused)
            self.link.sendall(GO_ON)
            self.wait()
        return self.at == refused

    def run(self, same, all_after):
        """Makes a child. So many bytes of its script are as in this process's."""
        ends = [file.tell() for file in self.files]
        self.page.put(REFUSED_CALL, self.at, all_after)
        self.page.put(REFUSALS, 0)
        self.page.put(SCRIPT_FROM, same, self.plan.length)
        self.link.sendall(DIVIDE)
        self.wait()
        written = []
        for file, end in zip(self.files, ends):
            # what the child wrote stands behind what this process has written, and is taken back
            written.append(os.pread(file.fileno(), file.tell(), 0))
            file.truncate(end)
            file.seek(end)
        return Result(os.waitstatus_to_exitcode(self.page.word(CHILD_STATUS)), *written, self.page.refusals)

    def end(self):
        """Ends the process, and its child with it."""
        self.at = math.inf
        self.process.kill()
        self.process.wait()
        self.link.close()
        for file in self.files:
            file.close()


class Runner:
    """Runs scripts with the library that refuses, in a folder of its own. All scripts of one length are read by the same
    allocations, so that the number of a call stays what it is where only later lines of a script differ."""

    def __init__(self, filer, library, folder):
        self.folder = folder
        self.page = Page(folder, f"page-{os.getpid()}")
        self.environment = environment(library, self.page)
        self.path = folder / f"script-{os.getpid()}"
        self.words = [filer, "replay", str(self.path)]
        self.written = None
        # of the process that divides
        self.its_page = Page(folder, f"page-{os.getpid()}-divided")
        self.its_environment = environment(library, self.its_page)
        self.divider = None

    def write(self, script, events, length):
        """Writes a script with these events, of this many bytes in all, unless it stands there."""
        if self.written is events:
            return
        lines = [line.encode() + b"\n" for line in script.layout] + [event.spelled for event in events]
        padding = length - sum(map(len, lines))
        assert padding >= 2, f"{script.name}: no room for the padding"
        with open(self.path, "wb") as file:
            file.writelines(lines)
            file.write(b"#" * (padding - 1) + b"\n")
        self.written = events

    def run(self, script, events, length, refused=0, all_after=0):
        self.write(script, events, length)
        self.page.set(counting=1, refused=refused, all_after=all_after)
        try:
            done = subprocess.run(
                self.words,
                env=self.environment,
                stdout=subprocess.PIPE,
                stderr=subprocess.PIPE,
                timeout=PATIENCE,
            )
        except subprocess.TimeoutExpired:
            raise Late from None
        return Result(done.returncode, done.stdout, done.stderr, self.page.refusals)

    def run_divided(self, plan, events, refused, all_after=0):
        """A run of a plan's script, or of one that differs from it behind the event that meets the refusal: as a child of a
        process that stands at the call, or by itself where none can. Calls come in their order, or a process begins anew."""
        if self.divider is None or self.divider.plan is not plan or refused < self.refused:
            if self.divider:
                self.divider.end()
            self.write(plan.script, plan.events, plan.length)
            program = self.words, self.its_environment, self.its_page, self.folder
            self.divider = Divider(plan, *program, refused)
        self.refused = refused
        if not self.divider.stands_at(refused):
            return self.run(plan.script, events, plan.length, refused, all_after)
        same = plan.same_bytes(events)
        if same < plan.length:
            self.write(plan.script, events, plan.length)
        return self.divider.run(same, all_after)


def blocks_of(events, lines):
    """The lines of each event, as far as there are any, and the lines that follow the last."""
    blocks = []
    at = 0
    for event in events:
        if at == len(lines):
            break
        end = at + 1
        if event.kind == "feed" and lines[at].startswith("taken "):
            while end < len(lines) and lines[end].startswith("out "):
                end += 1
        blocks.append(lines[at:end])
        at = end
    return blocks, lines[at:]


def clip(lines):
    return " | ".join(line if len(line) < 120 else line[:100] + f"..({len(line)})" for line in lines[:6])


# Probes: calls that show files, times and parts, and change nothing.


def probe_call(connection, place, record):
    return [feed(connection, bytes.fromhex(spelled(record)))] + [
        Event(f"begin 0 {place} 0 0"),
        Event("work 0"),
        Event("finish 0"),
    ]


def probes(script, connection, place, reads):
    """What shows parts, directories, attributes and data, on a connection, where this many messages wait."""
    events = [Event(f"parts {volume}") for volume in range(script.volumes)]
    records = []
    for fileid in range(1, script.last_fileid + 2):
        records.append(f"80000038 C(7000{fileid:04x},00000001) H({fileid:08x})")
        records.append(f"8000004c C(7001{fileid:04x},00000010) H({fileid:08x}) {'00000000 ' * 4} 00010000")
    for fileid, offset, count in reads:
        records.append(f"80000044 C(7002{fileid:04x},00000006) H({fileid:08x}) {offset:016x} {count:08x}")
    records.append("80000038 C(70030000,00000012) H(00000001)")
    records.append("80000028 70040000 00000000 00000002 20000001 00000001 00000001" + " 00000000" * 4)
    for record in records:
        events += probe_call(connection, place, record)
    return events + [Event("survey 0 0")]


class Plan:
    """A script with its probes at the end, and what it prints without a refusal."""

    def __init__(self, name, runner):
        script = self.script = Script(name)
        records = [record for event in script.events if event.kind == "feed" for record in event.records]
        script.last_fileid = 1 + sum(record.is_nfs and record.procedure in (CREATE, MKDIR) for record in records)
        self.connections = sum(event.kind == "open" for event in script.events)
        self.events = list(script.events)
        self.events += [Event("open")] + probes(script, self.connections, 0, self.reads(len(self.events)))
        size = sum(len(event.line) + 1 for event in self.events)
        longest = max(len(event.line) for event in self.events)
        self.length = 2 * size + 2 * longest if size < 1 << 20 else size + 8 * longest
        self.is_short = len(self.script.events) <= LONG
        self.references = {}
        self.last = None
        self.learn(runner)

    def same_bytes(self, events):
        """How many bytes a script of these events has as this one, up to the first event that differs."""
        if events is self.events:
            return self.length
        same = itertools.takewhile(lambda pair: pair[0] is pair[1], zip(events, self.events))
        return sum(len(line) + 1 for line in self.script.layout) + sum(len(event.spelled) for event, _ in same)

    def learn(self, runner):
        """Runs the script without a refusal, and compares with what is typed."""
        result = runner.run(self.script, self.events, self.length)
        self.blocks, rest = blocks_of(self.events, result.lines)
        if result.status != 0 or rest or len(self.blocks) != len(self.events):
            raise Wrong(f"without a refusal: status {result.status}, {clip(result.lines[-3:])}")
        for event, block in zip(self.events, self.blocks):
            if not is_as_typed(block, event.prints):
                raise Wrong(f"without a refusal: `{event.line[:60]}` prints {clip(block)}, not {clip(event.prints)}")
        self.lines = result.lines
        self.calls = runner.page.calls
        self.trace()

    def trace(self):
        """Which message each event is of, by the index of the feed that brought it and its record there, and how many wait
        and run before it."""
        waiting, running = [], {}
        self.message, self.before, self.queue = [], [], []
        for at, (event, block) in enumerate(zip(self.events, self.blocks)):
            self.before.append((len(waiting), len(running)))
            self.queue.append(list(waiting))
            message = None
            if event.kind == "feed":
                waiting += [(at, place) for place, record in enumerate(event.records) if not record.is_at_once]
            elif event.kind == "begin" and block[0].startswith("granted "):
                message = waiting.pop(int(event.words[2]))
                running[event.number] = message
            elif event.kind == "work" and event.number in running:
                message = running[event.number]
            elif event.kind == "finish" and event.number in running:
                message = running.pop(event.number)
                if block == ["back"]:
                    waiting.append(message)
            self.message.append(message)
        self.before.append((len(waiting), len(running)))

    def reads(self, before):
        """READs of what the WRITEs before an event write: of all, or of the first and the last few where they are many."""
        found = []
        for event in self.script.events[:before]:
            for record in event.records if event.kind == "feed" else []:
                if record.is_nfs and record.procedure == WRITE:
                    found.append((record.word(3), record.word(4) << 32 | record.word(5), record.word(6)))
        return found if len(found) < 8 else found[:1] + found[-2:]

    def record(self, message):
        feed_at, place = message
        return self.events[feed_at].records[place]

    def events_of(self, message):
        """The events of a message after its feed."""
        return [at for at, of in enumerate(self.message) if of == message]


class Trial:
    """A script with one call of the allocator refused."""

    def __init__(self, plan, runner, refused):
        self.plan = plan
        self.runner = runner
        self.refused = refused

    def check(self):
        self.check_one()
        if self.plan.is_short:
            self.check_all_after()

    def check_all_after(self):
        """Where all calls from one on are refused, events go on that take no memory, and the others tell it."""
        plan = self.plan
        result = self.runner.run_divided(plan, plan.events, self.refused, all_after=1)
        blocks, rest = blocks_of(plan.events, result.lines)
        if rest or result.status not in (0, 1) and (result.status, result.lines) != (2, ["fault 60"]):
            raise Wrong(f"with all calls refused from then on the program ends with status {result.status}")
        is_ended = len(blocks) < len(plan.events)
        met = False
        for at, (event, got, wanted) in enumerate(zip(plan.events, blocks, plan.blocks)):
            lacks = got == ["refused 90"]
            is_last = is_ended and at + 1 == len(blocks)
            may = event.kind in MAY_BE_REFUSED or is_last and (event.kind == "feed" or at == 0)
            if lacks and not may:
                raise Wrong(f"with all calls refused from then on `{event.line[:70]}` prints {clip(got)}")
            if got != wanted and not met:
                met = True
                if not may and event.kind not in ("feed", "work"):
                    raise Wrong(f"with all calls refused from then on `{event.line[:70]}` is the first to differ")

    def check_one(self):
        plan = self.plan
        if plan.last is not None:
            # mostly the refusal is met where the one before was; else that event has printed something else
            result = self.runner.run_divided(plan, plan.last.events, self.refused)
            if result.refusals == 1 and plan.last.mismatch(result) is None:
                return
        result = self.runner.run_divided(plan, plan.events, self.refused)
        if self.refused > plan.calls:
            if result.refusals or result.lines != plan.lines or result.status:
                raise Wrong("without a refusal the output differs")
            return
        if result.refusals != 1:
            raise Wrong(f"{result.refusals} calls were refused")
        if result.status == 2 and result.lines == ["fault 60"]:
            return
        at = next((n for n, (got, wanted) in enumerate(zip(result.lines, plan.lines)) if got != wanted), None)
        if at is None:
            raise Wrong(f"the refusal isn't told: status {result.status}, {len(result.lines)} of {len(plan.lines)} lines")
        blocks, _ = blocks_of(plan.events, result.lines)
        self.at = next(n for n, block in enumerate(blocks) if block != plan.blocks[n])
        self.event = plan.events[self.at]
        self.block = blocks[self.at]
        if len(blocks) == self.at + 1 and self.block == ["refused 90"] and self.at + 1 < len(plan.events):
            return self.check_end(result)
        self.check_event()
        self.check_rest()

    def fail(self, why):
        raise Wrong(f"event {self.at} `{self.event.line[:70]}` prints {clip(self.block)}: {why}")

    def check_end(self, result):
        """Memory ran out outside an event: as the program starts, or as it reads the bytes of a feed."""
        if result.status != 1:
            self.fail(f"the program ends with status {result.status}")
        if self.at > 0 and self.event.kind != "feed":
            self.fail("the program ends at an event")

    def check_event(self):
        """The event that met the refusal may meet one, and tells it."""
        if self.event.kind in MAY_BE_REFUSED:
            if self.block != ["refused 90"]:
                self.fail("not `refused 90`")
            self.build = self.again
        elif self.event.kind == "feed":
            self.check_feed()
        elif self.event.kind == "work":
            self.check_work()
        else:
            self.fail("this event takes no memory")

    def starved_output(self, record):
        """SYSTEM_ERR under the call's xid, in hex (RFC 5531 section 9)."""
        return spelled(f"80000018 A({record.xid:08x},00000005)")

    def check_feed(self):
        """A feed stops before its last byte, or one record was not decoded, for want of room for a name or data. The
        records before are served."""
        answers = iter(self.plan.blocks[self.at][1:])
        told = [(record, next(answers) if record.is_at_once else None) for record in self.event.records]
        waiting, _ = self.plan.before[self.at]
        stopped = re.fullmatch(r"taken (\d+) stop 90", self.block[0])
        if stopped and int(stopped[1]) < len(self.event.data):
            self.taken = int(stopped[1])
            served = [answer for record, answer in told if record.end <= self.taken]
            if self.block[1:] != [answer for answer in served if answer]:
                self.fail("not the replies of just the records before the stop")
            self.waiting = waiting + served.count(None)
            self.build = self.feed_on
            return
        for self.lacking, (record, answer) in enumerate(told):
            if answer is None and record.is_nfs and record.procedure in NAMED:
                starved = told.copy()
                starved[self.lacking] = (record, f"out {self.event.number} {self.starved_output(record)}")
                lines = [f"taken {len(self.event.data)} stop 0"] + [answer for _, answer in starved if answer]
                if self.block == lines:
                    self.waiting = waiting + sum(answer is None for _, answer in starved)
                    self.build = self.feed_again
                    return
        self.fail("neither a stop nor one starved call with a name or data")

    def check_work(self):
        """A call that may take memory and would else succeed is starved."""
        if self.block != ["starved"] or self.plan.blocks[self.at] != ["reply"]:
            self.fail("not a starved call")
        if not self.may_be_starved():
            self.fail("this call takes no memory")
        self.build = self.call_again

    def may_be_starved(self):
        plan = self.plan
        message = plan.message[self.at]
        record = plan.record(message)
        if not record.is_nfs:
            return record.procedure == 1
        answer = plan.blocks[plan.events_of(message)[-1]][0].split(" ")[2]
        if answer[56:64] != "00000000":
            return False
        if record.procedure == READ:
            # after the status: no attributes, and the count
            return int(answer[72:80], 16) > 0
        if record.procedure == READDIR:
            return True
        if record.procedure == WRITE:
            return self.differs(lambda event: event.kind == "parts")
        if record.procedure in (CREATE, MKDIR, RENAME):
            return self.differs(lambda event: event.kind == "feed" and event.records[0].procedure == READDIR)
        return False

    def differs(self, is_chosen):
        """Whether probes of a kind show something else after the call's last run than before it."""
        plan = self.plan
        shown = []
        for end in (self.at - 1, self.at + 2):
            before = plan.events[:end]
            tail = [Event("open")] + probes(plan.script, self.connections(before), plan.before[end][0], [])
            blocks = self.reference(("shown", end), before, tail)
            # a call's answer is what its finish prints
            answers = [blocks[at if event.kind == "parts" else at + 3] for at, event in enumerate(tail) if is_chosen(event)]
            shown.append(answers)
        return shown[0] != shown[1]

    @staticmethod
    def connections(events):
        return sum(event.kind == "open" for event in events)

    # What follows the event that met the refusal, and the same without the event: the events before and the tail of both.

    def again(self):
        events = self.plan.events
        return [], events[: self.at], [events[self.at]], events[self.at + 1 :]

    def feed_on(self):
        events = self.plan.events
        data, connection = self.event.data, self.event.number
        taken = [feed(connection, data[: self.taken])]
        return [], events[: self.at] + taken, [feed(connection, data[self.taken :])], events[self.at + 1 :]

    def feed_again(self):
        events = self.plan.events
        others, lacking = self.without(self.event, self.lacking)
        return [], events[: self.at] + [others], [lacking], events[self.at + 1 :]

    @staticmethod
    def without(event, place):
        """A feed without one of its records, and a feed of that."""
        records = event.records
        others = b"".join(record.data for at, record in enumerate(records) if at != place)
        return feed(event.number, others), feed(event.number, records[place].data)

    def call_again(self):
        events = self.plan.events
        message = self.plan.message[self.at]
        own = self.plan.events_of(message)
        others, lacking = self.without(events[message[0]], message[1])
        before = [self.begun_without(at, message) for at in range(self.at) if at not in own]
        before[message[0]] = others
        rest = [event for at, event in enumerate(events) if at > self.at and at not in own]
        return [events[self.at + 1]], before, [lacking] + [events[at] for at in own], rest

    def begun_without(self, at, message):
        """An event where a message doesn't wait: a begin of one behind it is of one place before."""
        event, queue = self.plan.events[at], self.plan.queue[at]
        if event.kind != "begin" or message not in queue or queue.index(message) > int(event.words[2]):
            return event
        return Event(f"begin {event.words[1]} {int(event.words[2]) - 1} {event.words[3]}")

    def tail(self, before, again, rest):
        """Probes, the event again, and the rest, whose probes at the end are on a connection with a later number. Of a
        long script's rest only the next few events are left."""
        plan = self.plan
        waiting, running = plan.before[self.at]
        waiting = getattr(self, "waiting", waiting)
        if self.event.kind == "work":
            running -= 1
        volumes = [Event(f"parts {volume}") for volume in range(plan.script.volumes)]
        own = self.connections(before)
        if own == 0 or running:
            return volumes + again + rest
        middle = [Event("open")] + probes(plan.script, own, waiting, plan.reads(self.at + 1))
        last = len(plan.events) - len(plan.script.events)
        if len(rest) <= last:
            return middle + again
        rest = rest[:-last]
        if not plan.is_short:
            rest = rest[:FEW]
        opened = self.connections(before + middle + again + rest)
        return middle + again + rest + [Event("open")] + probes(plan.script, opened, 0, plan.reads(self.at + 1))

    def reference(self, key, before, tail):
        """What the tail prints where nothing is refused."""
        plan = self.plan
        if key not in plan.references:
            if len(plan.references) > 8:
                plan.references.clear()
            result = self.runner.run(plan.script, before + tail, plan.length)
            blocks, rest = blocks_of(before + tail, result.lines)
            if rest or len(blocks) != len(before) + len(tail):
                raise Wrong(f"without a refusal {len(blocks)} of {len(before) + len(tail)} events are run")
            plan.references[key] = blocks[len(before) :]
        return plan.references[key]

    def check_rest(self):
        """After the event all is as if it had not been, and the same again gives what it gives without a refusal."""
        plan = self.plan
        after, before, again, rest = self.build()
        tail = self.tail(plan.events[: self.at], again, rest)
        key = (self.at, self.build.__name__, getattr(self, "taken", None), getattr(self, "lacking", None))
        wanted = self.reference(key, before, tail)
        events = plan.events[: self.at + 1] + after + tail
        blocks = plan.blocks[: self.at] + [self.block]
        if after:
            message = plan.message[self.at]
            connection = plan.events[message[0]].number
            blocks.append([f"out {connection} {self.starved_output(plan.record(message))}"])
        plan.last = Case(events, blocks + wanted)
        result = self.runner.run_divided(plan, events, self.refused)
        if result.refusals != 1:
            self.fail(f"then {result.refusals} calls are refused")
        wrong = plan.last.mismatch(result)
        if wrong is not None:
            plan.last = None
            self.fail(f"then {wrong}")


class Case:
    """A script in which an event meets the refusal, and what each of its events prints."""

    def __init__(self, events, blocks):
        self.events = events
        self.blocks = blocks
        self.lines = [line for block in blocks for line in block]
        self.status = int(any(line.startswith("refused ") for line in self.lines))

    def mismatch(self, result):
        """What a run shows that it should not, if anything."""
        if result.lines == self.lines:
            return None if result.status == self.status else f"the program ends with status {result.status}"
        blocks, rest = blocks_of(self.events, result.lines)
        for event, got, wanted in zip(self.events, blocks, self.blocks):
            if got != wanted:
                return f"`{event.line[:70]}` prints {clip(got)}, and without a refusal {clip(wanted)}"
        return f"{len(blocks)} of {len(self.events)} events are run, and {len(rest)} more lines printed"
