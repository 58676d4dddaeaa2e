"""Streams that are fed to `filer replay`, and each line compared with what the plain reader
says."""

import itertools
import random
import subprocess
import tempfile

from made_streams import made
from plain import Call, Stream, basic
from stream_rows import JOINED, LIMITS, ROWS, WAITS, octets

SERVICE = basic(2)
LAYOUT = ["aggregate 1", "volume 0 1", "volume 0 1", "start 2 0102030405060708"]
# A WRITE is tried in its stripe, under Volume Logical and under Volume.
ROUNDS = 3
ROUND = ["begin 0 0 1 0", "work 0", "finish 0"]


class Differs(Exception):
    pass


def word_of(data):
    return data.hex() or "-"


def expect(lines, wanted):
    line = next(lines, "nothing")
    if line != wanted:
        raise Differs(f"wanted {wanted[:100]}, got {line[:100]}")


class Case:
    """A stream in pieces, on a connection of its own, and its lines in a script."""

    def __init__(self, name, pieces, number, is_empty):
        """`is_empty`: nothing changed on the server so far."""
        self.name, self.pieces, self.number = name, pieces, number
        self.is_empty = is_empty
        self.lines, self.steps, self.parts = [], [], []
        stream = Stream(SERVICE)
        for piece in pieces:
            line, step = len(self.lines), len(self.steps)
            self.feed(stream, piece)
            self.parts.append((self.lines[line:], self.steps[step:]))

    def feed(self, stream, piece):
        """A piece is fed, and the calls that it brings are run."""
        self.lines.append(f"feed {self.number} {word_of(piece)}")
        if stream.fault:
            self.steps.append("refused 36")
            return
        taken, fault, heard = stream.feed(piece)
        self.steps.append(f"taken {taken} stop {fault}")
        self.steps += [
            f"out {self.number} {reply.hex()}" for reply in heard if not isinstance(reply, Call)
        ]
        waiting = [found for found in heard if isinstance(found, Call)]
        if waiting:
            self.run(waiting)

    def run(self, calls):
        """Calls that wait are begun, worked and finished, in as many rounds as they may need."""
        waiting = []
        for call in calls:
            reply = call.of_an_empty_server() if self.is_empty else None
            self.is_empty = self.is_empty and call.procedure in (1, 3, 6, 16, 18, 21)
            waiting.append((call, reply))
        rounds = len(calls) if all(reply for _, reply in waiting) else ROUNDS * len(calls)
        self.lines += ROUND * rounds
        self.steps.append((waiting, rounds))

    def script(self):
        return ["open", *self.lines, f"close {self.number}"]

    def compare_round(self, lines, call, wanted):
        """Looks whether a call is answered as it has to be, or moves. Answers whether it is
        answered."""
        begun, worked, finished = (next(lines, "nothing") for _ in range(3))
        granted = f"granted logical {call.node()[0]}" if wanted else "granted "
        if not begun.startswith(granted):
            raise Differs(f"wanted {granted}, got {begun[:100]}")
        if wanted is None and worked.startswith("move ") and finished == "back":
            return False
        if worked != "reply" or not finished.startswith(f"out {self.number} "):
            raise Differs(f"wanted a reply, got {worked[:100]}, {finished[:100]}")
        reply = bytes.fromhex(finished.split(" ")[2])
        if not (call.is_reply(reply) if wanted is None else reply == wanted):
            raise Differs(f"no reply to procedure {call.procedure}: {finished[:100]}")
        return True

    def compare_rounds(self, lines, waiting, rounds):
        """Looks whether calls are run in their order, where one that moves waits behind all
        others."""
        waiting = list(waiting)
        for _ in range(rounds):
            if not waiting:
                for number in (32, 34, 34):
                    expect(lines, f"refused {number}")
                continue
            call, wanted = waiting.pop(0)
            if not self.compare_round(lines, call, wanted):
                waiting.append((call, wanted))
        if waiting:
            raise Differs("a call moved too often")

    def compare_steps(self, lines, steps):
        for step in steps:
            if isinstance(step, str):
                expect(lines, step)
            else:
                self.compare_rounds(lines, *step)

    def compare(self, lines):
        """Looks whether these are the lines of the case."""
        expect(lines, f"conn {self.number}")
        self.compare_steps(lines, self.steps)
        expect(lines, f"closed {self.number}")
        expect(lines, "nothing")


def replay(filer, script):
    """The lines that a script prints, and the status."""
    with tempfile.NamedTemporaryFile("w", suffix=".txt") as file:
        file.write("".join(line + "\n" for line in script))
        file.flush()
        done = subprocess.run([filer, "replay", file.name], stdout=subprocess.PIPE, timeout=200)
    return done.stdout.decode("ascii", "replace").split("\n")[:-1], done.returncode


def parts_of(lines):
    """Lines by connection."""
    parts = []
    for line in lines:
        if line.startswith("conn ") or not parts:
            parts.append([])
        parts[-1].append(line)
    return parts


def play(filer, streams):
    """Plays streams in one script. Answers how many went as they have to, and what didn't."""
    cases, is_empty = [], True
    for number, (name, pieces) in enumerate(streams):
        cases.append(Case(name, pieces, number, is_empty))
        is_empty = cases[-1].is_empty
    script = LAYOUT + list(itertools.chain.from_iterable(case.script() for case in cases))
    lines, status = replay(filer, script)
    passed, failures = 0, []
    for case, part in itertools.zip_longest(cases, parts_of(lines), fillvalue=None):
        try:
            if case is None:
                raise Differs(f"more lines than wanted: {part[0][:100]}")
            case.compare(iter(part or []))
            passed += 1
        except (Differs, ValueError) as difference:
            name = case.name if case else "a script"
            failures.append(f"{name}: {difference}")
    wanted = int(any(line.startswith("refused ") for line in lines))
    if status != wanted:
        failures.append(f"a script that begins with {streams[0][0]}: status {status}, not {wanted}")
    return passed + (status == wanted), failures


def play_at_once(filer, seed):
    """64 changed streams, each on its connection, whose pieces come by turns."""
    rng = random.Random(seed)
    streams = rng.sample([changed for _, _, changed in changed_bytes()], 64)
    cases = []
    for number, stream in enumerate(streams):
        cuts = sorted(rng.randrange(len(stream) + 1) for _ in range(8))
        pieces = [stream[i:k] for i, k in zip([0] + cuts, cuts + [len(stream)])]
        cases.append(Case(f"stream {number}", pieces, number, True))
    turns = [case for case in cases for _ in case.parts]
    rng.shuffle(turns)
    rest = {case.number: iter(case.parts) for case in cases}
    turns = [(case, *next(rest[case.number])) for case in turns]
    script = LAYOUT + ["open"] * 64
    for _, fed, _ in turns:
        script += fed
    lines, _ = replay(filer, script + [f"close {case.number}" for case in cases])
    found = iter(lines)
    try:
        for case in cases:
            expect(found, f"conn {case.number}")
        for case, _, steps in turns:
            case.compare_steps(found, steps)
        for case in cases:
            expect(found, f"closed {case.number}")
        expect(found, "nothing")
    except (Differs, ValueError) as difference:
        return 0, [f"64 streams by turns, seed {seed}: {difference}"]
    return 1, []


def changed_bytes():
    """The joined rows with each byte changed in three ways, and which it is."""
    for i, byte in enumerate(JOINED):
        for name, other in (("00", 0), ("ff", 255), ("its top bit turned", byte ^ 128)):
            yield f"byte {i} changed, {name}", i, JOINED[:i] + bytes([other]) + JOINED[i + 1 :]


def changed_streams():
    """The joined rows: cut in two everywhere, each beginning, each byte changed in three ways."""
    size = len(JOINED)
    yield "whole", [JOINED]
    yield "byte by byte", [JOINED[i : i + 1] for i in range(size)]
    for i in range(size + 1):
        yield f"cut at {i}", [JOINED[:i], JOINED[i:]]
        yield f"the first {i} bytes", [JOINED[:i]]
    for name, i, changed in changed_bytes():
        yield name, [changed]
        yield f"{name}, and cut there", [changed[:i], changed[i:]]
        yield f"{name}, one by one near it", [
            changed[:i],
            *(changed[k : k + 1] for k in range(i, i + 80)),
            changed[i + 80 :],
        ]


def made_streams(seed, count):
    """Generated streams, whole or cut."""
    rng = random.Random(seed)
    for k in range(count):
        stream = made(rng, SERVICE)
        cuts = sorted(rng.randrange(len(stream) + 1) for _ in range(rng.choice((0, 0, 1, 3))))
        pieces = [stream[i:k] for i, k in zip([0] + cuts, cuts + [len(stream)])]
        yield f"generated stream {k} of seed {seed}", pieces


def in_parts(streams, count):
    streams = list(streams)
    return [streams[i : i + count] for i in range(0, len(streams), count)]


def play_rows(filer):
    """The worked rows, with what they give typed by hand, through the plain reader and through
    the program."""
    passed, failures = 0, []
    waiting = lambda found: found.of_an_empty_server() if isinstance(found, Call) else found
    for number, (stream, reply) in enumerate(ROWS):
        heard = Stream(SERVICE).feed(octets(stream))[2]
        waits = reply.startswith(WAITS)
        good = [waiting(found) for found in heard] == [octets(reply.removeprefix(WAITS))]
        good = good and isinstance(heard[0], Call) == waits
        passed += good
        failures += [] if good else [f"the plain reader on row {number}"]
    for name, stream, taken, stop, reply in LIMITS:
        wanted = (taken, stop, [] if reply is None else [octets(reply)])
        good = Stream(SERVICE).feed(stream) == wanted
        script = [*LAYOUT, "open", f"feed 0 {stream.hex()}"]
        lines = ["conn 0", f"taken {taken} stop {stop}"]
        lines += [] if reply is None else [f"out 0 {reply.replace(' ', '')}"]
        good = good and replay(filer, script) == (lines, 0)
        passed += good
        failures += [] if good else [name]
    return passed, failures


def job(task):
    kind, filer, argument = task
    try:
        if kind == "rows":
            return play_rows(filer)
        if kind == "at once":
            return play_at_once(filer, argument)
        return play(filer, list(made_streams(*argument)) if kind == "made" else argument)
    except (OSError, subprocess.TimeoutExpired) as error:
        return 0, [f"a script ({kind}): {error}"]


def run(filer, pool, seed, scripts, count):
    """All of it. Answers how many passed, and the failures."""
    tasks = [("rows", filer, None)]
    tasks += [("changed", filer, part) for part in in_parts(changed_streams(), 150)]
    tasks += [("at once", filer, seed + k) for k in range(20)]
    tasks += [("made", filer, (seed + k, count)) for k in range(scripts)]
    passed, failures = 0, []
    for good, bad in pool.imap_unordered(job, tasks):
        passed += good
        failures += bad
    return passed, failures
