"""Scripts of `filer replay` as they stand in the folder `scripts`: with abbreviations, and with what each event prints.

    define NAME WORDS             @NAME stands for the words from here on
    EVENT                         a line of a script
    = LINE                        a line that the event before prints; where it ends in `...`, how it begins
    call W SEC NSEC TRAIL in HEX out HEX
                                  a call on connection 0: it is fed, begun by worker W, worked and finished under each
                                  affinity of the trail, and answered under the last
    each K FROM TO / end          the lines between for each number; ${..} is worked out, as in a Python f-string

An indented line goes on with the line before. In hex, C(xid,procedure) is a call up to its arguments, A(xid,status) a reply
up to its results, H(fileid) a handle of volume 0, and {61*8} a byte eight times.
"""

import re
import struct
from pathlib import Path

FOLDER = Path(__file__).resolve().parent / "scripts"


class Event:
    """An event of a script: its kind, its line, the bytes of a feed, and what it prints where that is known."""

    def __init__(self, line, data=None):
        self.line = line
        self.spelled = line.encode() + b"\n"
        self.data = data
        self.words = line.split(" ", 3)
        self.kind = self.words[0]
        self.prints = None

    @property
    def records(self):
        """The records of a feed, whose bytes are whole records of one fragment."""
        found, start = [], 0
        while start < len(self.data):
            end = start + 4 + (int.from_bytes(self.data[start : start + 4], "big") & 0x7FFFFFFF)
            found.append(Record(self.data[start:end], end))
            start = end
        return found

    @property
    def number(self):
        """The connection, worker or volume that the line names first."""
        return int(self.words[1])


def feed(connection, data):
    return Event(f"feed {connection} {data.hex() or '-'}", data)


def spelled(text):
    """Hex with abbreviations, as plain hex."""
    text = re.sub(r"\bC\((\w+),(\w+)\)", r"\1 00000000 00000002 000186a3 00000003 \2 " + "00000000 " * 4, text)
    text = re.sub(r"\bA\((\w+),(\w+)\)", r"\1 00000001 00000000 00000000 00000000 \2", text)
    text = re.sub(r"\bH\((\w+)\)", r"0000000c 00000000 00000000 \1", text)
    text = re.sub(r"\{(\w\w)\*(\d+)\}", lambda found: found[1] * int(found[2]), text)
    return text.replace(" ", "")


def printed(text):
    """A line that is printed, with its hex spelled."""
    if not text.startswith("out "):
        return text
    _, connection, words = text.split(" ", 2)
    return f"out {connection} {spelled(words)}"


def joined(text):
    """The lines of a text without comments, those that are indented joined to the line before."""
    lines = []
    for line in text.splitlines():
        if line.startswith(" "):
            lines[-1] += " " + line.strip()
        elif line and not line.startswith("#"):
            lines.append(line)
    return lines


def repeated(lines):
    """The lines with those between `each` and `end` written out."""
    result = []
    rest = iter(lines)
    for line in rest:
        if not line.startswith("each "):
            result.append(line)
            continue
        _, name, first, last = line.split()
        body = []
        for inner in rest:
            if inner == "end":
                break
            body.append(inner)
        for value in range(int(first), int(last) + 1):
            for inner in body:
                work_out = lambda found: eval('f"{' + found[1] + '}"', {name: value})
                result.append(re.sub(r"\$\{([^}]*)\}", work_out, inner))
    return result


def call_events(line):
    """The events of a `call` line, with what each prints."""
    head, rest = line.split(" in ", 1)
    given, answer = rest.split(" out ", 1)
    _, worker, seconds, nanoseconds, trail = head.split(" ", 4)
    data = bytes.fromhex(spelled(given))
    events = [feed(0, data)]
    events[0].prints = [f"taken {len(data)} stop 0"]
    trail = trail.split(", ")
    for place, affinity in enumerate(trail):
        is_last = place + 1 == len(trail)
        steps = [
            (f"begin {worker} 0 {seconds} {nanoseconds}", f"granted {affinity}"),
            (f"work {worker}", "reply" if is_last else f"move {trail[place + 1]}"),
            (f"finish {worker}", f"out 0 {spelled(answer)}" if is_last else "back"),
        ]
        for text, prints in steps:
            events.append(Event(text))
            events[-1].prints = [prints]
    return events


def written(text):
    """A text with the names that it defines written out."""
    lines = []
    names = {}
    for line in joined(text):
        for name, words in names.items():
            line = re.sub("@" + name + r"\b", lambda _found: words, line)
        if line.startswith("define "):
            _, name, words = line.split(" ", 2)
            names[name] = words
        else:
            lines.append(line)
    return repeated(lines)


class Script:
    """The lines of a layout, and events."""

    def __init__(self, name):
        self.name = name
        self.layout = []
        self.events = []
        for line in written((FOLDER / f"{name}.txt").read_text()):
            verb = line.split(" ", 1)[0]
            if verb in ("aggregate", "volume", "start"):
                self.layout.append(line)
            elif verb == "=":
                event = self.events[-1]
                event.prints = (event.prints or []) + [printed(line[2:])]
            elif verb == "call":
                self.events += call_events(line)
            elif verb == "feed":
                _, connection, words = line.split(" ", 2)
                self.events.append(feed(int(connection), bytes.fromhex(spelled(words))))
            else:
                self.events.append(Event(line))

    @property
    def volumes(self):
        return sum(line.startswith("volume ") for line in self.layout)


def is_as_typed(printed_lines, typed):
    """Whether an event's lines are those that are typed."""
    if typed is None:
        return True
    return len(printed_lines) == len(typed) and all(
        line.startswith(wanted[:-3]) if wanted.endswith("...") else line == wanted
        for line, wanted in zip(printed_lines, typed)
    )


class Record:
    """A call record of one fragment: its xid, program, procedure and arguments (RFC 5531 sections 9 and 11). It ends
    after this many bytes of its feed."""

    def __init__(self, data, end):
        self.data, self.end = data, end
        self.xid, _, _, self.program, _, self.procedure = struct.unpack_from(">6I", data, 4)
        self.arguments = data[44:]

    def word(self, index):
        return struct.unpack_from(">I", self.arguments, 4 * index)[0]

    @property
    def is_nfs(self):
        return self.program == 100003

    @property
    def is_at_once(self):
        """Whether it is answered in its feed: in these scripts, a NULL call."""
        return self.procedure == 0
