"""What clients make on a server, as far as their calls were answered: the calls, what their
replies have to be, and what they then change of what is expected."""

import wire
from wire import NFS, hyper, opaque, words

ROOT = 1
REGULAR, DIRECTORY = 1, 2
BLOCK = 4096


class Wrong(Exception):
    """What the server shows isn't what it should."""


class Call:
    """A call, what its reply has to be, and what it then changes of what is expected."""

    def __init__(
        self,
        name,
        procedure,
        arguments,
        judge,
        may_starve=False,
        program=NFS,
        status=wire.OK,
        accepted=wire.SUCCESS,
    ):
        self.name = name
        self.program, self.procedure, self.arguments = program, procedure, arguments
        self.judge = judge
        self.may_starve = may_starve
        self.status, self.accepted = status, accepted

    def record(self, xid):
        return wire.record(xid, self.program, self.procedure, self.arguments)

    def take(self, reader):
        """Compares a reply with what it has to be."""
        try:
            if self.status is not None and reader.word() != self.status:
                raise Wrong(f"{self.name} is answered with another status than {self.status}")
            self.judge(reader)
            reader.end()
        except ValueError as error:
            raise Wrong(f"{self.name}: {error}")


def expect(name, got, wanted):
    if got != wanted:
        raise Wrong(f"{name} gives {got!r:.200}, not {wanted!r:.200}")


class Owner:
    """What one client made, as far as its calls were answered: a directory with names, and a
    file with data."""

    def __init__(self, number, files):
        self.name = "abc"[number]
        self.files = files
        self.directory = None
        self.file = None
        self.names = {}
        # how many names the file has
        self.links = 0
        self.content = bytearray()
        self.blocks = set()
        self.subdirectories = set()

    @property
    def size(self):
        return len(self.content)

    def keep(self, offset, data):
        """What a WRITE writes within one block."""
        self.content += bytes(max(0, offset + len(data) - self.size))
        self.content[offset : offset + len(data)] = data
        self.blocks.add(offset // BLOCK)

    def bytes_of_block(self, block):
        return bytes(self.content[block * BLOCK : (block + 1) * BLOCK])

    # Calls, each of which changes what is expected once it was answered.

    def make_home(self):
        def judge(reader):
            self.directory = made(reader, self.files)

        return Call(
            "MKDIR", 9, self.files.entry(ROOT, self.name) + wire.UNSET, judge, may_starve=True
        )

    def make_file(self):
        def judge(reader):
            self.file = made(reader, self.files)
            self.names["data"] = self.file
            self.links += 1

        return Call(
            "CREATE",
            8,
            self.files.entry(self.directory, "data") + words(1) + wire.UNSET,
            judge,
            may_starve=True,
        )

    def create(self, name):
        def judge(reader):
            self.names[name] = made(reader, self.files)

        return Call(
            "CREATE",
            8,
            self.files.entry(self.directory, name) + words(1) + wire.UNSET,
            judge,
            may_starve=True,
        )

    def make_directory(self, name):
        def judge(reader):
            self.names[name] = made(reader, self.files)
            self.subdirectories.add(name)

        return Call(
            "MKDIR", 9, self.files.entry(self.directory, name) + wire.UNSET, judge, may_starve=True
        )

    def remove(self, name):
        def judge(reader):
            reader.before_and_after()
            self.names.pop(name, None)

        status = wire.OK if name in self.names else wire.NOENT
        return Call("REMOVE", 12, self.files.entry(self.directory, name), judge, status=status)

    def rename(self, old, new):
        there = old in self.names

        def judge(reader):
            reader.before_and_after()
            reader.before_and_after()
            if there:
                self.names[new] = self.names.pop(old)
                self.subdirectories.remove(old)
                self.subdirectories.add(new)

        arguments = self.files.entry(self.directory, old) + self.files.entry(self.directory, new)
        return Call(
            "RENAME",
            14,
            arguments,
            judge,
            may_starve=there,
            status=wire.OK if there else wire.NOENT,
        )

    def write(self, offset, data):
        def judge(reader):
            reader.before_and_after()
            expect("WRITE", (reader.word(), reader.word()), (len(data), 2))
            reader.bytes(8)
            self.keep(offset, data)

        fills = offset // BLOCK not in self.blocks
        arguments = (
            self.files.handle(self.file) + hyper(offset) + words(len(data), 2) + opaque(data)
        )
        return Call("WRITE", 7, arguments, judge, may_starve=fills)

    def read(self, block):
        wanted = self.bytes_of_block(block)

        def judge(reader):
            reader.maybe(reader.attributes)
            expect("READ's count", reader.word(), len(wanted))
            expect(
                "READ's end of file", reader.word(), int(block * BLOCK + len(wanted) >= self.size)
            )
            expect("READ", reader.opaque(), wanted)

        return Call(
            "READ",
            6,
            self.files.handle(self.file) + hyper(block * BLOCK) + words(BLOCK),
            judge,
            may_starve=len(wanted) > 0,
        )

    def read_start(self):
        wanted = self.bytes_of_block(0)[:16]

        def judge(reader):
            reader.maybe(reader.attributes)
            expect("READ", (reader.word(), reader.word(), reader.opaque()), (16, 0, wanted))

        return Call(
            "READ", 6, self.files.handle(self.file) + hyper(0) + words(16), judge, may_starve=True
        )

    def lookup(self):
        def judge(reader):
            expect("LOOKUP", self.files.fileid(reader), self.file)
            reader.maybe(reader.attributes)
            reader.maybe(reader.attributes)

        return Call("LOOKUP", 3, self.files.entry(self.directory, "data"), judge)

    def look_at_file(self):
        def judge(reader):
            got = reader.attributes()
            wanted = {
                "type": REGULAR,
                "links": self.links,
                "size": self.size,
                "used": BLOCK * len(self.blocks),
                "fileid": self.file,
            }
            expect("GETATTR", got, wanted)

        return Call("GETATTR", 1, self.files.handle(self.file), judge)

    def list_home(self):
        wanted = {".": self.directory, "..": ROOT} | self.names

        def judge(reader):
            attributes = reader.maybe(reader.attributes)
            expect("READDIR's links", attributes["links"], 2 + len(self.subdirectories))
            expect("READDIR", entries(reader), wanted)

        return list_directory(self.files, self.directory, judge)

    def looks(self):
        """Calls that show what is there but for data, where no other call runs."""
        calls = [] if self.directory is None else [self.list_home]
        return calls if self.file is None else [*calls, self.look_at_file]

    def further_calls(self, _number, _directories):
        """Calls that a round of this number has beside those of each way to serve; `directories` gives
        what the root has."""
        return []


def made(reader, files):
    """The fileid that was made."""
    fileid = reader.maybe(lambda: files.fileid(reader))
    expect("the attributes of what was made", reader.maybe(reader.attributes)["fileid"], fileid)
    reader.before_and_after()
    return fileid


def entries(reader):
    """The names of a READDIR with their fileids, in a list that is whole."""
    reader.bytes(8)
    found = {}
    while reader.word():
        fileid, name, _cookie = reader.hyper(), reader.opaque().decode(), reader.hyper()
        if name in found:
            raise Wrong(f"READDIR gives {name} twice")
        found[name] = fileid
    expect("READDIR's end", reader.word(), 1)
    return found


def list_directory(files, fileid, judge):
    return Call(
        "READDIR",
        16,
        files.handle(fileid) + hyper(0) + bytes(8) + words(65536),
        judge,
        may_starve=True,
    )


def null():
    return Call("NULL", 0, b"", lambda reader: None, status=None)


def look_at_root(files):
    def judge(reader):
        got = reader.attributes()
        expect("GETATTR of the root", (got["type"], got["fileid"]), (DIRECTORY, ROOT))

    return Call("GETATTR", 1, files.handle(ROOT), judge)
