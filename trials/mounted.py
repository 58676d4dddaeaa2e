"""Calls that `filer export` alone answers, as clients make them among the others: what they are
told, and what they leave (RFC 1813 sections 3.3 and appendix I, docs/SPECIFICATION.md)."""

import wire
from owners import BLOCK, DIRECTORY, REGULAR, ROOT, Call, Owner, Wrong, expect, made
from wire import MOUNT, hyper, opaque, words
from xdr import CHARACTER, FIFO, SOCKET, SYMBOLIC_LINK

# What no file has a room for in the call itself. A text of a symbolic link may be as long, and no longer.
LONG_NAME, LONG_PATH, LONG_TEXT = "n" * 250, "/" + "p" * 1000, b"/" + b"t" * 1023
ALL_BITS = 0x3F
PERM, NAMETOOLONG = 1, 63
# FSINFO and PATHCONF behind the attributes, where callers are checked.
INFO = words(65536, 65536, 4096, 65536, 65536, 4096, 65536) + hyper(1 << 26) + words(0, 1, 27)
CONFIGURATION = words(65000, 255, 1, 1, 0, 1)


def mount_root(files):
    """MNT of the first volume, by which the run's verifier becomes known."""

    def judge(reader):
        root = reader.opaque()
        expect("MNT's handle", root[:12], words(0) + hyper(ROOT))
        expect("MNT's flavors", (reader.word(), reader.word(), reader.word()), (2, 1, 0))
        if files.verifier:
            expect("MNT's handle", opaque(root), files.handle(ROOT))
        files.verifier = root[12:]
        if len(files.verifier) != 8:
            raise Wrong(f"MNT gives the handle {root.hex()}")

    return Call("MNT", 1, opaque(b"/vol0"), judge, program=MOUNT)


def mount_call(name, procedure, arguments, results, may_starve=False, status=None):
    """A call of MOUNT whose results are known."""

    def judge(reader):
        expect(name, reader.bytes(len(results)), results)

    return Call(
        name, procedure, arguments, judge, program=MOUNT, may_starve=may_starve, status=status
    )


def of_another_version(procedure, version):
    """A call of MOUNT of a version that isn't served: RFC 5531 section 9."""

    def judge(reader):
        expect("the versions of MOUNT", (reader.word(), reader.word()), (3, 3))

    return Call(
        "MOUNT",
        procedure,
        opaque(b"/"),
        judge,
        program=(100005, version),
        status=None,
        accepted=wire.PROG_MISMATCH,
    )


def mount_calls(files):
    """A call of each procedure of MOUNT, refused ones too."""
    listed = words(1) + opaque(b"/vol0") + words(0, 0)
    return [
        lambda: mount_root(files),
        lambda: mount_call("MOUNT's NULL", 0, b"", b""),
        lambda: mount_call(
            "MNT", 1, opaque(LONG_PATH.encode()), b"", may_starve=True, status=wire.NOENT
        ),
        lambda: mount_call("DUMP", 2, b"", words(0)),
        lambda: mount_call("UMNT", 3, opaque(LONG_PATH.encode()), b"", may_starve=True),
        lambda: mount_call("UMNTALL", 4, b"", b""),
        lambda: mount_call("EXPORT", 5, b"", listed),
        lambda: of_another_version(1, 1),
        lambda: of_another_version(5, 2),
    ]


def no_parts(name, count):
    """Judges a failure whose optional parts, this many, aren't there."""
    return lambda reader: expect(name, reader.bytes(4 * count), bytes(4 * count))


def entry_plus(reader, files, sizes):
    """An entry of READDIRPLUS: its name, fileid and kind, after looking at the rest."""
    fileid, name = reader.hyper(), reader.opaque().decode()
    reader.hyper()
    got = reader.maybe(reader.attributes)
    handed = reader.maybe(lambda: files.fileid(reader))
    expect(f"the attributes and handle of {name}", (got["fileid"], handed), (fileid, fileid))
    if name in sizes:
        expect(f"the size of {name}", (got["size"], got["used"]), sizes[name])
    return name, (fileid, got["type"])


def list_plus(files, directory, names, sizes):
    """READDIRPLUS of a directory below the root, or of the root, that has these names, with
    fileids and kinds."""
    wanted = {".": (directory, DIRECTORY), "..": (ROOT, DIRECTORY)} | names

    def judge(reader):
        reader.maybe(reader.attributes)
        reader.bytes(8)
        found = []
        while reader.word():
            found.append(entry_plus(reader, files, sizes))
        expect("READDIRPLUS's end", reader.word(), 1)
        expect("READDIRPLUS", (dict(found), len(found)), (wanted, len(wanted)))

    arguments = files.handle(directory) + hyper(0) + bytes(8) + words(65536, 65536)
    return Call("READDIRPLUS", 17, arguments, judge, may_starve=True)


class MountedOwner(Owner):
    """What one client made, and asks of it by the calls of `export`."""

    def __init__(self, number, files):
        super().__init__(number, files)
        # of what is neither a file nor a directory its kind and text, by its name
        self.special = {}

    def look_at(self, reader):
        """Compares attributes with what is known of the file while other calls may change it."""
        got = reader.maybe(reader.attributes)
        expect("attributes", (got["type"], got["fileid"]), (REGULAR, self.file))

    def access(self):
        def judge(reader):
            self.look_at(reader)
            # mode 0644 for its owner: READ, MODIFY and EXTEND
            expect("ACCESS", reader.word(), 1 + 4 + 8)

        return Call("ACCESS", 4, self.files.handle(self.file) + words(ALL_BITS), judge)

    def info(self):
        def judge(reader):
            self.look_at(reader)
            expect("FSINFO", reader.bytes(len(INFO)), INFO)

        return Call("FSINFO", 19, self.files.handle(self.file), judge)

    def configuration(self):
        def judge(reader):
            self.look_at(reader)
            expect("PATHCONF", reader.bytes(len(CONFIGURATION)), CONFIGURATION)

        return Call("PATHCONF", 20, self.files.handle(self.file), judge)

    def list_home_plus(self):
        """READDIRPLUS of the directory, where no other call runs."""
        sizes = {"data": (self.size, BLOCK * len(self.blocks))}
        sizes |= {name: (len(text), 0) for name, (_kind, text) in self.special.items()}
        names = {name: (fileid, self.kind_of(name)) for name, fileid in self.names.items()}
        return list_plus(self.files, self.directory, names, sizes)

    def list_root_plus(self, directories):
        names = {name: (fileid, DIRECTORY) for name, fileid in directories.items()}
        return list_plus(self.files, ROOT, names, {})

    def kind_of(self, name):
        if name in self.special:
            return self.special[name][0]
        return DIRECTORY if name in self.subdirectories else REGULAR

    # Symbolic links, special files and further names. A round makes some, and some of those of the rounds before go.

    def make_special(self, procedure, name, kind, text, behind):
        def judge(reader):
            self.names[name] = made(reader, self.files)
            self.special[name] = kind, text

        arguments = self.files.entry(self.directory, name) + behind
        return Call(procedure, {"SYMLINK": 10, "MKNOD": 11}[procedure], arguments, judge, may_starve=True)

    def make_symbolic_link(self, name, text):
        return self.make_special("SYMLINK", name, SYMBOLIC_LINK, text, wire.UNSET + opaque(text))

    def make_node(self, name, kind):
        return self.make_special("MKNOD", name, kind, b"", words(kind) + wire.UNSET)

    def is_refused_a_device(self):
        """MKNOD of a device by another than uid 0 (`wire.record` names nobody)."""
        arguments = self.files.entry(self.directory, LONG_NAME) + words(CHARACTER) + wire.UNSET + words(1, 3)
        return Call("MKNOD", 11, arguments, no_parts("MKNOD", 2), may_starve=True, status=PERM)

    def is_refused_a_text(self):
        """SYMLINK of a text of a byte more."""
        arguments = self.files.entry(self.directory, "long") + wire.UNSET + opaque(LONG_TEXT + b"t")
        return Call("SYMLINK", 10, arguments, no_parts("SYMLINK", 2), may_starve=True, status=NAMETOOLONG)

    def make_link(self, name):
        """One more name of the file."""

        def judge(reader):
            self.look_at(reader)
            reader.before_and_after()
            self.names[name] = self.file
            self.links += 1

        arguments = self.files.handle(self.file) + self.files.entry(self.directory, name)
        return Call("LINK", 15, arguments, judge, may_starve=True)

    def is_refused_a_link(self):
        """LINK of a directory."""
        arguments = self.files.handle(self.directory) + self.files.entry(self.directory, LONG_NAME)
        return Call("LINK", 15, arguments, no_parts("LINK", 3), may_starve=True, status=wire.INVAL)

    def read_link(self, name):
        """READLINK of a symbolic link, if it is there, else of the file, which is none."""
        if name not in self.names:
            arguments = self.files.handle(self.file)
            return Call("READLINK", 5, arguments, no_parts("READLINK", 1), status=wire.INVAL)
        fileid, text = self.names[name], self.special[name][1]

        def judge(reader):
            got = reader.maybe(reader.attributes)
            told = got["type"], got["links"], got["size"], got["used"], got["fileid"]
            expect("READLINK's attributes", told, (SYMBOLIC_LINK, 1, len(text), 0, fileid))
            expect("READLINK", reader.opaque(), text)

        return Call("READLINK", 5, self.files.handle(fileid), judge, may_starve=True)

    def drop(self, name):
        """REMOVE of a name of the file, or of what is special, if it is there."""
        call = self.remove(name)
        judge_names = call.judge

        def judge(reader):
            is_link = self.names.get(name) == self.file
            judge_names(reader)
            self.special.pop(name, None)
            self.links -= is_link

        call.judge = judge if call.status == wire.OK else no_parts("REMOVE", 2)
        return call

    def rename_to_itself(self, name):
        """RENAME of another name of the file over its first: OK, and nothing changes, nor is memory taken. Where the other one isn't
        there, over itself."""
        old = name if name in self.names else "data"

        def judge(reader):
            reader.before_and_after()
            reader.before_and_after()

        arguments = self.files.entry(self.directory, old) + self.files.entry(self.directory, "data")
        return Call("RENAME", 14, arguments, judge)

    def looks(self):
        calls = super().looks()
        return calls if self.directory is None else [*calls, self.list_home_plus]

    def links_and_special_files(self, number):
        before, long_ago = number - 1, number - 2
        text = LONG_TEXT if number % 2 else b"t" * (1 + number)
        return [
            lambda: self.make_symbolic_link(f"s{number}", text),
            lambda: self.read_link(f"s{before}"),
            lambda: self.drop(f"s{long_ago}"),
            lambda: self.make_node(f"p{number}", FIFO if number % 2 else SOCKET),
            lambda: self.drop(f"p{before}"),
            lambda: self.make_link(f"l{number}"),
            lambda: self.rename_to_itself(f"l{before}"),
            lambda: self.drop(f"l{long_ago}"),
            self.is_refused_a_device,
            self.is_refused_a_text,
            self.is_refused_a_link,
        ]

    def further_calls(self, number, directories):
        own = [
            self.access,
            self.info,
            self.configuration,
            lambda: self.list_root_plus(directories()),
        ]
        return own + self.links_and_special_files(number) + mount_calls(self.files)
