"""Who may do what, as rows typed from POSIX (IEEE Std 1003.1, section 4.7, and chmod, chown, link, mknod, open, rename, symlink, unlink,
utimensat, write) and RFC 1813 (sections 2.5, 2.6, 3.3 and 4.4). Each row makes what it needs in a directory of its own and looks at what a call is told, and at
what it leaves. A row asks a server (`users.Users`), or plain rules (`posix_rules.Posix`)."""

import itertools
from collections import namedtuple

from peers import hold
from repeats import User
from users import (
    ACCES, BADTYPE, BLOCK, CHARACTER, CLIENT_TIME, DIRECTORY, EXCLUSIVE, EXIST, FIFO, GUARDED, INVAL, MADE_BY_MKNOD, NAMETOOLONG, NOENT,
    ISDIR, NOTDIR, NOT_SYNC, DEVICE_NUMBERS, OK, PERM, REGULAR, ROOT, SERVER_TIME, SOCKET, STALE, SYMBOLIC_LINK, UNCHECKED,
)  # fmt: skip
from xdr import words

# Of a node of uid 1000 and gid 200: its owner, one of its group, one that has the group as a further one, or as the last of sixteen,
# and another. The owner is of the group too, and the digit of the group isn't its own.
OWNER = User(1000, 200, (200,))
GROUP = User(1001, 200, ())
FURTHER = User(1002, 300, (301, 200))
SIXTEENTH = User(1003, 300, (*range(301, 316), 200))
OTHER = User(1004, 300, (301, 302))
UID, GID = 1000, 200
# of each the place of its digit in a mode
CLASSES = {
    "the owner": (OWNER, 6), "the group": (GROUP, 3), "a further group": (FURTHER, 3), "the 16th": (SIXTEENTH, 3), "others": (OTHER, 0),
}  # fmt: skip
# digits of a mode with these rights among them
ANY, NONE = tuple(range(8)), ()
R, W, X, WX, R_OR_X, SOME = (4, 5, 6, 7), (2, 3, 6, 7), (1, 3, 5, 7), (3, 7), (1, 3, 4, 5, 6, 7), (1, 2, 3, 4, 5, 6, 7)
NUMBERS = itertools.count()


def expect(told, status, what="it"):
    hold(told.status == status, f"{what} is told {told.status}, not {status}")
    return told


def shown(given):
    """What is given, with modes as they are written."""
    return {name: f"{value:04o}" if name == "mode" else value for name, value in given.items()}


def equal(found, wanted, what="it"):
    hold(found == wanted, f"{what} is {found!r}, not {wanted!r}")


class Place:
    """A directory of uid 0, which everybody may write, with what a row needs."""

    def __init__(self, ask):
        self.ask, self.nodes = ask, {}
        self.name = b"place%d" % next(NUMBERS)
        self.home = self.made("home", ask.mkdir(ROOT, ask.root, self.name, mode=0o777))

    def made(self, name, told):
        self.nodes[name] = expect(told, OK, f"making {name}").node
        return self.nodes[name]

    def file(self, mode, uid=UID, gid=GID, name="file", data=b"bytes", where=None):
        directory = where or self.home
        node = self.made(name, self.ask.create(ROOT, directory, name.encode(), mode=mode, uid=uid, gid=gid))
        if data:
            expect(self.ask.write(ROOT, node, data), OK, "writing")
        return node

    def directory(self, mode, uid=UID, gid=GID, name="directory", where=None):
        return self.made(name, self.ask.mkdir(ROOT, where or self.home, name.encode(), mode=mode, uid=uid, gid=gid))

    def special(self, kind, mode, uid=UID, gid=GID, name="special", where=None):
        """A symbolic link, or what MKNOD makes."""
        given, directory = {"mode": mode, "uid": uid, "gid": gid}, where or self.home
        if kind == SYMBOLIC_LINK:
            return self.made(name, self.ask.symlink(ROOT, directory, name.encode(), b"its text", **given))
        return self.made(name, self.ask.mknod(ROOT, directory, name.encode(), kind, **given))

    def state(self):
        """All that is in it: attributes and times, names, bytes and texts."""
        told = {}
        for name, node in self.nodes.items():
            asked = self.ask.readdir(ROOT, node), self.ask.read(ROOT, node), self.ask.readlink(ROOT, node)
            told[name] = self.ask.whole(node), [it.value for it in asked]
        return told

    def attributes(self, node):
        """Mode, uid and gid."""
        found = expect(self.ask.getattr(ROOT, node), OK, "GETATTR").attributes
        return oct(found.mode), found.uid, found.gid


# ---- each procedure by each digit


class Way(namedtuple("Way", "name run owner others status refused changes", defaults=(OK, ACCES, False))):
    """A way to ask: with which digits the owner may, with which the others do; what they are told then, and what else; and whether
    it changes anything."""


def of_file(name, run, owner, others, *more):
    return Way(name, lambda p, who: run(p.ask, who, p.node), owner, others, *more)


def setattr_of(name, owner, others, refused, given):
    return of_file(name, lambda ask, who, node: ask.setattr(who, node, **given), owner, others, OK, refused, True)


# What needs no right, of all nodes. READLINK is for symbolic links.
NEEDLESS = (
    Way("NULL", lambda p, who: p.ask.null(who), ANY, ANY),
    of_file("GETATTR", lambda ask, who, node: ask.getattr(who, node), ANY, ANY),
    of_file("ACCESS", lambda ask, who, node: ask.access(who, node), ANY, ANY),
    of_file("FSSTAT", lambda ask, who, node: ask.fsstat(who, node), ANY, ANY),
    of_file("FSINFO", lambda ask, who, node: ask.fsinfo(who, node), ANY, ANY),
    of_file("PATHCONF", lambda ask, who, node: ask.pathconf(who, node), ANY, ANY),
)
NO_TEXT = (of_file("READLINK of another", lambda ask, who, node: ask.readlink(who, node), ANY, ANY, INVAL),)
# chmod, chown and utimensat: mode, group and given times are the owner's; a time of the server is for who may write. A new uid is for
# uid 0 alone, also where its owner gives it.
ATTRIBUTES = (
    setattr_of("SETATTR of the mode", ANY, NONE, PERM, {"mode": 0o700}),
    setattr_of("SETATTR of the group, its own", ANY, NONE, PERM, {"gid": GID}),
    setattr_of("SETATTR of the owner, its own", ANY, NONE, PERM, {"uid": UID}),
    setattr_of("SETATTR of the owner, another", NONE, NONE, PERM, {"uid": 1001}),
    setattr_of("SETATTR of atime", ANY, NONE, PERM, {"atime": CLIENT_TIME}),
    setattr_of("SETATTR of mtime", ANY, NONE, PERM, {"mtime": CLIENT_TIME}),
    setattr_of("SETATTR of one time and the server's", ANY, NONE, PERM, {"mtime": CLIENT_TIME, "atime": SERVER_TIME}),
    setattr_of("SETATTR of the server's time", ANY, W, ACCES, {"mtime": SERVER_TIME, "atime": SERVER_TIME}),
    setattr_of("SETATTR of nothing", ANY, W, ACCES, {}),
)
# Section 4.4: the owner reads and writes always, and who may execute reads. COMMIT is for who reads or writes.
OF_FILES = (
    of_file("READ", lambda ask, who, node: ask.read(who, node), ANY, R_OR_X),
    of_file("READ behind the end", lambda ask, who, node: ask.read(who, node, offset=1 << 20), ANY, R_OR_X),
    of_file("WRITE", lambda ask, who, node: ask.write(who, node), ANY, W, OK, ACCES, True),
    of_file("WRITE of nothing", lambda ask, who, node: ask.write(who, node, b""), ANY, W),
    of_file("WRITE far behind", lambda ask, who, node: ask.write(who, node, offset=300_000), ANY, W, OK, ACCES, True),
    of_file("COMMIT", lambda ask, who, node: ask.commit(who, node), ANY, SOME),
    setattr_of("SETATTR of the size", ANY, W, ACCES, {"size": 2}),
    setattr_of("SETATTR of a larger size", ANY, W, ACCES, {"size": 20_000}),
    setattr_of("SETATTR of the size and the mode", ANY, NONE, PERM, {"size": 2, "mode": 0o777}),
    Way("LOOKUP in a file", lambda p, who: p.ask.lookup(who, p.node, b"name"), ANY, ANY, NOTDIR),
    Way("READDIR of a file", lambda p, who: p.ask.readdir(who, p.node), ANY, ANY, NOTDIR),
    Way("READDIRPLUS of a file", lambda p, who: p.ask.readdirplus(who, p.node), ANY, ANY, NOTDIR),
)
# Of what gets another name nothing is asked (link).
LINKED = (Way("LINK of it", lambda p, who: p.ask.link(who, p.node, p.home, b"linked"), ANY, ANY, OK, ACCES, True),)
OF_SPECIAL = (
    Way("READ of it", lambda p, who: p.ask.read(who, p.node), ANY, ANY, INVAL),
    Way("WRITE to it", lambda p, who: p.ask.write(who, p.node), ANY, ANY, INVAL),
    Way("COMMIT of it", lambda p, who: p.ask.commit(who, p.node), ANY, ANY, INVAL),
    of_file("SETATTR of a size", lambda ask, who, node: ask.setattr(who, node, size=2), ANY, W, INVAL),
    Way("LOOKUP in it", lambda p, who: p.ask.lookup(who, p.node, b"name"), ANY, ANY, NOTDIR),
    Way("READDIR of it", lambda p, who: p.ask.readdir(who, p.node), ANY, ANY, NOTDIR),
    Way("CREATE over it", lambda p, who: p.ask.create(who, p.home, b"special", size=0), ANY, ANY, EXIST),
)
TEXT = (of_file("READLINK", lambda ask, who, node: ask.readlink(who, node), ANY, ANY),)


def named(name, run, digits, *more):
    """On names of a directory, whose owner has no more rights than its digit gives."""
    return Way(name, run, digits, digits, *more)


def entries_told(p, who):
    """READDIRPLUS gives attributes and handles to who may search."""
    told = p.ask.readdirplus(who, p.node)
    if told.status == OK:
        is_searched = p.ask.lookup(who, p.node, b".").status == OK
        equal(sorted(told.value), sorted([b".", b"..", b"inner", b"below"]), "the list")
        hold(all((it is not None) == is_searched for it in told.value.values()), f"with x {is_searched} it tells {told.value}")
    return told


def mount_below(p, who):
    return p.ask.mnt(who, b"/%s/node/below" % p.name)


OF_DIRECTORIES = (
    named("LOOKUP", lambda p, who: p.ask.lookup(who, p.node, b"inner"), X),
    named("LOOKUP of none", lambda p, who: p.ask.lookup(who, p.node, b"none"), X, NOENT),
    named("LOOKUP of .", lambda p, who: p.ask.lookup(who, p.node, b"."), X),
    named("LOOKUP of ..", lambda p, who: p.ask.lookup(who, p.node, b".."), X),
    named("LOOKUP of a long name", lambda p, who: p.ask.lookup(who, p.node, 256 * b"n"), X, NAMETOOLONG),
    named("MNT below", mount_below, X),
    named("READDIR", lambda p, who: p.ask.readdir(who, p.node), R),
    named("READDIRPLUS", entries_told, R),
    named("CREATE", lambda p, who: p.ask.create(who, p.node, b"new"), WX, OK, ACCES, True),
    named("CREATE GUARDED", lambda p, who: p.ask.create(who, p.node, b"new", GUARDED), WX, OK, ACCES, True),
    named("CREATE EXCLUSIVE", lambda p, who: p.ask.create(who, p.node, b"new", EXCLUSIVE), WX, OK, ACCES, True),
    named("CREATE over a file", lambda p, who: p.ask.create(who, p.node, b"inner", mode=0o777), X),
    named("CREATE over a file, with its size", lambda p, who: p.ask.create(who, p.node, b"inner", size=0), X, OK, ACCES, True),
    named("CREATE GUARDED over a file", lambda p, who: p.ask.create(who, p.node, b"inner", GUARDED), X, EXIST),
    named("CREATE EXCLUSIVE over a file", lambda p, who: p.ask.create(who, p.node, b"inner", EXCLUSIVE), X, EXIST),
    named("CREATE over a directory", lambda p, who: p.ask.create(who, p.node, b"below"), X, EXIST),
    named("MKDIR", lambda p, who: p.ask.mkdir(who, p.node, b"new"), WX, OK, ACCES, True),
    named("MKDIR over a name", lambda p, who: p.ask.mkdir(who, p.node, b"below"), X, EXIST),
    named("MKDIR of .", lambda p, who: p.ask.mkdir(who, p.node, b"."), X, EXIST),
    named("REMOVE", lambda p, who: p.ask.remove(who, p.node, b"inner"), WX, OK, ACCES, True),
    named("REMOVE of none", lambda p, who: p.ask.remove(who, p.node, b"none"), X, NOENT),
    named("RMDIR", lambda p, who: p.ask.rmdir(who, p.node, b"below"), WX, OK, ACCES, True),
    named("RMDIR of none", lambda p, who: p.ask.rmdir(who, p.node, b"none"), X, NOENT),
    named("RENAME", lambda p, who: p.ask.rename(who, p.node, b"inner", p.node, b"new"), WX, OK, ACCES, True),
    named("RENAME of none", lambda p, who: p.ask.rename(who, p.node, b"none", p.node, b"new"), X, NOENT),
    named("RENAME to itself", lambda p, who: p.ask.rename(who, p.node, b"inner", p.node, b"inner"), X),
    named("RENAME out of it", lambda p, who: p.ask.rename(who, p.node, b"inner", p.home, b"new"), WX, OK, ACCES, True),
    named("RENAME into it", lambda p, who: p.ask.rename(who, p.home, b"beside", p.node, b"new"), WX, OK, ACCES, True),
    named("RENAME over a file in it", lambda p, who: p.ask.rename(who, p.home, b"beside", p.node, b"inner"), WX, OK, ACCES, True),
    named("RENAME of none into it", lambda p, who: p.ask.rename(who, p.home, b"none", p.node, b"new"), X, NOENT),
    named("SYMLINK", lambda p, who: p.ask.symlink(who, p.node, b"new"), WX, OK, ACCES, True),
    named("SYMLINK over a name", lambda p, who: p.ask.symlink(who, p.node, b"inner", b""), X, EXIST),
    named("SYMLINK of nothing", lambda p, who: p.ask.symlink(who, p.node, b"new", b""), WX, NOENT),
    named("MKNOD of a FIFO", lambda p, who: p.ask.mknod(who, p.node, b"new"), WX, OK, ACCES, True),
    named("MKNOD of a socket", lambda p, who: p.ask.mknod(who, p.node, b"new", SOCKET), WX, OK, ACCES, True),
    named("MKNOD of a device over a name", lambda p, who: p.ask.mknod(who, p.node, b"inner", BLOCK), X, EXIST),
    named("MKNOD of a file", lambda p, who: p.ask.mknod(who, p.node, b"new", REGULAR), WX, BADTYPE),
    named("LINK", lambda p, who: p.ask.link(who, p.nodes["inner"], p.node, b"new"), WX, OK, ACCES, True),
    named("LINK over a name", lambda p, who: p.ask.link(who, p.nodes["beside"], p.node, b"inner"), X, EXIST),
    named("LINK of a directory", lambda p, who: p.ask.link(who, p.nodes["below"], p.node, b"new"), WX, INVAL),
    Way("READ of a directory", lambda p, who: p.ask.read(who, p.node), ANY, ANY, INVAL),
    Way("WRITE to a directory", lambda p, who: p.ask.write(who, p.node), ANY, ANY, INVAL),
    Way("COMMIT of a directory", lambda p, who: p.ask.commit(who, p.node), ANY, ANY, INVAL),
)


def file_of(place, mode):
    place.node = place.file(mode)


def special_of(kind):
    def build(place, mode):
        place.node = place.special(kind, mode)

    return build


# What is neither a file nor a directory.
KINDS = {
    SYMBOLIC_LINK: "a symbolic link", FIFO: "a FIFO", SOCKET: "a socket", BLOCK: "a block device", CHARACTER: "a character device",
}  # fmt: skip
SPECIAL_KINDS = {kind: special_of(kind) for kind in KINDS}


def directory_of(place, mode):
    """With a file and a directory that all may write, of another; and a file beside it."""
    place.node = place.directory(mode, name="node")
    place.file(0o666, 7, 7, "inner", where=place.node)
    place.directory(0o777, 7, 7, "below", where=place.node)
    place.file(0o666, 7, 7, "beside")


def by_mode(ask, way, build, who, mode, may):
    """One call by a user on what has a mode."""
    place = Place(ask)
    build(place, mode)
    before = place.state()
    expect(way.run(place, who), way.status if may else way.refused)
    is_changed = place.state() != before
    hold(is_changed == (may and way.changes and way.status == OK), "it changes something" if is_changed else "it changes nothing")


def modes(place):
    """Each digit at its place, where the other places have all rights or none."""
    for digit in range(8):
        for others in (0o777, 0o000):
            yield digit, others & ~(7 << place) | digit << place


def matrix():
    all_ways = [
        (file_of, "", NEEDLESS + NO_TEXT + ATTRIBUTES + OF_FILES + LINKED), (directory_of, "", NEEDLESS + NO_TEXT + ATTRIBUTES + OF_DIRECTORIES),
        (SPECIAL_KINDS[SYMBOLIC_LINK], " of a symbolic link", NEEDLESS + TEXT + ATTRIBUTES + OF_SPECIAL + LINKED),
        (SPECIAL_KINDS[FIFO], " of a FIFO", NEEDLESS + NO_TEXT + ATTRIBUTES + OF_SPECIAL + LINKED),
    ]  # fmt: skip
    for build, of_what, ways in all_ways:
        for way in ways:
            for whose, (who, place) in CLASSES.items():
                for digit, mode in modes(place):
                    may = digit in (way.owner if place == 6 else way.others)
                    row = lambda ask, w=way, b=build, u=who, m=mode, may=may: by_mode(ask, w, b, u, m, may)
                    yield f"{way.name}{of_what} by {whose}, mode {mode:04o}", row
            for mode in (0o000, 0o070, 0o777):
                row = lambda ask, w=way, b=build, m=mode: by_mode(ask, w, b, ROOT, m, True)
                yield f"{way.name}{of_what} by uid 0, mode {mode:04o}", row


# ---- ACCESS (section 3.3.4)

# The bits by digit: READ 1; MODIFY and EXTEND 12; EXECUTE 32 of files, LOOKUP 2 of directories, DELETE 16 of these with MODIFY and
# EXTEND, for which x belongs to w.
FILE_BITS = (0, 32, 12, 44, 1, 33, 13, 45)
DIRECTORY_BITS = (0, 2, 0, 30, 1, 3, 1, 31)


def access_is(ask, build, who, mode, bits):
    """ACCESS, and whether the calls do what it tells; the owner of a file reads and writes always."""
    place = Place(ask)
    build(place, mode)
    equal(expect(ask.access(who, place.node), OK).value, bits, "ACCESS")
    for some in (1, 2, 4, 8, 16, 32, 5, 0):
        equal(expect(ask.access(who, place.node, some), OK).value, bits & some, f"ACCESS of {some}")
    done = lambda told: told.status == OK
    if build is directory_of:
        equal(done(ask.readdir(who, place.node)), bits & 1 != 0, "READDIR done")
        equal(done(ask.lookup(who, place.node, b"inner")), bits & 2 != 0, "LOOKUP done")
        equal(done(ask.create(who, place.node, b"new")), bits & 12 == 12, "CREATE done")
        equal(done(ask.remove(who, place.node, b"inner")), bits & 16 != 0, "REMOVE done")
    elif build is file_of:
        owns = who.uid in (UID, 0)
        equal(done(ask.read(who, place.node)), owns or bits & 33 != 0, "READ done")
        equal(done(ask.write(who, place.node)), owns or bits & 12 == 12, "WRITE done")


def accesses():
    kinds = [(file_of, FILE_BITS, "a file"), (directory_of, DIRECTORY_BITS, "a directory")]
    kinds += [(build, FILE_BITS, KINDS[kind]) for kind, build in SPECIAL_KINDS.items()]
    for build, bits, kind in kinds:
        for whose, (who, place) in CLASSES.items():
            for digit, mode in modes(place):
                row = lambda ask, b=build, u=who, m=mode, bits=bits[digit]: access_is(ask, b, u, m, bits)
                yield f"ACCESS of {kind} by {whose}, mode {mode:04o}", row
        # uid 0 executes a file that somebody may
        for mode in (0o000, 0o666, 0o100, 0o010, 0o001):
            given = 31 if build is directory_of else 45 if mode & 0o111 else 13
            yield f"ACCESS of {kind} by uid 0, mode {mode:04o}", lambda ask, b=build, m=mode, g=given: access_is(ask, b, ROOT, m, g)


# ---- chmod, chown and set-id bits


def owner_and_group(ask):
    """Who gives a file another owner or group (chown): uid 0; its owner gives it a group of its own, and what it has."""
    owner = User(UID, 200, (201, *range(301, 315), 216))
    for who, given, status in (
        (owner, {"uid": UID}, OK), (owner, {"uid": 1001}, PERM), (owner, {"uid": 0}, PERM), (owner, {"gid": 200}, OK),
        (owner, {"gid": 201}, OK), (owner, {"gid": 216}, OK), (owner, {"gid": 202}, PERM), (owner, {"gid": 0}, PERM),
        (owner, {"uid": UID, "gid": 201}, OK), (owner, {"uid": 1001, "gid": 201}, PERM), (owner, {"uid": UID, "gid": 999}, PERM),
        (owner, {"gid": 999, "mode": 0o666}, PERM), (GROUP, {"gid": 200}, PERM), (GROUP, {"uid": 1001}, PERM),
        (OTHER, {"gid": 300}, PERM), (ROOT, {"uid": 7, "gid": 8}, OK), (ROOT, {"gid": 999}, OK),
    ):  # fmt: skip
        for build in (file_of, directory_of):
            place = Place(ask)
            build(place, 0o666)
            before = place.state()
            expect(ask.setattr(who, place.node, **given), status, f"{shown(given)} of uid {who.uid}")
            wanted = (0o666, UID, GID) if status else (0o666, given.get("uid", UID), given.get("gid", GID))
            equal(place.attributes(place.node), (oct(wanted[0]), *wanted[1:]), f"after {shown(given)} of uid {who.uid} it")
            hold(status == OK or place.state() == before, f"{shown(given)} of uid {who.uid} changes something")


def a_foreign_group_is_kept(ask):
    """A file has a group that isn't its owner's: the owner may name it again."""
    place = Place(ask)
    node = place.file(0o644, gid=999)
    expect(ask.setattr(OWNER, node, gid=999), OK)
    expect(ask.setattr(OWNER, node, gid=998), PERM)
    expect(ask.setattr(OWNER, node, gid=200), OK)
    expect(ask.setattr(OWNER, node, gid=999), PERM, "the group that it had")


# Of a mode with set-id bits: what it is once another than uid 0 has written the file. 02000 stays where the group has no x.
CLEARED = {0o4755: 0o755, 0o2755: 0o755, 0o6755: 0o755, 0o2745: 0o2745, 0o6745: 0o2745, 0o4644: 0o644, 0o6711: 0o711, 0o1777: 0o1777}
CLEARED |= {0o7777: 0o1777, 0o2666: 0o2666, 0o4000: 0, 0o6010: 0o010}


def writings(ask, place):
    """What changes a file's bytes: by whom, how, and whether it ends that the file is run as its owner. uid 0 may leave that."""
    writer = User(1004, 300, ())
    for who, ends in ((OWNER, True), (writer, True), (ROOT, False)):
        yield who, lambda node, u=who: ask.write(u, node), ends
        yield who, lambda node, u=who: ask.write(u, node, b"far", 200_000), ends
        yield who, lambda node, u=who: ask.setattr(u, node, size=3), ends
        yield who, lambda node, u=who: ask.setattr(u, node, size=5), ends
        yield who, lambda node, u=who: ask.create(u, place.home, b"file", size=0), ends
        # these leave its bytes
        yield who, lambda node, u=who: ask.write(u, node, b""), False
        yield who, lambda node, u=who: ask.read(u, node), False
        yield who, lambda node, u=who: ask.setattr(u, node, mtime=SERVER_TIME), False
        yield who, lambda node, u=who: ask.create(u, place.home, b"file"), False


def set_ids_end(ask):
    """A WRITE and a truncation end set-id bits (write, ftruncate), but uid 0's."""
    place = Place(ask)
    node = place.file(0o644)
    for mode, left in CLEARED.items():
        for number, (who, run, ends) in enumerate(writings(ask, place)):
            # all may read and write
            expect(ask.setattr(ROOT, node, mode=mode | 0o006), OK)
            expect(run(node), OK, f"way {number} of uid {who.uid}, mode {mode:04o},")
            wanted = (left if ends else mode) | 0o006
            equal(place.attributes(node)[0], oct(wanted), f"the mode {mode:04o} after way {number} of uid {who.uid}")


def set_ids_end_at_a_chown(ask):
    """A new owner or group, whoever gives it; but not together with a mode."""
    place = Place(ask)
    for mode, left in CLEARED.items():
        for who, given in (
            (OWNER, {"uid": UID}), (OWNER, {"gid": GID}), (ROOT, {"uid": 7}), (ROOT, {"gid": 8}), (ROOT, {"uid": UID, "gid": GID}),
        ):  # fmt: skip
            node = place.file(mode, name=f"{mode}-{who.uid}-{sorted(given)}")
            expect(ask.setattr(who, node, **given), OK)
            equal(place.attributes(node)[0], oct(left), f"the mode {mode:04o} after {given} of uid {who.uid}")
            expect(ask.setattr(who, node, mode=0o6755, **given), OK) if who is ROOT else None
            equal(place.attributes(node)[0], oct(0o6755 if who is ROOT else left), f"a mode beside {given}")


def set_ids_of_directories_stay(ask):
    place = Place(ask)
    node = place.directory(0o3777)
    for who, given in ((OWNER, {"gid": GID}), (ROOT, {"uid": 7}), (ROOT, {"gid": 8})):
        expect(ask.setattr(who, node, **given), OK)
        equal(place.attributes(node)[0], oct(0o3777), f"after {given} the mode")
    expect(ask.create(OTHER, node, b"new"), OK)
    equal(place.attributes(node)[0], oct(0o3777), "after a CREATE in it the mode")


def set_group_id_is_for_members(ask):
    """chmod: 02000 of a file goes where its group isn't one of who gives it."""
    for gid, who, given, left in (
        (200, OWNER, 0o2755, 0o2755), (999, OWNER, 0o2755, 0o755), (999, OWNER, 0o6711, 0o4711), (999, OWNER, 0o2644, 0o644),
        (301, OWNER, 0o2755, 0o755), (200, OWNER, 0o7777, 0o7777), (999, ROOT, 0o6755, 0o6755), (999, OWNER, 0o1755, 0o1755),
    ):  # fmt: skip
        place = Place(ask)
        node = place.file(0o600, gid=gid)
        expect(ask.setattr(who, node, mode=given), OK)
        equal(place.attributes(node), (oct(left), UID, gid), f"{given:04o} of uid {who.uid} with gid {gid}")
    # with a new group it goes by that one
    place = Place(ask)
    node = place.file(0o600, gid=999)
    expect(ask.setattr(OWNER, node, mode=0o2755, gid=GID), OK)
    equal(place.attributes(node), (oct(0o2755), UID, GID))


# ---- what is made


def made_by(ask, who, directory, given, wanted):
    """Of a file and of a directory that a user makes in a directory of this mode and group: mode, uid and gid. What is neither is as a
    file, but that a symbolic link has mode 0777 where none is given."""
    place = Place(ask)
    where = place.directory(*directory)
    file, below = wanted
    link = file if "mode" in given else (0o777, *file[1:])
    make = (
        ("file", ask.create, file), ("below", ask.mkdir, below), ("link", ask.symlink, link), ("fifo", ask.mknod, file),
        ("socket", lambda *asked, **given: ask.mknod(*asked, SOCKET, **given), file),
    )  # fmt: skip
    for name, run, its in make:
        told = expect(run(who, where, name.encode(), **given), OK, f"making a {name}")
        equal(place.attributes(told.node), (oct(its[0]), *its[1:]), f"a {name} of {shown(given)}")
    if not given:
        told = expect(ask.create(who, where, b"exclusive", EXCLUSIVE), OK)
        equal(place.attributes(told.node), (oct(wanted[0][0]), *wanted[0][1:]), "an exclusive file")


# who; mode, uid and gid of the directory; what is given; and mode, uid and gid of the file, and of the directory that are made
PLAIN, HANDS_ON = (0o777, 7, 200), (0o2777, 7, 200)
MADE = (
    (OTHER, PLAIN, {}, (0o644, 1004, 300), (0o755, 1004, 300)),
    (OTHER, PLAIN, {"mode": 0o600}, (0o600, 1004, 300), (0o600, 1004, 300)),
    (ROOT, PLAIN, {}, (0o644, 0, 0), (0o755, 0, 0)),
    # another than uid 0 makes its own, and its group is one of its own
    (OTHER, PLAIN, {"uid": 0, "mode": 0o4755}, (0o4755, 1004, 300), (0o4755, 1004, 300)),
    (OTHER, PLAIN, {"uid": 1004, "gid": 300}, (0o644, 1004, 300), (0o755, 1004, 300)),
    (OTHER, PLAIN, {"gid": 302}, (0o644, 1004, 302), (0o755, 1004, 302)),
    (OTHER, PLAIN, {"gid": 200}, (0o644, 1004, 300), (0o755, 1004, 300)),
    (OTHER, PLAIN, {"gid": 0, "mode": 0o2755}, (0o2755, 1004, 300), (0o2755, 1004, 300)),
    (SIXTEENTH, PLAIN, {"gid": 200, "mode": 0o2755}, (0o2755, 1003, 200), (0o2755, 1003, 200)),
    (ROOT, PLAIN, {"uid": 5, "gid": 6, "mode": 0o6755}, (0o6755, 5, 6), (0o6755, 5, 6)),
    # in a directory with 02000 the group is the directory's, and a directory has 02000 too
    (OTHER, HANDS_ON, {}, (0o644, 1004, 200), (0o2755, 1004, 200)),
    (GROUP, HANDS_ON, {"mode": 0o775}, (0o775, 1001, 200), (0o2775, 1001, 200)),
    (OTHER, HANDS_ON, {"gid": 200}, (0o644, 1004, 200), (0o2755, 1004, 200)),
    (OTHER, HANDS_ON, {"gid": 302}, (0o644, 1004, 302), (0o2755, 1004, 302)),
    (OTHER, HANDS_ON, {"gid": 999}, (0o644, 1004, 200), (0o2755, 1004, 200)),
    (ROOT, HANDS_ON, {}, (0o644, 0, 200), (0o2755, 0, 200)),
    (ROOT, HANDS_ON, {"gid": 999, "mode": 0o2711}, (0o2711, 0, 999), (0o2711, 0, 999)),
    # a file has 02000 from its group's members alone
    (OTHER, HANDS_ON, {"mode": 0o2755}, (0o755, 1004, 200), (0o2755, 1004, 200)),
    (FURTHER, HANDS_ON, {"mode": 0o2755}, (0o2755, 1002, 200), (0o2755, 1002, 200)),
    (OTHER, HANDS_ON, {"mode": 0o6711}, (0o4711, 1004, 200), (0o6711, 1004, 200)),
    (ROOT, HANDS_ON, {"mode": 0o2755}, (0o2755, 0, 200), (0o2755, 0, 200)),
)


def makings():
    for who, directory, given, *wanted in MADE:
        row = lambda ask, u=who, d=directory, g=given, w=wanted: made_by(ask, u, d, g, w)
        yield f"made by uid {who.uid} in {directory[0]:04o} with {shown(given)}", row


def over_another_s_file(ask):
    """UNCHECKED over a file that is there: its size alone is set, by who may write it; section 3.3.8 calls the rest initial attributes."""
    for mode, who, given, status, size in (
        (0o600, OTHER, {"mode": 0o666}, OK, 5), (0o600, OTHER, {"uid": 1004, "gid": 300, "mode": 0o777}, OK, 5),
        (0o600, OTHER, {"size": 0}, ACCES, 5), (0o600, OTHER, {"size": 9, "mode": 0o666}, ACCES, 5), (0o644, OTHER, {"size": 5}, ACCES, 5),
        (0o602, OTHER, {"size": 0, "mode": 0o666, "uid": 1004}, OK, 0), (0o620, GROUP, {"size": 2}, OK, 2),
        (0o000, OWNER, {"size": 1, "mode": 0o644}, OK, 1), (0o000, OWNER, {"mode": 0o644, "mtime": CLIENT_TIME}, OK, 5),
        (0o000, ROOT, {"size": 0, "mode": 0o644, "uid": 9}, OK, 0), (0o000, ROOT, {"mode": 0o644}, OK, 5),
    ):  # fmt: skip
        place = Place(ask)
        node = place.file(mode)
        before = place.state()
        told = expect(ask.create(who, place.home, b"file", **given), status, f"{shown(given)} of uid {who.uid}")
        hold(told.node in (None, node), "it tells another file")
        found = ask.getattr(ROOT, node).attributes
        equal((found.mode, found.uid, found.gid, found.size), (mode, UID, GID, size), f"after {shown(given)} of uid {who.uid} it")
        hold("size" in given and status == OK or place.state() == before, f"{shown(given)} of uid {who.uid} changes something")


def exclusive_again(ask):
    """A CREATE of the same verifier tells what it made and changes nothing (section 3.3.8), also where no new name may be made."""
    place = Place(ask)
    where = place.directory(0o777)
    node = place.made("made", ask.create(OTHER, where, b"made", EXCLUSIVE, b"11111111"))
    expect(ask.setattr(OTHER, node, mode=0o400), OK)
    expect(ask.setattr(ROOT, where, mode=0o555), OK)
    before = place.state()
    equal(expect(ask.create(OTHER, where, b"made", EXCLUSIVE, b"11111111"), OK).node, node, "the file")
    expect(ask.create(OTHER, where, b"made", EXCLUSIVE, b"22222222"), EXIST)
    expect(ask.create(OTHER, where, b"another", EXCLUSIVE, b"11111111"), ACCES)
    expect(ask.setattr(ROOT, where, mode=0o666), OK)
    expect(ask.create(OTHER, where, b"made", EXCLUSIVE, b"11111111"), ACCES, "without x it")
    expect(ask.setattr(ROOT, where, mode=0o555), OK)
    equal(place.state()["made"], before["made"], "the file")


# ---- directories


def sticky(ask, mode, outcome):
    """Of a directory of OWNER that all may write, with files of GROUP and FURTHER: who removes and renames what."""
    for who, whose, may in (
        (GROUP, GROUP, True), (GROUP, FURTHER, outcome), (OTHER, GROUP, outcome), (OWNER, GROUP, True), (ROOT, GROUP, True),
    ):  # fmt: skip
        status = OK if may else ACCES
        place = Place(ask)
        where = place.directory(mode, name="where")
        place.file(0o666, whose.uid, 7, "file", where=where), place.directory(0o777, whose.uid, 7, "below", where=where)
        place.file(0o666, whose.uid, 7, "target", where=where), place.file(0o666, who.uid, 7, "own", where=where)
        before = place.state()
        for what, told in (
            ("REMOVE", lambda: ask.remove(who, where, b"file")),
            ("RMDIR", lambda: ask.rmdir(who, where, b"below")),
            ("RENAME over it", lambda: ask.rename(who, where, b"own", where, b"target")),
            ("RENAME of it", lambda: ask.rename(who, where, b"target", where, b"moved")),
            ("RENAME out", lambda: ask.rename(who, where, b"moved" if may else b"target", place.home, b"moved")),
        ):
            expect(told(), status, f"{what} by uid {who.uid} of uid {whose.uid}'s")
        hold(may or place.state() == before, "something is changed")
        # new names are for all
        expect(ask.create(who, where, b"new"), OK)


def a_directory_that_moves(ask):
    """rename: a directory that comes into another one has to be writable itself, as its `..` changes."""
    for mode, who, may in (
        (0o700, OTHER, False), (0o755, OTHER, False), (0o702, OTHER, True), (0o070, OWNER, False), (0o200, OWNER, True), (0, ROOT, True),
    ):  # fmt: skip
        place = Place(ask)
        place.directory(mode, name="moves"), place.directory(0o777, name="to")
        expect(ask.rename(who, place.home, b"moves", place.home, b"stays"), OK, "within its directory")
        told = ask.rename(who, place.home, b"stays", place.nodes["to"], b"moved")
        expect(told, OK if may else ACCES, f"mode {mode:04o} by uid {who.uid}")
        place.file(0o000, name="file")
        expect(ask.rename(who, place.home, b"file", place.nodes["to"], b"file"), OK, "of a file")


def both_directories(ask):
    """RENAME needs w and x of both, and x of both before a name is looked at."""
    for first, second, status in (
        (0o777, 0o777, OK), (0o777, 0o775, ACCES), (0o775, 0o777, ACCES), (0o776, 0o777, ACCES), (0o777, 0o776, ACCES), (0o773, 0o773, OK),
    ):  # fmt: skip
        place = Place(ask)
        one, two = place.directory(first, name="one"), place.directory(second, name="two")
        place.file(0o644, where=one)
        expect(ask.rename(OTHER, one, b"file", two, b"file"), status, f"{first:04o} to {second:04o}")
        missing = NOENT if first & 1 and second & 1 else ACCES
        expect(ask.rename(OTHER, one, b"none", two, b"new"), missing, f"of none, {first:04o} to {second:04o}")


def mounts_through(ask):
    """MNT needs x of each directory on the way, and not of the last."""
    place = Place(ask)
    one = place.directory(0o711, name="one")
    two = place.directory(0o000, name="two", where=one)
    path = b"/%s/one/two" % place.name
    equal(expect(ask.mnt(OTHER, path), OK).node, two, "the root")
    expect(ask.setattr(ROOT, one, mode=0o766), OK)
    expect(ask.mnt(OTHER, path), ACCES)
    expect(ask.mnt(OTHER, path + b"/none"), ACCES)
    expect(ask.mnt(ROOT, path), OK)
    expect(ask.setattr(ROOT, one, mode=0o711), OK)
    expect(ask.mnt(OTHER, path + b"/none"), ACCES, "below a closed one it")
    expect(ask.mnt(ROOT, path + b"/none"), NOENT)
    expect(ask.mnt(OTHER, b"/%s/.." % place.name), ACCES)


# ---- links and special files


def devices_are_for_uid_0(ask):
    """MKNOD of a device by another is PERM (mknod), once a name may be made; devices have their numbers, all else has none."""
    for kind in MADE_BY_MKNOD:
        place = Place(ask)
        open_one, closed = place.directory(0o777, name="open"), place.directory(0o755, name="closed")
        before, is_device = place.state(), kind in (BLOCK, CHARACTER)
        if is_device:
            for who in (OWNER, GROUP, OTHER):
                expect(ask.mknod(who, open_one, b"new", kind), PERM, f"{KINDS[kind]} of uid {who.uid}")
            expect(ask.mknod(OTHER, closed, b"new", kind), ACCES)
            equal(place.state(), before, "what is there")
        made = expect(ask.mknod(ROOT if is_device else OTHER, open_one, b"new", kind), OK)
        for found in (made, ask.getattr(OTHER, made.node), ask.lookup(OTHER, open_one, b"new")):
            told = found.attributes
            wanted = (kind, 1, DEVICE_NUMBERS if is_device else (0, 0), 0)
            equal((told.kind, told.links, told.device, told.size), wanted, KINDS[kind])
        expect(ask.mknod(ROOT, open_one, b"new", kind), EXIST)
    place = Place(ask)
    for kind in (REGULAR, DIRECTORY, SYMBOLIC_LINK):
        for who in (ROOT, OTHER):
            expect(ask.mknod(who, place.home, b"new", kind), BADTYPE, f"kind {kind} of uid {who.uid}")
    for kind in MADE_BY_MKNOD:
        expect(ask.mknod(ROOT, place.home, b"new", kind, size=0), INVAL, f"{KINDS[kind]} with a size")
    equal(ask.readdir(ROOT, place.home).value, [b".", b".."], "the names")


def texts_of_symbolic_links(ask):
    """Any bytes but 0, from 1 to 1,024 of them; all read them, and nobody changes them."""
    place = Place(ask)
    for number, text in enumerate((b"t", b"/", b"..", b"a/../b//c", b"/" + 1023 * b"t", bytes(range(1, 256)), b"none \xff there")):
        name = b"link%d" % number
        made = expect(ask.symlink(OTHER, place.home, name, text, mode=0), OK, f"a text of {len(text)} bytes")
        told = ask.getattr(ROOT, made.node).attributes
        equal((told.kind, told.links, told.size), (SYMBOLIC_LINK, 1, len(text)), "the link")
        for who in (OTHER, GROUP, ROOT):
            equal(expect(ask.readlink(who, made.node), OK).value, text, f"the text for uid {who.uid}")
    before = place.state()
    for text, status in ((b"", NOENT), (1025 * b"t", NAMETOOLONG), (2000 * b"\0", NAMETOOLONG), (b"\0", INVAL), (b"a\0", INVAL), (b"a\0b", INVAL)):
        expect(ask.symlink(OTHER, place.home, b"new", text), status, f"a text of {len(text)} bytes")
    expect(ask.symlink(OTHER, place.home, b"new", b"text", size=4), INVAL, "one with a size")
    expect(ask.symlink(OTHER, place.home, b"new", b"", size=4), NOENT, "an empty one with a size")
    equal(place.state(), before, "what is there")


def names_are_counted(ask):
    """Links (nlink, section 2.6): one for each name, in any directory of the volume, whoever makes it; with the last one a node goes."""
    for kind in (REGULAR, *KINDS):
        place = Place(ask)
        away = place.directory(0o777, name="away")
        node = place.file(0o600) if kind == REGULAR else place.special(kind, 0o600)
        first = b"file" if kind == REGULAR else b"special"
        links = lambda: ask.getattr(ROOT, node).attributes.links
        equal(links(), 1, "the links")
        for number, (where, who) in enumerate(((place.home, OTHER), (away, GROUP), (away, OWNER))):
            told = expect(ask.link(who, node, where, b"name%d" % number), OK).attributes
            equal((told.links, links()), (number + 2, number + 2), "the links")
            equal(expect(ask.lookup(who, where, b"name%d" % number), OK).node, node, "what it names")
        expect(ask.link(ROOT, node, away, b"name1"), EXIST)
        # its first name goes, and then another moves, which changes no count
        expect(ask.remove(OTHER, place.home, first), OK)
        equal(links(), 3, "the links")
        expect(ask.rename(OTHER, place.home, b"name0", away, b"moved"), OK)
        equal(links(), 3, "the links")
        place.file(0o644, name="another")
        # over one of its names, and one of its names over another's
        expect(ask.rename(OTHER, place.home, b"another", away, b"name1"), OK)
        equal(links(), 2, "the links")
        expect(ask.rename(OTHER, away, b"moved", away, b"name1"), OK)
        expect(ask.getattr(ROOT, place.nodes["another"]), STALE)
        equal((links(), ask.readdir(ROOT, away).value), (2, [b".", b"..", b"name1", b"name2"]), "the links and names")
        expect(ask.remove(OTHER, away, b"name1"), OK), expect(ask.remove(OTHER, away, b"name2"), OK)
        for told in (ask.getattr(ROOT, node), ask.link(ROOT, node, away, b"new"), ask.readlink(ROOT, node)):
            expect(told, STALE)


def two_names_of_one_node(ask):
    """RENAME of one over the other is OK and changes nothing (rename): it needs x of both directories, and no more."""
    for mode, status in ((0o777, OK), (0o111, OK), (0o1711, OK), (0o666, ACCES)):
        place = Place(ask)
        where = place.directory(0o777, name="where")
        node = place.file(0o600, where=where)
        expect(ask.link(ROOT, node, where, b"other"), OK), expect(ask.link(ROOT, node, place.home, b"beside"), OK)
        expect(ask.setattr(ROOT, where, mode=mode), OK)
        before = place.state()
        for name, to, to_name in ((b"file", where, b"other"), (b"other", where, b"file"), (b"other", place.home, b"beside")):
            expect(ask.rename(OTHER, where, name, to, to_name), status, f"{name} to {to_name}, mode {mode:04o},")
        expect(ask.rename(OTHER, place.home, b"beside", where, b"other"), status, "into it")
        equal(place.state(), before, "what is there")


def kinds_that_replace_each_other(ask):
    """RENAME: whatever is no directory takes the place of whatever is none, and of no directory; nor does a directory take its place."""
    for one in (REGULAR, *KINDS):
        for two in (REGULAR, *KINDS):
            place = Place(ask)
            node = place.file(0o600, name="one") if one == REGULAR else place.special(one, 0o600, name="one")
            gone = place.file(0o600, name="two") if two == REGULAR else place.special(two, 0o600, name="two")
            expect(ask.rename(OTHER, place.home, b"one", place.home, b"two"), OK, f"kind {one} over kind {two}")
            equal(expect(ask.lookup(OTHER, place.home, b"two"), OK).node, node, "what stays")
            expect(ask.getattr(ROOT, gone), STALE)
        place.directory(0o777, name="directory")
        expect(ask.rename(OTHER, place.home, b"two", place.home, b"directory"), EXIST)
        expect(ask.rename(OTHER, place.home, b"directory", place.home, b"two"), EXIST)
        expect(ask.rmdir(OTHER, place.home, b"two"), NOTDIR)
        expect(ask.remove(OTHER, place.home, b"directory"), ISDIR)


def sticky_names_are_the_node_s_owner_s(ask):
    """In a sticky directory a name goes for the owner of what it names, and not for who made the name."""
    place = Place(ask)
    where = place.directory(0o1777, uid=7, gid=7, name="where")
    node = place.file(0o666, GROUP.uid, 7, where=where)
    expect(ask.link(OTHER, node, where, b"its maker's"), OK)
    expect(ask.remove(OTHER, where, b"its maker's"), ACCES)
    expect(ask.rename(OTHER, where, b"its maker's", where, b"new"), ACCES)
    expect(ask.remove(GROUP, where, b"its maker's"), OK)
    link = place.made("link", ask.symlink(OTHER, where, b"link", b"file"))
    expect(ask.remove(GROUP, where, b"link"), ACCES), expect(ask.rename(GROUP, where, b"link", where, b"file"), ACCES)
    expect(ask.remove(OTHER, where, b"link"), OK), expect(ask.readlink(OTHER, link), STALE)


def special_files_have_attributes(ask):
    """chmod, chown and times of what is neither a file nor a directory, as of a file; a new owner or group ends set-id bits."""
    for kind in KINDS:
        place = Place(ask)
        node = place.special(kind, 0o600)
        expect(ask.setattr(OWNER, node, mode=0o6751), OK)
        equal(place.attributes(node), (oct(0o6751), UID, GID), KINDS[kind])
        expect(ask.setattr(OTHER, node, mode=0o777), PERM), expect(ask.setattr(OWNER, node, uid=1001), PERM)
        expect(ask.setattr(OWNER, node, gid=GID, mtime=CLIENT_TIME), OK)
        equal(place.attributes(node), (oct(0o751), UID, GID), f"{KINDS[kind]} after a chgrp")
        expect(ask.setattr(ROOT, node, uid=7, gid=8, mode=0o2644), OK)
        equal(place.attributes(node), (oct(0o2644), 7, 8), f"{KINDS[kind]} of another")
        expect(ask.setattr(ROOT, node, size=0), INVAL, "a size"), expect(ask.setattr(OTHER, node, size=0), ACCES, "a size by another")
        expect(ask.setattr(ROOT, node, guard=words(1, 1), mode=0), NOT_SYNC)


def what_of_links_comes_first(ask):
    """LINK: STALE of the node, then ACCES, then INVAL of a directory, then what is wrong with the directory and the name."""
    place = Place(ask)
    closed, file = place.directory(0o700, name="closed"), place.file(0o000, name="file")
    listed = place.directory(0o755, name="listed")
    place.file(0o000, name="inner", where=closed), place.file(0o000, name="inner", where=listed)
    gone = place.file(0o000, name="gone")
    expect(ask.remove(ROOT, place.home, b"gone"), OK)
    gone_directory = place.directory(0o777, name="gone")
    expect(ask.rmdir(ROOT, place.home, b"gone"), OK)
    long = 256 * b"n"
    for node, directory, name, status in (
        (gone, closed, b"new", STALE), (gone, file, b"new", STALE), (closed, closed, b"new", ACCES), (closed, closed, long, ACCES),
        (file, closed, b"inner", ACCES), (closed, listed, b"new", ACCES), (closed, listed, b"inner", INVAL), (closed, listed, long, INVAL),
        (closed, file, b"new", INVAL), (closed, gone_directory, b"new", INVAL), (file, gone_directory, b"new", STALE),
        (file, file, b"new", NOTDIR), (file, listed, b"inner", EXIST), (file, listed, b".", EXIST), (file, listed, b"..", EXIST),
        (file, listed, long, NAMETOOLONG), (file, listed, b"new", ACCES), (place.home, place.home, b"new", INVAL),
    ):  # fmt: skip
        expect(ask.link(OTHER, node, directory, name), status, f"LINK to {name[:9]}")
    for told in (ask.symlink(OTHER, closed, b"inner", b""), ask.mknod(OTHER, closed, b"new", REGULAR), ask.symlink(OTHER, closed, long)):
        expect(told, ACCES)
    for told in (ask.symlink(OTHER, listed, b"inner", b""), ask.mknod(OTHER, listed, b"inner", REGULAR), ask.symlink(OTHER, listed, b".")):
        expect(told, EXIST)
    for told in (ask.symlink(OTHER, file, b"new", b""), ask.mknod(OTHER, file, b"new", BLOCK)):
        expect(told, NOTDIR)
    for told in (ask.symlink(OTHER, gone_directory, b"new"), ask.mknod(OTHER, gone_directory, b"new", BLOCK), ask.readlink(OTHER, gone)):
        expect(told, STALE)
    expect(ask.symlink(OTHER, place.home, long, b""), NAMETOOLONG), expect(ask.mknod(OTHER, place.home, long, REGULAR), NAMETOOLONG)


# ---- what comes first, and what a file keeps


def what_comes_first(ask):
    """STALE and what is no directory, or none, before ACCES; ACCES before what is wrong with a name, and before NOENT and EXIST."""
    place = Place(ask)
    closed, file = place.directory(0o700, name="closed"), place.file(0o000, name="file")
    place.file(0o000, name="inner", where=closed)
    gone = place.file(0o000, name="gone")
    expect(ask.remove(ROOT, place.home, b"gone"), OK)
    for told in (ask.read(OTHER, gone), ask.write(OTHER, gone), ask.setattr(OTHER, gone, mode=0), ask.commit(OTHER, gone)):
        expect(told, STALE)
    for told in (ask.lookup(OTHER, file, b"x"), ask.create(OTHER, file, b"x"), ask.remove(OTHER, file, b"x"), ask.readdir(OTHER, file)):
        expect(told, NOTDIR)
    long = 256 * b"n"
    for told in (
        ask.lookup(OTHER, closed, long), ask.create(OTHER, closed, long), ask.mkdir(OTHER, closed, b"."),
        ask.remove(OTHER, closed, b"none"),
        ask.mkdir(OTHER, closed, b"inner"), ask.create(OTHER, closed, b"inner", GUARDED), ask.rmdir(OTHER, closed, b"inner"),
        ask.rename(OTHER, closed, b"none", closed, long), ask.rename(OTHER, place.home, long, closed, b"new"),
        ask.write(OTHER, file, b"x", 1 << 60), ask.setattr(OTHER, file, size=1 << 60),
    ):  # fmt: skip
        expect(told, ACCES)
    expect(ask.setattr(OTHER, closed, size=1), ACCES, "a size of a directory by another")
    expect(ask.setattr(OWNER, closed, size=1), INVAL, "a size of a directory")


def a_handle_is_enough(ask):
    """A file below a closed directory is read and written by its handle; names aren't."""
    place = Place(ask)
    closed = place.directory(0o700, name="closed")
    node = place.file(0o646, where=closed)
    expect(ask.lookup(OTHER, closed, b"file"), ACCES)
    equal(expect(ask.read(OTHER, node), OK).value, b"bytes", "what is read")
    expect(ask.write(OTHER, node), OK)


def everywhere_in_a_file(ask):
    """Rights hold for each block of a file: after a chmod, a chown and a chgrp; and each WRITE ends set-id bits."""
    place = Place(ask)
    node = place.file(0o622, data=b"")
    places = [4096 * number for number in range(40)]
    for offset in places:
        expect(ask.setattr(ROOT, node, mode=0o6777), OK)
        expect(ask.write(OTHER, node, b"block", offset), OK)
        equal(place.attributes(node), (oct(0o777), UID, GID), f"after a WRITE at {offset} it")
    rights = lambda who: {(ask.read(who, node, offset).status, ask.write(who, node, b"block", offset).status) for offset in places}
    for given, owner, group, other in (
        ({"mode": 0o600}, (OK, OK), (ACCES, ACCES), (ACCES, ACCES)), ({"mode": 0o642}, (OK, OK), (OK, ACCES), (ACCES, OK)),
        ({"gid": 300}, (OK, OK), (ACCES, OK), (OK, ACCES)), ({"uid": 1004}, (ACCES, OK), (ACCES, OK), (OK, OK)),
        ({"mode": 0o111}, (OK, ACCES), (OK, ACCES), (OK, OK)),
        ({"uid": UID, "gid": GID, "mode": 0}, (OK, OK), (ACCES, ACCES), (ACCES, ACCES)),
    ):  # fmt: skip
        expect(ask.setattr(ROOT, node, **given), OK)
        for who, wanted in ((OWNER, owner), (GROUP, group), (OTHER, other)):
            equal(rights(who), {wanted}, f"after {shown(given)} what uid {who.uid} may read and write")
    equal(ask.getattr(ROOT, node).attributes.size, 39 * 4096 + 5, "the size")


def who_owns_is_asked_anew(ask):
    """A file that goes to another owner is the first one's no more."""
    place = Place(ask)
    node = place.file(0o600)
    expect(ask.write(OWNER, node), OK)
    expect(ask.setattr(ROOT, node, uid=1004), OK)
    expect(ask.write(OWNER, node), ACCES), expect(ask.read(OWNER, node), ACCES), expect(ask.setattr(OWNER, node, mode=0o666), PERM)
    expect(ask.write(OTHER, node), OK), expect(ask.read(OTHER, node), OK), expect(ask.setattr(OTHER, node, mode=0o400), OK)


def a_guard_comes_behind(ask):
    """What isn't permitted is told before the guard of a SETATTR is looked at, which would tell a time (NOT_SYNC)."""
    place = Place(ask)
    node = place.file(0o640)
    for who, given, status in (
        (OTHER, {"mode": 0o666}, PERM), (OTHER, {"size": 1}, ACCES), (GROUP, {}, ACCES), (OWNER, {"uid": 1001}, PERM),
        (OWNER, {"mode": 0o666}, NOT_SYNC), (OWNER, {"size": 1}, NOT_SYNC), (ROOT, {"uid": 1001}, NOT_SYNC),
    ):  # fmt: skip
        before = place.state()
        expect(ask.setattr(who, node, guard=words(1, 1), **given), status, f"{shown(given)} of uid {who.uid}")
        hold(place.state() == before, "something is changed")


def owners_are_restricted(ask):
    """PATHCONF's chown_restricted (section 3.3.20)."""
    for who in (ROOT, OTHER):
        equal(expect(ask.pathconf(who, ask.root), OK).value, True, "chown_restricted")


SPECIAL = (
    owner_and_group, a_foreign_group_is_kept, set_ids_end, set_ids_end_at_a_chown, set_ids_of_directories_stay,
    set_group_id_is_for_members, over_another_s_file, exclusive_again, a_directory_that_moves, both_directories, mounts_through,
    devices_are_for_uid_0, texts_of_symbolic_links, names_are_counted, two_names_of_one_node, kinds_that_replace_each_other,
    sticky_names_are_the_node_s_owner_s, special_files_have_attributes, what_of_links_comes_first,
    what_comes_first, a_handle_is_enough, everywhere_in_a_file, who_owns_is_asked_anew, a_guard_comes_behind, owners_are_restricted,
)  # fmt: skip


def rows():
    """All of them, each with its name."""
    for row in SPECIAL:
        yield row.__name__.replace("_", " "), row
    yield "a sticky directory", lambda ask: sticky(ask, 0o1777, False)
    yield "a directory that isn't sticky", lambda ask: sticky(ask, 0o777, True)
    yield from makings()
    yield from accesses()
    yield from matrix()
