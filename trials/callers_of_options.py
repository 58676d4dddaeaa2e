"""For whom `filer export` takes its callers, by its options: each check has servers of its own. What has to be is typed from
docs/OPERATING.md ("Who may do what"), RFC 1813 section 2.5 (ROFS, ACCES, PERM) and RFC 5531 section 8 (AUTH_TOOWEAK)."""

import contextlib
import subprocess
import threading
from types import SimpleNamespace

from peers import Server, export_at, hold, read_all
from permission_rows import equal, expect
from plain import ADMIN
from repeats import Nobody, User, record, to_set
from results import CREATE
from users import (
    ACCES, BADHANDLE, CLIENT_TIME, CHARACTER, EXCLUSIVE, FIFO, GUARDED, OK, PERM, REGULAR, ROFS, ROOT, SERVER_TIME, SOCKET,
    STALE, UNCHECKED, Users, high_port, low_port,
)  # fmt: skip
from xdr import opaque, words

ANN, BEN = User(1000, 100, (200,)), User(1001, 100, ())
NOBODY = Nobody()
# Volumes that may grow.
SMALL = ("--ranges", "4")


@contextlib.contextmanager
def exported(filer, *options, workers=2, **more):
    """A server with options, and users that ask it."""
    with Server(filer, None, workers, "export", (*SMALL, *options)) as server, Users(server, **more) as ask:
        ask.server = server
        yield ask


def owner(ask, node):
    """Mode, uid and gid."""
    found = expect(ask.getattr(ROOT, node), OK).attributes
    return oct(found.mode), found.uid, found.gid


def made(told):
    return expect(told, OK, "making something").node


def rights(ask, who, node):
    """Whether a user may read and write a file."""
    return ask.read(who, node).status == OK, ask.write(who, node).status == OK


# ---- the root


def the_root_is_as_named(filer):
    """Its mode and owner, and who makes names there."""
    for options, wanted, makers in (
        ((), (0o755, 0, 0), {"root"}),
        (("--root-mode", "1777"), (0o1777, 0, 0), {"root", "ann", "nobody"}),
        (("--root-mode", "0"), (0, 0, 0), {"root"}),
        (("--root-mode", "7777"), (0o7777, 0, 0), {"root", "ann", "nobody"}),
        (("--root-mode", "702"), (0o702, 0, 0), {"root"}),
        (("--squash", "none", "--anon", "5:6"), (0o755, 0, 0), {"root"}),
        (("--squash", "root"), (0o755, 65_534, 65_534), {"root", "nobody"}),
        (("--squash", "root", "--anon", "1000:7"), (0o755, 1000, 7), {"root", "nobody", "ann"}),
        (("--squash", "all"), (0o755, 65_534, 65_534), {"root", "nobody", "ann"}),
        (("--squash", "all", "--anon", "5:6", "--root-mode", "755"), (0o755, 0, 0), set()),
        (("--squash", "root", "--root-mode", "1777"), (0o1777, 0, 0), {"root", "nobody", "ann"}),
        (("--squash", "root", "--root-mode", "1755"), (0o1755, 0, 0), set()),
    ):  # fmt: skip
        with exported(filer, *options) as ask:
            equal(owner(ask, ask.root), (oct(wanted[0]), *wanted[1:]), f"with {options} the root")
            for name, who in (("root", ROOT), ("ann", ANN), ("nobody", NOBODY)):
                told = ask.mkdir(who, ask.root, name.encode())
                expect(told, OK if name in makers else ACCES, f"with {options} MKDIR by {name}")


def a_sticky_root(filer):
    with exported(filer, "--root-mode", "1777") as ask:
        node = made(ask.create(ANN, ask.root, b"ann"))
        equal(owner(ask, node), ("0o644", 1000, 100), "a file")
        expect(ask.remove(BEN, ask.root, b"ann"), ACCES)
        expect(ask.rename(BEN, ask.root, b"ann", ask.root, b"ben"), ACCES)
        expect(ask.remove(ANN, ask.root, b"ann"), OK)


# ---- for whom callers are taken


def nobody_is_anonymous(filer):
    """AUTH_NONE, and a credential of 65534 without further groups, are the anonymous user where callers are checked."""
    for options, wanted in (((), (65_534, 65_534)), (("--anon", "1000:6"), (1000, 6)), (("--anon", "0:0"), (0, 0))):
        with exported(filer, "--root-mode", "1777", *options) as ask:
            for name, who in ((b"none", NOBODY), (b"nobody", User(65_534, 65_534, ()))):
                equal(owner(ask, made(ask.create(who, ask.root, name)))[1:], wanted, f"with {options} {name} of nobody")
            # with a group that is somebody
            equal(owner(ask, made(ask.create(User(65_534, 65_534, (7,)), ask.root, b"one")))[1:], (65_534, 65_534), "a user of that number")
            equal(owner(ask, made(ask.create(User(65_534, 7, ()), ask.root, b"two")))[1:], (65_534, 7), "a user of that number")


def root_is_squashed(filer):
    """uid 0 is the anonymous user, and group 0 is its group, from any caller."""
    with exported(filer, "--squash", "root", "--root-mode", "1777") as ask:
        its = made(ask.create(ANN, ask.root, b"its", mode=0o600))
        shared = made(ask.create(ANN, ask.root, b"shared", mode=0o660, gid=200))
        expect(ask.write(ANN, its, b"secret"), OK), expect(ask.write(ANN, shared, b"shared"), OK)
        # it has no rights of its own, no further groups, and gives nothing away
        root = User(0, 0, (200, 100))
        for node in (its, shared):
            equal(rights(ask, root, node), (False, False), "what uid 0 may")
            for given in ({"mode": 0o777}, {"uid": 0}, {"gid": 0}, {"uid": 65_534}, {"mtime": CLIENT_TIME}):
                expect(ask.setattr(root, node, **given), PERM, f"{given} of uid 0")
            expect(ask.setattr(root, node, size=0), ACCES)
        expect(ask.remove(root, ask.root, b"its"), ACCES)
        equal(ask.access(root, its).value, 0, "ACCESS of uid 0")
        made_by_root = made(ask.create(root, ask.root, b"of root", mode=0o4755, uid=0, gid=0))
        equal(owner(ask, made_by_root), ("0o4755", 65_534, 65_534), "a file of uid 0")
        expect(ask.setattr(root, made_by_root, uid=0), PERM), expect(ask.setattr(root, made_by_root, gid=0), PERM)
        expect(ask.setattr(root, made_by_root, uid=65_534, gid=65_534, mode=0o640), OK)
        # group 0 is the anonymous one, first or among the further ones
        first, further = User(1002, 0, ()), User(1003, 5, (6, 0))
        equal(owner(ask, made(ask.create(first, ask.root, b"group", gid=0)))[1:], (1002, 65_534), "a file of group 0")
        for who in (first, further):
            equal(ask.read(who, made_by_root).status, OK, f"READ by group 0 of {who}")
            expect(ask.write(who, made_by_root), ACCES)
        equal(owner(ask, made(ask.create(further, ask.root, b"further", gid=65_534)))[1:], (1003, 65_534), "a file of a further group")
        expect(ask.setattr(further, made(ask.create(further, ask.root, b"another")), gid=0), PERM)
        # others stay whom they claim to be
        equal(rights(ask, ANN, its), (True, True), "what its owner may")


def all_are_squashed(filer):
    """Everybody is the anonymous user, without further groups."""
    with exported(filer, "--squash", "all", "--anon", "1000:100") as ask:
        for number, who in enumerate((ROOT, ANN, User(7, 8, (9, 300)), NOBODY)):
            node = made(ask.create(who, ask.root, b"%d" % number, mode=0o600, uid=7, gid=300))
            equal(owner(ask, node), ("0o600", 1000, 100), f"a file of {who}")
            equal(rights(ask, BEN, node), (True, True), "what another may")
            expect(ask.setattr(BEN, node, gid=300), PERM), expect(ask.setattr(ROOT, node, uid=0), PERM)
            expect(ask.setattr(BEN, node, mode=0o6755), OK)
            expect(ask.write(ROOT, node), OK)
            equal(owner(ask, node)[0], "0o755", "the mode after a WRITE of uid 0")
    with exported(filer, "--squash", "all", "--anon", "0:0") as ask:
        # whoever comes is uid 0
        equal(owner(ask, made(ask.create(ANN, ask.root, b"its", uid=7, gid=8)))[1:], (7, 8), "a file")


def ports_are_asked(filer):
    """With --privileged-ports who comes from a port from 1024 on is anonymous, and nobody else is."""
    with exported(filer, "--privileged-ports", "--anon", "1001:6", "--root-mode", "1777") as high:
        with Users(high.server, is_low=True) as low:
            equal(owner(low, made(low.create(ANN, low.root, b"ann", mode=0o600)))[1:], (1000, 100), "a file from a low port")
            equal(owner(low, made(low.create(ROOT, low.root, b"root", mode=0o600)))[1:], (0, 0), "a file of uid 0 from a low port")
            for number, who in enumerate((ANN, ROOT, BEN, NOBODY)):
                node = made(high.create(who, high.root, b"%d" % number, mode=0o600))
                equal(owner(low, node)[1:], (1001, 6), f"a file of {who} from a high port")
                expect(low.write(BEN, node), OK, "its owner from a low port")
                expect(low.write(ANN, node), ACCES, "another from a low port")
            for name in (b"ann", b"root"):
                node = low.lookup(ROOT, low.root, name).node
                equal(rights(high, ANN, node), (False, False), f"what uid 1000 may from a high port with {name}")
                equal(rights(high, ROOT, node), (False, False), f"what uid 0 may from a high port with {name}")
                equal(rights(low, ROOT, node), (True, True), f"what uid 0 may from a low port with {name}")
    with exported(filer, "--privileged-ports", "--squash", "root") as high, Users(high.server, is_low=True) as low:
        expect(low.mkdir(ANN, low.root, b"d"), ACCES), expect(low.mkdir(ROOT, low.root, b"d"), OK)
        expect(high.mkdir(ANN, high.root, b"e"), OK, "an anonymous caller in its root")
    # ports aren't asked without it
    with exported(filer) as high:
        expect(high.mkdir(ROOT, high.root, b"d"), OK)


# ---- networks that only read


def changing_calls(ask, who, directory, file):
    """One of each procedure that changes something, in several forms."""
    for given in ({"mode": 0o600}, {"size": 0}, {"mtime": SERVER_TIME}, {}):
        yield ask.setattr(who, file, **given)
    yield ask.setattr(who, directory, size=1)
    for data in (b"x", b""):
        yield ask.write(who, file, data)
    yield ask.write(who, file, b"x", 1 << 40)
    yield ask.write(who, directory)
    for how in (UNCHECKED, GUARDED, EXCLUSIVE):
        yield ask.create(who, directory, b"new", how)
        yield ask.create(who, directory, b"file", how)
        yield ask.create(who, file, b"new", how)
    for name in (b"new", b"file", b".", 256 * b"n"):
        yield ask.mkdir(who, directory, name)
        yield ask.remove(who, directory, name)
        yield ask.rmdir(who, directory, name)
        yield ask.rename(who, directory, name, directory, b"other")
        yield ask.symlink(who, directory, name)
        yield ask.link(who, file, directory, name)
        yield ask.link(who, directory, directory, name)
    yield ask.rename(who, file, b"x", directory, b"y")
    for kind in (CHARACTER, FIFO, REGULAR):
        yield ask.mknod(who, directory, b"new", kind)
    yield ask.symlink(who, directory, b"new", b"")
    yield ask.symlink(who, file, b"new")
    yield ask.link(who, file, file, b"new")


def reads_alone(ask, writer, name):
    """A peer that only reads is told ROFS by whatever changes something, before all but a bad handle; the rest is as ever."""
    directory = made(writer.mkdir(ROOT, writer.root, name, mode=0o777))
    file = made(writer.create(ROOT, directory, b"file", mode=0o640, uid=1000, gid=7))
    # what is written to a FIFO, a socket or a device changes nothing here, so that ACCESS gives w of it
    special = {
        made(writer.mknod(ROOT, directory, b"fifo", FIFO, mode=0o666)): 1 + 12, made(writer.mknod(ROOT, directory, b"s", SOCKET, mode=0o666)): 1 + 12,
        made(writer.mknod(ROOT, directory, b"device", CHARACTER, mode=0o666)): 1 + 12, made(writer.symlink(ROOT, directory, b"l", mode=0o666)): 1,
    }  # fmt: skip
    gone = made(writer.create(ROOT, directory, b"gone"))
    expect(writer.write(ROOT, file, b"bytes"), OK), expect(writer.remove(ROOT, directory, b"gone"), OK)
    before = [writer.whole(node) for node in (directory, file)]
    for who in (ROOT, ANN, BEN, NOBODY):
        for told in (*changing_calls(ask, who, directory, file), *changing_calls(ask, who, gone, gone)):
            expect(told, ROFS)
        expect(ask.setattr(who, b"bad", mode=0), BADHANDLE), expect(ask.write(who, b"bad"), BADHANDLE)
        expect(ask.remove(who, b"bad", b"x"), BADHANDLE)
        for told in (ask.symlink(who, b"bad", b"s"), ask.mknod(who, b"bad", b"m"), ask.link(who, file, b"bad", b"l")):
            expect(told, BADHANDLE)
        hold([writer.whole(node) for node in (directory, file)] == before, "something is changed")
        equal(expect(ask.lookup(who, directory, b"file"), OK).node, file, "LOOKUP")
        expect(ask.readdir(who, directory), OK), expect(ask.readdirplus(who, directory), OK), expect(ask.getattr(who, file), OK)
        expect(ask.mnt(who, b"/" + name), OK), expect(ask.pathconf(who, file), OK), expect(ask.fsstat(who, file), OK)
        expect(ask.getattr(who, gone), STALE)
        equal(ask.access(who, directory).value, 1 + 2, "ACCESS of a directory")
        for node, given in special.items():
            equal(ask.access(who, node).value, given, f"ACCESS of {ask.getattr(who, node).attributes}")
        equal(expect(ask.readlink(who, ask.lookup(who, directory, b"l").node), OK).value, b"target", "the text of a symbolic link")
    may_read = {True: OK, False: ACCES}
    for who, its in ((ROOT, True), (ANN, True), (BEN, False), (NOBODY, False)):
        expect(ask.read(who, file), may_read[its]), expect(ask.commit(who, file), may_read[its])
        equal(ask.access(who, file).value, 1 if its else 0, "ACCESS of a file")
    expect(writer.write(ROOT, file, b"bytes"), OK)


def some_only_read(filer):
    """By --allow and --allow-read: the network of the most bits counts, and among equal ones reading."""
    for networks, readers, writers, outside in (
        (("--allow", "127.0.0.1", "--allow-read", "127.0.0.2"), ("127.0.0.2",), ("127.0.0.1",), ("127.0.0.3",)),
        (("--allow-read", "127.0.0.2", "--allow", "127.0.0.0/8"), ("127.0.0.2",), ("127.0.0.1", "127.0.0.3"), ()),
        (("--allow-read", "127.0.0.0/8", "--allow", "127.0.0.1"), ("127.0.0.2", "127.0.0.3"), ("127.0.0.1",), ()),
        (("--allow", "127.0.0.2", "--allow-read", "127.0.0.2", "--allow", "127.0.0.1"), ("127.0.0.2",), ("127.0.0.1",), ("127.0.0.4",)),
        (
            ("--allow", "127.0.0.0/30", "--allow-read", "127.0.0.0/31", "--allow", "127.0.0.1"),
            (), ("127.0.0.1", "127.0.0.3"), ("127.0.0.4",),
        ),
    ):  # fmt: skip
        with exported(filer, *networks) as first:
            for host in writers:
                with Users(first.server, host) as ask:
                    expect(ask.mkdir(ROOT, ask.root, host.encode()), OK, f"{networks}: MKDIR from {host}")
            for host in readers:
                with Users(first.server, host) as ask:
                    reads_alone(ask, first, b"for " + host.encode())
            for host in outside:
                with contextlib.closing(high_port(first.server.address, host)) as peer:
                    hold(is_closed(peer), f"{networks}: {host} is served")


def is_closed(peer):
    """Whether a connection is closed before anything is answered."""
    with contextlib.suppress(OSError):
        peer.sendall(record(1, 0, b""))
        return read_all(peer)[0] == b""
    return True


def all_only_read(filer):
    """Where --allow-read is given alone nobody changes anything; and the rule holds where callers aren't checked."""
    with exported(filer, "--allow-read", "127.0.0.0/8") as ask:
        for who in (ROOT, ANN):
            expect(ask.mkdir(who, ask.root, b"d"), ROFS)
            expect(ask.readdir(who, ask.root), OK)
    with exported(filer, "--no-permission-checks", "--allow", "127.0.0.1", "--allow-read", "127.0.0.2") as first:
        file = made(first.create(ANN, first.root, b"file", mode=0))
        with Users(first.server, "127.0.0.2") as ask:
            for told in changing_calls(ask, ROOT, ask.root, file):
                expect(told, ROFS)
            expect(ask.read(BEN, file), OK)
            equal(ask.access(ROOT, ask.root).value, 3, "ACCESS")
        expect(first.write(BEN, file), OK)


class AtAllAddresses:
    """A server that listens at `[::]`, as it is reached by IPv4 and by IPv6."""

    def __init__(self, filer, *options):
        command = [filer, "export", "--listen", "[::]:0", "--workers", "2", *SMALL, *options]
        self.process = subprocess.Popen(command, stdout=subprocess.PIPE, stderr=subprocess.DEVNULL, text=True)
        self.port = int(self.process.stdout.readline().rsplit(":", 1)[1])
        self.service = export_at(("127.0.0.1", self.port))

    def users(self, host):
        """Users that come from an address of this machine."""
        reached = "::1" if ":" in host else "127.0.0.1"
        return Users(SimpleNamespace(address=(reached, self.port), service=self.service), host)

    def __enter__(self):
        return self

    def __exit__(self, *_):
        self.process.kill()
        self.process.wait()
        self.process.stdout.close()


def some_only_read_at_all_addresses(filer):
    """Who comes by IPv4 to a listener at `[::]` goes by the networks of IPv4."""
    ipv4 = ("--allow-read", "127.0.0.2", "--allow", "127.0.0.0/8", "--allow", "::1")
    ipv6 = ("--allow-read", "::/0", "--allow", "127.0.0.1", "--allow-read", "127.0.0.2")
    for networks, readers, writers in ((ipv4, ("127.0.0.2",), ("127.0.0.1", "::1")), (ipv6, ("::1", "127.0.0.2"), ("127.0.0.1",))):
        with AtAllAddresses(filer, *networks) as server, server.users("127.0.0.1") as first:
            for host in writers:
                with server.users(host) as ask:
                    expect(ask.mkdir(ROOT, ask.root, host.encode()), OK, f"{networks}: MKDIR from {host}")
            for host in readers:
                with server.users(host) as ask:
                    reads_alone(ask, first, b"for " + host.encode())


# ---- where nobody is checked


def nobody_is_checked(filer):
    """With --no-permission-checks modes are told and guard nothing, and a new node has the owner that it is given."""
    with exported(filer, "--no-permission-checks") as ask:
        file = made(ask.create(ANN, ask.root, b"file", mode=0o6000, uid=0, gid=7))
        equal(owner(ask, file), ("0o6000", 0, 7), "a file")
        equal(rights(ask, BEN, file), (True, True), "what another may")
        equal(owner(ask, file), ("0o6000", 0, 7), "a file that was written")
        expect(ask.setattr(BEN, file, mode=0o4700, uid=1000, gid=8, mtime=CLIENT_TIME), OK)
        equal(owner(ask, file), ("0o4700", 1000, 8), "a file that was set")
        expect(ask.create(BEN, ask.root, b"file", UNCHECKED, mode=0o666), OK)
        equal(owner(ask, file), ("0o666", 1000, 8), "a file that UNCHECKED was over")
        closed = made(ask.mkdir(BEN, ask.root, b"closed", mode=0, uid=0))
        inner = made(ask.create(ANN, closed, b"inner"))
        hold(None not in ask.readdirplus(ANN, closed).value.values(), "READDIRPLUS tells no attributes")
        expect(ask.lookup(ANN, closed, b"inner"), OK), expect(ask.mnt(ANN, b"/closed"), OK)
        expect(ask.rename(BEN, closed, b"inner", ask.root, b"moved"), OK)
        expect(ask.rmdir(NOBODY, ask.root, b"closed"), OK), expect(ask.remove(NOBODY, ask.root, b"moved"), OK)
        equal(ask.pathconf(ANN, ask.root).value, False, "chown_restricted")
        # of a mode w alone gives MODIFY, EXTEND and DELETE of a directory
        node = made(ask.mkdir(ANN, ask.root, b"w", mode=0o200))
        equal(ask.access(ANN, node).value, 28, "ACCESS")
        equal(ask.getattr(ANN, inner).status, STALE, "a file that is gone")


def serve_checks_nobody(filer):
    """`serve` has no such rules."""
    with Server(filer, 1000) as server, Users(server) as ask:
        file = made(ask.create(ANN, ask.root, b"file", mode=0o600, uid=0))
        equal(owner(ask, file), ("0o600", 0, 100), "a file")
        equal(rights(ask, BEN, file), (True, True), "what another may")
        expect(ask.setattr(BEN, file, mode=0o4755, uid=7), OK)
        expect(ask.write(BEN, file), OK)
        equal(owner(ask, file), ("0o4755", 7, 100), "a file that was written")
        expect(ask.remove(NOBODY, ask.root, b"file"), OK)


# ---- calls at the same time


def rights_hold_meanwhile(filer):
    """While others write to all blocks of a file, on connections of their own: once a chmod is answered, each WRITE and READ goes by it,
    and once a WRITE is answered set-id bits are gone."""
    offsets, told, is_over = [4096 * number for number in range(16)], set(), threading.Event()

    def write_on(ask, file, first):
        while not is_over.is_set():
            told.add(ask.write(BEN, file, b"meanwhile", offsets[first % 16]).status)
            first += 5

    with exported(filer, "--root-mode", "1777", workers=4) as ask, contextlib.ExitStack() as stack:
        file = made(ask.create(ANN, ask.root, b"file"))
        writers = [stack.enter_context(Users(ask.server)) for _ in range(6)]
        threads = [threading.Thread(target=write_on, args=(it, file, number)) for number, it in enumerate(writers)]
        for thread in threads:
            thread.start()
        try:
            for turn in range(100):
                expect(ask.setattr(ANN, file, mode=0o600), OK)
                equal({ask.write(BEN, file, b"x", offset).status for offset in offsets}, {ACCES}, "WRITE once it is closed")
                equal({ask.read(BEN, file, offset).status for offset in offsets}, {ACCES}, "READ once it is closed")
                expect(ask.setattr(ANN, file, mode=0o6777), OK)
                expect(ask.write(BEN, file, b"x", offsets[turn % 16]), OK)
                equal(owner(ask, file), ("0o777", 1000, 100), "after a WRITE it")
        finally:
            is_over.set()
            for thread in threads:
                thread.join()
        equal(told, {OK, ACCES}, "what those are told that write meanwhile")


# ---- calls that come again


def a_reply_is_remembered(filer):
    """A call that comes again is told its first reply, though its caller may no longer make it; another user's isn't."""
    # one connection, of whose calls none takes the place of another
    with exported(filer, lanes=1) as ask:
        where = made(ask.mkdir(ROOT, ask.root, b"where", mode=0o777))
        asked = record(0x1111, CREATE, opaque(where) + opaque(b"new") + words(GUARDED) + to_set(), ANN)
        reply = ask.reply(asked)
        equal(reply[28:32], words(OK), "the first")
        expect(ask.setattr(ROOT, where, mode=0o700), OK)
        equal(ask.reply(asked), reply, "the same again")
        other = record(0x1111, CREATE, opaque(where) + opaque(b"new") + words(GUARDED) + to_set(), BEN)
        equal(ask.reply(other)[28:32], words(ACCES), "another user's")
        # one that was refused is looked at anew
        refused = record(0x2222, CREATE, opaque(where) + opaque(b"another") + words(GUARDED) + to_set(), ANN)
        equal(ask.reply(refused)[28:32], words(ACCES), "one that is refused")
        expect(ask.setattr(ROOT, where, mode=0o777), OK)
        equal(ask.reply(refused)[28:32], words(OK), "the same once it may be")


# ---- the admin program


def admin_by(peer, who, procedure, arguments=b""):
    """What is told of a call of the admin program, behind its xid."""
    peer.sendall(record(9, procedure, arguments, who, ADMIN))
    peer.settimeout(20)
    return peer.recv(1000)[8:]


def admin_is_for_root(filer):
    """GROW and STOP are for uid 0 as it calls itself, whoever is squashed, from a port below 1024 of a peer that may change things; CENSUS
    is for all."""
    weak, grow = words(1, 1, 1, 5), words(0, 1)
    for options in ((), ("--squash", "root"), ("--squash", "all"), ("--privileged-ports", "--anon", "0:0")):
        networks = ("--allow", "127.0.0.0/8", "--allow-read", "127.0.0.2")
        with exported(filer, *options, *networks) as ask:
            address = ask.server.address
            for connect, host, who in (
                (high_port, "127.0.0.1", ROOT), (high_port, "127.0.0.1", ANN), (high_port, "127.0.0.1", NOBODY),
                (low_port, "127.0.0.1", ANN), (low_port, "127.0.0.1", NOBODY), (low_port, "127.0.0.1", User(65_534, 0, ())),
                (low_port, "127.0.0.2", ROOT), (high_port, "127.0.0.2", ROOT), (low_port, "127.0.0.1", User(1000, 0, (0,))),
            ):  # fmt: skip
                with contextlib.closing(connect(address, host)) as peer:
                    equal(admin_by(peer, who, 2, grow), weak, f"with {options} GROW of {who} at {host}")
                    equal(admin_by(peer, who, 3), weak, f"with {options} STOP of {who} at {host}")
                    equal(admin_by(peer, who, 1)[:4], words(1), f"with {options} CENSUS of {who} at {host}")
                    hold(admin_by(peer, who, 1)[4:20] == words(0, 0, 0, 0), "CENSUS isn't done")
            with contextlib.closing(low_port(address, "127.0.0.3")) as peer:
                # five ranges of 1,024 blocks
                equal(admin_by(peer, ROOT, 2, grow), words(1, 0, 0, 0, 0, 0, 0, 5120), f"with {options} GROW of uid 0")
                equal(admin_by(peer, ROOT, 3), words(1, 0, 0, 0, 0), f"with {options} STOP of uid 0")
            hold(ask.server.process.wait(20) == 0, f"with {options} the server doesn't end well")


CHECKS = (
    the_root_is_as_named, a_sticky_root, nobody_is_anonymous, root_is_squashed, all_are_squashed, ports_are_asked, some_only_read,
    some_only_read_at_all_addresses, all_only_read, nobody_is_checked, serve_checks_nobody, rights_hold_meanwhile, a_reply_is_remembered,
    admin_is_for_root,
)  # fmt: skip
