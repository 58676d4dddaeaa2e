"""Calls of each procedure of `export`, such as succeed and such as fail, with what a dissector
has to show of them."""

import results
from peers import hold
from plain import ADMIN, MOUNT, NFS, VERSIONS, call_of
from repeats import NAMES as DONE_ONCE
from xdr import BLOCK, CHARACTER, DIRECTORY, FIFO, REGULAR, SOCKET, SYMBOLIC_LINK, hyper, opaque, words

NAMES = {
    NFS: (
        "NULL GETATTR SETATTR LOOKUP ACCESS READLINK READ WRITE CREATE MKDIR SYMLINK MKNOD REMOVE"
        " RMDIR RENAME LINK READDIR"
        " READDIRPLUS FSSTAT FSINFO PATHCONF COMMIT"
    ).split(),
    MOUNT: "NULL MNT DUMP UMNT UMNTALL EXPORT".split(),
    ADMIN: "NULL CENSUS GROW STOP".split(),
}
# authsys_parms (RFC 5531, appendix A): a stamp, a machine's name, uid, gid and one group
USER = words(1) + opaque(words(7) + opaque(b"capture") + words(1000, 100, 1, 10))
UNSET = words(0, 0, 0, 0, 0, 0)
LARGE = 65_536


class Asked:
    """A call, with the results that it has to get, as far as these are said: a status, or all."""

    def __init__(
        self, service, program, procedure, arguments=b"", status=results.OK, version=None, user=USER
    ):
        self.service, self.program, self.procedure, self.arguments = (
            service,
            program,
            procedure,
            arguments,
        )
        self.version, self.status, self.user = version or VERSIONS[program], status, user
        names = NAMES[program]
        # one that isn't there is shown by its number
        self.name = names[procedure] if procedure < len(names) else f"proc-{procedure}"

    def record(self, xid):
        head = words(xid, 0, 2, self.program, self.version, self.procedure)
        self.body = head + self.user + words(0, 0) + self.arguments
        return words(0x8000_0000 | len(self.body)) + self.body

    def heard(self, reply):
        """Looks whether the reply is one to this call."""
        found = call_of(self.body, self.service)
        hold(
            reply == found if isinstance(found, bytes) else found.is_reply(reply),
            f"{self.name} is answered {reply[:60].hex()}",
        )
        if self.status is not None:
            hold(
                reply[28:32] == words(self.status),
                f"{self.name} is answered with the status {reply[28:32].hex()}",
            )

    def is_done_once(self):
        """Whether it is told its first reply where it comes again: of those that are, each that succeeds."""
        return self.program == NFS and self.procedure in DONE_ONCE and self.status == results.OK

    def is_shown(self, protocol, protocols, info, way):
        """Whether this is how a dissector shows the call or its reply, by the name of its
        protocol, those of all protocols in the packet, and its words."""
        is_named = info.startswith(f"V{self.version} {self.name} {way}")
        if self.program == ADMIN:
            # a program of which it knows nothing, and no name of a procedure
            return "RPC" in protocol and way in info
        # bytes that the procedure's own dissector leaves would be shown as data
        is_whole = protocols.endswith((":rpc", ":rpc:nfs", ":rpc:mount"))
        return is_named and is_whole and protocol == ("NFS" if self.program == NFS else "MOUNT")


def to_read(file, count=LARGE):
    return file + hyper(0) + words(count)


def to_write(file, data):
    return file + hyper(0) + words(len(data), 2) + opaque(data)


def on_nodes(service):
    """Calls of NFS that succeed, in an order in which they can. The root of a new run has fileid
    1, and what is made in it 2, 3 and so on (docs/SPECIFICATION.md)."""
    root, file, directory = (opaque(service.handle(0, fileid)) for fileid in (1, 2, 5))
    entry = lambda name: root + opaque(name)
    page = root + hyper(0) + bytes(8)
    data = bytes(range(256)) * (LARGE // 256)
    asked = lambda procedure, arguments: Asked(service, NFS, procedure, arguments)
    return [
        asked(results.FSINFO, root),
        asked(results.PATHCONF, root),
        asked(results.FSSTAT, root),
        asked(results.GETATTR, root),
        asked(results.ACCESS, root + words(0x3F)),
        asked(results.CREATE, entry(b"file") + words(0, 1, 0o644) + UNSET[4:]),
        asked(results.CREATE, entry(b"guarded") + words(1) + UNSET),
        asked(results.CREATE, entry(b"exclusive") + words(2) + b"verifier"),
        asked(results.MKDIR, entry(b"directory") + UNSET),
        asked(results.LOOKUP, entry(b"file")),
        asked(results.SETATTR, file + words(0, 1, 1000, 1, 100, 1, 0, 5, 1, 2, 7, 0, 0)),
        asked(results.WRITE, to_write(file, b"some bytes")),
        asked(results.WRITE, to_write(file, data)),
        asked(results.READ, to_read(file, 10)),
        asked(results.READ, to_read(file)),
        asked(results.COMMIT, to_read(file, 0)),
        asked(results.ACCESS, file + words(0x3F)),
        asked(results.READDIR, page + words(4096)),
        asked(results.READDIR, page + words(200)),
        asked(results.READDIRPLUS, page + words(4096, 8192)),
        asked(results.READDIRPLUS, page + words(64, 8192)),
        asked(results.RENAME, entry(b"guarded") + directory + opaque(b"moved")),
        asked(results.REMOVE, directory + opaque(b"moved")),
        asked(results.RMDIR, entry(b"directory")),
    ]


def on_links_and_special_files(service):
    """Calls on symbolic links, special files and further names, such as succeed and such as are refused. The first has fileid 6."""
    root, file, symbolic = (opaque(service.handle(0, fileid)) for fileid in (1, 2, 6))
    entry = lambda name: root + opaque(name)
    given = words(1, 0o640, 1, 1000, 1, 100, 0, 1, 2, 7, 0)
    asked = lambda procedure, arguments, status=results.OK: Asked(service, NFS, procedure, arguments, status)
    make = lambda name, kind, behind=UNSET: asked(results.MKNOD, entry(name) + words(kind) + behind)
    return [
        asked(results.SYMLINK, entry(b"symbolic") + UNSET + opaque(b"../a target")),
        asked(results.SYMLINK, entry(b"longest") + given + opaque(b"t" * 1024)),
        asked(results.READLINK, symbolic),
        asked(results.GETATTR, symbolic),
        asked(results.ACCESS, symbolic + words(0x3F)),
        make(b"fifo", FIFO),
        make(b"socket", SOCKET, given),
        make(b"block", BLOCK, UNSET + words(8, 1)),
        make(b"character", CHARACTER, given + words(2**32 - 1, 2**32 - 2)),
        asked(results.LINK, file + entry(b"hard")),
        asked(results.LINK, symbolic + entry(b"other")),
        asked(results.READDIRPLUS, root + hyper(0) + bytes(8) + words(4096, 8192)),
        asked(results.RENAME, entry(b"hard") + entry(b"file")),
        asked(results.RENAME, entry(b"fifo") + entry(b"socket")),
        asked(results.REMOVE, entry(b"other")),
        asked(results.READLINK, file, results.INVAL),
        asked(results.SYMLINK, entry(b"file") + UNSET + opaque(b"text"), results.EXIST),
        asked(results.SYMLINK, entry(b"new") + UNSET + opaque(b""), results.NOENT),
        asked(results.SYMLINK, entry(b"new") + UNSET + opaque(b"t" * 1025), results.NAMETOOLONG),
        *(asked(results.MKNOD, entry(b"new") + words(kind), results.BADTYPE) for kind in (REGULAR, DIRECTORY, SYMBOLIC_LINK)),
        asked(results.MKNOD, file + opaque(b"new") + words(FIFO) + UNSET, results.NOTDIR),
        asked(results.LINK, root + entry(b"new"), results.INVAL),
        asked(results.LINK, file + opaque(service.handle(1)) + opaque(b"new"), results.XDEV),
    ]


def on_nothing(service):
    """Each procedure on a handle that names no file, and on one that is none."""
    other = lambda file, status: [
        Asked(service, NFS, procedure, arguments, status)
        for procedure, arguments in (
            (results.GETATTR, file),
            (results.SETATTR, file + UNSET + words(0)),
            (results.LOOKUP, file + opaque(b"name")),
            (results.ACCESS, file + words(0x3F)),
            (results.READ, to_read(file)),
            (results.WRITE, to_write(file, b"bytes")),
            (results.CREATE, file + opaque(b"name") + words(0) + UNSET),
            (results.MKDIR, file + opaque(b"name") + UNSET),
            (results.READLINK, file),
            (results.SYMLINK, file + opaque(b"name") + UNSET + opaque(b"text")),
            (results.MKNOD, file + opaque(b"name") + words(FIFO) + UNSET),
            (results.MKNOD, file + opaque(b"name") + words(CHARACTER) + UNSET + words(1, 3)),
            (results.LINK, 2 * file + opaque(b"name")),
            (results.REMOVE, file + opaque(b"name")),
            (results.RMDIR, file + opaque(b"name")),
            (results.RENAME, 2 * (file + opaque(b"name"))),
            (results.READDIR, file + hyper(0) + bytes(8) + words(4096)),
            (results.READDIRPLUS, file + hyper(0) + bytes(8) + words(4096, 8192)),
            (results.FSSTAT, file),
            (results.FSINFO, file),
            (results.PATHCONF, file),
            (results.COMMIT, to_read(file)),
        )
    ]
    stale, bad = opaque(service.handle(0, 99)), opaque(service.handle(0, 1)[:12])
    return other(stale, results.STALE) + other(bad, results.BADHANDLE)


def on_mounts(service):
    """Each procedure of MOUNT, with refusals, and of a version of which there is none."""
    asked = lambda procedure, path=None, status=results.OK: Asked(
        service, MOUNT, procedure, b"" if path is None else opaque(path), status
    )
    return [
        asked(0, status=None),
        asked(results.MNT, b"/vol0"),
        asked(results.MNT, b"/vol1"),
        asked(results.MNT, b"//vol1/./"),
        asked(results.MNT, b"/vol1/nothing", results.NOENT),
        asked(results.MNT, b"/vol0/..", results.ACCES),
        asked(results.MNT, b"/nothing", results.NOENT),
        asked(results.MNT, b"nothing", results.INVAL),
        asked(results.MNT, b"/" + b"p" * 1023, results.NOENT),
        asked(results.DUMP, status=None),
        asked(results.UMNT, b"/vol1", None),
        asked(results.UMNTALL, status=None),
        asked(results.EXPORT, status=None),
        Asked(service, MOUNT, 0, status=None, version=1),
    ]


def calls(service):
    """All of them."""
    admin = [Asked(service, ADMIN, procedure, status=None) for procedure in (0, 1, 3)]
    admin.append(Asked(service, ADMIN, 2, words(0, 1)))
    refused = [Asked(service, NFS, 99, status=None, user=words(0, 0))]
    nulls = [
        Asked(service, NFS, 0, status=None),
        Asked(service, NFS, 0, status=None, user=words(0, 0)),
    ]
    nfs = on_nodes(service) + on_links_and_special_files(service) + on_nothing(service)
    return nulls + on_mounts(service) + nfs + admin + refused
