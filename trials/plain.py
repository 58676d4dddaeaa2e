"""A plain reader of streams, records and calls, and a plain writer of replies.

It is written from RFC 4506 (XDR), RFC 5531 (RPC, record marking), RFC 1813 (NFS version 3, MOUNT)
and the choices of docs/SPECIFICATION.md, and knows nothing of the program: it says what the program
has to do.
"""

import results
from results import BADHANDLE, FAILURE_PARTS, LINKS_AND_DEVICES, NOENT, OK, XDEV
from xdr import NoSpelling, Reader, hyper, words

MOST_OF_A_RECORD = 131_072
NFS, MOUNT, ADMIN = 100_003, 100_005, 0x2000_0001
VERSIONS = {NFS: 3, MOUNT: 3, ADMIN: 1}
RECORD_TOO_LONG, BAD_HEADER, NOT_A_CALL = 11, 12, 13
# Whom a call without a credential acts for: uid, gid and further groups.
NOBODY = (65_534, (65_534,))
MIB = 2**20

NOT_BASIC = (
    results.ACCESS,
    results.READDIRPLUS,
    results.FSINFO,
    results.PATHCONF,
    *LINKS_AND_DEVICES,
)
BASIC = {NFS: {0, *FAILURE_PARTS} - set(NOT_BASIC), ADMIN: {0, 1, 2}}
ALL = {NFS: {0, *FAILURE_PARTS}, MOUNT: set(range(6)), ADMIN: {0, 1, 2, 3}}


class Service:
    """What a server offers, of how many volumes, how its handles end, and the times of its roots."""

    def __init__(self, offer, volumes, largest, verifier=b"", begun=bytes(8)):
        self.offer, self.volumes, self.largest, self.verifier = offer, volumes, largest, verifier
        self.begun = begun

    def handle(self, volume, fileid=1):
        return words(volume) + hyper(fileid) + self.verifier

    def node(self, handle):
        """The volume and fileid that a handle names, or None where it is bad. One of another run
        names fileid 0, which no file has."""
        volume, fileid = int.from_bytes(handle[:4], "big"), int.from_bytes(handle[4:12], "big")
        if len(handle) != 12 + len(self.verifier) or volume >= self.volumes:
            return None
        return volume, fileid if handle[12:] == self.verifier else 0


def basic(volumes):
    """`replay` and `serve`."""
    return Service(BASIC, volumes, 16 * MIB)


def exporting(volumes, verifier, begun=bytes(8)):
    """`export`, whose handles have the verifier of the run, and whose roots the time of its start
    where that is told."""
    return Service(ALL, volumes, 64 * MIB, verifier, begun)


def arguments_of_mount(r, procedure):
    return (r.opaque(),) if procedure in (results.MNT, results.UMNT) else ()


def arguments_of_nfs(r, procedure):
    """The parts of a call's arguments that say what it asks."""
    parts = ()
    if procedure in (
        results.GETATTR,
        results.READLINK,
        results.FSSTAT,
        results.FSINFO,
        results.PATHCONF,
    ):
        parts = (r.handle(),)
    elif procedure == results.SETATTR:
        parts = (r.handle(),)
        r.to_set()
        r.optional(r.time)
    elif procedure in (results.LOOKUP, results.REMOVE, results.RMDIR):
        parts = r.where()
    elif procedure == results.ACCESS:
        parts = (r.handle(), r.word())
    elif procedure in (results.READ, results.COMMIT):
        parts = (r.handle(), r.hyper(), r.word())
    elif procedure == results.WRITE:
        parts = (r.handle(), r.hyper(), r.word())
        r.choice(0, 1, 2)
        r.opaque()
    elif procedure == results.CREATE:
        parts = r.where()
        if r.choice(0, 1, 2) == 2:
            r.fixed(8)
        else:
            r.to_set()
    elif procedure == results.MKDIR:
        parts = r.where()
        r.to_set()
    elif procedure == results.SYMLINK:
        parts = (*r.where(), r.to_set(), r.opaque())
    elif procedure == results.MKNOD:
        parts = (*r.where(), r.node_to_make())
    elif procedure == results.RENAME:
        parts = r.where() + r.where()
    elif procedure == results.LINK:
        parts = (r.handle(), *r.where())
    elif procedure == results.READDIR:
        parts = (r.handle(), r.hyper(), r.fixed(8), r.word())
    elif procedure == results.READDIRPLUS:
        parts = (r.handle(), r.hyper(), r.fixed(8), r.word(), r.word())
    return parts


def arguments(program, procedure, data):
    """The parts of a call's arguments: handles, names and numbers."""
    r = Reader(data)
    if program == NFS:
        parts = arguments_of_nfs(r, procedure)
    elif program == MOUNT:
        parts = arguments_of_mount(r, procedure)
    else:
        parts = (r.word(), r.word()) if procedure == 2 else ()
    r.end()
    return parts


def record(body):
    """A reply record: one fragment."""
    return words(0x8000_0000 | len(body)) + body


def accepted(xid, status, results_of_it=b""):
    return record(words(xid, 1, 0, 0, 0, status) + results_of_it)


def denied(xid, *arm):
    return record(words(xid, 1, 1, *arm))


class Call:
    """A call that is served, with what has to be known of its arguments, and for whom it acts."""

    def __init__(self, service, xid, program, procedure, user, parts):
        self.service, self.xid, self.user, self.parts = service, xid, user, parts
        self.program, self.procedure = program, procedure
        self.is_nfs, self.is_mount = program == NFS, program == MOUNT

    def succeeded(self, results_of_it):
        return accepted(self.xid, 0, results_of_it)

    def failure(self, status):
        return self.succeeded(words(status, *[0] * FAILURE_PARTS[self.procedure]))

    def node(self, part=0):
        """The volume and the fileid that a handle names, if it may name one."""
        return self.service.node(self.parts[part])

    def at_once(self):
        """The reply to a call that waits for nothing, or None."""
        if self.procedure == 0:
            return accepted(self.xid, 0)
        if self.program == ADMIN and self.procedure == 3:
            # AUTH_TOOWEAK: no peer of a trial has a port below 1024 but those of `stopping`
            return denied(self.xid, 1, 5)
        if self.program == ADMIN:
            is_unknown = self.procedure == 2 and self.parts[0] >= self.service.volumes
            return self.succeeded(words(NOENT)) if is_unknown else None
        if self.is_mount:
            told = results.mount_results(self.procedure, self.parts, self.service)
            return None if told is None else self.succeeded(told)
        if self.node() is None:
            return self.failure(BADHANDLE)
        # where the second handle of two stands
        other = {results.RENAME: 2, results.LINK: 1}.get(self.procedure)
        if other:
            if self.node(other) is None:
                return self.failure(BADHANDLE)
            if self.node(other)[0] != self.node()[0]:
                return self.failure(XDEV)
        return None

    def of_an_empty_server(self):
        """The reply of a server with nothing but roots, to a call that changes nothing and waits;
        None where that isn't said."""
        if self.is_mount:
            return self.succeeded(words(results.empty_mount(self.parts[0])))
        if not self.is_nfs:
            return None
        found = results.of_an_empty_server(self)
        if isinstance(found, int):
            return self.failure(found)
        return found and self.succeeded(words(OK) + found)

    def is_reply(self, reply):
        """Whether bytes may be the reply to this call that a server gives which had memory."""
        known = self.at_once()
        if known:
            return reply == known
        if len(reply) < 28:
            return False
        head = words(0x8000_0000 | (len(reply) - 4), self.xid, 1, 0, 0, 0, 0)
        return reply[:28] == head and results.are_results(self, reply[28:])


def user_of(body):
    """Whom a credential's body names that is exactly one authsys_parms (RFC 5531, appendix A): the
    uid and all groups; else None."""
    r = Reader(body)
    try:
        r.word(), r.opaque(255)
        uid, gid, count = r.word(), r.word(), r.word()
        if count > 16:
            return None
        groups = [r.word() for _ in range(count)]
        r.end()
    except NoSpelling:
        return None
    return uid, (gid, *groups)


def call_of(data, service):
    """What a record is: a fault's number, a reply that refuses it, or a Call. The first that
    applies decides."""
    size = len(data)
    at = lambda place: int.from_bytes(data[place : place + 4], "big")
    if size < 8:
        return BAD_HEADER
    if at(4) != 0:
        return NOT_A_CALL
    if size < 12:
        return BAD_HEADER
    xid = at(0)
    if at(8) != 2:
        return denied(xid, 0, 2, 2)
    if size < 32:
        return BAD_HEADER
    program, version, procedure, flavor, length = at(12), at(16), at(20), at(24), at(28)
    if flavor not in (0, 1):
        return denied(xid, 1, 2)
    if length > 400:
        return denied(xid, 1, 1)
    behind = 32 + (length + 3) // 4 * 4
    if size < behind:
        return BAD_HEADER
    body, padding = data[32 : 32 + length], data[32 + length : behind]
    user = user_of(body) if flavor == 1 else NOBODY
    if any(padding) or user is None:
        return denied(xid, 1, 1)
    verifier = Reader(data[behind:])
    try:
        verifier.word(), verifier.opaque(400)
    except NoSpelling:
        return BAD_HEADER
    if program not in service.offer:
        return accepted(xid, 1)
    if version != VERSIONS[program]:
        return accepted(xid, 2, words(VERSIONS[program], VERSIONS[program]))
    if procedure not in service.offer[program]:
        return accepted(xid, 3)
    try:
        parts = arguments(program, procedure, data[behind + verifier.at :])
    except NoSpelling:
        return accepted(xid, 4)
    return Call(service, xid, program, procedure, user, parts)


class Stream:
    """The bytes of a connection, however cut (RFC 5531, section 11)."""

    def __init__(self, service):
        self.service, self.fault = service, 0
        self.head, self.left, self.is_last, self.body = b"", 0, False, b""

    def next_record(self, data):
        """How many bytes are taken up to the end of a record or a fault, and the record if one
        ends there."""
        taken = 0
        while True:
            if self.left == 0 and not (len(self.head) == 4):
                part = data[taken : taken + 4 - len(self.head)]
                self.head += part
                taken += len(part)
                if len(self.head) < 4:
                    return taken, None
                header = int.from_bytes(self.head, "big")
                self.left, self.is_last = header & 0x7FFF_FFFF, header >= 0x8000_0000
                if len(self.body) + self.left > MOST_OF_A_RECORD:
                    self.fault = RECORD_TOO_LONG
                    return taken, None
            part = data[taken : taken + self.left]
            self.body += part
            self.left -= len(part)
            taken += len(part)
            if self.left > 0:
                return taken, None
            self.head = b""
            if self.is_last:
                whole, self.body = self.body, b""
                return taken, whole

    def feed(self, data):
        """How many bytes are taken, the fault that stops it or 0, and what the records are:
        replies and calls that wait."""
        taken, heard = 0, []
        while taken < len(data):
            count, whole = self.next_record(data[taken:])
            taken += count
            if self.fault:
                break
            if whole is None:
                continue
            found = call_of(whole, self.service)
            if isinstance(found, int):
                self.fault = found
                break
            if isinstance(found, Call):
                found = found.at_once() or found
            heard.append(found)
        return taken, self.fault, heard
