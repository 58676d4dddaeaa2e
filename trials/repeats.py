"""Clients that send calls again (RFC 1813 section 4.5): from one port, as often as their connections
break, and the nine calls that are done once."""

import os
import socket
from collections import namedtuple

import results
from peers import NFS, SECONDS, VERSIONS, hold, reset
from results import CREATE, LINK, MKDIR, MKNOD, REMOVE, RENAME, RMDIR, SETATTR, SYMLINK
from xdr import BLOCK, Reader, hyper, opaque, words

EXIST, NOENT, NOT_SYNC, OK = results.EXIST, results.NOENT, 10_002, results.OK
UNCHECKED, GUARDED, EXCLUSIVE = 0, 1, 2
# Of each call that is done once: its name, and what it is answered where it is done twice.
NAMES = {
    SETATTR: "SETATTR", CREATE: "CREATE", MKDIR: "MKDIR", REMOVE: "REMOVE", RMDIR: "RMDIR",
    RENAME: "RENAME", SYMLINK: "SYMLINK", MKNOD: "MKNOD", LINK: "LINK",
}  # fmt: skip
DONE_TWICE = {
    SETATTR: NOT_SYNC, CREATE: EXIST, MKDIR: EXIST, REMOVE: NOENT, RMDIR: NOENT, RENAME: NOENT,
    SYMLINK: EXIST, MKNOD: EXIST, LINK: EXIST,
}  # fmt: skip
# Those that make a node.
MAKERS = (CREATE, MKDIR, SYMLINK, MKNOD)
# fattr3 (section 2.6), of which the last 8 bytes are the ctime, and a reply's bytes before the status
ATTRIBUTES, HEAD = 84, 28


class User(namedtuple("User", "uid gid groups stamp machine", defaults=(7, b"m"))):
    """Who asks, as authsys_parms says it (RFC 5531, appendix A)."""

    def credential(self):
        body = words(self.stamp) + opaque(self.machine) + words(self.uid, self.gid)
        return words(1) + opaque(body + words(len(self.groups), *self.groups))


class Nobody:
    """Who asks without a credential."""

    def credential(self):
        return words(0, 0)

    def __repr__(self):
        return "nobody"


ANN = User(1000, 100, (10, 20))


def record(xid, procedure, arguments, user=ANN, program=NFS):
    head = words(xid, 0, 2, program, VERSIONS[program], procedure)
    body = head + user.credential() + words(0, 0) + arguments
    return words(0x8000_0000 | len(body)) + body


def status_of(reply):
    return int.from_bytes(reply[HEAD : HEAD + 4], "big")


# ---- a client's port


def free_ports():
    """Those below 1024, as clients of kernels have them, where this user may have them; else those that the system chooses."""
    yield from range(1023, 511, -1) if os.geteuid() == 0 else ()
    while True:
        yield 0


PORTS = free_ports()


class Caller:
    """A client that connects from one port again and again."""

    def __init__(self, address, host="127.0.0.1", port=None):
        self.address, self.host = address, host
        # the port stays this client's between its connections
        self.keeper = self.socket()
        for candidate in PORTS if port is None else (port,):
            try:
                self.keeper.bind((host, candidate))
                break
            except OSError:
                hold(port is None, f"port {port} isn't free at {host}")
        self.keeper.setsockopt(socket.SOL_SOCKET, socket.SO_REUSEADDR, 1)
        self.port = self.keeper.getsockname()[1]

    def socket(self):
        return socket.socket(socket.AF_INET6 if ":" in self.host else socket.AF_INET)

    def connect(self):
        peer = self.socket()
        peer.settimeout(SECONDS)
        peer.setsockopt(socket.SOL_SOCKET, socket.SO_REUSEADDR, 1)
        peer.setsockopt(socket.IPPROTO_TCP, socket.TCP_NODELAY, 1)
        peer.bind((self.host, self.port))
        peer.connect(self.address)
        return peer

    def ask(self, asked):
        """The reply to a record, on a connection of its own, which is reset then."""
        peer = self.connect()
        try:
            peer.sendall(asked)
            return take(peer)
        finally:
            reset(peer)

    def cut(self, asked, size):
        """The first bytes of a reply, behind which the connection is reset."""
        peer = self.connect()
        try:
            peer.sendall(asked)
            return exactly(peer, size)
        finally:
            reset(peer)

    def close(self):
        self.keeper.close()

    def __enter__(self):
        return self

    def __exit__(self, *_):
        self.close()


def exactly(peer, size):
    data = b""
    while len(data) < size:
        part = peer.recv(size - len(data))
        hold(part, f"a connection ends after {len(data)} of {size} bytes")
        data += part
    return data


def take(peer):
    """The next reply of a connection."""
    mark = exactly(peer, 4)
    return mark + exactly(peer, int.from_bytes(mark, "big") & 0x7FFF_FFFF)


# ---- calls


def to_set(mode=None, uid=None, gid=None, size=None, atime=b"\0\0\0\0", mtime=b"\0\0\0\0"):
    """sattr3."""
    some = lambda value, spell=words: words(0) if value is None else words(1) + spell(value)
    return some(mode) + some(uid) + some(gid) + some(size, hyper) + atime + mtime


def time_to_set(seconds, nanoseconds=0):
    return words(2, seconds, nanoseconds)


def spelled(procedure, part):
    """Arguments, by their parts."""
    if procedure == SETATTR:
        guard = words(0) if part["guard"] is None else words(1) + part["guard"]
        return part["file"] + part["to_set"] + guard
    where = part["directory"] + opaque(part["name"])
    if procedure == CREATE:
        return where + words(part["how"]) + (part["verifier"] if part["how"] == EXCLUSIVE else part["to_set"])
    if procedure == MKDIR:
        return where + part["to_set"]
    if procedure == SYMLINK:
        return where + part["to_set"] + opaque(part["text"])
    if procedure == MKNOD:
        return where + words(part["kind"]) + part["to_set"] + part["device"]
    if procedure == LINK:
        return part["file"] + where
    if procedure == RENAME:
        return where + part["target"] + opaque(part["to"])
    return where


class Place:
    """A directory of its own for a call, and another beside it, with what the call needs. `client` makes and looks at them."""

    def __init__(self, client, procedure, volume=0):
        self.client, self.procedure = client, procedure
        # no two are of one name
        client.places = getattr(client, "places", 0) + 1
        root = opaque(client.service.handle(volume))
        self.name = b"home%d-%d" % (client.peer.getsockname()[1], client.places)
        self.home = self.make(MKDIR, root, self.name)[0]
        self.other = self.make(MKDIR, root, b"other " + self.name)[0]
        self.part = {"directory": self.home, "target": self.home, "name": b"old", "to": b"new"}
        if procedure in MAKERS:
            self.part |= {"name": b"new", "how": GUARDED, "to_set": to_set(0o644), "verifier": b"verifier"}
            self.part |= {"text": b"its text", "kind": BLOCK, "device": words(8, 1)}
        else:
            old, attributes = self.make(MKDIR if procedure == RMDIR else CREATE, self.home, b"old")
            self.part |= {"file": old, "to_set": to_set(0o640), "guard": attributes[-8:]}
            self.part |= {"name": b"new"} if procedure == LINK else {}

    def make(self, procedure, directory, name):
        """A file or a directory: its handle, as an argument, and its attributes."""
        how = words(GUARDED) if procedure == CREATE else b""
        made = self.client.ask(procedure, directory + opaque(name) + how + to_set())
        hold(made[:4] == words(OK), f"{name} isn't made: {made[:4].hex()}")
        return made[8:32], made[36 : 36 + ATTRIBUTES]

    def arguments(self, **other):
        return spelled(self.procedure, self.part | other)

    def look(self):
        """All that is in the directory, with attributes."""
        page = self.client.ask(results.READDIRPLUS, self.home + hyper(0) + bytes(8) + words(65_536, 65_536))
        hold(page[:8] == words(OK, 1), f"the directory isn't listed: {page[:8].hex()}")
        return page

    def is_done_once(self, reply, page):
        """Looks whether all is as the reply tells that it was when the call was done."""
        hold(status_of(reply) == OK, f"it is answered {status_of(reply)}")
        entries, own = entries_of(page)
        after = reply[-ATTRIBUTES:]
        if self.procedure == SETATTR:
            hold(entries == {b"old": after}, "the file isn't as it is told to be")
            return
        hold(own == after, "the directory isn't as it is told to be")
        if self.procedure in MAKERS:
            # behind the status the handle and the attributes
            made = reply[HEAD + 4 + 28 :][4 : 4 + ATTRIBUTES]
            hold(entries == {b"new": made}, "what is made isn't as it is told to be")
        elif self.procedure == LINK:
            linked = reply[HEAD + 4 :][4 : 4 + ATTRIBUTES]
            hold(entries == {b"old": linked, b"new": linked}, "what is linked isn't as it is told to be")
            hold(linked[8:12] == words(2), f"it has {linked[8:12].hex()} links")
        else:
            wanted = [b"new"] if self.procedure == RENAME else []
            hold(list(entries) == wanted, f"the names are {list(entries)}")


def entries_of(page):
    """The entries of a page of READDIRPLUS, without `.` and `..`, each with its attributes, and those of the directory."""
    r, entries = Reader(page), {}
    r.fixed(8)
    own = r.fixed(ATTRIBUTES)
    r.fixed(8)
    while r.boolean():
        r.hyper()
        name = r.opaque()
        r.hyper(), r.choice(1)
        attributes = r.fixed(ATTRIBUTES)
        r.present(r.handle)
        if name not in (b".", b".."):
            entries[name] = attributes
    hold(r.boolean(), "the page is cut")
    return entries, own
