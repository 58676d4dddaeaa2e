"""Calls of NFS version 3 over TCP, each by a user that it names (RFC 5531, appendix A; RFC 1813), and what they are told.

The methods of `Users` are those of `posix_rules.Posix` too, so that what is tried over TCP is tried of plain rules as well."""

import errno
import socket
import struct
from collections import namedtuple

import results
from peers import MOUNT, SECONDS, Differs, hold
from repeats import User, record, take, to_set
from xdr import BLOCK, CHARACTER, DIRECTORY, FIFO, MOST_LINKS, MOST_OF_A_TEXT, REGULAR, SOCKET, SYMBOLIC_LINK, Reader, hyper, opaque, words

OK, PERM, NOENT, ACCES, EXIST, NOTDIR, ISDIR, INVAL, ROFS = 0, 1, 2, 13, 17, 20, 21, 22, 30
MLINK, NAMETOOLONG, NOTEMPTY, STALE, BADHANDLE, NOT_SYNC, BADTYPE = 31, 63, 66, 70, 10_001, 10_002, 10_007
UNCHECKED, GUARDED, EXCLUSIVE = 0, 1, 2
# What MKNOD makes, and the numbers of a device.
DEVICES, MADE_BY_MKNOD, DEVICE_NUMBERS = (BLOCK, CHARACTER), (BLOCK, CHARACTER, SOCKET, FIFO), (8, 1)

ROOT = User(0, 0, ())
# The bits of ACCESS (section 3.3.4).
READ, LOOKUP, MODIFY, EXTEND, DELETE, EXECUTE = 1, 2, 4, 8, 16, 32
ALL_BITS = 63
# Times of a SETATTR (set_atime and set_mtime, section 2.6): of the server, and one that the client gives.
SERVER_TIME, CLIENT_TIME = words(1), words(2, 1_000_000_000, 0)


class Attributes(namedtuple("Attributes", "kind mode links uid gid size device")):
    """What rows look at of fattr3 (section 2.6)."""


class Told(namedtuple("Told", "status node attributes value", defaults=(None, None, None))):
    """The results of a call: its status, what names the node, the node's attributes, and what else the procedure tells."""


def attributes_in(r):
    kind, mode, links, uid, gid, size, _used, *device = struct.unpack(">5I2Q2I", r.fixed(84)[:44])
    return Attributes(kind, mode, links, uid, gid, size, tuple(device))


def wcc_in(r):
    """The attributes behind a change."""
    r.optional(lambda: r.fixed(24))
    return r.optional(lambda: attributes_in(r))


def node_in(r):
    """The handle and the attributes of a node, behind what makes one."""
    node, attributes = r.optional(r.handle), r.optional(lambda: attributes_in(r))
    wcc_in(r)
    return Told(OK, node, attributes)


def socket_to(host):
    """A socket of IPv4 or of IPv6."""
    peer = socket.socket(socket.AF_INET6 if ":" in host else socket.AF_INET)
    peer.settimeout(SECONDS)
    return peer


def low_port(address, host):
    """A connection from a port below 1024, which root alone has."""
    for port in range(1023, 511, -1):
        peer = socket_to(host)
        try:
            peer.bind((host, port))
            peer.connect(address)
            return peer
        except OSError as error:
            peer.close()
            if error.errno not in (errno.EADDRINUSE, errno.EADDRNOTAVAIL):
                raise
    raise Differs("no port below 1024 is free")


def high_port(address, host):
    peer = socket_to(host)
    peer.bind((host, 0))
    peer.connect(address)
    return peer


class Users:
    """Connections to a server, by turns one for each call, so that all of its lanes have some."""

    def __init__(self, server, host="127.0.0.1", is_low=False, lanes=2, volume=0):
        make = low_port if is_low else high_port
        self.peers = [make(server.address, host) for _ in range(lanes)]
        for peer in self.peers:
            peer.setsockopt(socket.IPPROTO_TCP, socket.TCP_NODELAY, 1)
        self.root, self.xid, self.names = server.service.handle(volume), 0x7000_0000, 0
        self.mount_name = b"/vol%d" % volume

    def __enter__(self):
        return self

    def __exit__(self, *_):
        for peer in self.peers:
            peer.close()

    def reply(self, asked, lane=0):
        self.peers[lane].sendall(asked)
        return take(self.peers[lane])

    def ask(self, user, procedure, arguments, program=None):
        """The results of a call, from their status on."""
        self.xid += 1
        asked = record(self.xid, procedure, arguments, user, **({"program": program} if program else {}))
        reply = self.reply(asked, self.xid % len(self.peers))
        hold(reply[4:28] == words(self.xid, 1, 0, 0, 0, 0), f"procedure {procedure} isn't done: {reply[:40].hex()}")
        return Reader(reply[28:])

    def told(self, user, procedure, arguments, read=lambda r: Told(OK)):
        """The results of a call, which have to end where they end; `read` reads those of one that went well."""
        r = self.ask(user, procedure, arguments)
        status = r.word()
        if status == OK:
            found = read(r)
            r.end()
            return found
        parts = words(*[0] * results.FAILURE_PARTS[procedure])
        hold(r.data[4:] == parts, f"procedure {procedure} tells more than that it failed: {r.data.hex()}")
        return Told(status)

    # ---- the procedures

    def null(self, user):
        self.ask(user, 0, b"").end()
        return Told(OK)

    def getattr(self, user, node):
        return self.told(user, results.GETATTR, opaque(node), lambda r: Told(OK, node, attributes_in(r)))

    def whole(self, node):
        """All of fattr3, times too, which GETATTR tells everybody."""
        r = self.ask(ROOT, results.GETATTR, opaque(node))
        return r.word(), r.data[r.at :]

    def setattr(self, user, node, guard=None, **given):
        guards = words(0) if guard is None else words(1) + guard
        return self.told(user, results.SETATTR, opaque(node) + to_set(**given) + guards, lambda r: Told(OK, node, wcc_in(r)))

    def lookup(self, user, directory, name):
        def read(r):
            found = Told(OK, r.handle(), r.optional(lambda: attributes_in(r)))
            r.optional(lambda: attributes_in(r))
            return found

        return self.told(user, results.LOOKUP, opaque(directory) + opaque(name), read)

    def access(self, user, node, bits=ALL_BITS):
        read = lambda r: Told(OK, node, r.optional(lambda: attributes_in(r)), r.word())
        return self.told(user, results.ACCESS, opaque(node) + words(bits), read)

    def read(self, user, node, offset=0, count=100):
        def read(r):
            attributes = r.optional(lambda: attributes_in(r))
            r.word(), r.boolean()
            return Told(OK, node, attributes, r.opaque())

        return self.told(user, results.READ, opaque(node) + hyper(offset) + words(count), read)

    def write(self, user, node, data=b"w", offset=0):
        def read(r):
            attributes, count, _how = wcc_in(r), r.word(), r.word()
            r.fixed(8)
            return Told(OK, node, attributes, count)

        arguments = opaque(node) + hyper(offset) + words(len(data), 2) + opaque(data)
        return self.told(user, results.WRITE, arguments, read)

    def create(self, user, directory, name, how=UNCHECKED, verifier=b"verifier", **given):
        more = verifier if how == EXCLUSIVE else to_set(**given)
        return self.told(user, results.CREATE, opaque(directory) + opaque(name) + words(how) + more, node_in)

    def mkdir(self, user, directory, name, **given):
        return self.told(user, results.MKDIR, opaque(directory) + opaque(name) + to_set(**given), node_in)

    def gone(self, user, procedure, directory, name):
        def read(r):
            wcc_in(r)
            return Told(OK)

        return self.told(user, procedure, opaque(directory) + opaque(name), read)

    def remove(self, user, directory, name):
        return self.gone(user, results.REMOVE, directory, name)

    def rmdir(self, user, directory, name):
        return self.gone(user, results.RMDIR, directory, name)

    def rename(self, user, directory, name, to, to_name):
        def read(r):
            wcc_in(r), wcc_in(r)
            return Told(OK)

        return self.told(user, results.RENAME, opaque(directory) + opaque(name) + opaque(to) + opaque(to_name), read)

    def readdir(self, user, directory):
        """The names of a directory."""

        def read(r):
            r.optional(lambda: attributes_in(r))
            r.fixed(8)
            names = []
            while r.boolean():
                r.hyper()
                names.append(r.opaque())
                r.hyper()
            hold(r.boolean(), "the page is cut")
            return Told(OK, directory, value=sorted(names))

        return self.told(user, results.READDIR, opaque(directory) + hyper(0) + bytes(8) + words(65_536), read)

    def readdirplus(self, user, directory):
        """The names of a directory, with attributes where they are told, and whether a handle is."""

        def read(r):
            r.optional(lambda: attributes_in(r))
            r.fixed(8)
            entries = {}
            while r.boolean():
                r.hyper()
                name = r.opaque()
                r.hyper()
                attributes, node = r.optional(lambda: attributes_in(r)), r.optional(r.handle)
                hold((attributes is None) == (node is None), f"of {name} one of handle and attributes is told alone")
                entries[name] = attributes
            hold(r.boolean(), "the page is cut")
            return Told(OK, directory, value=entries)

        arguments = opaque(directory) + hyper(0) + bytes(8) + words(65_536, 65_536)
        return self.told(user, results.READDIRPLUS, arguments, read)

    def rest_of(self, user, procedure, node):
        """FSSTAT, FSINFO and PATHCONF: of the last whether chown is for uid 0 alone."""

        def read(r):
            attributes = r.optional(lambda: attributes_in(r))
            more = r.data[r.at :]
            r.at = len(r.data)
            restricted = more[12:16] == words(1) if procedure == results.PATHCONF else None
            return Told(OK, node, attributes, restricted)

        return self.told(user, procedure, opaque(node), read)

    def fsstat(self, user, node):
        return self.rest_of(user, results.FSSTAT, node)

    def fsinfo(self, user, node):
        return self.rest_of(user, results.FSINFO, node)

    def pathconf(self, user, node):
        return self.rest_of(user, results.PATHCONF, node)

    def commit(self, user, node):
        def read(r):
            attributes = wcc_in(r)
            r.fixed(8)
            return Told(OK, node, attributes)

        return self.told(user, results.COMMIT, opaque(node) + hyper(0) + words(0), read)

    def readlink(self, user, node):
        """The text of a symbolic link."""
        read = lambda r: Told(OK, node, r.optional(lambda: attributes_in(r)), r.opaque())
        return self.told(user, results.READLINK, opaque(node), read)

    def symlink(self, user, directory, name, text=b"target", **given):
        return self.told(user, results.SYMLINK, opaque(directory) + opaque(name) + to_set(**given) + opaque(text), node_in)

    def mknod(self, user, directory, name, kind=FIFO, **given):
        what = words(kind) + (to_set(**given) if kind in MADE_BY_MKNOD else b"") + (words(*DEVICE_NUMBERS) if kind in DEVICES else b"")
        return self.told(user, results.MKNOD, opaque(directory) + opaque(name) + what, node_in)

    def link(self, user, node, directory, name):
        def read(r):
            attributes = r.optional(lambda: attributes_in(r))
            wcc_in(r)
            return Told(OK, node, attributes)

        return self.told(user, results.LINK, opaque(node) + opaque(directory) + opaque(name), read)

    def mnt(self, user, path):
        """MNT of a path below the volume's root (appendix I, section 5.2.1)."""
        r = self.ask(user, results.MNT, opaque(self.mount_name + path), MOUNT)
        status = r.word()
        if status != OK:
            r.end()
            return Told(status)
        node = r.opaque()
        hold([r.word() for _ in range(r.word())] == [1, 0], "the flavors aren't AUTH_SYS and AUTH_NONE")
        r.end()
        return Told(OK, node)
