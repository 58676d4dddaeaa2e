"""Calls of NFS version 3, MOUNT and the admin program as bytes, and replies read (RFC 4506, 5531
and 1813)."""

import struct

from xdr import hyper, opaque, words

NFS, MOUNT, ADMIN = (100003, 3), (100005, 3), (0x20000001, 1)
SUCCESS, PROG_MISMATCH, SYSTEM_ERR = 0, 2, 5
OK, NOENT, INVAL = 0, 2, 22


class Files:
    """How a server names files: by 12 bytes, with the verifier of its run behind them where it
    has one."""

    def __init__(self, verifier=b""):
        self.verifier = verifier

    def handle(self, fileid, volume=0):
        return opaque(words(volume) + hyper(fileid) + self.verifier)

    def entry(self, directory, name):
        """The arguments that name an entry of a directory."""
        return self.handle(directory) + opaque(name.encode())

    def fileid(self, reader):
        """The fileid of a handle in a reply, of volume 0."""
        given = reader.opaque()
        fileid = int.from_bytes(given[4:12], "big")
        if opaque(given) != self.handle(fileid):
            raise ValueError("a handle of another form, volume or run")
        return fileid


UNSET = words(0, 0, 0, 0, 0, 0)


def record(xid, program, procedure, arguments=b""):
    """A call with AUTH_NONE, as a record of one fragment."""
    number, version = program
    mark = 0x80000000 | (40 + len(arguments))
    return words(mark, xid, 0, 2, number, version, procedure, 0, 0, 0, 0) + arguments


WORD, HYPER, HEAD = struct.Struct(">I"), struct.Struct(">Q"), struct.Struct(">6I")
# fattr3: type, mode, links, uid, gid, size, used, what a device has and the volume, fileid, times.
ATTRIBUTES = struct.Struct(">5I2Q16xQ24x")


class Reader:
    """Takes what a reply spells from its front."""

    def __init__(self, data):
        self.data, self.at = data, 0

    def skip(self, count):
        """Where the next bytes begin, which are taken."""
        start = self.at
        self.at += count
        if self.at > len(self.data):
            raise ValueError("a reply ends too early")
        return start

    def bytes(self, count):
        start = self.skip(count)
        return self.data[start : self.at]

    def values(self, form):
        return form.unpack_from(self.data, self.skip(form.size))

    def word(self):
        return self.values(WORD)[0]

    def hyper(self):
        return self.values(HYPER)[0]

    def opaque(self):
        size = self.word()
        data = self.bytes(size)
        self.skip(-size % 4)
        return data

    def attributes(self):
        """Attributes: type, size, used and fileid among them."""
        kind, _mode, links, _uid, _gid, size, used, fileid = self.values(ATTRIBUTES)
        return {"type": kind, "links": links, "size": size, "used": used, "fileid": fileid}

    def maybe(self, read):
        return read() if self.word() else None

    def before_and_after(self):
        """What is told of a changed object: its attributes before and after."""
        return self.maybe(lambda: self.bytes(24)), self.maybe(self.attributes)

    def rest(self):
        return self.data[self.at :]

    def end(self):
        if self.at < len(self.data):
            raise ValueError("bytes are left after a reply")


def reply(data):
    """The xid and accept status of a reply, and what follows."""
    reader = Reader(data)
    xid, kind, accepted, flavor, length, status = reader.values(HEAD)
    if (kind, accepted, flavor, length) != (1, 0, 0, 0):
        raise ValueError("no accepted reply")
    return xid, status, reader
