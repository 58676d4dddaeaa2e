"""XDR (RFC 4506) read from left to right, with the types of RFC 1813 that calls and results
share."""

import struct
from collections import namedtuple


def words(*values):
    return struct.pack(f">{len(values)}I", *values)


def hyper(value):
    return struct.pack(">Q", value)


def opaque(data):
    """Variable opaque data."""
    return words(len(data)) + data + bytes(-len(data) % 4)


# ftype3 (section 2.6).
REGULAR, DIRECTORY, BLOCK, CHARACTER, SYMBOLIC_LINK, SOCKET, FIFO = range(1, 8)
# How many names what isn't a directory may have, and the bytes of a symbolic link's text.
MOST_LINKS, MOST_OF_A_TEXT = 65_000, 1024


class NoSpelling(Exception):
    """Bytes that spell no value of a type."""


def must(is_so):
    if not is_so:
        raise NoSpelling


class Reader:
    """Bytes that are read from left to right, by the grammar of XDR (RFC 4506)."""

    def __init__(self, data):
        self.data, self.at = data, 0

    def fixed(self, size):
        """Fixed opaque data with their padding, which has to be zero."""
        whole = (size + 3) // 4 * 4
        part = self.data[self.at : self.at + whole]
        if len(part) < whole or any(part[size:]):
            raise NoSpelling
        self.at += whole
        return part[:size]

    def word(self):
        return int.from_bytes(self.fixed(4), "big")

    def hyper(self):
        return int.from_bytes(self.fixed(8), "big")

    def choice(self, *values):
        value = self.word()
        if value not in values:
            raise NoSpelling
        return value

    def boolean(self):
        return self.choice(0, 1) == 1

    def opaque(self, most=2**32):
        size = self.word()
        if size > most:
            raise NoSpelling
        return self.fixed(size)

    def optional(self, read):
        return read() if self.boolean() else None

    def present(self, read):
        """An optional part that has to be there."""
        self.choice(1)
        return read()

    def end(self):
        if self.at != len(self.data):
            raise NoSpelling

    # Types of RFC 1813, section 2.5 and 2.6.

    def handle(self):
        return self.opaque(64)

    def where(self):
        """diropargs3."""
        return self.handle(), self.opaque()

    def time(self):
        return self.word(), self.word()

    def time_to_set(self):
        return self.time() if self.choice(0, 1, 2) == 2 else None

    def to_set(self):
        """sattr3: the size and the nanoseconds of the times of the client, as far as they are given."""
        for _ in range(3):
            self.optional(self.word)
        size = self.optional(self.hyper)
        times = self.time_to_set(), self.time_to_set()
        return size, [time[1] for time in times if time]

    def node_to_make(self):
        """mknoddata3 (section 3.3.11): a kind, what is set of it, and the numbers of a device."""
        kind = self.choice(*range(1, 8))
        given = self.to_set() if kind in (BLOCK, CHARACTER, SOCKET, FIFO) else None
        return kind, given, (self.word(), self.word()) if kind in (BLOCK, CHARACTER) else (0, 0)

    def attributes(self):
        """fattr3. What isn't a directory has a link for each of its names; what is neither a file nor a directory takes no
        block; only a symbolic link among these has a size, that of its text, and only a device has numbers."""
        told = Attributes.read(self.fixed(84))
        must(told.kind in range(1, 8))
        must(told.links >= 2 if told.kind == DIRECTORY else 1 <= told.links <= MOST_LINKS)
        must(told.device == (0, 0) or told.kind in (BLOCK, CHARACTER))
        must(told.used == 0 or told.kind == REGULAR)
        must(told.size == 0 or told.kind in (REGULAR, DIRECTORY, SYMBOLIC_LINK))
        must(told.kind != SYMBOLIC_LINK or 1 <= told.size <= MOST_OF_A_TEXT)
        return told

    def wcc_data(self):
        """wcc_data with both of its parts."""
        self.present(lambda: self.fixed(24))
        return self.present(self.attributes)


class Attributes(namedtuple("Attributes", "kind mode links uid gid size used device fsid fileid")):
    """What fattr3 (section 2.6) tells of a node; times are left out."""

    @staticmethod
    def read(spelled):
        *first, size, used, major, minor, fsid, fileid = struct.unpack(">5I2Q2I2Q", spelled[:60])
        return Attributes(*first, size, used, (major, minor), fsid, fileid)
