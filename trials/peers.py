"""A server over TCP, known by its address and by what it prints alone, and peers that talk to
it."""

import contextlib
import errno
import socket
import struct
import subprocess
import time

from plain import NFS, MOUNT, VERSIONS, Call, Stream, accepted, basic, call_of, exporting
from xdr import opaque, words

BASIC = basic(2)
SECONDS = 30
# Linux: a port is chosen for the whole path, so that each pair of addresses has all ports.
IP_BIND_ADDRESS_NO_PORT = 24


class Differs(Exception):
    pass


def hold(is_so, what):
    if not is_so:
        raise Differs(what)


# Whoever may connect to `export` may do everything, as it is for most trials.
OPEN = ("--no-permission-checks",)
# So too, with the volumes that it has where a trial names no others: of 64 MiB, with files as large.
SMALL = ("--ranges", "16", *OPEN)


class Server:
    """`filer serve` or `filer export`, for this many connections, or without an end where their
    number is None. `told` takes its standard error."""

    def __init__(self, filer, connections, workers=2, command="serve", options=(), environment=None, told=None):
        volumes = ["--volumes", str(BASIC.volumes)]
        numbers = [*volumes, "--workers", str(workers)]
        numbers += [] if connections is None else ["--connections", str(connections)]
        if command == "export":
            options = options or SMALL
        # what `export` says on standard error is for people
        self.process = subprocess.Popen(
            [filer, command, "--listen", "127.0.0.1:0", *numbers, *options],
            stdout=subprocess.PIPE,
            stderr=told or (subprocess.DEVNULL if command == "export" else None),
            env=environment,
            text=True,
        )
        try:
            self.address = self.listening()
            self.service = BASIC if command == "serve" else export_at(self.address)
        except (Differs, OSError):
            self.__exit__()
            raise

    def listening(self):
        """Where it listens, which it prints first."""
        first = self.process.stdout.readline().split()
        hold(len(first) == 2 and first[0] == "listening", f"no address: {first}")
        host, port = first[1].rsplit(":", 1)
        return host, int(port)

    def use_up(self, seconds):
        """Connects until the server has had all of its connections and ends."""
        end = time.monotonic() + seconds
        while self.process.poll() is None and time.monotonic() < end:
            with contextlib.suppress(OSError):
                with socket.create_connection(self.address, 1) as peer:
                    peer.shutdown(socket.SHUT_WR)
                    peer.settimeout(1)
                    peer.recv(1)

    def end(self, seconds=60):
        """Looks whether the server ends well."""
        self.use_up(seconds)
        try:
            rest, _ = self.process.communicate(timeout=seconds)
        except subprocess.TimeoutExpired:
            self.process.kill()
            self.process.wait()
            raise Differs("the server doesn't end") from None
        ended = (self.process.returncode, rest)
        hold(ended == (0, "left 0\n"), f"the server ended with {ended}")

    def __enter__(self):
        return self

    def __exit__(self, *_):
        if self.process.poll() is None:
            self.process.kill()
        self.process.wait()
        self.process.stdout.close()


def connect(address, source="127.0.0.1", small=False):
    """A connection from an address of this host; `small` buffers hold a few thousand bytes."""
    for _ in range(100):
        peer = socket.socket()
        peer.settimeout(SECONDS)
        peer.setsockopt(socket.IPPROTO_IP, IP_BIND_ADDRESS_NO_PORT, 1)
        peer.setsockopt(socket.IPPROTO_TCP, socket.TCP_NODELAY, 1)
        if small:
            peer.setsockopt(socket.SOL_SOCKET, socket.SO_RCVBUF, 4096)
            peer.setsockopt(socket.SOL_SOCKET, socket.SO_SNDBUF, 4096)
        try:
            peer.bind((source, 0))
            peer.connect(address)
            return peer
        except OSError as error:
            peer.close()
            if error.errno not in (errno.EADDRNOTAVAIL, errno.EADDRINUSE):
                raise
            time.sleep(0.1)
    raise Differs("no port is free")


def reset(peer):
    """Closes a connection by a reset."""
    peer.setsockopt(socket.SOL_SOCKET, socket.SO_LINGER, struct.pack("ii", 1, 0))
    peer.close()


def read_all(peer):
    """What comes up to the end of a connection, and whether that is a reset."""
    parts = []
    try:
        while part := peer.recv(1 << 20):
            parts.append(part)
    except ConnectionResetError:
        return b"".join(parts), True
    return b"".join(parts), False


def records_of(data):
    """Replies one after the other, each of one fragment, and what is left behind them."""
    records, at = [], 0
    while len(data) - at >= 4:
        header = int.from_bytes(data[at : at + 4], "big")
        hold(header >= 0x8000_0000, "a reply in more than one fragment")
        end = at + 4 + (header & 0x7FFF_FFFF)
        if end > len(data):
            break
        records.append(data[at:end])
        at = end
    return records, data[at:]


def fits(found, reply):
    """Whether a reply may answer what was heard."""
    return found.is_reply(reply) if isinstance(found, Call) else found == reply


def match(heard, replies):
    """Takes from what is owed what came. Answers what is owed still. Calls under one xid may be
    answered in any order, so that a reply which fits another's call too is given to that one
    where nothing else fits."""
    owed, given = list(range(len(heard))), {}

    def give(reply, seen):
        for place in owed:
            if fits(heard[place], reply):
                owed.remove(place)
                given[place] = reply
                return True
        for place, other in list(given.items()):
            if place not in seen and fits(heard[place], reply):
                seen.add(place)
                if give(other, seen):
                    given[place] = reply
                    return True
        return False

    for reply in replies:
        if not give(reply, set()):
            raise Differs(f"a reply that answers nothing: {reply[:60].hex()}")
    return [heard[place] for place in owed]


def compare(stream, data, was_reset, service=BASIC, known=lambda found: found):
    """Looks whether these are the replies that a stream is owed; of a call `known` tells the
    reply, where it can be said. A server that stops at a fault may reset what it doesn't read,
    and replies on their way can be lost by that."""
    _, fault, heard = Stream(service).feed(stream)
    heard = [known(found) for found in heard]
    hold(fault or not was_reset, "a reset without a fault")
    replies, rest = records_of(data)
    owed = match(heard, replies)
    hold(was_reset or not rest, "a reply that isn't whole")
    hold(was_reset or not owed, f"{len(owed)} replies are missing")


def call(xid, procedure, arguments=b"", program=NFS, version=None):
    """A record with a call that has neither credential nor verifier."""
    body = (
        words(xid, 0, 2, program, version or VERSIONS[program], procedure, 0, 0, 0, 0) + arguments
    )
    return words(0x8000_0000 | len(body)) + body


def handle(volume, fileid=1):
    return opaque(words(volume, 0, fileid))


def read_arguments(file, offset, count):
    return file + struct.pack(">QI", offset, count)


def write_arguments(file, offset, data):
    return file + struct.pack(">QII", offset, len(data), 2) + opaque(data)


class Client:
    """A peer that asks one call at a time, and waits for its reply."""

    def __init__(self, address, source="127.0.0.1", service=BASIC):
        self.peer, self.xid, self.rest = connect(address, source), 0, b""
        self.service = service

    def take(self):
        """The next reply."""
        while True:
            records, rest = records_of(self.rest)
            if records:
                self.rest = b"".join(records[1:]) + rest
                return records[0]
            part = self.peer.recv(1 << 20)
            hold(part, "the server closed a connection")
            self.rest += part

    def ask(self, procedure, arguments=b"", program=NFS):
        """The results of a call, with their status, after looking at the rest of the reply."""
        self.xid += 1
        record = call(self.xid, procedure, arguments, program)
        self.peer.sendall(record)
        reply = self.take()
        found = call_of(record[4:], self.service)
        hold(found.is_reply(reply), f"no reply to procedure {procedure}: {reply[:60].hex()}")
        return reply[28:]

    def null(self):
        self.ask(0)

    def create(self, volume, name, size=None):
        """Makes a file under a root. Answers its handle."""
        sizes = words(0) if size is None else words(1) + struct.pack(">Q", size)
        to_set = words(0, 0, 0) + sizes + words(0, 0)
        made = self.ask(8, handle(volume) + opaque(name) + words(0) + to_set)
        hold(made[:4] == words(0), f"CREATE of {name}: {made[:4].hex()}")
        return made[8:24]

    def look_up(self, volume, name):
        """The handle under a name of a root, or None."""
        found = self.ask(3, handle(volume) + opaque(name))
        return found[4:20] if found[:4] == words(0) else None

    def read(self, file, offset, count):
        """The bytes of a file."""
        found = self.ask(6, read_arguments(file, offset, count))
        hold(found[:4] == words(0), f"READ: {found[:4].hex()}")
        return found[20 : 20 + int.from_bytes(found[8:12], "big")]

    def write(self, file, offset, data):
        found = self.ask(7, write_arguments(file, offset, data))
        hold(found[:4] == words(0), f"WRITE: {found[:4].hex()}")

    def close(self):
        """Ends its input, and looks whether nothing more comes."""
        self.peer.shutdown(socket.SHUT_WR)
        hold(self.peer.recv(1) == b"" and not self.rest, "a reply too many")
        self.peer.close()


def export_at(address):
    """What the `export` at an address offers: MNT of the first volume tells its run's verifier,
    behind the volume and fileid of the root (RFC 1813, appendix I, section 5.2.1)."""
    client = Client(address)
    client.peer.sendall(call(1, 1, opaque(b"/vol0"), MOUNT))
    reply = client.take()
    verifier = reply[48:56]
    wanted = accepted(1, 0, words(0) + opaque(words(0, 0, 1) + verifier) + words(2, 1, 0))
    hold(reply == wanted, f"no reply to MNT: {reply[:80].hex()}")
    client.close()
    return exporting(BASIC.volumes, verifier)


def read_reply(xid, data, is_end):
    """The reply to a READ that gave bytes."""
    return accepted(xid, 0, words(0, 0, len(data), int(is_end)) + opaque(data))
