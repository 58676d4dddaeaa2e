"""A proxy between an NFS client and a server, which resets connections and drops what is on its way in both directions.

The server sees all connections that ask for files come from one port, as those of one client of a kernel do: an emulator that
stands between would else give each a port of its own."""

import contextlib
import select
import socket
import threading
import time

from peers import NFS, Differs, hold, records_of, reset
from repeats import NAMES, Caller

# A connection is cut at this call that comes on it, in one of these ways by turns.
CUT_AT = 50
REPLY_IS_LOST, CUT_AT_ONCE, CALL_IS_LOST, WITHIN_REPLY = range(4)
# How long the port may be held by a connection that isn't closed yet, and how long one may be silent.
SECONDS, SILENCE = 10, 600


class Proxy:
    """Listens at a port of 127.0.0.1 that it chooses, for the server at another."""

    def __init__(self, port):
        self.address = "127.0.0.1", port
        self.caller = Caller(self.address)
        self.listener = socket.create_server(("127.0.0.1", 0))
        self.port = self.listener.getsockname()[1]
        # how many connections were cut, and how many of them behind a call that is done once, and before its reply
        self.cuts, self.lost = 0, 0
        threading.Thread(target=self.listen, daemon=True).start()

    def listen(self):
        with contextlib.suppress(OSError):
            while True:
                client, _ = self.listener.accept()
                threading.Thread(target=self.serve, args=(client,), daemon=True).start()

    def end(self):
        self.listener.close()
        self.caller.close()

    def connect(self, program):
        """A connection to the server."""
        if program != NFS:
            return socket.create_connection(self.address)
        end = time.monotonic() + SECONDS
        while True:
            try:
                return self.caller.connect()
            except OSError:
                hold(time.monotonic() < end, "the port isn't free")
                time.sleep(0.01)

    def serve(self, client):
        """A client's connection up to its end, or up to its cut."""
        link = Link(self, client)
        with contextlib.suppress(OSError, Differs):
            while link.goes_on():
                pass
        for one in link.inputs:
            reset(one)


class Link:
    """A connection of a client, and that to the server, once its first call has come."""

    def __init__(self, proxy, client):
        client.setsockopt(socket.IPPROTO_TCP, socket.TCP_NODELAY, 1)
        self.proxy, self.client, self.server = proxy, client, None
        # what came of each and isn't a whole record yet
        self.inputs = {client: b""}
        self.count, self.way, self.doomed = 0, None, None

    def goes_on(self):
        """Passes on what comes next: whether the connection goes on."""
        ready, _, _ = select.select(list(self.inputs), [], [], SILENCE)
        for one in ready:
            part = one.recv(1 << 20)
            if not part:
                return False
            records, self.inputs[one] = records_of(self.inputs[one] + part)
            passes = self.passes_call if one is self.client else self.passes_reply
            if not all(map(passes, records)):
                return False
        return bool(ready)

    def passes_call(self, asked):
        program, _, procedure = (int.from_bytes(asked[at : at + 4], "big") for at in (16, 20, 24))
        if not self.server:
            self.server = self.proxy.connect(program)
            self.inputs[self.server] = b""
        self.count += 1
        if self.count == CUT_AT:
            self.way = self.proxy.cuts % 4
            self.proxy.cuts += 1
            if self.way == CALL_IS_LOST:
                return False
            self.proxy.lost += program == NFS and procedure in NAMES
            self.doomed = asked[4:8]
        self.server.sendall(asked)
        return self.way != CUT_AT_ONCE

    def passes_reply(self, reply):
        is_lost = reply[4:8] == self.doomed
        if not is_lost or self.way == WITHIN_REPLY:
            self.client.sendall(reply[: len(reply) // 2] if is_lost else reply)
        return not is_lost
