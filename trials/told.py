"""A `filer export` whose lines on standard error are read as they come."""

import subprocess
import threading
import time

from peers import OPEN, Client, Differs, Server, export_at, hold

# How long a line may take, in seconds.
SOON = 20


class Told(Server):
    """`filer export` with options, of callers that aren't checked; `reads` says whether its
    standard error is read at all from the start on."""

    def __init__(self, filer, *options, reads=True, environment=None):
        options = options if OPEN[0] in options else (*OPEN, *options)
        words = [filer, "export", "--listen", "127.0.0.1:0", "--workers", "2", *options]
        self.process = subprocess.Popen(
            words, stdout=subprocess.PIPE, stderr=subprocess.PIPE, env=environment, text=True
        )
        try:
            self.address = self.listening()
        except Differs:
            self.process.kill()
            self.process.wait()
            raise
        self.lines, self.came, self.lock = [], [], threading.Lock()
        self.reader = threading.Thread(target=self.read, daemon=True)
        if reads:
            self.reader.start()
            self.line_that(lambda line: line.startswith("mount "), "how to mount it")

    def read(self):
        """Reads all lines, with the time at which each came."""
        for line in self.process.stderr:
            with self.lock:
                self.lines.append(line.rstrip("\n"))
                self.came.append(time.monotonic())

    def told(self):
        """The lines so far."""
        with self.lock:
            return list(self.lines)

    def line_that(self, is_it, what, seconds=SOON):
        """The first line that is so, which has to come soon."""
        end = time.monotonic() + seconds
        while True:
            found = [line for line in self.told() if is_it(line)]
            if found:
                return found[0]
            hold(time.monotonic() < end, f"no line tells {what}: {self.told()[-4:]}")
            hold(
                self.process.poll() is None,
                f"the server ended, with status {self.process.returncode}",
            )
            time.sleep(0.02)

    def line(self, wanted):
        return self.line_that(lambda line: line == wanted, repr(wanted))

    def told_to_the_end(self):
        """All lines behind how to mount it, of a server that ends by itself, and well."""
        try:
            self.process.wait(SOON)
        except subprocess.TimeoutExpired:
            raise Differs("the server doesn't end") from None
        self.reader.join(SOON)
        ended = (self.process.returncode, self.process.stdout.read())
        hold(ended == (0, "left 0\n"), f"the server ended with {ended}")
        lines = self.told()
        first = next(at for at, line in enumerate(lines) if line.startswith("mount "))
        return lines[first + 1 :]

    def mounted(self):
        """A client that knows how the server's handles end."""
        return Client(self.address, service=export_at(self.address))

    def ask(self, *words, status=0):
        """What `filer` prints that is asked of this server: standard output and standard error."""
        done = subprocess.run(
            [self.process.args[0], *words],
            stdin=subprocess.DEVNULL,
            capture_output=True,
            text=True,
            timeout=60,
        )
        hold(
            done.returncode == status,
            f"{words[0]} ends with status {done.returncode}: {done.stdout} {done.stderr}",
        )
        return done.stdout, done.stderr

    def __exit__(self, *_):
        self.process.kill()
        self.process.wait()
        if self.reader.is_alive():
            self.reader.join()
        self.process.stderr.close()
        self.process.stdout.close()


def name_of(peer):
    """The address of a connection's peer, as the server tells it."""
    host, port = peer.getsockname()
    return f"{host}:{port}"
