"""A server that real clients mount, and that they ask to start anew."""

import subprocess
import threading
import time

RESTART_SECONDS = 90


class Exported:
    """`filer export` of two volumes, at a port of 127.0.0.1 that it chooses."""

    def __init__(self, filer, options):
        self.filer, self.options, self.port = filer, options, 0
        self.start()

    def start(self):
        words = ["export", "--listen", f"127.0.0.1:{self.port}", "--volumes", "2", *self.options]
        self.process = subprocess.Popen(
            [self.filer, *words], stdout=subprocess.PIPE, stderr=subprocess.PIPE, text=True
        )
        first = self.process.stdout.readline()
        if not first.startswith("listening 127.0.0.1:"):
            self.process.kill()
            self.process.wait()
            raise OSError(f"no address: {first!r}")
        self.port = int(first.rsplit(":", 1)[1])
        # its words for people are read, so that it never waits for a reader
        threading.Thread(target=self.process.stderr.read, daemon=True).start()

    def restart(self):
        """Ends it, and starts another at the same port, once that is free."""
        self.end()
        for _ in range(RESTART_SECONDS):
            try:
                return self.start()
            except OSError:
                time.sleep(1)
        raise SystemExit("the port isn't free again")

    def end(self):
        """Ends it: whether it was still there."""
        there = self.process.poll() is None
        self.process.kill()
        self.process.wait()
        return there
