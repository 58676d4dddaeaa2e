"""A clock of the day that a trial moves."""

import mmap
import os
import struct

from memory import build_library, scratch


class Clock:
    """The clock of the day of a program that is started with this environment."""

    def __init__(self):
        folder = scratch()
        page = folder / "page"
        page.write_bytes(bytes(8))
        with open(page, "r+b") as file:
            self.page = mmap.mmap(file.fileno(), 8)
        library = build_library(folder, "clock")
        self.moved = 0
        self.environment = {**os.environ, "LD_PRELOAD": str(library), "CLOCK_PAGE": str(page)}

    def move(self, seconds):
        """Moves it by so many seconds from what it is for others."""
        self.moved = seconds
        self.page[:] = struct.pack("<q", seconds)

    def pass_on(self, seconds):
        """Moves it by so many seconds more."""
        self.move(self.moved + seconds)
