"""What the trials of refused memory share: the library that refuses, and a program that is run
with it; and how such a library is built."""

import atexit
import mmap
import os
import re
import shutil
import struct
import subprocess
import tempfile
from pathlib import Path

HERE = Path(__file__).resolve().parent

# What may be written to the error output of a program that ends with a fault: a line for people.
WORDS = re.compile(rb"(error|filer (replay|serve|export) [^\n]+): [^\n]+\n")

# Words of the page, as in refuse.c.
(
    COUNTING, FROM_ACCEPT, REFUSED_CALL, ALL_AFTER, CALLS, REFUSALS, DIVIDES, SCRIPT_FROM,
    SCRIPT_SIZE, CHILD_STATUS, PAGE_WORDS,
) = range(11)  # fmt: skip


def compiler():
    """A C compiler with its options: the system's, or the kit's with the kit's linker."""
    for name in ("cc", "gcc", "clang"):
        found = shutil.which(name)
        if found:
            return [found]
    rt = shutil.which("rt")
    kit = Path(rt).resolve().parent.parent if rt else Path("/opt/rattle")
    tools = kit / "toolchain" / "bin"
    return [str(tools / "clang"), "-nostdlib", f"--ld-path={tools / 'ld.lld'}"]


def scratch():
    """A folder that goes when the process ends."""
    folder = tempfile.mkdtemp(prefix="trial-")
    owner = os.getpid()
    atexit.register(lambda: os.getpid() == owner and shutil.rmtree(folder, ignore_errors=True))
    return Path(folder)


def build_library(folder, name="refuse"):
    """Builds a library to preload in a folder, of a file in C, and answers its path."""
    library = folder / f"{name}.so"
    options = [
        "-O1",
        "-fno-builtin",
        "-fPIC",
        "-shared",
        "-o",
        str(library),
        str(HERE / f"{name}.c"),
    ]
    subprocess.run(compiler() + options, check=True)
    return library


class Page:
    """The numbers that a program shares with the driver."""

    def __init__(self, folder, name):
        self.path = Path(folder) / name
        self.path.write_bytes(bytes(8 * PAGE_WORDS))
        with open(self.path, "r+b") as file:
            self.words = mmap.mmap(file.fileno(), 8 * PAGE_WORDS)

    def set(self, counting=0, from_accept=0, refused=0, all_after=0, divides=0):
        """What the next run counts and refuses."""
        told = counting, from_accept, refused, all_after, 0, 0, divides, 0, 0, 0
        self.words[:] = struct.pack(f"<{PAGE_WORDS}Q", *told)

    def word(self, index):
        return struct.unpack_from("<Q", self.words, 8 * index)[0]

    def put(self, index, *words):
        """Words from an index on."""
        struct.pack_into(f"<{len(words)}Q", self.words, 8 * index, *words)

    def refuse_no_more(self):
        self.put(REFUSED_CALL, 0, 0)

    @property
    def calls(self):
        return self.word(CALLS)

    @property
    def refusals(self):
        return self.word(REFUSALS)


def environment(library, page):
    """The environment of a program whose allocations are counted."""
    given = dict(os.environ)
    given["LD_PRELOAD"] = str(library)
    given["REFUSE_PAGE"] = str(page.path)
    return given
