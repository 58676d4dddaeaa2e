"""Clients that ask a port mapper where NFS and MOUNT are: rpcinfo, showmount and qemu-img, over a running server."""

import os
import random
import shutil
import subprocess

from libnfs_client import Unavailable, Wrong, expect

PROGRAMS = ("rpcinfo", "showmount", "qemu-img")
PACKAGES = ("rpcbind", "nfs-common", "qemu-utils", "qemu-block-extra")
OPTIONS = ("--portmap",)
SECONDS = 60
MEBIBYTE = 1 << 20
SEED = 20_261_129


def told(*words):
    """What a program prints that ends well."""
    done = subprocess.run(words, capture_output=True, text=True, timeout=SECONDS, stdin=subprocess.DEVNULL)
    expect((words[0], done.returncode, done.stderr), (words[0], 0, ""))
    return done.stdout


def rpcinfo_lists_the_programs(port, folder):
    lines = [line.split()[:4] for line in told("rpcinfo", "-p", "127.0.0.1").splitlines()[1:]]
    mapper = [["100000", version, way, "111"] for way in ("tcp", "udp") for version in "432"]
    expect(lines, [*mapper, ["100003", "3", "tcp", str(port)], ["100005", "3", "tcp", str(port)]])


def rpcinfo_calls_the_programs(port, folder):
    for program in ("100003", "100005"):
        expect(told("rpcinfo", "-T", "tcp", "127.0.0.1", program, "3"), f"program {program} version 3 ready and waiting\n")


def showmount_lists_the_exports(port, folder):
    exports = [line.split()[0] for line in told("showmount", "-e", "127.0.0.1").splitlines()[1:]]
    expect(exports, ["/vol0", "/vol1"])


def qemu_writes_an_image(port, folder):
    """An image with holes is made, converted to the server and compared with where it came from."""
    made = random.Random(SEED)
    source = folder / "source.img"
    with open(source, "wb") as file:
        file.truncate(32 * MEBIBYTE)
        for _ in range(20):
            file.seek(made.randrange(31 * MEBIBYTE))
            file.write(made.randbytes(made.randrange(1, MEBIBYTE)))
    told("qemu-img", "create", "-f", "raw", "nfs://127.0.0.1/vol1/empty.img", "16M")
    told("qemu-img", "convert", "-O", "raw", source, "nfs://127.0.0.1/vol1/copy.img")
    expect(told("qemu-img", "compare", source, "nfs://127.0.0.1/vol1/copy.img"), "Images are identical.\n")
    back = folder / "back.img"
    told("qemu-img", "convert", "-O", "raw", "nfs://127.0.0.1/vol1/copy.img", back)
    expect(back.read_bytes() == source.read_bytes(), True)


CHECKS = (
    rpcinfo_lists_the_programs,
    rpcinfo_calls_the_programs,
    showmount_lists_the_exports,
    qemu_writes_an_image,
)


def names():
    return [check.__name__ for check in CHECKS]


def try_server(server, folder):
    """Puts the clients through their checks: how many passed, and what failed."""
    # programs of the system's folder are of users that have it not in their path
    os.environ["PATH"] += ":/usr/sbin:/sbin"
    if not all(map(shutil.which, PROGRAMS)):
        raise Unavailable("rpcinfo, showmount or qemu-img isn't there")
    passed, failures = 0, []
    for check in CHECKS:
        try:
            check(server.port, folder)
            passed += 1
        except (Wrong, OSError, subprocess.SubprocessError) as error:
            failures.append(f"{check.__name__}: {error}")
    return passed, failures
