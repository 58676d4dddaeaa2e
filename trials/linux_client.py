"""A Linux kernel's NFS client over a running server: Debian's kernel in QEMU, by emulation alone, with busybox, some programs of this
machine and `guest/`.

The guest's 10.0.2.2 is this machine's 127.0.0.1, so that nothing leaves the machine and no port mapper is needed."""

import functools
import re
import shutil
import subprocess
import threading
import time
from pathlib import Path

from memory import scratch

HERE = Path(__file__).resolve().parent
EMULATOR = "qemu-system-x86_64"
# What the client needs of the kernel, as modules; one that is built in has no file.
MODULES = ("virtio_pci", "virtio_net", "sunrpc", "lockd", "dns_resolver", "nfs_acl", "nfs", "nfsv3")
# Programs of this machine that the guest has too, in a folder of their own.
OF_THIS_MACHINE = ("cp", "find", "git", "tar")
# What has to be there, and the packages that have it.
PROGRAMS, PACKAGES = (EMULATOR, "cpio", "dpkg-deb", *OF_THIS_MACHINE), ("qemu-system-x86", "cpio", "git")
# How long the whole guest may take, in seconds.
GUEST_SECONDS = 900
# What the guest's checks go by: the MiB of an image, the pieces that are written into it, the files of a tree, and how many seconds
# a check may take. And those checks that are of any size.
SMALL = {"image": 256, "pieces": 60, "files": 500, "limit": 300}
SIZED = ("mounts", "writes_an_image", "makes_many_files")
SEED = 20261127
LINE = re.compile(r"check (\w+) (passed|failed: .*)")


class Unavailable(Exception):
    """What the client is made of can't be fetched here."""


def names():
    """The checks that are made where none is named, in order."""
    lines = (HERE / "guest" / "checks").read_text()
    found = re.findall(r"^(\w+)\(\) \{", lines, re.MULTILINE)
    others = re.search(r"^others='(.*)'$", lines, re.MULTILINE)[1].split("|")
    return [name for name in found if name not in others]


def run(command, folder, seconds):
    try:
        done = subprocess.run(command, cwd=folder, stdout=subprocess.PIPE, stderr=subprocess.STDOUT, text=True, timeout=seconds)
    except (OSError, subprocess.TimeoutExpired) as error:
        raise Unavailable(f"{command[0]}: {error}") from None
    if done.returncode:
        raise Unavailable(f"{' '.join(command)}: {done.stdout.strip()[-200:]}")
    return done.stdout


def kernel_package():
    """The package of today's kernel for virtual machines."""
    depends = run(["apt-cache", "depends", "linux-image-cloud-amd64"], ".", 60)
    found = re.search(r"Depends: (linux-image-\d\S*)", depends)
    if not found:
        raise Unavailable("no package of a kernel is known")
    return found.group(1)


def is_known():
    """Whether a kernel's package is."""
    try:
        return bool(kernel_package())
    except Unavailable:
        return False


def in_order(modules):
    """The files of modules, each behind those that it depends on."""
    files = {path.stem.replace("-", "_"): path for path in modules.rglob("*.ko")}
    ordered = []

    def take(name):
        path = files.get(name.replace("-", "_"))
        if path is None or path in ordered:
            return
        depends = re.search(rb"\0depends=([^\0]*)\0", b"\0" + path.read_bytes())
        for other in depends.group(1).decode().split(",") if depends else ():
            if other:
                take(other)
        ordered.append(path)

    for name in MODULES:
        take(name)
    return ordered


def put(path, root, place=None):
    """A file of this machine at its place in the guest's first file system, or at another one."""
    target = root / str(place or path).lstrip("/")
    target.parent.mkdir(parents=True, exist_ok=True)
    shutil.copy(path, target)


def put_programs(root):
    """Programs of this machine with the libraries that they name. git has one that it starts by another name."""
    for name in OF_THIS_MACHINE:
        path = Path(shutil.which(name)).resolve()
        for library in set(re.findall(r"(/\S+) \(0x", run(["ldd", str(path)], ".", 60))):
            put(library, root)
        put(path, root, f"/gnu/{name}")
    (root / "gnu" / "git-upload-pack").symlink_to("git")


@functools.cache
def build():
    """Fetches kernel and busybox, and makes the guest's first file system: the paths of both."""
    folder = scratch()
    for name in PROGRAMS:
        if not shutil.which(name):
            raise Unavailable(f"{name} isn't there")
    for package in (kernel_package(), "busybox-static"):
        run(["apt-get", "download", "-q", package], folder, 240)
    unpacked, root = folder / "unpacked", folder / "root"
    for package in folder.glob("*.deb"):
        run(["dpkg-deb", "-x", str(package), str(unpacked)], folder, 120)
    (root / "bin").mkdir(parents=True)
    (root / "lib").mkdir()
    shutil.copy(unpacked / "bin" / "busybox", root / "bin" / "busybox")
    for name in ("init", "checks"):
        shutil.copy(HERE / "guest" / name, root / name)
    (root / "init").chmod(0o755)
    put_programs(root)
    modules = in_order(next(unpacked.rglob("lib/modules/*/kernel")))
    for path in modules:
        shutil.copy(path, root / "lib" / path.name)
    (root / "modules").write_text("".join(f"/lib/{path.name}\n" for path in modules))
    image = folder / "image"
    run(["sh", "-c", f"find . | cpio -o -H newc -R 0:0 --quiet | gzip -1 > {image}"], root, 120)
    return next(unpacked.rglob("vmlinuz-*")), image


def start(kernel, image, port, only, sizes):
    """The guest, whose console is its output. It makes all checks, or only some."""
    said = f"console=ttyS0 quiet loglevel=4 panic=-1 oops=panic mitigations=off random.trust_cpu=on filer.port={port}"
    said += f" filer.seed={SEED} filer.only={','.join(only)}"
    said += "".join(f" filer.{word}={number}" for word, number in sizes.items())
    command = [EMULATOR, "-accel", "tcg,thread=multi", "-cpu", "max", "-m", "512", "-smp", "2", "-nodefaults"]
    command += ["-display", "none", "-no-reboot", "-monitor", "none", "-serial", "stdio", "-kernel", str(kernel)]
    command += ["-initrd", str(image), "-append", said, "-netdev", "user,id=net,ipv6=off"]
    command += ["-device", "virtio-net-pci,netdev=net,romfile="]
    return subprocess.Popen(command, stdin=subprocess.DEVNULL, stdout=subprocess.PIPE, stderr=subprocess.STDOUT)


def console(guest, seconds):
    """The lines of the guest's console, until it ends or this many seconds are over."""
    clock = threading.Timer(seconds, guest.kill)
    clock.start()
    try:
        for line in guest.stdout:
            yield line.decode(errors="replace").strip("\r\n")
    finally:
        clock.cancel()
        guest.kill()
        guest.wait()
        guest.stdout.close()


def try_server(server, _folder, only=(), sizes=SMALL, seconds=GUEST_SECONDS):
    """Puts the client through its checks, or only some: how many passed, and what failed. The server is started anew where the guest
    asks for it."""
    kernel, image = build()
    wanted = only or names()
    begin, passed, failures, ended, last = time.monotonic(), [], [], False, ""
    for line in console(start(kernel, image, server.port, only, sizes), seconds):
        last = line or last
        found = LINE.search(line)
        if found and found.group(2) == "passed":
            passed.append(found.group(1))
        elif found:
            failures.append(f"{found.group(1)}: {found.group(2)}")
        elif line == "guest: restart":
            server.restart()
        elif re.search("Kernel panic|Oops|BUG:", line):
            failures.append(line)
        ended = ended or line == "guest ended"
    told = len(passed) + len(failures)
    for name in wanted[told:]:
        failures.append(f"{name}: the guest ended before it, after {time.monotonic() - begin:.0f} s, with {last!r}")
    if not ended and told == len(wanted):
        failures.append(f"the guest didn't end well: {last!r}")
    return len(passed), failures
