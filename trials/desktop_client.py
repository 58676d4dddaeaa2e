"""GNOME's client, gio over gvfs's NFS, on a running server: it asks the port mapper, mounts the export that a URL lies in, and
walks from there."""

import os
import random
import shutil
import subprocess
from pathlib import Path

from libnfs_client import Unavailable, Wrong, expect

PROGRAMS = ("gio", "dbus-run-session")
PACKAGES = ("gvfs-backends", "gvfs-daemons", "gvfs", "libglib2.0-bin", "dbus-daemon")
BACKENDS = ("/usr/libexec/gvfsd-nfs", "/usr/lib/gvfs/gvfsd-nfs")
OPTIONS = ("--portmap",)
SECONDS = 60
SEED = 20_261_129

# each line is one run of gio in one session: $1 is a file to be copied, $2 the place of its copy that comes back
SCRIPT = """set -e
export GVFS_DISABLE_FUSE=1
at=nfs://127.0.0.1/vol1
gio mount $at
gio mkdir $at/folder
gio copy "$1" $at/folder/copied
gio move $at/folder/copied $at/folder/moved
gio list $at/folder
gio info -a standard::size $at/folder/moved | grep '^ *size:'
gio copy $at/folder/moved "$2"
gio remove $at/folder/moved
gio list $at/folder
gio remove $at/folder
echo ended
"""


def gio_copies_moves_and_removes(port, folder):
    source, back, runtime = folder / "source", folder / "back", folder / "runtime"
    source.write_bytes(random.Random(SEED).randbytes(3_000_001))
    runtime.mkdir(mode=0o700)
    environment = dict(os.environ, XDG_RUNTIME_DIR=str(runtime), HOME=str(folder))
    done = subprocess.run(
        ["dbus-run-session", "--", "bash", "-c", SCRIPT, "gio", source, back],
        capture_output=True,
        text=True,
        timeout=SECONDS,
        stdin=subprocess.DEVNULL,
        env=environment,
    )
    told = [line.split() for line in done.stdout.splitlines()]
    expect((told, done.returncode), ([["moved"], ["size:", "3000001"], ["ended"]], 0))
    expect(back.read_bytes() == source.read_bytes(), True)


CHECKS = (gio_copies_moves_and_removes,)


def names():
    return [check.__name__ for check in CHECKS]


def is_there():
    """Whether gio has what it needs for NFS."""
    return all(map(shutil.which, PROGRAMS)) and any(Path(it).exists() for it in BACKENDS)


def try_server(server, folder):
    """Puts the client through its checks: how many passed, and what failed."""
    if not is_there():
        raise Unavailable("gio or gvfs's NFS isn't there")
    passed, failures = 0, []
    for check in CHECKS:
        try:
            check(server.port, folder)
            passed += 1
        except (Wrong, OSError, subprocess.SubprocessError) as error:
            failures.append(f"{check.__name__}: {error}")
    return passed, failures
