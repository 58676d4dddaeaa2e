"""MNT of directories below the root of a volume, by raw calls to `filer export`."""

from peers import Client, Server, hold
from plain import MOUNT, NFS
from results import ACCES, INVAL, MNT, NAMETOOLONG, NOENT, NOTDIR, OK
from xdr import opaque, words

LOOKUP, CREATE, MKDIR = 3, 8, 9
UNSET = words(0, 0, 0, 0, 0, 0)
LONGEST = b"n" * 255

# Paths, and which directory each is: those that lead to one of these.
DIRECTORIES = {
    b"/": b"/vol0",
    b"//": b"/vol0",
    b"/.": b"/vol0",
    b"/vol0": b"/vol0",
    b"/vol0/": b"/vol0",
    b"//vol1//": b"/vol1",
    b"/vol0/a": b"/vol0/a",
    b"/vol0/a/": b"/vol0/a",
    b"/vol0/a/b": b"/vol0/a/b",
    b"/vol0//a/./b/": b"/vol0/a/b",
    b"/./vol0/./a/b/.": b"/vol0/a/b",
    b"/vol1/a": b"/vol1/a",
    b"/vol0/vol1": b"/vol0/vol1",
    b"/vol0/" + LONGEST: b"/vol0/" + LONGEST,
}

# Paths that are refused: what each is answered (RFC 1813, appendix I, section 5.1.5, and our profile).
REFUSED = {
    b"": INVAL,
    b"vol0/a": INVAL,
    b"/a": NOENT,
    b"/a/b": NOENT,
    b"/vol9/a": NOENT,
    b"/vol2/a": NOENT,
    b"/vol00/a": NOENT,
    b"/vol0/c": NOENT,
    b"/vol0/a/c": NOENT,
    b"/vol0/c/..": NOENT,
    b"/vol1/a/b": NOENT,
    b"/vol0/A": NOENT,
    b"/vol0/...": NOENT,
    b"/vol0/..": ACCES,
    b"/vol0/a/..": ACCES,
    b"/vol0/a/../a": ACCES,
    b"/vol0/a\0": ACCES,
    b"/../vol0": NOENT,
    b"/vol0/f": NOTDIR,
    b"/vol0/f/": NOTDIR,
    b"/vol0/f/a": NOTDIR,
    b"/vol0/f/..": NOTDIR,
    b"/vol0/" + b"n" * 256: NAMETOOLONG,
    b"/vol0/a/" + b"n" * 256: NAMETOOLONG,
    b"/vol0/" + b"n/" * 509: NOENT,
    b"/vol0/" + b"./" * 509 + b".": NAMETOOLONG,
}


def mounted(client, path):
    """The status of a MNT, and what is behind it."""
    told = client.ask(MNT, opaque(path), MOUNT)
    return int.from_bytes(told[:4], "big"), told[4:]


def made(client, procedure, directory, name, how=b""):
    """Makes a file or a directory. Answers its handle, as it is spelled."""
    told = client.ask(procedure, directory + opaque(name) + how + UNSET)
    hold(told[:4] == words(OK), f"{name} isn't made: {told[:4].hex()}")
    return told[8:32]


def make_all(client):
    """Makes directories and a file, in roots that MNT tells. Answers the handles of the directories."""
    handles = {}
    for root in (b"/vol0", b"/vol1"):
        status, told = mounted(client, root)
        hold(status == OK, f"MNT of {root}: {status}")
        handles[root] = told[:24]
    for path in (b"/vol0/a", b"/vol0/a/b", b"/vol1/a", b"/vol0/vol1", b"/vol0/" + LONGEST):
        directory, name = path.rsplit(b"/", 1)
        handles[path] = made(client, MKDIR, handles[directory], name)
    made(client, CREATE, handles[b"/vol0"], b"f", words(0))
    return handles


def looked_up(client, directory, name):
    told = client.ask(LOOKUP, directory + opaque(name), NFS)
    hold(told[:4] == words(OK), f"LOOKUP of {name}: {told[:4].hex()}")
    return told[4:28]


def tell_directories(client, handles):
    for path, wanted in DIRECTORIES.items():
        status, told = mounted(client, path)
        hold(status == OK, f"MNT of {path}: {status}")
        hold(told == handles[wanted] + words(2, 1, 0), f"MNT of {path}: {told.hex()}")
    below = looked_up(client, handles[b"/vol0/a"], b"b")
    hold(below == handles[b"/vol0/a/b"], "MNT and LOOKUP tell two handles")
    above = looked_up(client, handles[b"/vol0/a"], b"..")
    hold(above == handles[b"/vol0"], "`..` of a mounted directory isn't its parent")


def refuse_others(client):
    for path, wanted in REFUSED.items():
        status, told = mounted(client, path)
        hold(status == wanted and not told, f"MNT of {path}: {status} {told.hex()}")


def directories_are_mounted(filer):
    """Mounts directories, by many paths, and others that are none."""
    with Server(filer, None, command="export") as server:
        client = Client(server.address, service=server.service)
        handles = make_all(client)
        tell_directories(client, handles)
        refuse_others(client)
        client.close()
