"""libnfs, a client in user space, over a running server: its programs, and its library's calls
by ctypes."""

import ctypes
import ctypes.util
import errno
import os
import random
import shutil
import stat
import subprocess

PROGRAMS = ("nfs-ls", "nfs-cat", "nfs-cp")
SECONDS = 60
SEED = 20_261_127
MANY = 500


class Unavailable(Exception):
    """The client isn't there."""


class Wrong(Exception):
    """What the client shows isn't what it should."""


def expect(got, wanted):
    if got != wanted:
        raise Wrong(f"got {got!r:.200}, not {wanted!r:.200}")


class Attributes(ctypes.Structure):
    """struct nfs_stat_64 of libnfs."""

    _fields_ = [
        (name, ctypes.c_uint64)
        for name in (
            "dev ino mode links uid gid rdev size block blocks atime mtime ctime"
            " atime_n mtime_n ctime_n used"
        ).split()
    ]


class Entry(ctypes.Structure):
    """How struct nfsdirent of libnfs begins."""

    _fields_ = [("next", ctypes.c_void_p), ("name", ctypes.c_char_p), ("inode", ctypes.c_uint64)]


class Mounted:
    """An export, mounted by the library. A call that fails raises OSError with the number of the
    error."""

    def __init__(self, port, export, user=None):
        found = ctypes.util.find_library("nfs")
        if not found:
            raise Unavailable("libnfs isn't there")
        self.library = ctypes.CDLL(found)
        for name in ("nfs_init_context", "nfs_parse_url_dir", "nfs_readdir"):
            getattr(self.library, name).restype = ctypes.c_void_p
        self.library.nfs_get_error.restype = ctypes.c_char_p
        self.context = ctypes.c_void_p(self.library.nfs_init_context())
        # the ports and the user are set by what stands behind the address
        url = ctypes.c_void_p(
            self.library.nfs_parse_url_dir(self.context, url_of(port, export, user).encode())
        )
        self.library.nfs_destroy_url(url)
        self.call("mount", "127.0.0.1", export)

    def call(self, name, *arguments):
        values = [it.encode() if isinstance(it, str) else it for it in arguments]
        result = getattr(self.library, f"nfs_{name}")(self.context, *values)
        if result < 0:
            raise OSError(-result, f"{name}: {self.library.nfs_get_error(self.context)}")
        return result

    def open(self, path, flags):
        file = ctypes.c_void_p()
        self.call("open", path, flags, ctypes.byref(file))
        return file

    def write(self, file, offset, data):
        while data:
            count = self.call(
                "pwrite", file, ctypes.c_uint64(offset), ctypes.c_uint64(len(data)), data
            )
            offset, data = offset + count, data[count:]

    def read(self, file, offset, count):
        got = b""
        while len(got) < count:
            room = ctypes.create_string_buffer(count - len(got))
            size = self.call(
                "pread", file, ctypes.c_uint64(offset + len(got)), ctypes.c_uint64(len(room)), room
            )
            if size == 0:
                break
            got += room.raw[:size]
        return got

    def attributes(self, path):
        told = Attributes()
        self.call("stat64", path, ctypes.byref(told))
        return told

    def attributes_of_link(self, path):
        """Of what a name stands for, though it be a symbolic link."""
        told = Attributes()
        self.call("lstat64", path, ctypes.byref(told))
        return told

    def text(self, path):
        """That of a symbolic link."""
        room = ctypes.create_string_buffer(4096)
        self.call("readlink", path, room, len(room))
        return room.value

    def names(self, path):
        folder, names = ctypes.c_void_p(), []
        self.call("opendir", path, ctypes.byref(folder))
        while entry := self.library.nfs_readdir(self.context, folder):
            names.append(Entry.from_address(entry).name.decode())
        self.library.nfs_closedir(self.context, folder)
        return sorted(names)

    def end(self):
        self.library.nfs_destroy_context(self.context)


def url_of(port, path, user=None):
    """The address of a path, asked by the own user or by another: its uid and gid."""
    of_user = "" if user is None else "&uid=%d&gid=%d" % user
    return f"nfs://127.0.0.1{path}?nfsport={port}&mountport={port}&version=3{of_user}"


def program(name, *arguments):
    """What a program of libnfs prints."""
    done = subprocess.run(
        [name, *arguments], stdin=subprocess.DEVNULL, capture_output=True, timeout=SECONDS
    )
    if done.returncode:
        raise Wrong(f"{name} ends with status {done.returncode}: {done.stderr[-200:]!r}")
    return done.stdout


def refused(number, call, *arguments):
    try:
        call(*arguments)
    except OSError as error:
        expect(errno.errorcode.get(error.errno), errno.errorcode[number])
    else:
        raise Wrong(f"{arguments} isn't refused")


# ---- the checks, in order; each has the server's port and a folder of its own


def programs_copy_list_and_read(port, folder):
    data = random.Random(SEED).randbytes(1_000_003)
    (folder / "sent").write_bytes(data)
    program("nfs-cp", str(folder / "sent"), url_of(port, "/vol0/copied"))
    listed = program("nfs-ls", url_of(port, "/vol0")).decode().split("\n")
    expect([line.split()[-2:] for line in listed if line], [["1000003", "copied"]])
    expect(program("nfs-cat", url_of(port, "/vol0/copied")), data)
    program("nfs-cp", url_of(port, "/vol0/copied"), str(folder / "back"))
    expect((folder / "back").read_bytes() == data, True)


def the_root_is_the_first_volume(port, folder):
    expect(len(program("nfs-cat", url_of(port, "/vol0/copied"))), 1_000_003)
    first = Mounted(port, "/")
    expect(first.attributes("/copied").size, 1_000_003)
    first.end()


def another_export_is_refused(port, folder):
    try:
        Mounted(port, "/vol9")
    except OSError:
        return
    raise Wrong("/vol9 is mounted")


def directories_are_mounted(port, folder):
    volume = Mounted(port, "/vol0")
    volume.call("mkdir", "/below")
    volume.call("mkdir", "/below/it")
    (folder / "small").write_bytes(b"some bytes")
    program("nfs-cp", str(folder / "small"), url_of(port, "/vol0/below/it/copied"))
    for path in ("/vol0/below/it", "/vol0//below/./it/"):
        listed = program("nfs-ls", url_of(port, path)).decode().split("\n")
        expect([line.split()[-2:] for line in listed if line], [["10", "copied"]])
    expect(program("nfs-cat", url_of(port, "/vol0/below/it/copied")), b"some bytes")
    below = Mounted(port, "/vol0/below")
    expect(below.names("/"), [".", "..", "it"])
    expect(below.attributes("/it/copied").size, 10)
    below.call("unlink", "/it/copied")
    below.call("rmdir", "/it")
    below.end()
    volume.call("rmdir", "/below")
    for path in ("/vol0/below", "/vol0/copied", "/vol0/.."):
        try:
            Mounted(port, path)
        except OSError:
            continue
        raise Wrong(f"{path} is mounted")
    volume.end()


def directories_are_made_and_removed(port, folder):
    volume = Mounted(port, "/vol0")
    volume.call("mkdir", "/d")
    volume.call("mkdir", "/d/e")
    expect(stat.S_ISDIR(volume.attributes("/d/e").mode), True)
    expect(volume.attributes("/d").links, 3)
    refused(errno.EEXIST, volume.call, "mkdir", "/d")
    refused(errno.ENOTEMPTY, volume.call, "rmdir", "/d")
    volume.call("rmdir", "/d/e")
    expect(volume.names("/d"), [".", ".."])
    volume.call("rmdir", "/d")
    refused(errno.ENOENT, volume.attributes, "/d")
    volume.end()


def names_are_moved_and_removed(port, folder):
    volume = Mounted(port, "/vol0")
    for name in ("one", "two"):
        file = volume.open(f"/{name}", os.O_CREAT | os.O_RDWR)
        volume.write(file, 0, name.encode())
        volume.call("close", file)
    volume.call("rename", "/one", "/two")
    refused(errno.ENOENT, volume.attributes, "/one")
    file = volume.open("/two", os.O_RDONLY)
    expect(volume.read(file, 0, 10), b"one")
    volume.call("close", file)
    volume.call("unlink", "/two")
    refused(errno.ENOENT, volume.attributes, "/two")
    refused(errno.ENAMETOOLONG, volume.call, "mkdir", "/" + 256 * "n")
    volume.end()


def symbolic_links_are_made_read_and_followed(port, folder):
    volume = Mounted(port, "/vol0")
    volume.call("mkdir", "/links")
    long = "/".join(["component" * 10] * 11)[:1024]
    for text, name in (("../copied", "up"), ("/vol0/copied", "from-the-root"), ("nowhere", "dangling"), (long, "long"), ("up", "twice")):
        volume.call("symlink", text, f"/links/{name}")
        expect(volume.text(f"/links/{name}"), text.encode())
        told = volume.attributes_of_link(f"/links/{name}")
        expect((stat.S_ISLNK(told.mode), told.links, told.size, told.used), (True, 1, len(text), 0))
    for name in ("up", "from-the-root", "twice"):
        expect(volume.attributes(f"/links/{name}").size, 1_000_003)
        file = volume.open(f"/links/{name}", os.O_RDONLY)
        expect(len(volume.read(file, 0, 1 << 21)), 1_000_003)
        volume.call("close", file)
    refused(errno.ENOENT, volume.attributes, "/links/dangling")
    refused(errno.EEXIST, volume.call, "symlink", "again", "/links/up")
    refused(errno.EINVAL, volume.text, "/copied")
    # the link is renamed and goes, and not what it leads to
    volume.call("rename", "/links/up", "/links/moved")
    expect(volume.text("/links/moved"), b"../copied")
    for name in ("moved", "from-the-root", "dangling", "long", "twice"):
        volume.call("unlink", f"/links/{name}")
    volume.call("rmdir", "/links")
    expect(volume.names("/"), [".", "..", "copied"])
    volume.end()


def files_have_several_names(port, folder):
    volume = Mounted(port, "/vol0")
    volume.call("mkdir", "/links")
    made_by(volume, "/links/one", b"its bytes")
    first = volume.attributes("/links/one")
    volume.call("link", "/links/one", "/links/two")
    volume.call("link", "/links/two", "/three")
    for path in ("/links/one", "/links/two", "/three"):
        told = volume.attributes(path)
        expect((told.ino, told.links, read_by(volume, path)), (first.ino, 3, b"its bytes"))
    file = volume.open("/three", os.O_RDWR)
    volume.write(file, 0, b"new bytes")
    volume.call("close", file)
    expect(read_by(volume, "/links/one"), b"new bytes")
    refused(errno.EEXIST, volume.call, "link", "/links/one", "/three")
    volume.call("unlink", "/links/one")
    expect(volume.attributes("/three").links, 2)
    # of two names of one file one isn't moved over the other
    volume.call("rename", "/three", "/links/two")
    expect((volume.names("/links"), volume.attributes("/three").links), ([".", "..", "two"], 2))
    made_by(volume, "/other", b"other")
    volume.call("rename", "/other", "/links/two")
    expect((volume.attributes("/three").links, read_by(volume, "/three"), read_by(volume, "/links/two")), (1, b"new bytes", b"other"))
    volume.call("unlink", "/three")
    volume.call("unlink", "/links/two")
    volume.call("rmdir", "/links")
    expect(volume.names("/"), [".", "..", "copied"])
    volume.end()


def special_files_are_made(port, folder):
    """Devices are for uid 0."""
    root, owner = Mounted(port, "/vol0", (0, 0)), Mounted(port, "/vol0", (1000, 100))
    kinds = {
        "fifo": (stat.S_IFIFO, 0), "socket": (stat.S_IFSOCK, 0), "block": (stat.S_IFBLK, os.makedev(8, 1)),
        "character": (stat.S_IFCHR, os.makedev(1, 3)),
    }  # fmt: skip
    for volume, name in ((owner, "fifo"), (owner, "socket"), (root, "block"), (root, "character")):
        kind, device = kinds[name]
        volume.call("mknod", f"/{name}", kind | 0o640, device)
        told = volume.attributes(f"/{name}")
        expect((stat.S_IFMT(told.mode), told.mode & 0o7777, told.links, told.size), (kind, 0o640, 1, 0))
        refused(errno.EEXIST, volume.call, "mknod", f"/{name}", kind | 0o640, device)
    for name in ("block", "character"):
        refused(errno.EPERM, owner.call, "mknod", "/another", kinds[name][0] | 0o640, kinds[name][1])
    root.call("link", "/character", "/linked")
    expect(root.attributes("/linked").links, 2)
    for name in (*kinds, "linked"):
        root.call("unlink", f"/{name}")
    expect(root.names("/"), [".", "..", "copied"])
    for volume in (root, owner):
        volume.end()


def bytes_are_kept(port, folder):
    volume, numbers, shadow = Mounted(port, "/vol0"), random.Random(SEED), bytearray()
    file = volume.open("/shadowed", os.O_CREAT | os.O_RDWR)
    for _ in range(300):
        offset, count = numbers.randrange(400_000), numbers.randrange(1, 100_000)
        kind = numbers.randrange(4)
        if kind < 2:
            data = numbers.randbytes(count)
            shadow += bytes(max(0, offset + count - len(shadow)))
            shadow[offset : offset + count] = data
            volume.write(file, offset, data)
        elif kind == 2:
            expect(volume.read(file, offset, count) == shadow[offset : offset + count], True)
        else:
            size = offset // 2 + len(shadow) // 2
            shadow = shadow[:size] + bytes(max(0, size - len(shadow)))
            volume.call("ftruncate", file, ctypes.c_uint64(size))
    expect(volume.attributes("/shadowed").size, len(shadow))
    expect(volume.read(file, 0, 1_000_000) == shadow, True)
    volume.call("close", file)
    volume.end()


def attributes_are_set(port, folder):
    volume = Mounted(port, "/vol0")
    volume.call("chmod", "/shadowed", 0o640)
    volume.call("chown", "/shadowed", 1000, 1001)
    told = volume.attributes("/shadowed")
    expect((told.mode & 0o7777, told.uid, told.gid), (0o640, 1000, 1001))
    volume.call("access", "/shadowed", os.R_OK | os.W_OK)
    volume.end()


def all_names_are_listed(port, folder):
    volume = Mounted(port, "/vol1")
    wanted = [f"{number:03d}-{'n' * (number % 60)}" for number in range(MANY)]
    for name in wanted:
        volume.call("close", volume.open("/" + name, os.O_CREAT | os.O_RDWR))
    expect(volume.names("/"), sorted([".", "..", *wanted]))
    for name in wanted:
        volume.call("unlink", "/" + name)
    expect(volume.names("/"), [".", ".."])
    volume.end()


def made_by(volume, path, data):
    file = volume.open(path, os.O_CREAT | os.O_RDWR)
    volume.write(file, 0, data)
    volume.call("close", file)


def read_by(volume, path):
    file = volume.open(path, os.O_RDONLY)
    data = volume.read(file, 0, 100)
    volume.call("close", file)
    return data


def users_are_told_apart(port, folder):
    """By `uid` and `gid` of an address: a file's owner, one of its group, and another. The root has mode 1777."""
    owner, member, other = (Mounted(port, "/vol0", user) for user in ((1000, 100), (1001, 100), (1002, 300)))
    owner.call("mkdir", "/its")
    made_by(owner, "/its/file", b"its bytes")
    told = owner.attributes("/its/file")
    expect((told.uid, told.gid), (1000, 100))
    owner.call("chmod", "/its/file", 0o640)
    expect((read_by(owner, "/its/file"), read_by(member, "/its/file")), (b"its bytes", b"its bytes"))
    refused(errno.EACCES, read_by, other, "/its/file")
    for volume in (member, other):
        refused(errno.EACCES, volume.open, "/its/file", os.O_RDWR)
        refused(errno.EACCES, volume.call, "truncate", "/its/file", ctypes.c_uint64(0))
        refused(errno.EACCES, volume.call, "unlink", "/its/file")
        refused(errno.EACCES, volume.call, "mkdir", "/its/new")
        refused(errno.EACCES, volume.call, "rename", "/its/file", "/moved")
        refused(errno.EPERM, volume.call, "chmod", "/its/file", 0o666)
        refused(errno.EPERM, volume.call, "chown", "/its/file", 1001, 100)
        # the root is sticky
        refused(errno.EACCES, volume.call, "rename", "/its", "/theirs")
        refused(errno.EACCES, volume.call, "rmdir", "/its")
    refused(errno.EPERM, owner.call, "chown", "/its/file", 1001, 100)
    owner.call("chmod", "/its", 0o700)
    refused(errno.EACCES, member.attributes, "/its/file")
    refused(errno.EACCES, member.names, "/its")
    for volume in (owner, member, other):
        volume.end()


def programs_ask_as_users(port, folder):
    expect(program("nfs-cat", url_of(port, "/vol0/its/file", (1000, 100))), b"its bytes")
    for user in ((1001, 100), (1002, 300)):
        try:
            program("nfs-cat", url_of(port, "/vol0/its/file", user))
        except Wrong:
            continue
        raise Wrong(f"nfs-cat as {user} isn't refused")
    root = Mounted(port, "/vol0", (0, 0))
    expect(read_by(root, "/its/file"), b"its bytes")
    root.call("unlink", "/its/file")
    root.call("rmdir", "/its")
    expect(root.names("/"), [".", "..", "copied", "shadowed"])
    root.end()


CHECKS = (
    programs_copy_list_and_read,
    the_root_is_the_first_volume,
    another_export_is_refused,
    directories_are_mounted,
    directories_are_made_and_removed,
    names_are_moved_and_removed,
    symbolic_links_are_made_read_and_followed,
    files_have_several_names,
    special_files_are_made,
    bytes_are_kept,
    attributes_are_set,
    all_names_are_listed,
    users_are_told_apart,
    programs_ask_as_users,
)


def names():
    return [check.__name__ for check in CHECKS]


def try_server(server, folder):
    """Puts the client through its checks: how many passed, and what failed."""
    if not all(map(shutil.which, PROGRAMS)) or not ctypes.util.find_library("nfs"):
        raise Unavailable("libnfs isn't there")
    passed, failures = 0, []
    for check in CHECKS:
        try:
            check(server.port, folder)
            passed += 1
        except (Wrong, OSError, subprocess.SubprocessError) as error:
            failures.append(f"{check.__name__}: {error}")
    return passed, failures
