"""A file system in memory whose calls ask what POSIX and RFC 1813 let a user do, by which the rows of `permissions` are checked, and
which is asked beside a server. It takes nothing from the program, nor from the rows.

The rules: IEEE Std 1003.1, section 4.7 ("File Access Permissions"), and chmod, chown, link, mknod, open, rename, symlink, unlink,
utimensat and write; RFC 1813 sections 2.5, 2.6, 3.3.2, 3.3.4, 3.3.5, 3.3.7, 3.3.8, 3.3.10, 3.3.11, 3.3.15 and 4.4; and
docs/SPECIFICATION.md where these leave a choice."""

from users import (
    ACCES, BADTYPE, CLIENT_TIME, DEVICES, DIRECTORY, EXCLUSIVE, EXIST, FIFO, GUARDED, INVAL, ISDIR, MADE_BY_MKNOD, MLINK, MOST_LINKS,
    MOST_OF_A_TEXT, NAMETOOLONG, NOENT, NOTDIR, NOTEMPTY, NOT_SYNC, DEVICE_NUMBERS, OK, PERM, REGULAR, ROFS, STALE, SYMBOLIC_LINK, UNCHECKED,
    Attributes, Told,
)  # fmt: skip

SET_UID, SET_GID, STICKY = 0o4000, 0o2000, 0o1000


class Refused(Exception):
    def __init__(self, status):
        super().__init__(status)
        self.status = status


def must(is_so, status):
    if not is_so:
        raise Refused(status)


class Node:
    def __init__(self, kind, mode, uid, gid):
        self.kind, self.mode, self.uid, self.gid = kind, mode, uid, gid
        self.is_there, self.parent, self.entries, self.data, self.verifier = True, None, {}, bytearray(), None
        # how many names it has; those of a directory are counted as its links are
        self.names = 1
        # how often it changed, as times tell of a server's
        self.changes = 0

    def links(self):
        """A directory has two, and one for each directory in it."""
        below = sum(node.kind == DIRECTORY for node in self.entries.values())
        return 2 + below if self.kind == DIRECTORY else self.names

    def attributes(self):
        device = DEVICE_NUMBERS if self.kind in DEVICES else (0, 0)
        return Attributes(self.kind, self.mode, self.links(), self.uid, self.gid, len(self.data), device)

    def end_set_ids(self):
        """A file that others change isn't run as its owner, nor as its group where the group may run it."""
        self.mode &= ~(SET_UID | SET_GID if self.mode & 0o010 else SET_UID)


class Caller:
    """A user whom the server takes a call for."""

    def __init__(self, uid, gid, groups):
        self.uid, self.is_root, self.gid, self.groups = uid, uid == 0, gid, {gid, *groups}

    def owns(self, node):
        return self.is_root or self.uid == node.uid

    def rights(self, node):
        """r, w and x: uid 0 has all, but x only of what somebody may execute, or of a directory."""
        if self.is_root:
            return {"r", "w"} | ({"x"} if node.kind == DIRECTORY or node.mode & 0o111 else set())
        place = 6 if self.uid == node.uid else 3 if node.gid in self.groups else 0
        return {letter for letter, bit in (("r", 4), ("w", 2), ("x", 1)) if node.mode >> place & bit}

    def needs(self, node, letters, status=ACCES):
        must(set(letters) <= self.rights(node), status)

    def writes(self, node):
        """Section 4.4: the owner may write what it opened before its mode changed."""
        must(self.owns(node) or "w" in self.rights(node), ACCES)

    def drops(self, directory, node):
        """An entry goes from a directory: of a sticky one its owner's, or by the directory's owner."""
        self.needs(directory, "wx")
        must(not directory.mode & STICKY or self.owns(directory) or self.owns(node), ACCES)


def procedure(run):
    """Tells the status of what is refused."""

    def told(*arguments, **given):
        try:
            return run(*arguments, **given)
        except Refused as refused:
            return Told(refused.status)

    return told


def there(node, kind=None, status=None):
    must(node.is_there, STALE)
    must(kind in (None, node.kind), status)


class Posix:
    """Methods as those of `users.Users`. `squash` is `none`, `root` or `all`; `root_of` has the mode, owner and group of the root."""

    def __init__(self, squash="none", anonymous=(65_534, 65_534), root_of=(0o755, 0, 0), reads_only=False):
        self.squash, self.anonymous, self.reads_only = squash, anonymous, reads_only
        self.root = Node(DIRECTORY, *root_of)
        self.root.parent = self.root

    def caller(self, user):
        groups = getattr(user, "groups", None)
        nobody = groups is None or (user.uid, user.gid, tuple(groups)) == (65_534, 65_534, ())
        if nobody or self.squash == "all" or self.squash == "root" and user.uid == 0:
            return Caller(*self.anonymous, ())
        if self.squash == "none":
            return Caller(user.uid, user.gid, groups)
        other = [self.anonymous[1] if gid == 0 else gid for gid in (user.gid, *groups)]
        return Caller(user.uid, other[0], other[1:])

    def changer(self, user):
        """The caller of a call that changes something."""
        must(not self.reads_only, ROFS)
        return self.caller(user)

    # ---- attributes

    def null(self, _user):
        return Told(OK)

    @procedure
    def getattr(self, _user, node):
        there(node)
        return Told(OK, node, node.attributes())

    def whole(self, node):
        return node.is_there, node.attributes(), node.changes

    @procedure
    def setattr(self, user, node, guard=None, **given):
        """A guard that is given is another time."""
        caller = self.changer(user)
        there(node)
        if not caller.is_root:
            self.may_set(caller, node, given)
        must(guard is None, NOT_SYNC)
        must(node.kind == REGULAR or "size" not in given, INVAL)
        self.set(caller, node, given)
        return Told(OK, node, node.attributes())

    def may_set(self, caller, node, given):
        if {"mode", "uid", "gid"} & given.keys() or CLIENT_TIME in given.values():
            must(caller.owns(node), PERM)
            must(given.get("uid", node.uid) == node.uid, PERM)
            must(given.get("gid", node.gid) in caller.groups | {node.gid}, PERM)
        caller.writes(node)

    def set(self, caller, node, given):
        if node.kind == REGULAR:
            size = given.get("size", len(node.data))
            node.data = node.data[:size] + bytes(max(0, size - len(node.data)))
        if node.kind != DIRECTORY and ({"uid", "gid"} & given.keys() or "size" in given and not caller.is_root):
            node.end_set_ids()
        node.uid, node.gid = given.get("uid", node.uid), given.get("gid", node.gid)
        if "mode" in given:
            is_kept = node.kind == DIRECTORY or caller.is_root or node.gid in caller.groups
            node.mode = given["mode"] & (0o7777 if is_kept else 0o5777)
        node.changes += 1

    @procedure
    def access(self, user, node, bits=63):
        there(node)
        rights, given = self.caller(user).rights(node), 0
        if node.kind == DIRECTORY:
            changes = {"w", "x"} <= rights
            given = 1 * ("r" in rights) + 2 * ("x" in rights) + 28 * (changes and not self.reads_only)
        else:
            # what is written to a FIFO, a socket or a device changes nothing here
            writes = "w" in rights and not (self.reads_only and node.kind in (REGULAR, SYMBOLIC_LINK))
            given = 1 * ("r" in rights) + 12 * writes + 32 * ("x" in rights)
        return Told(OK, node, node.attributes(), given & bits)

    # ---- data

    @procedure
    def read(self, user, node, offset=0, count=100):
        there(node, REGULAR, INVAL)
        caller = self.caller(user)
        must(caller.owns(node) or {"r", "x"} & caller.rights(node), ACCES)
        return Told(OK, node, node.attributes(), bytes(node.data[offset : offset + count]))

    @procedure
    def write(self, user, node, data=b"w", offset=0):
        caller = self.changer(user)
        there(node, REGULAR, INVAL)
        caller.writes(node)
        if data:
            node.data += bytes(max(0, offset - len(node.data)))
            node.data[offset : offset + len(data)] = data
            node.changes += 1
            if not caller.is_root:
                node.end_set_ids()
        return Told(OK, node, node.attributes(), len(data))

    @procedure
    def commit(self, user, node):
        there(node, REGULAR, INVAL)
        caller = self.caller(user)
        must(caller.owns(node) or caller.rights(node), ACCES)
        return Told(OK, node, node.attributes())

    # ---- names

    def searched(self, caller, directory, name=b""):
        """A directory in which a name is looked for."""
        there(directory, DIRECTORY, NOTDIR)
        caller.needs(directory, "x")
        must(len(name) <= 255, NAMETOOLONG)

    @procedure
    def lookup(self, user, directory, name):
        self.searched(self.caller(user), directory, name)
        found = {b".": directory, b"..": directory.parent, **directory.entries}.get(name)
        must(found, NOENT)
        return Told(OK, found, found.attributes())

    def made(self, caller, directory, name, kind, mode, given):
        """A new node: another than uid 0 makes its own, in a group of its own or in that of a set-group-id directory."""
        caller.needs(directory, "wx")
        inherits = bool(directory.mode & SET_GID)
        gid = directory.gid if inherits else caller.gid
        if given.get("gid") in caller.groups or caller.is_root and "gid" in given:
            gid = given["gid"]
        uid = given.get("uid", caller.uid) if caller.is_root else caller.uid
        node = Node(kind, given.get("mode", mode) & 0o7777, uid, gid)
        if kind == DIRECTORY and inherits:
            node.mode |= SET_GID
        elif not caller.is_root and gid not in caller.groups:
            node.mode &= ~SET_GID
        node.data = bytearray(given.get("size", 0))
        node.parent, directory.entries[name] = directory, node
        directory.changes += 1
        return Told(OK, node, node.attributes())

    @procedure
    def create(self, user, directory, name, how=UNCHECKED, verifier=b"verifier", **given):
        caller = self.changer(user)
        self.searched(caller, directory, name)
        must(name not in (b".", b".."), EXIST)
        found = directory.entries.get(name)
        if found is None:
            made = self.made(caller, directory, name, REGULAR, 0o644, {} if how == EXCLUSIVE else given)
            made.node.verifier = verifier if how == EXCLUSIVE else None
            return made
        must(how != GUARDED and found.kind == REGULAR, EXIST)
        must(how != EXCLUSIVE or found.verifier == verifier, EXIST)
        if how == UNCHECKED and "size" in given:
            caller.writes(found)
            self.set(caller, found, {"size": given["size"]})
        return Told(OK, found, found.attributes())

    @procedure
    def mkdir(self, user, directory, name, **given):
        caller = self.changer(user)
        self.searched(caller, directory, name)
        must(name not in (b".", b"..", *directory.entries), EXIST)
        return self.made(caller, directory, name, DIRECTORY, 0o755, given)

    def is_new(self, caller, directory, name):
        """A name that isn't there, in a directory in which one may be made."""
        self.searched(caller, directory, name)
        must(name not in (b".", b"..", *directory.entries), EXIST)
        caller.needs(directory, "wx")

    @procedure
    def symlink(self, user, directory, name, text=b"target", **given):
        caller = self.changer(user)
        self.is_new(caller, directory, name)
        must(len(text) <= MOST_OF_A_TEXT, NAMETOOLONG)
        must(text, NOENT)
        must(0 not in text and "size" not in given, INVAL)
        told = self.made(caller, directory, name, SYMBOLIC_LINK, 0o777, given)
        told.node.data = bytearray(text)
        return told._replace(attributes=told.node.attributes())

    @procedure
    def mknod(self, user, directory, name, kind=FIFO, **given):
        """A device is for uid 0 (mknod)."""
        caller = self.changer(user)
        self.is_new(caller, directory, name)
        must(kind not in DEVICES or caller.is_root, PERM)
        must(kind in MADE_BY_MKNOD, BADTYPE)
        must("size" not in given, INVAL)
        return self.made(caller, directory, name, kind, 0o644, given)

    @procedure
    def readlink(self, _user, node):
        there(node, SYMBOLIC_LINK, INVAL)
        return Told(OK, node, node.attributes(), bytes(node.data))

    @procedure
    def link(self, user, node, directory, name):
        """What has a name gets another. What the caller may do with it isn't asked."""
        caller = self.changer(user)
        there(node)
        if directory.is_there and directory.kind == DIRECTORY:
            caller.needs(directory, "x")
            if len(name) <= 255 and name not in (b".", b"..", *directory.entries):
                caller.needs(directory, "wx")
        must(node.kind != DIRECTORY, INVAL)
        self.is_new(caller, directory, name)
        must(node.names < MOST_LINKS, MLINK)
        directory.entries[name] = node
        node.names += 1
        for changed in (node, directory):
            changed.changes += 1
        return Told(OK, node, node.attributes())

    def gone(self, user, directory, name):
        """The entry that may go."""
        caller = self.changer(user)
        self.searched(caller, directory, name)
        found = directory.entries.get(name)
        must(found, NOENT)
        caller.drops(directory, found)
        return found

    def drop(self, directory, name):
        """A name goes, and with its last one a node."""
        node = directory.entries.pop(name)
        node.names -= 1
        node.is_there = node.names > 0
        for changed in (node, directory):
            changed.changes += 1
        return Told(OK)

    @procedure
    def remove(self, user, directory, name):
        must(self.gone(user, directory, name).kind != DIRECTORY, ISDIR)
        return self.drop(directory, name)

    @procedure
    def rmdir(self, user, directory, name):
        found = self.gone(user, directory, name)
        must(found.kind == DIRECTORY, NOTDIR)
        must(not found.entries, NOTEMPTY)
        return self.drop(directory, name)

    @procedure
    def rename(self, user, directory, name, to, to_name):
        caller = self.changer(user)
        there(directory, DIRECTORY, NOTDIR), there(to, DIRECTORY, NOTDIR)
        caller.needs(directory, "x"), caller.needs(to, "x")
        self.searched(caller, directory, name), self.searched(caller, to, to_name)
        found, target = directory.entries.get(name), to.entries.get(to_name)
        must(found, NOENT)
        # two names of one node: nothing changes (rename)
        if found is target:
            return Told(OK)
        caller.drops(directory, found)
        caller.needs(to, "wx")
        if target:
            caller.drops(to, target)
        if found.kind == DIRECTORY and directory is not to:
            caller.needs(found, "w")
            must(not self.is_below(to, found), INVAL)
        must(not target or (found.kind == DIRECTORY) == (target.kind == DIRECTORY) and not target.entries, EXIST)
        if target:
            self.drop(to, to_name)
        to.entries[to_name] = directory.entries.pop(name)
        # of what isn't a directory nobody asks
        found.parent = to
        for changed in (found, directory, to):
            changed.changes += 1
        return Told(OK)

    def is_below(self, node, above):
        while node not in (above, self.root):
            node = node.parent
        return node is above

    @procedure
    def readdir(self, user, directory):
        there(directory, DIRECTORY, NOTDIR)
        self.caller(user).needs(directory, "r")
        return Told(OK, directory, value=sorted([b".", b"..", *directory.entries]))

    @procedure
    def readdirplus(self, user, directory):
        there(directory, DIRECTORY, NOTDIR)
        caller = self.caller(user)
        caller.needs(directory, "r")
        all_of = {b".": directory, b"..": directory.parent, **directory.entries}
        is_told = "x" in caller.rights(directory)
        return Told(OK, directory, value={name: node.attributes() if is_told else None for name, node in all_of.items()})

    @procedure
    def mnt(self, user, path):
        caller, node = self.caller(user), self.root
        for part in path.split(b"/"):
            if part in (b"", b"."):
                continue
            self.searched(caller, node)
            must(part != b"..", ACCES)
            must(part in node.entries, NOENT)
            node = node.entries[part]
        there(node, DIRECTORY, NOTDIR)
        return Told(OK, node)

    # ---- what needs no right

    fsstat = fsinfo = getattr

    @procedure
    def pathconf(self, _user, node):
        there(node)
        return Told(OK, node, node.attributes(), True)
