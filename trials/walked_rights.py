"""Calls at random of several users, each to a server and to plain rules beside it, which have to tell the same."""

import random

from peers import hold
from repeats import Nobody, User
from users import ALL_BITS, CLIENT_TIME, DIRECTORY, EXCLUSIVE, GUARDED, OK, REGULAR, ROOT, SERVER_TIME, SYMBOLIC_LINK, UNCHECKED

# Users whose groups overlap, uid 0 and the anonymous user among them, and one with group 0.
USERS = (
    ROOT, User(0, 100, (200,)), User(1000, 100, (200, 300)), User(1001, 200, ()), User(1002, 300, tuple(range(400, 415)) + (200,)),
    User(1003, 0, (100,)), User(1003, 500, (0, 200)), User(65_534, 65_534, ()), Nobody(),
)  # fmt: skip
UIDS, GIDS = (0, 1000, 1001, 1002, 65_534), (0, 100, 200, 300, 414, 65_534)
NAMES = (b"a", b"b", b"c", b"d", b"e", b"f", b"g", b".", b"..")
OFFSETS = (0, 3, 5000, 70_000, 300_000)
# Texts of symbolic links, good ones and bad ones, and kinds that MKNOD may be asked for.
TEXTS, KINDS = (b"a", b"../b", 1024 * b"t", 1025 * b"t", b"", b"a\0b"), (1, 2, 3, 4, 5, 6, 7, 6, 7)
# Modes that let others in are as frequent as any.
MODES = (0o777, 0o1777, 0o2777, 0o755, 0o2775, 0o666, 0o4755, 0o6777, 0o2745, 0o700, 0o070, 0o007, 0)
# How many nodes are remembered, some of them gone.
MOST_NODES = 40


def without_size(attributes):
    """The size of a directory isn't known to plain rules."""
    return attributes._replace(size=0) if attributes and attributes.kind == DIRECTORY else attributes


def without_sizes(value):
    return {name: without_size(it) for name, it in value.items()} if isinstance(value, dict) else value


class Walk:
    """A server and plain rules, of which each node is known by a pair."""

    def __init__(self, ask, rules, seed):
        self.ask, self.rules, self.random = ask, rules, random.Random(seed)
        self.pairs, self.model_of = [(ask.root, rules.root)], {ask.root: rules.root}
        self.done = 0

    def node(self):
        return self.random.choice(self.pairs)

    def of_kind(self, kind):
        """Mostly a file, or a directory."""
        found = [it for it in self.pairs if it[1].kind == kind and it[1].is_there]
        return self.random.choice(found) if found and self.random.random() < 0.9 else self.node()

    def given(self, *more):
        """Attributes to set, some of them."""
        choose, given = self.random.choice, {}
        for name, values in (("mode", (*MODES, self.random.randrange(4096))), ("uid", UIDS), ("gid", GIDS), *more):
            if self.random.random() < 0.3:
                given[name] = choose(values)
        return given

    def call(self):
        """A procedure, the places of nodes in its arguments, which are pairs, and what it is given."""
        choose, chance = self.random.choice, self.random.random()
        name, here, file = choose(NAMES), self.of_kind(DIRECTORY), self.of_kind(REGULAR)
        if chance < 0.13:
            how = choose((UNCHECKED, UNCHECKED, GUARDED, EXCLUSIVE))
            verifier = choose((b"11111111", b"22222222"))
            given = self.given(("size", (0, 3, 9000))) if how != EXCLUSIVE else {}
            return "create", (here, name, how, verifier), given
        if chance < 0.20:
            return "mkdir", (here, name), self.given()
        if chance < 0.31:
            times = (SERVER_TIME, CLIENT_TIME)
            return "setattr", (self.node(),), self.given(("size", (0, 4, 5000)), ("atime", times), ("mtime", times))
        if chance < 0.41:
            return "write", (file, choose((b"some", b"some", b"")), choose(OFFSETS)), {}
        if chance < 0.53:
            return "rename", (here, name, self.of_kind(DIRECTORY), choose(NAMES[:7])), {}
        if chance < 0.62:
            return choose(("remove", "remove", "rmdir")), (here, name), {}
        if chance < 0.66:
            return "lookup", (here, name), {}
        if chance < 0.72:
            return "read", (file, choose(OFFSETS)), {}
        if chance < 0.79:
            return "access", (self.node(), choose((ALL_BITS, self.random.randrange(64)))), {}
        if chance < 0.82:
            return choose(("readdir", "readdirplus")), (here,), {}
        if chance < 0.85:
            return "symlink", (here, name, choose(TEXTS)), self.given()
        if chance < 0.88:
            return "mknod", (here, name, choose(KINDS)), self.given(*[("size", (0, 5))] * (self.random.random() < 0.2))
        if chance < 0.94:
            return "link", (choose((file, self.node())), here, name), {}
        if chance < 0.96:
            return "readlink", (self.of_kind(SYMBOLIC_LINK),), {}
        return choose(("commit", "commit", "getattr", "pathconf")), (file,), {}

    def is_left_out(self, procedure, arguments):
        """A RENAME of `.` or `..` is INVAL, whatever else, and REMOVE and RMDIR have faults of their own for them: no matter of rights."""
        return procedure in ("rename", "remove", "rmdir") and arguments[1] in (b".", b"..")

    def step(self):
        procedure, arguments, given = self.call()
        if self.is_left_out(procedure, arguments):
            return
        user = self.random.choice(USERS)
        sides = [[it[side] if type(it) is tuple else it for it in arguments] for side in (0, 1)]
        found = getattr(self.ask, procedure)(user, *sides[0], **given)
        wanted = getattr(self.rules, procedure)(user, *sides[1], **given)
        self.done += 1
        what = f"call {self.done}, {procedure} {arguments[1:]} {given} by {user}"
        hold(found.status == wanted.status, f"{what} is told {found.status}, not {wanted.status}; of {sides[1][0].attributes()}")
        if found.status == OK:
            self.compare(what, found, wanted)

    def compare(self, what, found, wanted):
        hold(without_sizes(found.value) == without_sizes(wanted.value), f"{what} tells {found.value!r}, not {wanted.value!r}")
        # some tell no attributes, which are optional
        seen, known = without_size(found.attributes), without_size(wanted.attributes)
        hold(seen in (None, known), f"{what} shows {seen}, not {known}")
        if found.node is not None:
            hold(self.model_of.setdefault(found.node, wanted.node) is wanted.node, f"{what} tells another node")
            self.remember((found.node, wanted.node))

    def remember(self, pair):
        if pair not in self.pairs:
            self.pairs.append(pair)
        if len(self.pairs) > MOST_NODES:
            # the root stays, and of others those that are there for longer
            gone = [it for it in self.pairs[1:] if not it[1].is_there]
            self.pairs.remove(self.random.choice(gone or self.pairs[1:]))

    def all_are_alike(self):
        """GETATTR of all that are known."""
        for node, model in self.pairs:
            self.compare("in the end a node", self.ask.getattr(ROOT, node), self.rules.getattr(ROOT, model)) if model.is_there else None


def walk(ask, rules, seed, steps):
    """So many calls: how many were made."""
    it = Walk(ask, rules, seed)
    for number in range(steps):
        it.step()
        if number % 500 == 0:
            it.all_are_alike()
    it.all_are_alike()
    return it.done
