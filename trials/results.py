"""What results of each procedure have to be, of any server of ours and any call.

It is written from RFC 1813 and the choices of docs/SPECIFICATION.md, and knows nothing of the
program. Where a result follows from the call and from what else the reply tells, it is worked out:
what ACCESS gives from the mode, which entries a page of READDIRPLUS may have from its two counts.
"""

from xdr import DIRECTORY, MOST_LINKS, MOST_OF_A_TEXT, SYMBOLIC_LINK, NoSpelling, Reader, hyper, must, opaque, words

OK, NOENT, ACCES, EXIST, XDEV, NOTDIR, INVAL, NOSPC, ROFS, MLINK = 0, 2, 13, 17, 18, 20, 22, 28, 30, 31
PERM, NAMETOOLONG, STALE, BADHANDLE, BAD_COOKIE, TOOSMALL, BADTYPE = 1, 63, 70, 10_001, 10_003, 10_005, 10_007

(
    GETATTR, SETATTR, LOOKUP, ACCESS, READLINK, READ, WRITE, CREATE, MKDIR, SYMLINK, MKNOD, REMOVE,
    RMDIR, RENAME, LINK, READDIR, READDIRPLUS, FSSTAT, FSINFO, PATHCONF, COMMIT,
) = range(1, 22)  # fmt: skip
LINKS_AND_DEVICES = (READLINK, SYMLINK, MKNOD, LINK)
MNT, DUMP, UMNT, UMNTALL, EXPORT = range(1, 6)

# Of each procedure of NFS that has a status: how many optional parts its failure arm has.
FAILURE_PARTS = {
    GETATTR: 0, SETATTR: 2, LOOKUP: 1, ACCESS: 1, READLINK: 1, READ: 1, WRITE: 2, CREATE: 2,
    MKDIR: 2, SYMLINK: 2, MKNOD: 2, REMOVE: 2, RMDIR: 2, RENAME: 4, LINK: 3, READDIR: 1,
    READDIRPLUS: 1, FSSTAT: 1, FSINFO: 1, PATHCONF: 1, COMMIT: 2,
}  # fmt: skip
# What a call that makes a name may tell, whatever it makes.
OF_A_NAME = (ACCES, EXIST, NOTDIR, INVAL, ROFS, NAMETOOLONG, STALE)
# Of some procedures: which failures they may tell, other than those that are told at once.
FAILURES = {
    GETATTR: (STALE,), ACCESS: (STALE,), FSSTAT: (STALE,), FSINFO: (STALE,), PATHCONF: (STALE,),
    READLINK: (STALE, INVAL), SYMLINK: (*OF_A_NAME, NOENT, NOSPC),
    MKNOD: (*OF_A_NAME, PERM, NOSPC, BADTYPE), LINK: (*OF_A_NAME, MLINK),
    READDIR: (STALE, NOTDIR, BAD_COOKIE, TOOSMALL),
    READDIRPLUS: (STALE, NOTDIR, BAD_COOKIE, TOOSMALL),
}  # fmt: skip

MOST_BYTES = 65_536
# Set apart in a page for the attributes, the verifier, the end of the list and eof; and what an
# entry of READDIRPLUS needs more than one of READDIR, for its attributes and a handle of 20 bytes.
PAGE_ENDS, PLUS = 104, 116
# FSINFO (section 3.3.19) behind the attributes: reads and writes of at most and preferably 65,536
# bytes in multiples of 4,096, listings of 65,536, then behind the largest size of a file times by 1
# nanosecond, FSF3_LINK, FSF3_SYMLINK, FSF3_HOMOGENEOUS and FSF3_CANSETTIME.
SIZES, TIMES_AND_PROPERTIES = words(*2 * (65_536, 65_536, 4_096), 65_536), words(0, 1, 1 + 2 + 8 + 16)
# PATHCONF (section 3.3.20) behind the attributes: 65,000 links, names of 255 bytes, which are not cut,
# owners that anybody may change, and names whose case tells and is kept.
LIMITS_OF_A_PATH = words(MOST_LINKS, 255, 1, 0, 0, 1)


def access_given(user, asked, node):
    """Of the bits of ACCESS (section 3.3.4) those that a mode gives to a user."""
    uid, groups = user
    if uid == 0:
        reads = writes = True
        executes = node.kind == 2 or node.mode & 0o111 != 0
    else:
        shift = 6 if uid == node.uid else 3 if node.gid in groups else 0
        digit = node.mode >> shift
        reads, writes, executes = digit & 4 != 0, digit & 2 != 0, digit & 1 != 0
    given = (1 * reads) | (12 * writes)
    given |= (2 * executes) | (16 * writes) if node.kind == 2 else 32 * executes
    return asked & given


def entry_size(name):
    """What an entry needs in a page of READDIR."""
    return 24 + (len(name) + 3) // 4 * 4


def page_of(entries, names_count, count, plus=PLUS):
    """How many of these names a page has, or None where it is too small (section 3.3.17)."""
    in_names, whole, page = 0, PAGE_ENDS, 0
    for name in entries:
        in_names += entry_size(name)
        whole += entry_size(name) + plus
        if in_names > names_count or whole > min(count, MOST_BYTES):
            break
        page += 1
    return page if page or not entries and count >= PAGE_ENDS else None


def entries_are(r, call, is_plus):
    """Reads a page: its entries, and whether they keep to what the call asks."""
    cookie, names, places = call.parts[1], [], set()
    while r.boolean():
        fileid, name, next_cookie = r.hyper(), r.opaque(255), r.hyper()
        must(next_cookie > cookie and name not in places)
        cookie = next_cookie
        names.append(name)
        places.add(name)
        if is_plus:
            node = r.present(r.attributes)
            must(r.present(r.handle) == call.service.handle(call.node()[0], fileid))
            must((node.fsid, node.fileid) == (call.node()[0], fileid))
    is_end = r.boolean()
    names_count = call.parts[3] if is_plus else MOST_BYTES
    page = page_of(names, names_count, call.parts[-1], PLUS if is_plus else 0)
    must(page == len(names) and (names or is_end))


def of_the_node(r, call):
    """Attributes of the node that the call names first."""
    node = r.present(r.attributes) if call.procedure != GETATTR else r.attributes()
    must((node.fsid, node.fileid) == call.node())
    return node


def made(r, call):
    """The attributes of what is made, behind its handle and before its directory before and after."""
    own, node = r.present(r.handle), r.present(r.attributes)
    must(own == call.service.handle(call.node()[0], node.fileid))
    r.wcc_data()
    return node


def is_text(data):
    """Whether bytes may be the text of a symbolic link."""
    return 1 <= len(data) <= MOST_OF_A_TEXT and b"\0" not in data


def ok_arm(r, call):
    """Reads the results of a procedure of NFS that went well."""
    procedure = call.procedure
    if procedure == GETATTR:
        of_the_node(r, call)
    elif procedure in (SETATTR, REMOVE, RMDIR):
        r.wcc_data()
    elif procedure == RENAME:
        r.wcc_data(), r.wcc_data()
    elif procedure == LOOKUP:
        own, node = r.handle(), r.present(r.attributes)
        must(own == call.service.handle(call.node()[0], node.fileid))
        of_the_node(r, call)
    elif procedure == ACCESS:
        node = of_the_node(r, call)
        must(r.word() == access_given(call.user, call.parts[1], node))
    elif procedure == READ:
        r.choice(0)
        count = r.word()
        r.boolean()
        must(len(r.opaque(MOST_BYTES)) == count)
    elif procedure == WRITE:
        r.choice(0), r.choice(0), r.word(), r.choice(2), r.fixed(8)
    elif procedure == CREATE:
        made(r, call)
    elif procedure == MKDIR:
        must(made(r, call).kind == DIRECTORY)
    elif procedure == READLINK:
        node, text = of_the_node(r, call), r.opaque(MOST_OF_A_TEXT)
        must(node.kind == SYMBOLIC_LINK and node.size == len(text) and is_text(text))
    elif procedure == SYMLINK:
        node, text = made(r, call), call.parts[-1]
        must((node.kind, node.links, node.size) == (SYMBOLIC_LINK, 1, len(text)) and is_text(text))
    elif procedure == MKNOD:
        node, (kind, _given, device) = made(r, call), call.parts[2]
        must((node.kind, node.links, node.device) == (kind, 1, device))
    elif procedure == LINK:
        must(of_the_node(r, call).kind != DIRECTORY)
        r.wcc_data()
    elif procedure in (READDIR, READDIRPLUS):
        must(of_the_node(r, call).kind == 2 and r.fixed(8) == bytes(8))
        entries_are(r, call, procedure == READDIRPLUS)
    elif procedure == FSSTAT:
        of_the_node(r, call), r.fixed(48), r.choice(0)
    elif procedure == FSINFO:
        of_the_node(r, call)
        must(r.fixed(28) == SIZES and r.hyper() == call.service.largest)
        must(r.fixed(12) == TIMES_AND_PROPERTIES)
    elif procedure == PATHCONF:
        of_the_node(r, call)
        must(r.fixed(24) == LIMITS_OF_A_PATH)
    elif procedure == COMMIT:
        r.wcc_data(), r.fixed(8)
    else:
        raise NoSpelling


def are_results(call, data):
    """Whether bytes are results of a call, on a server that had memory for it."""
    r = Reader(data)
    try:
        if call.is_nfs:
            status = r.word()
            if status == OK:
                ok_arm(r, call)
            else:
                must(status in FAILURES.get(call.procedure, (status,)))
                for _ in range(FAILURE_PARTS[call.procedure]):
                    r.choice(0)
        elif call.is_mount:  # MNT below a root
            if r.word() == OK:
                must(path_of(call.service.node(r.handle())[0])[1:] == parts_of(call.parts[0])[0])
                must(r.fixed(12) == words(2, 1, 0))
        elif call.procedure == 1:  # CENSUS
            for _ in range(r.word()):
                r.word(), r.hyper(), r.hyper()
        elif r.word() == OK:  # GROW
            r.hyper()
        r.end()
    except NoSpelling:
        return False
    return True


# ---- what is known before a reply comes


def path_of(volume):
    return b"/vol%d" % volume


def parts_of(path):
    """What stands between the slashes of a path, but for nothing and `.`."""
    return [part for part in path.split(b"/") if part not in (b"", b".")]


def mount_results(procedure, parts, service):
    """The results of MOUNT (RFC 1813, appendix I) that depend on nothing but the service; None for
    a MNT below the root of a volume that is there."""
    if procedure == DUMP:
        return words(0)
    if procedure == EXPORT:
        paths = [words(1) + opaque(path_of(volume)) + words(0) for volume in range(service.volumes)]
        return b"".join(paths) + words(0)
    if procedure != MNT:
        return b""
    path = parts[0]
    if len(path) > 1024:
        return words(NAMETOOLONG)
    if path[:1] != b"/":
        return words(INVAL)
    first, *others = parts_of(path) or [path_of(0)[1:]]
    named = [volume for volume in range(service.volumes) if b"/" + first == path_of(volume)]
    if not named:
        return words(NOENT)
    if others:
        return None
    return words(OK) + opaque(service.handle(named[0])) + words(2, 1, 0)


def empty_mount(path):
    """The status of a MNT of a path below a root in which nothing was made."""
    part = parts_of(path)[1]
    if part == b"..":
        return ACCES
    if len(part) > 255:
        return NAMETOOLONG
    return ACCES if b"\0" in part else NOENT


def root_attributes(service, volume):
    """fattr3 of a root as a run begins: mode 0755, two links, size 4096, its volume as fsid, and
    the moment of the start as all its times."""
    attributes = words(2, 0o755, 2, 0, 0, 0, 4096, 0, 0, 0, 0, 0, volume, 0, 1)
    return attributes + 3 * service.begun


def empty_page(call, volume):
    """A page of READDIR or READDIRPLUS of a root in which nothing was made, or a status."""
    is_plus = call.procedure == READDIRPLUS
    cookie, verifier = call.parts[1:3]
    if cookie and any(verifier):
        return BAD_COOKIE
    remaining = [(k, name) for k, name in ((1, b"."), (2, b"..")) if k > cookie]
    names = [name for _, name in remaining]
    names_count = call.parts[3] if is_plus else MOST_BYTES
    page = page_of(names, names_count, call.parts[-1], PLUS if is_plus else 0)
    if page is None:
        return TOOSMALL
    root = words(1) + root_attributes(call.service, volume)
    node = root + words(1) + opaque(call.service.handle(volume)) if is_plus else b""
    told = [words(1) + hyper(1) + opaque(name) + hyper(k) + node for k, name in remaining[:page]]
    return root + bytes(8) + b"".join(told) + words(0, page == len(remaining))


def name_fault(name):
    """What is wrong with a name, or None."""
    if len(name) > 255:
        return NAMETOOLONG
    return ACCES if not name or b"/" in name or b"\0" in name else None


def empty_lookup(call, volume):
    """The results of LOOKUP in a root in which nothing was made, or a status."""
    name, root = call.parts[1], words(1) + root_attributes(call.service, volume)
    if name_fault(name):
        return name_fault(name)
    if name not in (b".", b".."):
        return NOENT
    return opaque(call.service.handle(volume)) + root + root


def text_fault(text):
    """What is wrong with the text of a symbolic link, or None."""
    if len(text) > MOST_OF_A_TEXT:
        return NAMETOOLONG
    return None if is_text(text) else INVAL if text else NOENT


def given_fault(given):
    """What is wrong with attributes for a node that has no size to be set: a time of 10^9 nanoseconds or more, or a size."""
    size, nanoseconds = given
    return INVAL if size is not None or any(it >= 10**9 for it in nanoseconds) else None


def empty_making(call):
    """The status of a SYMLINK or MKNOD that fails in a root in which nothing was made; None where it would succeed."""
    _root, name, asked, *text = call.parts
    if name_fault(name):
        return name_fault(name)
    if name in (b".", b".."):
        return EXIST
    if call.procedure == SYMLINK:
        return text_fault(text[0]) or given_fault(asked)
    kind, given, _device = asked
    return BADTYPE if given is None else given_fault(given)


# Procedures by which nothing changes, and that run by names and attributes alone.
LOOKS = (GETATTR, LOOKUP, ACCESS, READLINK, READDIR, READDIRPLUS, FSINFO, PATHCONF)


def of_an_empty_server(call):
    """The results of a server with nothing but roots, or a status; None where that isn't said."""
    volume, fileid = call.node()
    procedure, root = call.procedure, root_attributes(call.service, volume)
    if procedure not in (*LOOKS, SYMLINK, MKNOD, LINK):
        return None
    if fileid != 1:
        return STALE
    if procedure in (SYMLINK, MKNOD):
        return empty_making(call)
    if procedure in (READLINK, LINK):
        # a root is no symbolic link, and as a directory has one name
        return INVAL
    if procedure == GETATTR:
        return root
    if procedure == LOOKUP:
        return empty_lookup(call, volume)
    if procedure == ACCESS:
        given = access_given(call.user, call.parts[1], Reader(root).attributes())
        return words(1) + root + words(given)
    if procedure in (READDIR, READDIRPLUS):
        return empty_page(call, volume)
    if procedure == FSINFO:
        return words(1) + root + SIZES + hyper(call.service.largest) + TIMES_AND_PROPERTIES
    return words(1) + root + LIMITS_OF_A_PATH
