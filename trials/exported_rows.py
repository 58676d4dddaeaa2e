"""Worked streams for `export` with two volumes: the bytes that come and the replies, typed from
RFC 1813, RFC 5531 and docs/SPECIFICATION.md. `vvvvvvvv vvvvvvvv` stands for the verifier of the
run, with which each handle ends, and `tttttttt tttttttt` for the moment of its start."""

from stream_rows import answer

RUN = "vvvvvvvv vvvvvvvv"
OTHER_RUN = "01020304 05060708"
BEGUN = "tttttttt tttttttt"
# the root of volume 0, and that of volume 1, by fsid
ROOT = (
    "00000002 000001ed 00000002 00000000 00000000 00000000 00001000 00000000 00000000 00000000"
    f" 00000000 00000000 00000000 00000000 00000001 {BEGUN} {BEGUN} {BEGUN}"
)
ROOT_1 = (
    "00000002 000001ed 00000002 00000000 00000000 00000000 00001000 00000000 00000000 00000000"
    f" 00000000 00000000 00000001 00000000 00000001 {BEGUN} {BEGUN} {BEGUN}"
)
# authsys_parms (RFC 5531, appendix A): stamp 7, the machine `m`, uid 0, gid 0, no groups
USER_0 = "00000001 00000018 00000007 00000001 6d000000 00000000 00000000 00000000"
# the same with uid 8, gid 9 and the groups 10 and 0
USER_8 = "00000001 00000020 00000007 00000001 6d000000 00000008 00000009 00000002 0000000a 00000000"
NOBODY = "00000000 00000000"
ABC = "00000003 61626300"
# sattr3 that sets nothing, and a size of 5 alone
UNSET = "00000000 00000000 00000000 00000000 00000000 00000000"
SIZE_5 = "00000000 00000000 00000000 00000001 00000000 00000005 00000000 00000000"


def call(size, xid, program, version, procedure, user=NOBODY):
    """A call without its arguments, in a fragment of this many bytes."""
    head = f"{xid} 00000000 00000002 {program} {version} {procedure}"
    return f"80000{size} {head} {user} 00000000 00000000"


def nfs(size, xid, procedure, user=NOBODY):
    return call(size, xid, "000186a3", "00000003", f"000000{procedure}", user)


def mount(size, xid, procedure, version="00000003"):
    return call(size, xid, "000186a5", version, f"000000{procedure}")


def handle(volume="00000000", run=RUN):
    """Of a root."""
    return f"00000014 {volume} 00000000 00000001 {run}"


def reply(size, xid, status="00000000"):
    return f"80000{size} {answer(xid, status)}"


def failed(xid, status, parts):
    """A status and this many optional parts that aren't there."""
    return f"{reply(f'{28 + 4 * parts:03x}', xid)} {status}" + " 00000000" * parts


PATHS = "00000001 00000005 2f766f6c 30000000 00000000 00000001 00000005 2f766f6c 31000000 00000000"
SIZES = "00010000 00010000 00001000 00010000 00010000 00001000 00010000"
# an entry of READDIRPLUS: fileid, name and cookie, attributes and handle
PLUS = f"00000001 {ROOT} 00000001 {handle()}"
DOT = f"00000001 00000000 00000001 00000001 2e000000 00000000 00000001 {PLUS}"
DOT_DOT = f"00000001 00000000 00000001 00000002 2e2e0000 00000000 00000002 {PLUS}"
FROM_THE_START = "00000000 00000000 00000000 00000000"

# The streams, each with its reply.
ROWS = [
    # MOUNT: NULL, MNT of /vol1, of / and of /vol2, DUMP, UMNT of /vol1, UMNTALL, EXPORT
    (mount("028", "00000010", "00"), reply("018", "00000010")),
    (
        f"{mount('034', '00000011', '01')} 00000005 2f766f6c 31000000",
        f"{reply('040', '00000011')} 00000000 {handle('00000001')} 00000002 00000001 00000000",
    ),
    (
        f"{mount('030', '00000012', '01')} 00000001 2f000000",
        f"{reply('040', '00000012')} 00000000 {handle()} 00000002 00000001 00000000",
    ),
    (
        f"{mount('034', '00000013', '01')} 00000005 2f766f6c 32000000",
        f"{reply('01c', '00000013')} 00000002",
    ),
    (f"{mount('030', '00000014', '01')} 00000004 766f6c30", f"{reply('01c', '00000014')} 00000016"),
    (mount("028", "00000015", "02"), f"{reply('01c', '00000015')} 00000000"),
    (f"{mount('034', '00000016', '03')} 00000005 2f766f6c 31000000", reply("018", "00000016")),
    (mount("028", "00000017", "04"), reply("018", "00000017")),
    (mount("028", "00000018", "05"), f"{reply('044', '00000018')} {PATHS} 00000000"),
    # MNT of /vol1/ and of //; of /vol0/a and of /vol2/a, which aren't there; of /vol0/..
    (
        f"{mount('034', '0000006a', '01')} 00000006 2f766f6c 312f0000",
        f"{reply('040', '0000006a')} 00000000 {handle('00000001')} 00000002 00000001 00000000",
    ),
    (
        f"{mount('030', '0000006b', '01')} 00000002 2f2f0000",
        f"{reply('040', '0000006b')} 00000000 {handle()} 00000002 00000001 00000000",
    ),
    (
        f"{mount('034', '0000006c', '01')} 00000007 2f766f6c 302f6100",
        f"{reply('01c', '0000006c')} 00000002",
    ),
    (
        f"{mount('034', '0000006d', '01')} 00000007 2f766f6c 322f6100",
        f"{reply('01c', '0000006d')} 00000002",
    ),
    (
        f"{mount('034', '0000006e', '01')} 00000008 2f766f6c 302f2e2e",
        f"{reply('01c', '0000006e')} 0000000d",
    ),
    # procedure 6 of MOUNT, and its versions 1 and 2
    (mount("028", "00000019", "06"), reply("018", "00000019", "00000003")),
    (
        mount("028", "0000001a", "05", "00000001"),
        f"{reply('020', '0000001a', '00000002')} 00000003 00000003",
    ),
    (
        f"{mount('030', '0000001b', '01', '00000002')} 00000001 2f000000",
        f"{reply('020', '0000001b', '00000002')} 00000003 00000003",
    ),
    # MNT without its path, of a path with padding that isn't zero, and DUMP with a word behind it
    (mount("028", "0000001c", "01"), reply("018", "0000001c", "00000004")),
    (f"{mount('030', '0000001d', '01')} 00000001 2f000001", reply("018", "0000001d", "00000004")),
    (f"{mount('02c', '0000001e', '02')} 00000000", reply("018", "0000001e", "00000004")),
    # ACCESS: all bits of a root, of mode 0755 and of uid and gid 0, for uid 65534, uid 0, and uid 8
    # with the group 0; then MODIFY and DELETE
    (
        f"{nfs('044', '00000020', '04')} {handle()} 0000003f",
        f"{reply('078', '00000020')} 00000000 00000001 {ROOT} 00000003",
    ),
    (
        f"{nfs('05c', '00000021', '04', USER_0)} {handle('00000001')} 0000003f",
        f"{reply('078', '00000021')} 00000000 00000001 {ROOT_1} 0000001f",
    ),
    (
        f"{nfs('064', '00000022', '04', USER_8)} {handle()} ffffffff",
        f"{reply('078', '00000022')} 00000000 00000001 {ROOT} 00000003",
    ),
    (
        f"{nfs('05c', '00000023', '04', USER_0)} {handle()} 00000014",
        f"{reply('078', '00000023')} 00000000 00000001 {ROOT} 00000014",
    ),
    # without the bits
    (f"{nfs('040', '00000024', '04')} {handle()}", reply("018", "00000024", "00000004")),
    # FSINFO and PATHCONF
    (
        f"{nfs('040', '00000025', '13')} {handle()}",
        f"{reply('0a4', '00000025')} 00000000 00000001 {ROOT} {SIZES} 00000000 04000000 00000000"
        f" 00000001 0000001b",
    ),
    (
        f"{nfs('040', '00000026', '14')} {handle('00000001')}",
        f"{reply('08c', '00000026')} 00000000 00000001 {ROOT_1} 0000fde8 000000ff 00000001 00000000"
        f" 00000000 00000001",
    ),
    # READDIRPLUS: all; a page of 248 bytes or of names of 28 bytes, which has the first entry
    # alone; behind the first; behind all; and a byte less than these
    (
        f"{nfs('058', '00000030', '11')} {handle()} {FROM_THE_START} 00001000 00001000",
        f"{reply('1a4', '00000030')} 00000000 00000001 {ROOT} 00000000 00000000 {DOT} {DOT_DOT}"
        f" 00000000 00000001",
    ),
    (
        f"{nfs('058', '00000031', '11')} {handle()} {FROM_THE_START} 00001000 000000f8",
        f"{reply('114', '00000031')} 00000000 00000001 {ROOT} 00000000 00000000 {DOT} 00000000"
        f" 00000000",
    ),
    (
        f"{nfs('058', '00000032', '11')} {handle()} {FROM_THE_START} 0000001c ffffffff",
        f"{reply('114', '00000032')} 00000000 00000001 {ROOT} 00000000 00000000 {DOT} 00000000"
        f" 00000000",
    ),
    (
        f"{nfs('058', '00000033', '11')} {handle()} 00000000 00000001 00000000 00000000 00001000"
        f" 00001000",
        f"{reply('114', '00000033')} 00000000 00000001 {ROOT} 00000000 00000000 {DOT_DOT} 00000000"
        f" 00000001",
    ),
    (
        f"{nfs('058', '00000034', '11')} {handle()} 00000000 00000002 00000000 00000000 00000000"
        f" 00000068",
        f"{reply('084', '00000034')} 00000000 00000001 {ROOT} 00000000 00000000 00000000 00000001",
    ),
    (
        f"{nfs('058', '00000035', '11')} {handle()} {FROM_THE_START} 00001000 000000f7",
        failed("00000035", "00002715", 1),
    ),
    (
        f"{nfs('058', '00000036', '11')} {handle()} {FROM_THE_START} 0000001b 00001000",
        failed("00000036", "00002715", 1),
    ),
    (
        f"{nfs('058', '00000037', '11')} {handle()} 00000000 00000002 00000000 00000000 00000000"
        f" 00000067",
        failed("00000037", "00002715", 1),
    ),
    # with a cookie and a verifier that isn't zero
    (
        f"{nfs('058', '00000038', '11')} {handle()} 00000000 00000001 00000000 00000001 00001000"
        f" 00001000",
        failed("00000038", "00002713", 1),
    ),
    # without its second count
    (
        f"{nfs('054', '00000039', '11')} {handle()} {FROM_THE_START} 00001000",
        reply("018", "00000039", "00000004"),
    ),
    # READLINK of a root, which is no symbolic link; SYMLINK of an empty text, of one with two bytes 0, and with a size; MKNOD of
    # a regular file, a directory and a symbolic link, of a fifo and of a device with a size; LINK of a root, which is a directory
    (f"{nfs('040', '00000040', '05')} {handle()}", failed("00000040", "00000016", 1)),
    (
        f"{nfs('064', '00000041', '0a')} {handle()} {ABC} {UNSET} 00000000",
        failed("00000041", "00000002", 2),
    ),
    (
        f"{nfs('068', '00000070', '0a')} {handle()} {ABC} {UNSET} 00000003 61000000",
        failed("00000070", "00000016", 2),
    ),
    (
        f"{nfs('070', '00000071', '0a')} {handle()} {ABC} {SIZE_5} 00000003 61626300",
        failed("00000071", "00000016", 2),
    ),
    (
        f"{nfs('04c', '00000042', '0b')} {handle()} {ABC} 00000001",
        failed("00000042", "00002717", 2),
    ),
    (
        f"{nfs('04c', '00000043', '0b')} {handle()} {ABC} 00000002",
        failed("00000043", "00002717", 2),
    ),
    (
        f"{nfs('04c', '00000044', '0b')} {handle()} {ABC} 00000005",
        failed("00000044", "00002717", 2),
    ),
    (
        f"{nfs('06c', '00000072', '0b')} {handle()} {ABC} 00000007 {SIZE_5}",
        failed("00000072", "00000016", 2),
    ),
    (
        f"{nfs('074', '00000073', '0b')} {handle()} {ABC} 00000004 {SIZE_5} 00000001 00000003",
        failed("00000073", "00000016", 2),
    ),
    (
        f"{nfs('060', '00000045', '0f')} {handle()} {handle()} {ABC}",
        failed("00000045", "00000016", 3),
    ),
    # handles of 12 bytes, of a volume that isn't there, and of another run: READLINK, SYMLINK, MKNOD, LINK; LINK into another volume
    (
        f"{nfs('038', '00000046', '05')} 0000000c 00000000 00000000 00000001",
        failed("00000046", "00002711", 1),
    ),
    (f"{nfs('040', '00000074', '05')} {handle(run=OTHER_RUN)}", failed("00000074", "00000046", 1)),
    (
        f"{nfs('068', '00000075', '0a')} {handle('00000002', OTHER_RUN)} {ABC} {UNSET} 00000003 61626300",
        failed("00000075", "00002711", 2),
    ),
    (
        f"{nfs('068', '00000076', '0a')} {handle(run=OTHER_RUN)} {ABC} {UNSET} 00000003 61626300",
        failed("00000076", "00000046", 2),
    ),
    (
        f"{nfs('06c', '00000077', '0b')} {handle(run=OTHER_RUN)} {ABC} 00000003 {UNSET} 00000001 00000003",
        failed("00000077", "00000046", 2),
    ),
    (
        f"{nfs('058', '00000078', '0f')} 0000000c 00000000 00000000 00000001 {handle()} {ABC}",
        failed("00000078", "00002711", 3),
    ),
    (
        f"{nfs('060', '00000079', '0f')} {handle()} {handle('00000002')} {ABC}",
        failed("00000079", "00002711", 3),
    ),
    (
        f"{nfs('060', '0000007a', '0f')} {handle()} {handle('00000001')} {ABC}",
        failed("0000007a", "00000012", 3),
    ),
    (
        f"{nfs('060', '0000007b', '0f')} {handle(run=OTHER_RUN)} {handle()} {ABC}",
        failed("0000007b", "00000046", 3),
    ),
    # SYMLINK without its path, MKNOD of kind 8, MKNOD of a socket without what it sets, LINK of a
    # handle of 65 bytes
    (
        f"{nfs('060', '00000047', '0a')} {handle()} {ABC} {UNSET}",
        reply("018", "00000047", "00000004"),
    ),
    (
        f"{nfs('04c', '00000048', '0b')} {handle()} {ABC} 00000008",
        reply("018", "00000048", "00000004"),
    ),
    (
        f"{nfs('04c', '00000049', '0b')} {handle()} {ABC} 00000006",
        reply("018", "00000049", "00000004"),
    ),
    (
        f"{nfs('090', '0000004a', '0f')} 00000041 {'00' * 68} {handle()} {ABC}",
        reply("018", "0000004a", "00000004"),
    ),
    # handles of 12 bytes, of a volume that isn't there, and of another run: ACCESS, READDIRPLUS,
    # FSINFO, PATHCONF, GETATTR
    (
        f"{nfs('03c', '00000050', '04')} 0000000c 00000000 00000000 00000001 0000003f",
        failed("00000050", "00002711", 1),
    ),
    (
        f"{nfs('044', '00000051', '04')} {handle('00000002')} 0000003f",
        failed("00000051", "00002711", 1),
    ),
    (
        f"{nfs('044', '00000052', '04')} {handle(run=OTHER_RUN)} 0000003f",
        failed("00000052", "00000046", 1),
    ),
    (
        f"{nfs('058', '00000053', '11')} {handle(run=OTHER_RUN)} {FROM_THE_START} 00001000"
        f" 00001000",
        failed("00000053", "00000046", 1),
    ),
    (
        f"{nfs('038', '00000054', '13')} 0000000c 00000000 00000000 00000001",
        failed("00000054", "00002711", 1),
    ),
    (f"{nfs('040', '00000055', '13')} {handle(run=OTHER_RUN)}", failed("00000055", "00000046", 1)),
    (
        f"{nfs('040', '00000056', '14')} {handle('00000002', OTHER_RUN)}",
        failed("00000056", "00002711", 1),
    ),
    (f"{nfs('040', '00000057', '14')} {handle(run=OTHER_RUN)}", failed("00000057", "00000046", 1)),
    (f"{nfs('040', '00000058', '01')} {handle(run=OTHER_RUN)}", failed("00000058", "00000046", 0)),
    (f"{nfs('040', '00000059', '01')} {handle()}", f"{reply('070', '00000059')} 00000000 {ROOT}"),
    # a handle with a byte more, and one whose verifier is a byte short
    (
        f"{nfs('044', '0000005a', '01')} 00000015 00000000 00000000 00000001 {RUN} 00000000",
        failed("0000005a", "00002711", 0),
    ),
    (
        f"{nfs('040', '0000005b', '01')} 00000013 00000000 00000000 00000001 01020304 05060700",
        failed("0000005b", "00002711", 0),
    ),
]

# Streams whose names and paths are long, not to be cut everywhere.
LONG = [
    # MNT of a path of 1,024 bytes, and of 1,025
    (
        f"{mount('42c', '00000060', '01')} 00000400 2f{'61' * 1023}",
        f"{reply('01c', '00000060')} 00000002",
    ),
    (
        f"{mount('430', '00000061', '01')} 00000401 2f{'61' * 1024} 000000",
        f"{reply('01c', '00000061')} 0000003f",
    ),
    # MNT of /vol0/ and a part of 256 bytes
    (
        f"{mount('134', '0000006f', '01')} 00000106 2f766f6c 302f{'61' * 256} 0000",
        f"{reply('01c', '0000006f')} 0000003f",
    ),
    # SYMLINK of a name of 256 bytes, and of a text of 1,025; of `.`, and MKNOD of `..`; MKNOD of a socket at a moment of 10^9
    # nanoseconds; LINK of a root by a name of 256
    (
        f"{nfs('164', '00000062', '0a')} {handle()} 00000100 {'61' * 256} {UNSET} 00000001"
        f" 61000000",
        failed("00000062", "0000003f", 2),
    ),
    (
        f"{nfs('468', '0000007c', '0a')} {handle()} {ABC} {UNSET} 00000401 {'61' * 1025} 000000",
        failed("0000007c", "0000003f", 2),
    ),
    (
        f"{nfs('068', '0000007d', '0a')} {handle()} 00000001 2e000000 {UNSET} 00000001 61000000",
        failed("0000007d", "00000011", 2),
    ),
    (
        f"{nfs('064', '0000007e', '0b')} {handle()} 00000002 2e2e0000 00000007 {UNSET}",
        failed("0000007e", "00000011", 2),
    ),
    (
        f"{nfs('06c', '0000007f', '0b')} {handle()} {ABC} 00000006 {UNSET[:44]} 00000002 00000005 3b9aca00",
        failed("0000007f", "00000016", 2),
    ),
    (
        f"{nfs('15c', '00000063', '0f')} {handle()} {handle()} 00000100 {'61' * 256}",
        failed("00000063", "00000016", 3),
    ),
    # LOOKUP of one of 256
    (
        f"{nfs('144', '00000064', '03')} {handle()} 00000100 {'61' * 256}",
        failed("00000064", "0000003f", 1),
    ),
]

# Results of a READDIRPLUS of the root, and whether they are some: a page of its own entry; the same
# with its attributes left out, without its handle, with its handle before its attributes, with a
# handle of 12 bytes and one of another run; a failure with and without a place for attributes.
ASKED = f"{nfs('058', '00000031', '11')} {handle()} {FROM_THE_START} 00001000 00001000"
ENTRY = "00000001 00000000 00000001 00000001 2e000000 00000000 00000001"
END = "00000000 00000001"
PAGE = f"00000000 00000001 {ROOT} 00000000 00000000 {ENTRY}"
RESULTS = [
    (f"{PAGE} 00000001 {ROOT} 00000001 {handle()} {END}", True),
    (f"{PAGE} 00000000 00000001 {handle()} {END}", False),
    (f"{PAGE} 00000001 {ROOT} {END}", False),
    (f"{PAGE} 00000001 {handle()} 00000001 {ROOT} {END}", False),
    (f"{PAGE} 00000001 {ROOT} 00000001 0000000c 00000000 00000000 00000001 {END}", False),
    (f"{PAGE} 00000001 {ROOT} 00000001 {handle(run=OTHER_RUN)} {END}", False),
    ("00002715 00000000", True),
    ("00002715", False),
]


def octets(text, service):
    text = text.replace(RUN, service.verifier.hex()).replace(BEGUN, service.begun.hex())
    return bytes.fromhex(text.replace(" ", ""))
