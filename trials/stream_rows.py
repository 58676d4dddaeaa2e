"""Worked streams: the bytes that come on a connection and the replies, typed from the standards."""


def call(xid, procedure):
    """A call of NFS version 3 with neither credential nor verifier, without its header and
    arguments."""
    return (
        f"{xid} 00000000 00000002 000186a3 00000003 {procedure} 00000000 00000000 00000000 00000000"
    )


def answer(xid, status):
    """An accepted reply, without its header and results."""
    return f"{xid} 00000001 00000000 00000000 00000000 {status}"


def handle(fileid):
    """Of volume 0."""
    return f"0000000c 00000000 00000000 {fileid}"


def octets(text):
    return bytes.fromhex(text.replace(" ", ""))


ROOT = (
    "00000002 000001ed 00000002 00000000 00000000 00000000 00001000 00000000 00000000 00000000"
    " 00000000 00000000"
    " 00000000 00000000 00000001 00000000 00000000 00000000 00000000 00000000 00000000"
)
NULL = f"80000028 {call('00000001', '00000000')}"
NULL_REPLY = f"80000018 {answer('00000001', '00000000')}"
GETATTR = f"80000038 {call('00000002', '00000001')} {handle('00000001')}"
GETATTR_REPLY = f"80000070 {answer('00000002', '00000000')} 00000000 {ROOT}"

# The streams, each with its replies in order; WAITS marks a reply to a call that waits for a
# worker.
WAITS = "waits "
ROWS = [
    (NULL, NULL_REPLY),
    # the same in fragments of 0, 17, 23 and 0 bytes
    (
        "00000000 00000011 00000001 00000000 00000002 000186a3 00 00000017 000003"
        " 00000000 00000000 00000000 00000000 00000000 80000000",
        NULL_REPLY,
    ),
    (GETATTR, WAITS + GETATTR_REPLY),
    # RPC version 3, and no more
    (
        "8000000c 00000003 00000000 00000003",
        "80000018 00000003 00000001 00000001 00000000 00000002 00000002",
    ),
    # version 2, procedure 99, program 100005
    (
        "80000028 00000005 00000000 00000002 000186a3 00000002 00000000 00000000 00000000 00000000"
        " 00000000",
        f"80000020 {answer('00000005', '00000002')} 00000003 00000003",
    ),
    (f"80000028 {call('00000005', '00000063')}", f"80000018 {answer('00000005', '00000003')}"),
    (
        "80000028 00000005 00000000 00000002 000186a5 00000003 00000000 00000000 00000000 00000000"
        " 00000000",
        f"80000018 {answer('00000005', '00000001')}",
    ),
    # LOOKUP of a name with padding that isn't zero, and with a word behind it
    (
        f"80000040 {call('00000006', '00000003')} {handle('00000001')} 00000003 61626301",
        f"80000018 {answer('00000006', '00000004')}",
    ),
    (
        f"80000044 {call('00000006', '00000003')} {handle('00000001')} 00000003 61626300 00000000",
        f"80000018 {answer('00000006', '00000004')}",
    ),
]
JOINED = b"".join(octets(stream) for stream, _ in ROWS)

# Streams at a limit or at fault: their bytes, what is taken, where it stops, and the reply.
LIMITS = [
    ("an empty record", octets("80000000"), 4, 12, None),
    ("a fragment of 2^31 - 1 bytes", octets("ffffffff"), 4, 11, None),
    (
        "a full record, and one byte more",
        octets("00020000") + bytes(131_072) + octets("80000001"),
        131_080,
        11,
        None,
    ),
    (
        "GETATTR with zeros behind it, a record of 131,072 bytes",
        octets(f"80020000 {call('00000001', '00000001')} {handle('00000001')}") + bytes(131_016),
        131_076,
        0,
        f"80000018 {answer('00000001', '00000004')}",
    ),
]
