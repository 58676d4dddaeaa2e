"""Hostile streams, made by a generator of random numbers: the same seed gives the same streams."""

import struct

from plain import ADMIN, MOUNT, NFS, VERSIONS
from xdr import words

HUGE = (
    0xFFFF_FFFF,
    0x7FFF_FFFF,
    0x8000_0000,
    0x8000_0001,
    0x0002_0000,
    0x0002_0001,
    0x0001_0001,
    401,
    400,
    65,
    64,
    17,
)


def opaque(data, size=None):
    """Variable opaque data, with a length that may be false."""
    return words(len(data) if size is None else size) + data + bytes(-len(data) % 4)


def handle(rng, service):
    """Mostly of one of two volumes and of a file that may be there; some end as those of another
    run do, some without or with a verifier where the server's others are."""
    if rng.random() < 0.1:
        return opaque(rng.randbytes(rng.choice((0, 1, 8, 11, 12, 13, 19, 20, 21, 63, 64, 65, 300))))
    volume, fileid = rng.choice((0, 0, 0, 1, 1, 2, 0xFFFF_FFFF)), rng.choice(
        (1, 1, 1, 2, 3, rng.randrange(300))
    )
    node = service.handle(volume, fileid)
    kind = rng.random()
    if kind < 0.04:
        node = node[:12]
    elif kind < 0.08:
        node = node[:12] + rng.choice((bytes(8), rng.randbytes(8)))
    return opaque(node)


# The letter of each byte below 128, and the bytes that have none.
LETTERS, NO_LETTERS = bytes(b"abcdefgh"[byte >> 4 & 7] for byte in range(256)), bytes(range(128, 256))


def letters(rng, size):
    """What `rng.choice(b"abcdefgh")` gives, this many times, but faster: a choice takes the top
    four bits of a random number of 32 bits, and of the next where they are more than 7."""
    found = b""
    while left := size - len(found):
        numbers = rng.getrandbits(32 * left).to_bytes(4 * left, "little")
        found += numbers[3::4].translate(LETTERS, NO_LETTERS)
    return found


def name(rng):
    size = rng.choice((0, 1, 1, 2, 3, 22, 23, 24, 254, 255, 256, 2000))
    return opaque(rng.choice((b".", b"..", b"/", b"\0", letters(rng, size))))


def to_set(rng):
    """sattr3."""
    some = lambda data: words(1) + data if rng.random() < 0.4 else words(0)
    size = struct.pack(
        ">Q", rng.choice((0, 1, 4096, 8193, 100_000, 16_777_216, 16_777_217, 2**64 - 1))
    )
    parts = [some(words(rng.randrange(2**32))) for _ in range(3)] + [some(size)]
    for _ in range(2):
        how = rng.randrange(3)
        parts.append(
            words(how)
            + (
                words(rng.randrange(100), rng.choice((0, 999_999_999, 10**9)))
                if how == 2
                else b""
            )
        )
    return b"".join(parts)


def place(rng):
    """An offset and a count."""
    offset = rng.choice(
        (
            0,
            1,
            4095,
            4096,
            262_140,
            262_144,
            16_777_215,
            16_777_216,
            2**63,
            2**64 - 1,
            rng.randrange(10**6),
        )
    )
    return struct.pack(">QI", offset, rng.choice((0, 1, 4, 4096, 8192, 65_537, 2**32 - 1)))


def text(rng):
    """What a symbolic link says."""
    size = rng.choice((0, 1, 1023, 1024, 1025, 60_000))
    return opaque(rng.choice((b"a", b"..", b"../a b/", b"\0", b"a\0b", letters(rng, size), b"/" + b"p" * size)))


def node_to_make(rng):
    """mknoddata3 of any kind, and of none."""
    kind = rng.choice((0, 1, 2, 3, 4, 5, 6, 7, 8, 2**32 - 1))
    behind = {
        3: to_set(rng) + words(rng.randrange(2**32), rng.randrange(2**32)),
        4: to_set(rng) + words(8, 0),
        6: to_set(rng),
        7: to_set(rng),
    }
    return words(kind) + behind.get(kind, b"")


def path(rng):
    """What MNT and UMNT name."""
    size = rng.choice((0, 1, 5, 1023, 1024, 1025, 60_000))
    return opaque(
        rng.choice(
            (b"/", b"/vol0", b"/vol1", b"/vol2", b"/vol00", b"vol0", b"//vol0", b"/" + b"p" * size)
            + (b"/vol0/", b"/./vol1/.", b"/vol0/a", b"//vol1/./b//c", b"/vol0/../vol1", b"/vol9/a")
            + (b"/vol1/a\0", b"/vol0/" + b"p" * size)
        )
    )


def page(rng, service, procedure):
    """What READDIR and READDIRPLUS ask for."""
    cookie, count = rng.choice((0, 0, 1, 2, 3, 2**64 - 1)), rng.choice(
        (0, 103, 104, 159, 160, 247, 248, 2000, 2**32 - 1)
    )
    verifier = rng.choice((bytes(8), bytes(8), bytes(8), rng.randbytes(8)))
    asked = handle(rng, service) + struct.pack(">Q8s", cookie, verifier)
    return asked + (
        words(count)
        if procedure == 16
        else words(rng.choice((0, 23, 27, 28, 2000, 2**32 - 1)), count)
    )


def arguments(rng, service, procedure):
    """Those of a procedure of NFS."""
    node = handle(rng, service)
    if procedure in (1, 5, 18, 19, 20):
        return node
    if procedure == 2:
        return node + to_set(rng) + rng.choice((words(0), words(1, 1, 2)))
    if procedure in (3, 12, 13):
        return node + name(rng)
    if procedure == 4:
        return node + words(rng.choice((0, 1, 0x3F, 0x3F, rng.randrange(64), 2**32 - 1)))
    if procedure in (6, 21):
        return node + place(rng)
    if procedure == 7:
        data = rng.randbytes(rng.choice((0, 1, 3, 4, 100, 4096, 9000)))
        count = len(data) if rng.random() < 0.8 else rng.choice(HUGE)
        return node + place(rng)[:8] + words(count, rng.randrange(4)) + opaque(data)
    if procedure == 8:
        mode = rng.randrange(3)
        return node + name(rng) + words(mode) + (rng.randbytes(8) if mode == 2 else to_set(rng))
    if procedure == 9:
        return node + name(rng) + to_set(rng)
    if procedure == 10:
        return node + name(rng) + to_set(rng) + text(rng)
    if procedure == 11:
        return node + name(rng) + node_to_make(rng)
    if procedure == 14:
        return node + name(rng) + handle(rng, service) + name(rng)
    if procedure == 15:
        return node + handle(rng, service) + name(rng)
    if procedure in (16, 17):
        return page(rng, service, procedure)
    return b""


def credential(rng):
    kind = rng.random()
    if kind < 0.7:
        return words(0, 0)
    if kind < 0.9:
        groups = rng.choice((0, 1, 16, 17))
        body = (
            words(rng.randrange(2**32))
            + opaque(b"m" * rng.choice((0, 1, 7, 255, 256)))
            + words(1000, 100, groups)
        )
        return words(1) + opaque(body + words(*range(groups)))
    body = rng.randbytes(rng.choice((0, 1, 3, 4, 400, 401)))
    return words(rng.choice((0, 0, 1, 2, 6))) + opaque(
        body, rng.choice((None, None, rng.choice(HUGE)))
    )


def asked(rng, service):
    """A program, a version of it, a procedure and its arguments."""
    kind = rng.random()
    if kind < 0.1:
        procedure = rng.randrange(4)
        grown = words(rng.choice((0, 1, 2, 9)), rng.choice((0, 1, 17, 2**32 - 1)))
        return ADMIN, procedure, grown if procedure == 2 else b""
    if kind < (0.25 if MOUNT in service.offer else 0.12):
        procedure = rng.choice((0, 1, 1, 2, 3, 4, 5, 6))
        return MOUNT, procedure, path(rng) if procedure in (1, 3) else b""
    # those that are offered, some that aren't, and 21 twice, since it is seldom refused
    procedure = rng.choice((*sorted(service.offer[NFS] | {4, 17}), 21, 99))
    return NFS, procedure, arguments(rng, service, procedure)


def call(rng, service):
    """A real call of any procedure, with all of its parts, without its header."""
    xid = rng.randrange(2**32)
    verifier = words(0, 0)
    if rng.random() < 0.1:
        verifier = words(rng.randrange(8)) + opaque(rng.randbytes(rng.choice((1, 8, 400, 401))))
    program, procedure, given = asked(rng, service)
    version = VERSIONS[program] if rng.random() < 0.98 else rng.choice((0, 1, 2, 4))
    return words(xid, 0, 2, program, version, procedure) + credential(rng) + verifier + given


def framed(body):
    return words(0x8000_0000 | len(body)) + body


def in_fragments(rng, body):
    """A record in fragments of any size."""
    cuts = sorted(rng.randrange(len(body) + 1) for _ in range(rng.randrange(1, 6)))
    parts = [body[i:k] for i, k in zip([0] + cuts, cuts + [len(body)])]
    last = len(parts) - 1
    return b"".join(
        words((0x8000_0000 if i == last else 0) | len(part)) + part for i, part in enumerate(parts)
    )


def calls(rng, service):
    """Some records, each in one fragment or in more."""
    records = [call(rng, service) for _ in range(rng.choice((1, 1, 2, 3)))]
    return b"".join(
        framed(body) if rng.random() < 0.8 else in_fragments(rng, body) for body in records
    )


def sent_again(rng, service):
    """Some calls, and the same ones once or twice more, as from a client that has no reply."""
    return calls(rng, service) * rng.choice((2, 3))


def with_bits_turned(rng, service):
    stream = bytearray(calls(rng, service))
    for _ in range(rng.choice((1, 1, 2, 8))):
        stream[rng.randrange(len(stream))] ^= 1 << rng.randrange(8)
    return bytes(stream)


def with_huge_words(rng, service):
    stream = bytearray(calls(rng, service))
    for _ in range(rng.choice((1, 1, 2))):
        at = rng.randrange(len(stream) // 4) * 4
        stream[at : at + 4] = words(rng.choice(HUGE))
    return bytes(stream)


def random_bytes(rng, _service):
    data = rng.randbytes(rng.choice((1, 3, 4, 8, 40, 100, 300)))
    return data if rng.random() < 0.3 else framed(data)


def cut_short(rng, service):
    stream = calls(rng, service)
    return stream[: rng.randrange(len(stream) + 1)]


def stretched(rng, service):
    """A part is left out, or there twice."""
    stream = calls(rng, service)
    i, k = sorted(rng.randrange(len(stream) + 1) for _ in range(2))
    return stream[:k] + stream[i:] if rng.random() < 0.5 else stream[:i] + stream[k:]


def of_fragments(rng, _service):
    """Headers and bytes that need not make a call."""
    sizes = [rng.choice((0, 0, 1, 3, 4, 8, 40)) for _ in range(rng.choice((1, 3, 20)))]
    last = lambda: 0x8000_0000 if rng.random() < 0.1 else 0
    return b"".join(words(last() | size) + bytes(size) for size in sizes) + words(0x8000_0000)


def at_the_limit(rng, service):
    """A record of about as many bytes as a record may have."""
    size = rng.choice((131_071, 131_072, 131_072, 131_073))
    first = rng.choice((0, 1, 65_536, 131_072, size))
    body = (call(rng, service) + bytes(size))[:size]
    first = min(first, size)
    return words(first) + body[:first] + words(0x8000_0000 | (size - first)) + body[first:]


KINDS = {
    calls: 15,
    sent_again: 5,
    with_bits_turned: 30,
    with_huge_words: 20,
    random_bytes: 12,
    cut_short: 8,
    stretched: 8,
    of_fragments: 7,
    at_the_limit: 0.2,
}


def made(rng, service):
    """A stream for what a server offers."""
    kind = rng.choices(list(KINDS), KINDS.values())[0]
    return kind(rng, service)
