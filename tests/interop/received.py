"""Lists of fragments on which the judges differ, or might: the rules take a list for the fragments of one packet, and
receivers sort, drop and cut before they put together. Each comes with what it is."""
import itertools
import struct

from scapy.layers.inet import IP, UDP
from scapy.packet import Raw
from scapy.utils import checksum

from cutting import (
    LONGEST, MOST, cut, dealt, evenly, flipped, header_flipped, numbered, placed, sealed, with_byte, with_one,
)
from fragments import Fragment
from judges import GOOD, HEADER_SUM, MESSAGE_SUM, disagree, rng
from post import HERE, PORT, THERE
from reassembly import judged_together, kernel_together, tshark_together
from trailing import with_word

TWICE, AGAIN, INSIDE = "a fragment twice", "a fragment twice, the second time damaged", "a fragment inside another"
OVERLAP, UNEVEN = "a fragment that overlaps the next", "more to come behind a length that doesn't divide by 8"
MANY, LAST = "more than 64 fragments", "a fragment behind the last"
EMPTY, FIRST = "an empty fragment behind others", "an empty fragment before all others"
LONG, OPTION = "a message that ends past byte 65,515", "a message of 65,515 bytes, and options"
CAPABLE, STRANGER = "service bytes of which one reports congestion", "another packet's fragment beside them"
SPOILT, SIX = "a fragment, and before it the same with a wrong header", "an IPv6 packet beside them"

sides = []

# What is said of each: our verdict by the rules, and in the same numbers what tshark and the other kernel find in what
# they put together.
SAID = {
    # RFC 791 lets a later copy replace an earlier one. Linux and tshark go by the first; the rules call it an overlap.
    TWICE: (6, [0], [0]),
    AGAIN: (6, [0], [0]),
    INSIDE: (6, [0], [0]),
    # RFC 5722 for IPv6, and Linux does the same here: all is dropped.
    OVERLAP: (6, [0], []),
    # Linux takes no more of it than divides, and tshark all, over what comes next.
    UNEVEN: (6, [9], [0]),
    # A limit of the request's.
    MANY: (10, [0], [0]),
    LAST: (6, [0], []),
    # Linux drops what came before it, and puts together what comes behind it.
    EMPTY: (4, [0], []),
    FIRST: (4, [0], [0]),
    # With 20 bytes of header that is an IPv4 packet's end. Linux has the first fragment's header before it, as it came.
    LONG: (4, [0], []),
    OPTION: (0, [0], []),
    # RFC 3168, 5.3: if one fragment reports congestion and another isn't capable of it, all are dropped.
    CAPABLE: (0, [0], []),
    # Receivers sort by packet before they put together, and drop what has a wrong header. The rules take the list for
    # one packet's.
    STRANGER: (4, [0], [0]),
    SPOILT: (5, [5, 0], [0]),
    SIX: (3, [0], [0]),
}


def plain(size):
    """A UDP packet for the socket of the other kernel."""
    return bytes(IP(src=HERE[4], dst=THERE[4]) / UDP(sport=rng.randrange(1024, 65536), dport=PORT) /
                 Raw(rng.randbytes(size)))


def behind(those, i):
    """What may come behind one of some fragments and is too much, with what it is."""
    data, after, part = those[i], those[i + 1], Fragment(those[i])
    end, half = part.offset + len(part.piece), len(part.piece) // 16 * 8
    yield TWICE, data
    yield AGAIN, flipped(rng, data, range(20, len(data)))
    yield INSIDE, placed(data, part.offset + 8, True, part.piece[8:])
    yield OVERLAP, placed(data, part.offset + half, True, part.piece[half:] + Fragment(after).piece[:8])
    yield EMPTY, placed(data, end, True, b"")


def in_place(those, i):
    """What may stand in the place of one of some fragments."""
    part = Fragment(those[i])
    yield UNEVEN, placed(those[i], part.offset, True, part.piece + rng.randbytes(rng.randrange(1, 8)))
    yield CAPABLE, sealed(with_byte(those[i], 1, 3))


def among(those, i):
    """Fragments of one message and what a receiver sorts out before it puts together."""
    last, before = those[-1], those[:-2]
    end = Fragment(last).offset + (len(Fragment(last).piece) + 7) // 8 * 8
    yield LAST, numbered([*before, last, placed(last, end, False, rng.randbytes(8)), those[-2]])
    yield FIRST, numbered([placed(those[i], 8 * i, True, b""), *those])
    yield STRANGER, those[:i] + numbered([those[i]]) + those[i:]
    those = numbered(those)
    yield SPOILT, those[:i] + [header_flipped(rng, those[i])] + those[i:]
    yield SIX, numbered(those) + [b"\x60" + bytes(5) + b"\x3b" + bytes(33)]


def longest(length, step):
    """A datagram of any length in fragments, which no IPv4 packet need have room for."""
    head, message = plain(0), with_word(plain(0)[20:26], 4, length) + bytes(2) + rng.randbytes(length - 8)
    field = checksum(head[12:20] + struct.pack(">HH", 17, length) + message) or 0xFFFF
    return numbered(dealt(head, with_word(message, 6, field), evenly(length, step)))


def with_options(data):
    """A fragment with four bytes of options that ask for nothing."""
    return placed(with_byte(data[:20], 0, 0x46) + b"\1\1\1\1", 0, True, data[20:])


def differing():
    """All of these, by what they are: fragments in the order in which they are sent, and their datagram's body."""
    for size, step in itertools.product((60, 100, 999), (16, 24, 32)):
        data = plain(size)
        those = numbered(cut(data, evenly(size + 8, step)))
        i = rng.randrange(len(those) - 2)
        for what, more in behind(those, i):
            yield what, numbered(those[:i + 1] + [more] + those[i + 1:]), data[28:]
        for what, other in in_place(those, i):
            yield what, numbered(with_one(those, i, other)), data[28:]
        for what, found in among(those, i):
            yield what, found, data[28:]
    for length in (MOST * 8 + 1, MOST * 8 + 8, 119 * 8):
        data = plain(length - 8)
        yield MANY, numbered(cut(data, evenly(length, 8))), data[28:]
    for over, step in itertools.product((1, 2, 5), (1480, 3976)):
        yield LONG, longest(LONGEST + over, step), b""
    for less, step in itertools.product((0, 1, 3), (1480, 3976)):
        first, *rest = longest(LONGEST - less, step)
        yield OPTION, [with_options(first), *rest], b""


def check_apart(post):
    """Fragments on which the judges differ, or might: each says what it has its reasons for."""
    found = {}
    for what, fragments, body in differing():
        found.setdefault(what, []).append((fragments, body))
    for what, want in SAID.items():
        sets, agreed = [fragments for fragments, _ in found[what]], 0
        rows = zip(found[what], judged_together(sets), tshark_together(sets), kernel_together(post, sets))
        for (fragments, body), we, they, (other, got) in rows:
            if (we, they, other) == want and got == [body] * len(other):
                agreed += 1
            else:
                disagree(f"{what}: we, tshark and the other kernel say {we}, {they} and {other} for {want}",
                         b"".join(fragments))
        sides.append((what, len(sets), agreed, *want))


def print_gathered():
    """What each judge said of what the rules see otherwise than receivers do."""
    words = {GOOD: "good", HEADER_SUM: "wrong header", MESSAGE_SUM: "wrong sum"}
    ends = {GOOD: "handed on"}
    print("| fragments | lists | so said | we | tshark | the other kernel |\n" + "|---" * 6 + "|")
    for what, sets, agreed, we, theirs, kernels in sides:
        said_by = [words[they] for they in theirs], [ends[they] for they in kernels]
        print(f"| {what} | {sets} | {agreed} | {we} | {', '.join(said_by[0])} | {', '.join(said_by[1]) or 'dropped'} |")
