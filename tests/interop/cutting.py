"""IPv4 messages in fragments: how packets are cut and fragments changed, how they lie in a buffer, and what the rules
say of a whole message. Worked out from the request's words and RFC 791's layout with scapy's sum, and not by our
library."""
import itertools
import struct

from scapy.utils import checksum

from fragments import Fragment, number
from judges import GOOD, MESSAGE_SUM, SHAPE, UNCOVERED, UNSUMMED
from trailing import with_word

MOST, LONGEST = 64, 65515  # fragments in a list, and bytes of a message
MORE, DONT, RESERVED = 0x2000, 0x4000, 0x8000
FIXED = {1: 8, 6: 20, 17: 8}
fresh = itertools.cycle(range(0, 65536, 2))


def sealed(data):
    """A packet with a right header sum, whatever its header says."""
    end = 4 * (data[0] & 15)
    return with_word(data, 10, checksum(with_word(data, 10, 0)[:end]))


def with_byte(data, at, byte):
    return data[:at] + bytes([byte]) + data[at + 1:]


def marked(data, bits):
    """A packet with other bits in the word of flags and offset."""
    return sealed(with_word(data, 6, number(data[6:8]) ^ bits))


def placed(data, offset, more, piece):
    """A fragment with other bytes for its piece, at another place."""
    start = 4 * (data[0] & 15)
    word = number(data[6:8]) & ~0x3FFF | (MORE if more else 0) | offset // 8
    return sealed(with_word(with_word(data[:start], 2, start + len(piece)), 6, word)) + piece


def dealt(header, message, sizes):
    """A message in fragments with one header, in pieces of these sizes and of what is left."""
    offset, found = 0, []
    for size in sizes:
        found.append(placed(header, offset, True, message[offset:offset + size]))
        offset += size
    return found + [placed(header, offset, False, message[offset:])]


def cut(data, sizes):
    """A whole packet in fragments with its header."""
    return dealt(data, Fragment(data).piece, sizes)


def evenly(length, size):
    """Sizes for a message of this length, all the same; the rest is no longer."""
    return [size] * ((length - 1) // size)


def numbered(fragments):
    """The same fragments with an identification that wasn't used for long. tshark knows messages of two addresses apart
    by the number that is this one and the protocol, exclusive or: among these it is even, and each time another."""
    identification = next(fresh) ^ fragments[0][9]
    return [sealed(with_word(data, 4, identification)) for data in fragments]


def without_options(data):
    start = 4 * (data[0] & 15)
    short = with_word(with_byte(data[:20], 0, 0x45), 2, number(data[2:4]) - start + 20)
    return sealed(short) + data[start:]


def together(fragments):
    """The message that fragments make by their offsets; they fill it."""
    parts = sorted(map(Fragment, fragments), key=lambda part: part.offset)
    return b"".join(part.piece for part in parts)


def whole(fragments):
    """The packet that was cut, with the header of its first fragment and nothing of a fragment in it."""
    first = min(fragments, key=lambda data: Fragment(data).offset)
    return placed(first, 0, False, together(fragments))


def said(fragments):
    """What the rules say of fragments that fill a message: protocol, fixed header, TCP's and UDP's length, UDP's zero,
    and scapy's sum of what is covered."""
    data, message = fragments[0], together(fragments)
    protocol, end = data[9], len(message)
    if protocol not in FIXED:
        return UNCOVERED
    if end < FIXED[protocol]:
        return SHAPE
    if protocol == 6 and not 20 <= 4 * (message[12] >> 4) <= end:
        return SHAPE
    if protocol == 17:
        end = number(message[4:6])
        if not 8 <= end <= len(message):
            return SHAPE
        if message[6:8] == b"\0\0":
            return UNSUMMED
    pseudo = b"" if protocol == 1 else data[12:20] + struct.pack(">HH", protocol, end)
    return GOOD if checksum(pseudo + message[:end]) == 0 else MESSAGE_SUM


def with_one(fragments, i, data):
    """Fragments with another in one's place."""
    return fragments[:i] + [data] + fragments[i + 1:]


def flipped(rng, data, places):
    """A packet with one bit changed at one of some places."""
    at = rng.choice(places)
    return with_byte(data, at, data[at] ^ 1 << rng.randrange(8))


def header_flipped(rng, data):
    """One bit of a header changed, but for version and lengths."""
    return flipped(rng, data, [1, *range(4, 20)])


def record(offset, length):
    return struct.pack(">QQ", offset, length)


def request(rng, fragments):
    """Asks us about fragments, listed in this order. In the buffer they stand in this or in another, with nothing
    between them or with something; a record has the fragment alone, with a tail, or with all that follows."""
    places, buffer, order = {}, b"", list(range(len(fragments)))
    apart, reach = rng.randrange(2), rng.randrange(3)
    if rng.randrange(2):
        rng.shuffle(order)
    for i in order:
        buffer += rng.randbytes(rng.randrange(24)) if apart else b""
        places[i] = len(buffer)
        buffer += fragments[i]
    buffer += rng.randbytes(rng.randrange(24)) if apart else b""
    ends = [places[i] + len(fragments[i]) for i in range(len(fragments))]
    ends = [[end, rng.randrange(end, len(buffer) + 1), len(buffer)][reach] for end in ends]
    records = b"".join(record(places[i], end - places[i]) for i, end in enumerate(ends))
    return "f", 0, records, buffer


def orders(rng, fragments, others):
    """Every order of up to five fragments; of more the one they came in, the reverse, and so many others."""
    if len(fragments) <= 5:
        return [list(order) for order in itertools.permutations(fragments)]
    shuffled = [rng.sample(fragments, len(fragments)) for _ in range(others)]
    return [fragments, fragments[::-1]] + shuffled
