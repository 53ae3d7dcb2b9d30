"""Prefixes of 48 bits exchanged as RFC 6296 writes it: in one's complement numbers of 16 bits, with an adjustment for
each pair of prefixes. Worked out from the RFC's words, and not by our library. And the pairs that are tried."""
import itertools
import random

SIZE, ALL_ONES = 6, 0xFFFF
INSIDE, OUTSIDE = bytes.fromhex("fd0102030405"), bytes.fromhex("20010db80001")  # the RFC's own example
NET_99, OTHER_99 = bytes.fromhex("fd9900000000"), bytes.fromhex("20010db80099")  # of post.py's addresses, and another
FAR = bytes.fromhex("20010db80002")  # in no pair


def plus(a, b):
    """A one's complement sum."""
    return (a + b & 0xFFFF) + (a + b >> 16)


def minus(a, b):
    return plus(a, b ^ 0xFFFF)


def word(data, at):
    return int.from_bytes(data[at:at + 2], "big")


def total(data):
    """The one's complement sum of all words."""
    found = 0
    for at in range(0, len(data), 2):
        found = plus(found, word(data, at))
    return found


def checksum(prefix):
    return total(prefix) ^ 0xFFFF


def adjustment(old, new):
    """What is added to the word behind the prefix."""
    return minus(checksum(new), checksum(old))


def place(side):
    """Where an IPv6 packet has its source or destination."""
    return 8 + 16 * side


def behind(data, side):
    """The word behind the prefix."""
    return word(data, place(side) + SIZE)


def begins(data, side, prefix):
    return data[place(side):place(side) + SIZE] == prefix


def with_start(data, side, prefix, after):
    """A packet with a prefix and the word behind it. Its sum stays as it is."""
    at = place(side)
    return data[:at] + prefix + after.to_bytes(2, "big") + data[at + SIZE + 2:]


def exchanged(data, side, new):
    """A packet with another prefix, and the word behind it adjusted: all ones are written as zeros."""
    at = place(side)
    after = plus(behind(data, side), adjustment(data[at:at + SIZE], new))
    return with_start(data, side, new, 0 if after == ALL_ONES else after)


def check_rfc():
    """The numbers that the RFC prints with its example."""
    host = bytes(8) + INSIDE + bytes.fromhex("00010000000000001234") + bytes(16)
    seen = bytes(8) + OUTSIDE + bytes.fromhex("d5500000000000001234") + bytes(16)
    assert (checksum(INSIDE), checksum(OUTSIDE)) == (0xFCF5, 0xD245)
    assert (adjustment(INSIDE, OUTSIDE), adjustment(OUTSIDE, INSIDE)) == (0xD54F, 0x2AB0)
    assert exchanged(host, 0, OUTSIDE) == seen and exchanged(seen, 0, INSIDE) == host


def adjusted_by(old, start, difference):
    """A prefix with these first four bytes that has a given adjustment from another."""
    last = minus(minus(total(old), difference), total(start))
    return start + last.to_bytes(2, "big")


def pairs():
    """Pairs of prefixes that routers forward: the RFC's, one for post.py's addresses, those with adjustments at
    corners, one that stays as it is, and any. The first are inside, all in fd00::/8, and none is in two pairs."""
    yield INSIDE, OUTSIDE
    yield NET_99, OTHER_99
    for number, difference in enumerate((0xFFFF, 1, 0xFFFE, 0x8000, 0x00FF, 0x0100)):
        old = bytes([0xFD, 0x10 + number]) + INSIDE[2:]
        yield old, adjusted_by(old, bytes([0x20, 0x10 + number]) + OUTSIDE[2:4], difference)
    yield bytes.fromhex("fd2012345678"), bytes.fromhex("fd2012345678")
    rng = random.Random(6296)
    for number in range(0x40, 0x50):
        yield bytes([0xFD, number]) + rng.randbytes(4), bytes([0x20, number]) + rng.randbytes(4)


PAIRS = list(pairs())


def words(old, new):
    """Words behind a prefix at which something turns: at the ends, and beside the one that becomes all ones."""
    turn = minus(ALL_ONES, adjustment(old, new))
    return sorted({each % ALL_ONES for each in (0, 1, 0x7FFF, 0x8000, 0xFFFD, 0xFFFE, turn - 1, turn, turn + 1)})


def corners():
    """Every pair, there and back, with the side that is exchanged so and each of the words."""
    for there in PAIRS:
        for side, (old, new) in enumerate((there, there[::-1])):
            yield from itertools.product([side], [old], [new], words(old, new))
