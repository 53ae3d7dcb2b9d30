"""UDP packets over IPv6 on which the judges differ, or might: the rules refuse some whatever their sum is, and
receivers refuse others for what the rules don't look at. Each is made of a plain packet, and comes with what it is."""
import itertools

from between import MOST, by_hand, field
from headers import FRAGMENT, HOP, OPTIONS, ROUTING, SKIPPED, options, routing, with_headers
from trailing import with_word

AUTHENTICATION, HOME = 51, 0xC9
HERE = "segments left, and this is the last stop too"
BY_KERNEL = HERE + "; made by the kernel"
NINTH = "a ninth header"
LATE = "hop-by-hop behind another header"
LONG = "a header that reaches past the payload"
JUMBO = "payload length 0, and hop-by-hop"

# What is said of each: our verdict by the rules, and in the same numbers what tshark, scapy and the other kernel find;
# None where tshark or scapy finds no sum, and where the kernel drops the packet before it comes to UDP.
SAID = {
    # Eight headers are a limit of the rules; RFC 8200 has none.
    NINTH: (7, 0, 0, 0),
    NINTH + ", past the payload": (7, None, None, None),
    # RFC 8200, 4.1: directly after the fixed header alone. tshark remarks on it; Linux knows no such protocol there.
    LATE: (7, 0, 0, None),
    LATE + ", past the payload": (7, None, None, None),
    # RFC 8200, 8.1: the sum is for the last stop, which tshark and scapy look for. Linux isn't that stop.
    "segments left, summed for the fixed header's destination": (7, 9, 9, None),
    "segments left, summed for the last stop": (7, 0, 0, None),
    # Of type 4 Linux makes the next step, and that leads to itself.
    HERE: (7, 0, 0, 0),
    BY_KERNEL: (7, 0, 0, 0),
    # RFC 6946: a fragment that is all of its message. The others read on; the rules leave that to who puts together.
    "a fragment header around the whole message": (6, 0, 0, 0),
    "a fragment header past the payload": (6, None, None, None),
    LONG: (4, None, None, None),
    LONG + " into a tail": (4, None, None, None),
    LONG + ", segments left": (4, None, None, None),
    "a header with under 8 bytes left": (4, None, None, None),
    # The message is empty: Linux counts an error of UDP's.
    "a header that ends with the payload": (4, None, None, 4),
    # Linux leaves the length to an option of jumbograms, doesn't miss that option, and reads on to the end.
    JUMBO: (4, None, None, 0),
    # tshark reads on behind authentication. Linux does so where it has the key.
    "an authentication header": (7, 0, None, None),
    "another number than those of the table": (7, None, None, None),
    "no sum": (8, 8, 9, 9),
    # RFC 8200, 4.2: two bits of an option say so. Padding is RFC 4942's advice, 2.1.9.5, and the number Linux's limit.
    "an option that the receiver must know": (0, 0, 0, None),
    "padding of more than 7 bytes, or not of zeros": (0, 0, 0, None),
    "more than eight options": (0, 0, 0, None),
    # scapy wants whole addresses, or takes the header for data.
    "a routing header that ends inside an address": (0, 0, None, 0),
    # RFC 6275: the sum is for the home address, and so it is for tshark. The rules have the addresses at the fixed
    # places, whatever options say. scapy looks for the option where it stands alone, without the padding that it needs.
    # Linux doesn't know it unless it is built for mobile hosts, and it says that the receiver must.
    "a home address, summed for the fixed header's source": (0, 9, 0, None),
    "a home address, summed for it": (9, 0, 9, None),
}


def header(rng, number):
    """A header that any kernel goes on behind, whatever else it is built for."""
    return by_hand(rng, number, types=(0, 253))


def some(rng, count):
    """So many headers in an order that the rules allow."""
    return [header(rng, rng.choice([ROUTING, OPTIONS] + [HOP] * (i == 0))) for i in range(count)]


def size(headers):
    return sum(len(header) for _, header in headers)


def cut(data, headers, more):
    """A packet whose payload ends with some of its headers and so many bytes more; what follows is a tail."""
    return with_word(data, 4, size(headers) + more)


def with_byte(data, at, byte):
    return data[:at] + bytes([byte]) + data[at + 1:]


def summed_for(plain, addresses):
    """The plain packet with the field of other addresses than its own."""
    return with_word(plain, 46, field(addresses, len(plain) - 40, 17, with_word(plain, 46, 0)[40:]))


def misplaced(rng, plain):
    """Headers that may not stand where they stand: whole, and past the payload."""
    for number in (ROUTING, OPTIONS, HOP):
        what = LATE if number == HOP else NINTH
        for count in range(1, MOST + 1) if number == HOP else [MOST]:
            before = some(rng, count)
            data = with_headers(plain, before + [header(rng, number)])
            yield what, data
            yield what + ", past the payload", cut(data, before, rng.randrange(8))


def on_the_way(rng, plain):
    """Routing headers with segments left."""
    here, there = plain[8:24], plain[24:40]
    for kind, count in ((0, 1), (0, 3), (2, 1), (4, 2), (4, 3)):
        before, stops = some(rng, rng.randrange(4)), [rng.randbytes(16) for _ in range(count)]
        last = stops[0 if kind == 4 else -1]
        route = before + [(ROUTING, routing(kind, 1, stops))]
        yield "segments left, summed for the fixed header's destination", with_headers(plain, route)
        yield "segments left, summed for the last stop", with_headers(summed_for(plain, here + last), route)
    for count in range(MOST):
        route = some(rng, count) + [(ROUTING, routing(4, 1, [there, there]))]
        yield HERE, with_headers(plain, route)


def fragmented(rng, plain):
    """A fragment header behind none to eight others: around the whole message, and past the payload."""
    for count in range(MOST + 1):
        before = some(rng, count)
        data = with_headers(plain, before + [(FRAGMENT, bytes(4) + rng.randbytes(4))])
        yield "a fragment header around the whole message", data
        yield "a fragment header past the payload", cut(data, before, rng.randrange(8))


def past(rng, plain):
    """Headers that the payload has no room for, before a message and before what would be refused otherwise."""
    nexts = itertools.cycle([17, FRAGMENT, 59, HOP, 50])  # five for four takers: each gets each
    for number, count in [(HOP, 0)] + [(number, count) for number in (ROUTING, OPTIONS) for count in range(MOST)]:
        before = some(rng, count)
        those = before + [header(rng, number)]
        data, at = with_headers(plain, those), 40 + size(before)
        yield "a header that ends with the payload", cut(data, those, 0)
        least = (40 + int.from_bytes(data[4:6], "big") - at) // 8
        for units in (least, least + 1, 255):
            long = with_byte(with_byte(data, at, next(nexts)), at + 1, units)
            yield LONG, long
            yield LONG + " into a tail", long + rng.randbytes(2100)
            if number == ROUTING:
                yield LONG + ", segments left", with_byte(long, at + 3, 1)
        less = cut(with_byte(data, at, next(nexts)), before, rng.randrange(number == HOP, 8))
        yield "a header with under 8 bytes left", less
    jumbo = with_word(with_headers(plain, [(HOP, options(16))]), 4, 0)
    if 0xC2 not in jumbo:  # scapy takes that byte for the option that is missing here, wherever it stands
        yield JUMBO, jumbo


def uncovered(rng, plain):
    """What ends the walk and isn't in the table."""
    for count in range(MOST + 1):
        before = some(rng, count)
        authentication = AUTHENTICATION, bytes([0, 4, 0, 0]) + rng.randbytes(20)
        yield "an authentication header", with_headers(plain, before + [authentication])
        for number in (50, 59, 253):
            yield "another number than those of the table", with_headers(with_byte(plain, 6, number), before)


def demanding(rng, plain):
    """What receivers refuse, or read otherwise, in headers that the rules pass over."""
    for number in (HOP, OPTIONS):
        for kind in (0x5E, 0x9E, 0xDE):
            known = number, options(16, rng.randbytes, 0, kind)
            yield "an option that the receiver must know", with_headers(plain, [known])
        for padding in (bytes(14), bytes([1, 12]) + bytes(12), bytes([1, 12]) + rng.randbytes(12), b"\1\4pads"):
            padded = number, bytes([0, len(padding) // 8]) + padding
            yield "padding of more than 7 bytes, or not of zeros", with_headers(plain, [padded])
        eleven = number, bytes([0, 2]) + bytes([SKIPPED, 0]) * 11
        yield "more than eight options", with_headers(plain, [eleven])
    for kind, units in ((0, 1), (0, 3), (253, 1), (253, 5)):
        half = ROUTING, bytes([0, units, kind, 0]) + rng.randbytes(4 + 8 * units)
        yield "a routing header that ends inside an address", with_headers(plain, [half])


def elsewhere(rng, plain):
    """An option that says where the sender is at home: the sum may be for that address."""
    home = rng.randbytes(16)
    said = OPTIONS, bytes([0, 2, 1, 2, 0, 0, HOME, 16]) + home
    yield "a home address, summed for the fixed header's source", with_headers(plain, [said])
    yield "a home address, summed for it", with_headers(summed_for(plain, home + plain[24:40]), [said])


def unsummed(rng, plain):
    for count in range(1, MOST + 1):
        yield "no sum", with_headers(with_word(plain, 46, 0), some(rng, count))


def apart(rng, plains):
    """All of these, by what they are."""
    found = {}
    for plain in plains:
        for kind in (misplaced, on_the_way, fragmented, past, uncovered, demanding, elsewhere, unsummed):
            for what, data in kind(rng, plain):
                found.setdefault(what, []).append(data)
    return found
