"""IPv6 packets with headers between the fixed one and the message. scapy makes them, or what they are put into."""
import itertools
import struct

from scapy.layers.inet6 import (
    HBHOptUnknown, IPv6, IPv6ExtHdrDestOpt, IPv6ExtHdrHopByHop, IPv6ExtHdrRouting, IPv6ExtHdrSegmentRouting,
)
from scapy.utils import checksum

from headers import HOP, OPTIONS, ROUTING, SKIPPED, options, routing, with_headers
from trailing import with_word

MOST = 8
TYPES = (0, 2, 4, 253)  # of routing headers; the last is for trials (RFC 4727)
LENGTHS = [8, 24, 40, 72, 136, 264, 520, 1032, 2048]  # of one header; there is none longer than the last


def orders():
    """Every order of one to eight headers: hop-by-hop stands first or not at all."""
    for count, hop in itertools.product(range(1, MOST + 1), (0, 1)):
        for others in itertools.product((ROUTING, OPTIONS), repeat=count - hop):
            yield [HOP] * hop + list(others)


def by_scapy(rng, number, after):
    """A header that scapy makes, and the number of what follows."""
    if number == ROUTING:
        addresses = [rng.randbytes(16).hex(":", 2) for _ in range(rng.randrange(1, 4))]
        return rng.choice([
            IPv6ExtHdrRouting(nh=after, type=0, addresses=addresses, segleft=0),
            IPv6ExtHdrRouting(nh=after, type=2, addresses=addresses[:1], segleft=0),
            IPv6ExtHdrSegmentRouting(nh=after, addresses=addresses, segleft=0),
        ])
    some = [HBHOptUnknown(otype=SKIPPED, optdata=rng.randbytes(rng.randrange(30))) for _ in range(rng.randrange(1, 4))]
    return (IPv6ExtHdrHopByHop if number == HOP else IPv6ExtHdrDestOpt)(nh=after, options=some)


def by_hand(rng, number, types=TYPES):
    """A header of our own: routing with whole addresses, options of many lengths and with any padding."""
    if number == ROUTING:
        return number, routing(rng.choice(types), 0, [rng.randbytes(16) for _ in range(rng.randrange(1, 4))])
    return number, options(8 * rng.randrange(1, 9), rng.randbytes, rng.randrange(5))


def scapy_put(rng, packets):
    """Packets with headers between in every order, made by scapy of addresses, a protocol and a message without sum."""
    for order, (addresses, protocol, message) in zip(orders(), itertools.cycle(packets)):
        made = IPv6(src=addresses[:16].hex(":", 2), dst=addresses[16:].hex(":", 2), nh=order[0])
        for number, after in zip(order, order[1:] + [protocol]):
            made = made / by_scapy(rng, number, after)
        yield bytes(made / message)


def hand_put(rng, packets, types=TYPES):
    """Packets with headers put between in every order."""
    for order, data in zip(orders(), itertools.cycle(packets)):
        yield with_headers(data, [by_hand(rng, number, types) for number in order])


def long_put(rng, packets):
    """Packets with one header put between, of each kind and from the shortest to the longest."""
    those = itertools.cycle(packets)
    for number, length in itertools.product((HOP, ROUTING, OPTIONS), LENGTHS):
        addresses = [rng.randbytes(16) for _ in range((length - 8) // 16)]
        header = routing(0, 0, addresses) if number == ROUTING else options(length, rng.randbytes)
        yield with_headers(next(those), [(number, header)])


def unread(packet):
    """The places in headers between that nobody reads who goes on behind them: what options and addresses say."""
    for number, at, end in packet.headers:
        if number == ROUTING:
            yield from range(at + 8, end)
            continue
        at += 2
        while at < end:
            size = packet.data[at + 1] + 2 if packet.data[at] else 1
            if packet.data[at] == SKIPPED:
                yield from range(at + 2, at + size)
            at += size


def field(addresses, length, number, data):
    """The field that scapy's sum gives over IPv6, where it isn't 0000."""
    return checksum(addresses + struct.pack(">II", length, number) + data) or 0xFFFF


def missummed(packet):
    """The packet with the fields of those who put the payload's length into the pseudo-header, or the first header's
    number, who sum the headers too, and who take a routing header's last address for the destination. A field that
    comes out right in spite of it is left out."""
    blank, length, number = with_word(packet.data, packet.field, 0), packet.end - packet.start, packet.protocol
    addresses, headers, message = blank[8:40], blank[40:packet.start], blank[packet.start:packet.end]
    right, whole = field(addresses, length, number, message), len(headers) + length
    wrongs = [field(addresses, whole, number, message), field(addresses, length, blank[6], message)]
    wrongs += [field(addresses, size, number, headers + message) for size in (whole, length)]
    stops = [blank[end - 16:end] for header, at, end in packet.headers if header == ROUTING and end > at + 8]
    wrongs += [field(addresses[:16] + stop, length, number, message) for stop in stops[-1:]]
    for wrong in wrongs:
        if wrong != right:
            yield with_word(packet.data, packet.field, wrong)
