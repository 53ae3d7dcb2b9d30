"""Packets with a trailing area: bytes behind the UDP datagram that the IP header declares too. scapy makes them."""
import itertools
import struct

from scapy.layers.inet import IP
from scapy.layers.inet6 import IPv6
from scapy.utils import checksum

LONGEST = 40


def with_area(data, area):
    """A packet that ends with its message, made longer by an area. The message has its sum before: over IPv4 scapy would
    put the longer length into the pseudo-header."""
    made = IP(data) if data[0] >> 4 == 4 else IPv6(data)
    if data[0] >> 4 == 4:
        made.len += len(area)
        del made.chksum
    else:
        made.plen += len(area)
    return bytes(made) + area


def with_areas(rng, packets):
    """Packets with areas of each length up to the longest, of random bytes, of ones and of zeros, without a tail behind
    and with one: all of these in both families, after even and after odd datagrams."""
    fills = (rng.randbytes, lambda length: b"\xff" * length, bytes)
    for four, odd in itertools.product((True, False), (0, 1)):
        those = itertools.cycle([packet for packet in packets if packet.four == four and packet.end % 2 == odd])
        for length, fill, tailed in itertools.product(range(1, LONGEST + 1), fills, (False, True)):
            packet = next(those)
            tail = rng.randbytes(rng.randrange(1, 9)) if tailed else b""
            yield with_area(packet.data[:packet.end], fill(length)) + tail


def with_word(data, at, word):
    return data[:at] + word.to_bytes(2, "big") + data[at + 2:]


def field(packet, length, data):
    """The field that scapy's sum gives with a length in the pseudo-header and some bytes for the message."""
    if packet.four:
        pseudo = packet.data[12:20] + struct.pack(">HH", 17, length)
    else:
        pseudo = packet.data[8:40] + struct.pack(">II", length, 17)
    return checksum(pseudo + data)


def summed_past(packet):
    """The packet with the fields of those who sum the area, who put the whole length into the pseudo-header, and who do
    both. A field that comes out right in spite of it is left out."""
    blank, whole = with_word(packet.data, packet.field, 0), packet.declared - packet.start
    message, datagram = blank[packet.start:packet.declared], blank[packet.start:packet.end]
    right = field(packet, len(datagram), datagram) or 0xFFFF
    for length, data in ((whole, message), (len(datagram), message), (whole, datagram)):
        wrong = field(packet, length, data) or 0xFFFF
        if wrong != right:
            yield with_word(packet.data, packet.field, wrong)


def right_if_summed(packet):
    """A damaged packet with areas that put its sum right for those who sum them, with the datagram's length in the
    pseudo-header and with the whole one. An area that has no room for an aligned word is left out."""
    datagram, whole = packet.end - packet.start, packet.declared - packet.start
    at = packet.end + datagram % 2
    for length in (datagram, whole):
        if at + 2 <= packet.declared:
            blank = with_word(packet.data, at, 0)
            chosen = with_word(blank, at, field(packet, length, blank[packet.start:packet.declared]))
            assert field(packet, length, chosen[packet.start:packet.declared]) == 0
            yield chosen


def with_lengths(packet):
    """The packet with every UDP length from 0 to four past the message, and the longest."""
    for length in (*range(packet.declared - packet.start + 5), 0xFFFF):
        yield with_word(packet.data, packet.start + 4, length)
