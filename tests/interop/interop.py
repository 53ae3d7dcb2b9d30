"""Holds the library to tools that nobody here wrote: scapy, the Linux kernel and tshark.

interop.py FOLDER HERE THERE MIDDLE NPT OURS..: where run.sh has put captures, of what the kernel sent and of what came
to relay.py and left it, and the example that sends; the network namespaces of the two kernels, of the relay, which
exchanges prefixes now, and of a kernel that exchanges them itself, or none; and the words that start ours.c's program.
Prints a table of counts, and tables of what each judge says where the rules ask for more than the sum, or for less than
receivers do. At a disagreement it prints the packet in hex, and the exit status is 1.
"""
import itertools
import struct
import sys

from scapy.layers.inet import ICMP, IP, TCP, UDP, IPOption_NOP, IPOption_Router_Alert
from scapy.layers.inet6 import ICMPv6EchoReply, ICMPv6EchoRequest, ICMPv6ND_NA, ICMPv6ND_NS, ICMPv6Unknown, IPv6
from scapy.packet import Raw
from scapy.utils import checksum

from apart import BY_KERNEL, SAID, apart
from between import TYPES, hand_put, long_put, missummed, scapy_put, unread
from built import check_all_built
from exchange import check_all_exchanged, print_exchanged, ways_between
from fragments import Fragment, is_fragment, messages
from gathered import check_all_gathered
from headers import HOP, OPTIONS, ROUTING, routing, with_headers
from judges import (
    FRAGMENT, GOOD, HEADER_SUM, MESSAGE_SUM, MISSING, OURS, SENT, SHAPE, UNCOVERED, UNSUMMED, Packet, addressed, asked,
    check_delivered, count, damaged, delivered, disagree, frames, is_full, judged, layer, one_less, ours, rebuilt,
    relayed, report, rng, spoilt, status, tshark,
)
from post import Post
from received import print_gathered
from trailing import right_if_summed, summed_past, with_area, with_areas, with_lengths, with_word

MADE, ZEROS, FULLS, DAMAGES, STRETCHES = 1500, 60, 432, 4, 2
PAST = "summed with the datagram, or only its length, or both"
CHOSEN = "damaged by us in the datagram, and right if the area were summed"
MISSUMMED = "summed with them, or with another length, number or destination"
FULL = ["ffff", "80ff7f", "80007fff", "0000ffff", "1234edcb00", "ffffffffffff"]  # their fold is FFFF anywhere
FULL_ADDRESSES = ["ffffffff", "80007fff", "0000ffff", "fe80017f"]  # the first two bytes and the last, zeros between
sides = []


# Where packets come from


def scapy_made():
    """A packet of random content, with sums by scapy."""
    payload = rng.randbytes(rng.choice([*range(70), *range(70), 255, 256, 511, 777, 1300, 1400]))
    ports = {"sport": rng.randrange(1024, 65536), "dport": rng.randrange(1024, 65536)}
    stamp = [("NOP", None), ("NOP", None), ("Timestamp", (rng.getrandbits(32), 7))]
    tcp = TCP(
        seq=rng.getrandbits(32), ack=rng.getrandbits(32), flags=rng.choice(["S", "A", "PA", "FA", "R"]),
        options=rng.choice([[], [("MSS", 1460)], stamp]), **ports,
    )
    if rng.random() < 0.5:
        ip = IP(
            src=".".join(map(str, rng.randbytes(4))), dst=".".join(map(str, rng.randbytes(4))),
            ttl=rng.randrange(2, 256), id=rng.getrandbits(16), tos=rng.getrandbits(8), flags=rng.choice(["", "DF"]),
            options=rng.choice([[], [], [IPOption_NOP()], [IPOption_Router_Alert()]]),
        )
        icmp = ICMP(type=rng.choice([0, 8]), id=rng.getrandbits(16), seq=rng.getrandbits(16))
        message = rng.choice([tcp, UDP(**ports), icmp])
        if rng.random() < 0.05:
            message = UDP(chksum=0, **ports)
    else:
        ip = IPv6(
            src=rng.randbytes(16).hex(":", 2), dst=rng.randbytes(16).hex(":", 2), hlim=rng.randrange(2, 256),
            tc=rng.getrandbits(8), fl=rng.getrandbits(20),
        )
        echo = {"id": rng.getrandbits(16), "seq": rng.getrandbits(16), "data": payload}
        message = rng.choice([
            tcp, UDP(**ports), ICMPv6EchoRequest(**echo), ICMPv6EchoReply(**echo),
            ICMPv6Unknown(type=200, msgbody=payload), ICMPv6ND_NS(tgt="fe80::1"), ICMPv6ND_NA(tgt="fe80::2"),
        ])
    if isinstance(message, (TCP, UDP, ICMP)):
        message = message / Raw(payload)
    tail = rng.randbytes(rng.randrange(1, 9)) if rng.random() < 0.2 else b""
    return bytes(ip / message) + tail


def zero_made(i):
    """A packet whose sums come out 0000, so that UDP is sent with FFFF."""
    if i % 2:
        ip, echo = IP(src="10.0.0.1", dst="10.0.0.2", ttl=2 + i, id=0), ICMP(id=i)
    else:
        ip, echo = IPv6(src="fd00::1", dst="fd00::2", hlim=2 + i), ICMPv6EchoRequest(id=i)
    message = [UDP(sport=40000 + i, dport=50000), TCP(sport=40000 + i, dport=50000), echo][i % 3]
    packet = Packet(bytes(ip / message / Raw(b"\0\0")))
    if packet.four:
        ip.id = int.from_bytes(packet.data[10:12], "big")
    made = bytes(ip / message / Raw(packet.data[packet.field:packet.field + 2]))
    assert made[packet.field:packet.field + 2] == (b"\xff\xff" if packet.protocol == 17 else b"\0\0")
    return made


def full_made(i):
    """A packet with bytes of the fold FFFF in its body and for its source. Its sums come out 0000, and FFFF stands in
    their place, which is as good. With it the place of the bytes in the body, and their number."""
    old, pad, ends = bytes.fromhex(FULL[i // 6 % 6]), i // 36 % 4, bytes.fromhex(FULL_ADDRESSES[(i + i // 144) % 4])
    if i % 2:
        ip, echo = IP(src=".".join(map(str, ends)), dst="10.0.0.2", ttl=2 + i % 200, id=0), ICMP(id=i)
    else:
        source = (ends[:2] + bytes(12) + ends[2:]).hex(":", 2)
        ip, echo = IPv6(src=source, dst="fd00::2", hlim=2 + i % 200), ICMPv6EchoRequest(id=i)
    message = [UDP(sport=40000 + i, dport=50000), TCP(sport=40000 + i, dport=50000), echo][i % 3]
    body = rng.randbytes(pad) + old + bytes((pad + len(old)) % 2)
    packet = Packet(bytes(ip / message / Raw(body + b"\0\0")))
    if packet.four:
        ip.id = int.from_bytes(packet.data[10:12], "big")
    made = bytearray(bytes(ip / message / Raw(body + packet.data[packet.field:packet.field + 2])))
    for at in [packet.field] + [10] * packet.four:
        assert made[at:at + 2] == (b"\xff\xff" if packet.protocol == 17 and at != 10 else b"\0\0")
        made[at:at + 2] = b"\xff\xff"
    return bytes(made), packet.end - packet.body - len(body) - 2 + pad, len(old)


def kernel_made(path):
    """The IP packets of a capture that tshark can judge."""
    packets = [frame[14:] for frame in frames(path) if frame[12:14] in (b"\x08\x00", b"\x86\xdd")]
    return [data for data in packets if not is_full(data)]


def has_headers(data):
    return bool(Packet(data).headers)


# What is tried


def check_good(what, packets):
    """Packets that nobody damaged where a sum must see it: good or unsummed for us and for tshark."""
    agreed = 0
    for data, we, they in zip(packets, judged(packets), tshark(packets)):
        want = UNSUMMED if Packet(data).unsummed else GOOD
        if we == they == want:
            agreed += 1
        else:
            disagree(f"{what}: {want} wanted, we say {we}, tshark {they}", data)
    count(f"{what}; good (or unsummed) for us and for tshark", agreed, len(packets))


def check_refused(what, packets):
    """Packets with a wrong sum: refused by us and by tshark, for the same one."""
    agreed = 0
    for data, we, they in zip(packets, judged(packets), tshark(packets)):
        if we == they and we in (HEADER_SUM, MESSAGE_SUM):
            agreed += 1
        else:
            disagree(f"{what}: we say {we}, tshark {they}", data)
    count(f"{what}; refused by us and by tshark, for the same sum", agreed, len(packets))


def check_damaged(what, packets):
    broken = [damaged(Packet(data)) for data in packets for _ in range(DAMAGES)]
    check_refused(f"{what} by us, one bit or one byte", broken)


def wanted(letter, number, new, data):
    """The packet after a request, its fields aside."""
    packet, after = Packet(data), bytearray(data)
    if letter == "l":
        after[8 if packet.four else 7] -= 1
    if letter in "as":
        at = packet.body + number if letter == "s" else (12 if packet.four else 8) + number * len(new)
        after[at:at + len(new)] = new
    return fieldless(bytes(after))


def fieldless(data):
    packet, data = Packet(data), bytearray(data)
    data[packet.field:packet.field + 2] = b"\0\0"
    if packet.four:
        data[10:12] = b"\0\0"
    return data


def check_changed(what, requests):
    """Packets that we edit or mend: changed as asked, and as good for tshark and us as they were before."""
    answers, agreed = ours(requests), 0
    results = [data for _, data in answers]
    for request, (verdict, data), we, they in zip(requests, answers, judged(results), tshark(results)):
        before = Packet(request[3])
        good = UNSUMMED if before.four and before.unsummed else GOOD
        if verdict == GOOD and we == they == good and wanted(*request) == fieldless(data):
            agreed += 1
        else:
            disagree(f"{what}: answered {verdict}, we say {we}, tshark {they}", data)
    count(f"{what} by us; good for tshark", agreed, len(requests))
    return results


def address(data):
    return "a", rng.randrange(2), rng.randbytes(4 if Packet(data).four else 16), data


def stretch(data):
    packet = Packet(data)
    length = rng.randrange(1, packet.end - packet.body + 1)
    return "s", rng.randrange(packet.end - packet.body - length + 1), rng.randbytes(length), data


def same(data):
    """Writes the body's own bytes again, which tells a UDP field of FFFF from 0000."""
    packet = Packet(data)
    return "s", 0, data[packet.body:packet.end], data


def roomy(packets):
    """Those that have a body."""
    return [data for data in packets if Packet(data).end > Packet(data).body]


def check_edits(packets, kind=""):
    lowered = check_changed(kind + "lifetime lowered", [("l", 0, b"", data) for data in packets])
    moved = check_changed(kind + "address set", [address(data) for data in packets])
    check_changed(kind + "stretch set", [stretch(data) for data in roomy(packets) for _ in range(STRETCHES)])
    check_changed(kind + "the same body set", [same(data) for data in roomy(packets)])
    again = [address(data) for data in lowered] + [("l", 0, b"", data) for data in moved]
    check_changed(kind + "two edits in turn", again)


def check_full(packets):
    """FFFF put for 0000: good for us. So it is for tshark but in TCP, where it finds FFFF and not the sum at fault."""
    agreed, remarks = 0, asked(packets, ["tcp.checksum.ffff"])
    for data, we, they, (remark,) in zip(packets, judged(packets), tshark(packets), remarks):
        tcp = Packet(data).protocol == 6
        if we == GOOD and they == (MESSAGE_SUM if tcp else GOOD) and bool(remark) == tcp:
            agreed += 1
        else:
            disagree(f"FFFF put for 0000: we say {we}, tshark {they} and '{remark}'", data)
    count("made by scapy, FFFF put for 0000; good for us, and for tshark too but for TCP's FFFF", agreed, len(packets))


def check_fresh(what, requests):
    """Good packets that we edit: each field that the edit updates has the bits that scapy gives it afresh."""
    answers, agreed = ours(requests), 0
    results = [data for _, data in answers]
    for (letter, *_), (verdict, data), they in zip(requests, answers, tshark(results)):
        packet = Packet(data)
        message = letter == "s" or letter == "a" and packet.protocol != 1
        fields = [packet.field] * message + [10] * (packet.four and letter in "la")
        good, fresh = UNSUMMED if packet.unsummed else GOOD, rebuilt(packet)
        same_bits = all(data[at:at + 2] == fresh[at:at + 2] for at in fields)
        if verdict == GOOD and same_bits and (they == good or not message):
            agreed += 1
        else:
            disagree(f"{what}: answered {verdict}, tshark says {they}, scapy makes {fresh.hex()} of it", data)
    count(f"{what} by us; each updated field, bit by bit, what scapy works out afresh", agreed, len(requests))
    return results


def check_bits(packets, kind=""):
    """A station that compares our fields bit by bit."""
    lowered = [("l", 0, b"", data) for data in packets if Packet(data).four]
    rest = [address(data) for data in packets] + [stretch(data) for data in roomy(packets)]
    check_fresh(kind + "edited", lowered + rest)


def check_full_bits():
    """The same where fields stood at FFFF for 0000."""
    full = [full_made(i) for i in range(FULLS)]
    made = [data for data, _, _ in full]
    check_full(made)
    zeros = [("s", place, bytes(length)) for _, place, length in full]
    nowhere = [("a", 0, bytes(4 if Packet(data).four else 16)) for data in made]
    first = check_fresh("FFFF before, all ones made zeros", [(*edit, data) for edit, data in zip(zeros, made)])
    other = check_fresh("FFFF before, an address made zeros", [(*edit, data) for edit, data in zip(nowhere, made)])
    again = [(*edit, data) for edit, data in zip(nowhere + zeros, first + other)]
    check_fresh("FFFF before, the two in turn", again)
    lowered = [("l", 0, b"", data) for data in made if Packet(data).four]
    rest = [address(data) for data in made] + [stretch(data) for data in made] + [same(data) for data in made]
    check_fresh("FFFF before, edited otherwise", lowered + rest)


def scribbled(data):
    """A packet with other fields, which a mender is to put right."""
    packet, data = Packet(data), bytearray(data)
    if packet.four:
        data[10:12] = rng.randbytes(2)
    if not packet.unsummed:
        data[packet.field:packet.field + 2] = rng.choice([rng.randbytes(2), b"\1\0", b"\xff\xff"])
    return b"" if not packet.unsummed and Packet(bytes(data)).unsummed else bytes(data)


def check_mended(packets, kind=""):
    broken = [data for data in map(scribbled, packets) if data]
    agreed, mended = 0, check_changed(kind + "mended", [("m", 0, b"", data) for data in broken])
    for data in mended:
        packet = Packet(data)
        if rebuilt(packet) == data[:packet.declared]:
            agreed += 1
        else:
            disagree(f"mended: scapy makes {rebuilt(packet).hex()} of it", data)
    count(kind + "mended by us; the bytes that scapy makes", agreed, len(mended))


def cut(data):
    """The list of pieces that a string is cut into."""
    places = [0, *sorted(rng.randrange(len(data) + 1) for _ in range(rng.randrange(8))), len(data)]
    return b"".join(struct.pack(">II", here, there - here) for here, there in zip(places, places[1:]))


def check_sums(letter, how, packets):
    """Packets in pieces: scapy's sum of the whole, and its length."""
    requests, agreed = [(letter, 0, cut(data), data) for data in packets], 0
    for data, (verdict, answer) in zip(packets, ours(requests)):
        fold, length = struct.unpack(">HQ", answer)
        if (verdict, 65535 - fold, length) == (GOOD, checksum(data), len(data)):
            agreed += 1
        else:
            disagree(f"{how}: answered {verdict}, fold {fold:04X}, length {length}", data)
    count(f"{how} by us; the sum that scapy has of the whole", agreed, len(packets))


# Fragments: one kernel cuts, our relay lowers lifetimes, and the other kernel puts together


def check_lowered(family, pairs):
    """Fragments that our relay sent on: a lifetime one less, over IPv4 scapy's sum, and the rest as it was."""
    befores, afters = zip(*pairs)
    fields, agreed = ["ip.checksum.status", "ip.ttl", "ipv6.hlim"], 0
    good = "1" if family == 4 else ""
    rows = zip(pairs, judged(befores), judged(afters), asked(befores, fields), asked(afters, fields))
    for (before, after), was, now, (old, *high), (new, *low) in rows:
        want = bytearray(before)
        want[8 if family == 4 else 7] -= 1
        if family == 4:
            want[10:12] = b"\0\0"
            want[10:12] = checksum(bytes(want[:20])).to_bytes(2, "big")
        right = status(old) == status(new) == good and int("".join(low)) == int("".join(high)) - 1
        if right and was == now == FRAGMENT and after == want:
            agreed += 1
        else:
            disagree(f"a fragment lowered: we say {was} and {now}, tshark {old} {high} and {new} {low}", after)
    four, six = "good for tshark before and after, and scapy's sum", "one less for tshark, and the rest as it was"
    what = four if family == 4 else six
    count(f"fragments by the kernel over IPv{family}, lifetime lowered by us on the way; {what}", agreed, len(pairs))


def is_silent(message):
    """Whether a message was sent without a sum."""
    return message.protocol == 17 and message.whole[6:8] == b"\0\0"


def check_together(family, pairs):
    """Messages in fragments that our relay sent on: right for tshark, and what the kernel sent."""
    afters, agreed = [after for _, after in pairs], 0
    wholes = asked(afters, ["ip.reassembled.data", "ipv6.reassembled.data"])
    found = [(they, bytes.fromhex("".join(hexes))) for they, hexes in zip(tshark(afters), wholes)]
    for before, after in zip(messages([before for before, _ in pairs]), messages(afters)):
        want = UNSUMMED if is_silent(before) else GOOD, before.whole
        early = [i for i in after.places if i != after.last and found[i] != (None, b"")]
        if found[after.last] == want and after.whole == before.whole and not early:
            agreed += 1
        else:
            disagree(f"put together: tshark says {found[after.last][0]}", afters[after.last])
    count(f"datagrams and pings in these over IPv{family}; good (or unsummed) for tshark, together, and the bytes sent",
          agreed, len(messages(afters)))


def check_answered(family, pairs):
    """What one kernel asked and the other, which had only what our relay sent on, answered with the same bytes."""
    came, agreed = messages([before for before, _ in pairs]), 0
    asks = [m for m in came if m.source == came[0].source]
    answers = {(m.protocol, m.whole[8 if m.protocol == 17 else 4:]): m for m in came if m.source != came[0].source}
    for ask in asks:
        answer = answers.get((ask.protocol, ask.whole[8 if ask.protocol == 17 else 4:]))
        if answer and ask.protocol == 17:
            right = ask.whole[:4] == answer.whole[2:4] + answer.whole[:2]  # ports
        else:
            right = answer and (ask.whole[0], answer.whole[0]) == {1: (8, 0), 58: (128, 129)}[ask.protocol]  # echoes
        if right:
            agreed += 1
        else:
            disagree("a message in fragments was not answered", ask.whole)
    count(f"requests among these over IPv{family}; put together by the other kernel, answered with the same bytes",
          agreed, len(asks))


def check_header_wrong(packets):
    """IPv4 fragments whose header we damage: lowered by us, and as wrong as before."""
    broken, agreed = [spoilt(data, [1, 4, 5, 9, *range(10, 20)]) for data in packets], 0
    answers = ours([("l", 0, b"", data) for data in broken])
    lowered = [data for _, data in answers]
    rows = zip(answers, judged(broken), judged(lowered), tshark(broken), tshark(lowered))
    for (verdict, data), was, now, old, new in rows:
        if verdict == GOOD and was == now == old == new == HEADER_SUM:
            agreed += 1
        else:
            disagree(f"a fragment damaged: answered {verdict}, we say {was} and {now}, tshark {old} and {new}", data)
    count("fragments damaged by us in IPv4's header, lifetime lowered by us; bad for us and tshark before and after",
          agreed, len(packets))


def check_message_wrong(family, packets):
    """Messages that we damage in one fragment after the first: all lowered by us, and wrong when they are together."""
    spoils, broken, agreed = [m for m in messages(packets) if not is_silent(m)], list(packets), 0
    for message in spoils:
        at = rng.choice([i for i in message.places if Fragment(packets[i]).offset > 0])
        broken[at] = spoilt(packets[at], range(Fragment(packets[at]).start, len(packets[at])))
    answers = ours([("l", 0, b"", data) for data in broken])
    found = tshark([data for _, data in answers])
    for message in spoils:
        if found[message.last] == MESSAGE_SUM and all(answers[i][0] == GOOD for i in message.places):
            agreed += 1
        else:
            disagree(f"put together, damaged: tshark says {found[message.last]}", answers[message.last][1])
    count(f"datagrams and pings over IPv{family}, one fragment damaged and all lowered by us; bad for tshark, together",
          agreed, len(spoils))


def check_fragments(pairs):
    """Fragments that came to our relay, and what left it. All kinds must have come, in three pieces or more."""
    for family in (4, 6):
        those = [pair for pair in pairs if pair[0][0] >> 4 == family]
        passed = [pair for pair in those if Fragment(pair[0]).lifetime > 1]
        befores = [before for before, _ in passed]
        whole = all(m.whole and len(m.places) >= 3 for m in messages(befores))
        kinds = {(m.protocol, m.source.hex()) for m in messages(befores)}
        if not whole or len(kinds) != 4 or not all(after for _, after in passed) or len(passed) == len(those):
            disagree(f"fragments over IPv{family} didn't come or didn't get through; kinds {sorted(kinds)}", b"")
            continue
        check_lowered(family, passed)
        check_together(family, passed)
        check_answered(family, passed)
        if family == 4:
            check_header_wrong(befores)
        check_message_wrong(family, befores)
    spent = [after for before, after in pairs if Fragment(before).lifetime < 2]
    for after in filter(None, spent):
        disagree("a fragment with a spent lifetime was sent on", after)
    count("fragments by the kernel with the lifetime 1; refused by us on the way", spent.count(b""), len(spent))


# Trailing areas: behind the datagram nobody sums and nobody writes


def area_damaged(data):
    packet = Packet(data)
    return spoilt(data, range(packet.end, packet.declared))


def check_lengths(what, packets):
    """Each UDP length, mended by us: 4 for us where tshark finds it bad, else right for tshark and scapy."""
    requests, agreed = [("m", 0, b"", data) for packet in packets for data in with_lengths(packet)], 0
    answers = ours(requests)
    results = [data for _, data in answers]
    remarks = asked(results, ["udp.length.bad", "udp.length.bad_zero"])
    rows = zip(requests, answers, judged(results), tshark(results), remarks)
    for (*_, before), (verdict, data), we, they, remark in rows:
        packet = Packet(data)
        if any(remark):
            right = verdict == we == SHAPE and data == before
        else:
            right = verdict == we == they == GOOD and data[:packet.declared] == rebuilt(packet)
        if right:
            agreed += 1
        else:
            disagree(f"{what}: answered {verdict}, we say {we}, tshark {they} and {remark}", data)
    count(f"{what} mended by us; 4 for us where bad for tshark, else good for tshark, and the bytes that scapy makes",
          agreed, len(requests))
    return results


def check_trailing(made):
    """UDP packets of scapy's with a trailing area: all is as if it weren't there, and it stays as it was."""
    kind, bases = "trailing area, ", [Packet(data) for data in made if Packet(data).protocol == 17]
    packets = list(with_areas(rng, bases))
    check_good(kind + "made by scapy", packets)
    check_good(kind + "damaged by us in it alone", [area_damaged(data) for data in packets])
    check_damaged(kind + "damaged before it", packets)
    summed = [packet for packet in map(Packet, packets) if not packet.unsummed]
    check_refused(kind + PAST, [data for packet in summed for data in summed_past(packet)])
    broken = [Packet(damaged(packet, ahead=0)) for packet in summed]
    check_refused(kind + CHOSEN, [data for packet in broken for data in right_if_summed(packet)])
    check_edits(packets, kind)
    check_mended(packets, kind)
    check_bits(packets, kind)


def sumless(data):
    """A packet before it has sums. Over IPv4 another word than 0000 stands for UDP's, since that would be kept."""
    packet = Packet(data)
    return with_word(bytes(fieldless(data)), packet.field, 1 if packet.four else 0)


def moved_back(packets):
    """Addresses that we set, to be set to what they were."""
    away = [address(data) for data in packets]
    for (_, side, new, data), (_, moved) in zip(away, ours(away)):
        at = (12 if Packet(data).four else 8) + side * len(new)
        yield "a", side, data[at:at + len(new)], moved


def fits(packet):
    """Whether a UDP length is one that the request accepts."""
    return packet.start + 8 <= packet.end <= packet.declared


def check_posted(post):
    """Packets with a trailing area and with our sums, to the other kernel: what is right for us is right for it."""
    kind, bases = "trailing area, to the other kernel, ", [Packet(addressed(f, size)) for f in (4, 6) for size in SENT]
    requests = [("m", 0, b"", sumless(data)) for data in with_areas(rng, bases)]
    mended = check_changed(kind + "mended", requests)
    requests = [("l", 0, b"", data) for data in mended] + [stretch(data) for data in roomy(mended)]
    edited = check_changed(kind + "edited", requests + list(moved_back(mended)))
    packets = [Packet(data) for data in mended]
    broken = [Packet(damaged(packet, ahead=0)) for packet in packets]
    check_delivered(kind + "mended by us", GOOD, mended, post)
    check_delivered(kind + "edited by us", GOOD, edited, post)
    check_delivered(kind + "damaged by us in the area alone", GOOD, [area_damaged(data) for data in mended], post)
    check_delivered(kind + "damaged by us in the datagram", MESSAGE_SUM, [packet.data for packet in broken], post)
    check_delivered(kind + PAST, MESSAGE_SUM, [data for packet in packets for data in summed_past(packet)], post)
    check_delivered(kind + CHOSEN, MESSAGE_SUM, [data for packet in broken for data in right_if_summed(packet)], post)

    short = [packet for packet in packets if packet.declared - packet.start < 64]
    sized = [Packet(data) for data in check_lengths(kind + "each UDP length", short[::8])]
    fit = [packet.data for packet in sized if fits(packet)]
    check_delivered(kind + "each UDP length from 8 to the message's, mended by us", GOOD, fit, post)
    # over IPv6 the kernel takes 0 for a jumbogram's, however short the message is, and all of that for the datagram
    unfit = [packet.data for packet in sized if not fits(packet) and (packet.four or packet.end > packet.start)]
    check_delivered(kind + "each other UDP length, but for IPv6's 0", SHAPE, unfit, post)


# Headers between: the message's sum is of what remains behind them, and no sum is of them


def types_left(data):
    """The types of a packet's routing headers that have segments left."""
    return [data[at + 2] for number, at, _ in Packet(data).headers if number == ROUTING and data[at + 3] > 0]


def in_them(packets):
    """Packets damaged where headers between say what nobody reads."""
    places = [(data, list(unread(Packet(data)))) for data in packets]
    return [spoilt(data, those) for data, those in places if those]


def check_between(made, kernel):
    """Packets with headers between: the kernel's, scapy's, and scapy's with headers of ours. All is as if those weren't
    there, and they stay as they were."""
    kind, six = "headers between, ", [packet for packet in map(Packet, made) if not packet.four]
    plains = [packet.data for packet in six]
    udp = [packet.data[:packet.end] for packet in six if packet.protocol == 17]
    scapys = list(scapy_put(rng, [(packet.data[8:40], packet.protocol, layer(packet)) for packet in six]))
    hands = [*hand_put(rng, plains), *long_put(rng, plains)]
    areas = [with_area(data, rng.randbytes(rng.randrange(1, 41))) for data in hand_put(rng, udp)]
    check_good(kind + "made by the kernel", kernel)
    check_good(kind + "made by scapy", scapys)
    check_good(kind + "put into scapy's packets", hands)
    check_good(kind + "put into scapy's packets, a trailing area behind", areas)
    packets = kernel + scapys + hands + areas
    check_good(kind + "damaged by us in them alone", in_them(packets))
    check_damaged(kind + "damaged", packets)
    check_refused(kind + MISSUMMED, [wrong for data in packets for wrong in missummed(Packet(data))])
    check_edits([data for data in packets if data[7] > 1], kind)
    check_mended(packets, kind)
    check_bits(packets, kind)


def check_passed(pairs):
    """Packets of the kernel's with headers between that came to our relay, and what left it: a lifetime one less, and
    the rest as it was."""
    befores, afters, agreed = [before for before, _ in pairs], [after for _, after in pairs], 0
    if not all(afters):
        disagree("a packet with headers between was not sent on", befores[afters.index(b"")])
        return
    rows = zip(befores, afters, judged(befores), judged(afters), tshark(befores), tshark(afters))
    for before, after, was, now, old, new in rows:
        if was == now == old == new == GOOD and after == one_less(before):
            agreed += 1
        else:
            disagree(f"headers between, lowered: we say {was} and {now}, tshark {old} and {new}", after)
    what = "headers between, by the kernel, lifetime lowered by us on the way"
    count(f"{what}; good for us and for tshark before and after, and the rest as it was", agreed, len(pairs))


def types_taken(post):
    """The types of routing headers without segments left that the other kernel goes on behind, with scapy's sums."""
    packets = [with_headers(addressed(6, 8), [(ROUTING, routing(kind, 0, [bytes(16)]))]) for kind in TYPES]
    found = delivered(post, [(data, False) for data in packets])
    return [kind for kind, (they, _) in zip(TYPES, found) if they == GOOD]


def check_between_posted(kernel, types, post):
    """Packets with headers between and with our sums, to the other kernel: what is right for us is right for it."""
    kind, plains = "headers between, to the other kernel, ", [addressed(6, size) for size in SENT]
    requests = [("m", 0, b"", sumless(data)) for data in (*hand_put(rng, plains, types), *long_put(rng, plains))]
    mended = check_changed(kind + "mended", requests)
    packets = mended + [data for data in kernel if Packet(data).protocol == 17]
    requests = [("l", 0, b"", data) for data in packets] + [stretch(data) for data in roomy(packets)]
    edited = check_changed(kind + "edited", requests + list(moved_back(packets)))
    broken = [damaged(Packet(data), ahead=0) for data in packets]
    check_delivered(kind + "mended by us", GOOD, mended, post)
    check_delivered(kind + "edited by us", GOOD, edited, post)
    check_delivered(kind + "damaged by us in them alone", GOOD, in_them(packets), post)
    check_delivered(kind + "damaged by us in the datagram", MESSAGE_SUM, broken, post)
    wrong = [wrong for data in mended for wrong in missummed(Packet(data))]
    check_delivered(kind + MISSUMMED, MESSAGE_SUM, wrong, post)


# Where the rules ask for more than the sum, or for less than receivers do


def summed(data):
    """What scapy finds in a UDP packet over IPv6, in our verdict numbers; None where it finds no datagram."""
    try:
        made = IPv6(data)
    except IndexError:  # it stumbles over a routing header of one or two bytes
        return None
    if UDP not in made:
        return None
    field = made[UDP].chksum
    del made[UDP].chksum
    return GOOD if IPv6(bytes(made))[UDP].chksum == field else MESSAGE_SUM


def check_apart(kernel, post):
    """Packets that the walk refuses, and those that it passes and receivers don't, before and after we lower their
    lifetime: each judge says what it has its reasons for."""
    found = {**apart(rng, [addressed(6, size) for size in (0, 7, 8, 100)]), BY_KERNEL: kernel}
    for what in SAID:
        packets, agreed = found[what], 0
        answers = ours([("l", 0, b"", data) for data in packets])
        if answers != [(GOOD, one_less(data)) for data in packets]:
            disagree(f"{what}: a lifetime was not lowered", packets[0])
        packets = packets + [data for _, data in answers]
        theirs = [they for they, _ in delivered(post, [(data, False) for data in packets])]
        for data, *said in zip(packets, judged(packets), tshark(packets), map(summed, packets), theirs):
            if tuple(said) == SAID[what]:
                agreed += 1
            else:
                disagree(f"{what}: we, tshark, scapy and the other kernel say {said} for {SAID[what]}", data)
        sides.append((what, len(packets), agreed, *SAID[what]))
    walk = (SHAPE, FRAGMENT, UNCOVERED)
    check_left([(SAID[what][0], data) for what in SAID for data in found[what] if SAID[what][0] in walk])


def check_left(refused):
    """Packets that the walk refuses: mender and edits refuse them alike, and leave them as they are."""
    calls, agreed = [("m", b""), ("a", rng.randbytes(16)), ("s", b""), ("x", rng.randbytes(12))], 0
    wants = [(verdict, data) for verdict, data in refused for _ in calls]
    answers = ours([(letter, 0, new, data) for _, data in refused for letter, new in calls])
    for want, answer in zip(wants, answers):
        if answer == want:
            agreed += 1
        else:
            disagree(f"headers between: refused with {want[0]} by the judge, and answered {answer[0]}", want[1])
    count("headers between that the walk refuses, mended or edited by us; refused alike, and left as they were", agreed,
          len(wants))


def print_sides():
    """What each judge said of what the rules see otherwise than receivers do."""
    words = {GOOD: "good", SHAPE: "no datagram", MISSING: "no sum", MESSAGE_SUM: "wrong sum", None: "nothing"}
    ends = {**words, GOOD: "handed on", None: "dropped"}
    print("| headers between | packets | so said | we | tshark | scapy | the other kernel |\n" + "|---" * 7 + "|")
    for what, packets, agreed, we, tsharks, scapys, kernels in sides:
        print(f"| {what} | {packets} | {agreed} | {we} | {words[tsharks]} | {words[scapys]} | {ends[kernels]} |")


def check_all_between(made, sent, pairs, post):
    """All that is tried with headers between. The kernel must have put each kind of options before each protocol."""
    kernel = [data for data in sent if not types_left(data)]
    kinds = {(Packet(data).protocol, number) for data in kernel for number, _, _ in Packet(data).headers}
    if not kinds >= set(itertools.product((6, 17, 58), (HOP, OPTIONS))):
        disagree(f"the kernel's capture has only these headers between: {sorted(kinds)}", b"")
    check_between(made, kernel)
    whole = [pair for pair in pairs if has_headers(pair[0]) and not is_fragment(pair[0]) and not is_full(pair[0])]
    check_passed([pair for pair in whole if pair[0][7] > 1 and not types_left(pair[0])])
    types = types_taken(post)
    print("interop: the other kernel goes on behind routing headers without segments left of the types", *types)
    check_between_posted(kernel, types, post)
    check_apart([data for data in sent if 4 in types_left(data) and Packet(data).protocol == 17], post)


def main():
    folder, here, there, middle, npt = sys.argv[1:OURS]
    ways = ways_between(here, there)
    made = [scapy_made() for _ in range(MADE)] + [zero_made(i) for i in range(ZEROS)]
    sent = kernel_made(folder + "/kernel.pcap")
    plain = [data for data in sent if not has_headers(data)]
    kernel = [data for data in plain if Packet(data).covered]
    others = [data for data in plain if not Packet(data).covered]
    kinds = {(Packet(data).four, Packet(data).protocol) for data in kernel}
    if not kinds >= {(True, 1), (True, 6), (True, 17), (False, 6), (False, 17), (False, 58)}:
        disagree(f"the kernel's capture has only the kinds {sorted(kinds)}", b"")
    check_good("made by scapy", made)
    check_good("made by the kernel", kernel)
    for data, we in zip(others, judged(others)):
        if we != UNCOVERED:
            disagree(f"another protocol of the kernel's: we say {we}", data)
    both = made + kernel
    check_damaged("damaged", both)
    check_edits(both)
    check_mended(both)
    check_sums("c", "cut and summed as a chain", both)
    check_sums("p", "cut, summed piece by piece and joined", both)
    check_bits(both)
    check_full_bits()
    pairs = relayed(folder + "/seen.pcap", folder + "/sent.pcap")
    check_fragments([pair for pair in pairs if is_fragment(pair[0])])
    check_trailing(made)
    post = Post(here, there)
    check_posted(post)
    between = [data for data in sent + kernel_made(folder + "/between.pcap") if has_headers(data)]
    check_all_between(made, between, pairs, post)
    check_all_exchanged([data for data in made if not Packet(data).four], folder, ways, post, middle, npt)
    check_all_gathered(folder, pairs, post)
    check_all_built(here, [*sys.argv[OURS:-1], folder + "/status"], post)
    differ = report()
    print_sides()
    print_exchanged()
    print_gathered()
    print(f"interop: {differ} disagreements")
    return 1 if differ else 0


if __name__ == "__main__":
    sys.exit(main())
