"""The judges that the library is held to, and what all that is tried with them shares: where things are in a packet,
how one is damaged, and the table of counts. The words that start ours.c's program end the command line."""
import random
import struct
import subprocess
import sys
import tempfile

from scapy.layers.inet import ICMP, IP, TCP, UDP
from scapy.layers.inet6 import ICMPv6Unknown, IPv6
from scapy.packet import Raw

from headers import walked
from post import HERE, PORT, THERE
from trailing import with_area

SEED, OURS = 20, 6  # where on the command line those words begin
GOOD, UNSUMMED, CUT, VERSION, SHAPE, HEADER_SUM, FRAGMENT, UNCOVERED, MISSING, MESSAGE_SUM, PLACE = range(11)
FIXED = {1: (8, 2), 6: (20, 16), 17: (8, 6), 58: (4, 2)}  # protocol: fixed header, place of the field
SENT = [*range(33), 255, 256, 1000, 1001, 1400]  # bytes for the other kernel
rng = random.Random(SEED)
differ = 0
table = []


class Packet:
    """Where things are in a packet that is whole. Before the message there may be headers between, over IPv6; it ends
    with the datagram in UDP; between that and the declared end there may be a trailing area, and behind that a tail."""

    def __init__(self, data):
        self.data = data
        self.four = data[0] >> 4 == 4
        self.headers, self.protocol, self.start = ([], data[9], 4 * (data[0] & 15)) if self.four else walked(data)
        self.declared = int.from_bytes(data[2:4], "big") if self.four else 40 + int.from_bytes(data[4:6], "big")
        length = int.from_bytes(data[self.start + 4:self.start + 6], "big")
        self.end = self.start + length if self.protocol == 17 else self.declared
        self.covered = self.protocol in ((1, 6, 17) if self.four else (6, 17, 58))
        if self.covered:
            fixed, field = FIXED[self.protocol]
            self.field = self.start + field
            self.body = self.start + (4 * (data[self.start + 12] >> 4) if self.protocol == 6 else fixed)
            self.unsummed = self.protocol == 17 and data[self.field:self.field + 2] == b"\0\0"


def disagree(what, data):
    global differ
    differ += 1
    print(f"interop: {what}: {data.hex()}")


def count(what, agreed, packets):
    table.append((what, packets, agreed))


def report():
    """Prints the table, and answers how many disagreements there were."""
    print("| what | packets | agreed |\n|---|---|---|")
    for what, packets, agreed in table:
        print(f"| {what} | {packets} | {agreed} |")
    return differ


# The three judges


def ours(requests):
    """Calls the library: requests of letter, number, new bytes and packet; answers of verdict and packet or sum."""
    sent = b"".join(
        letter.encode() + struct.pack(">II", number, len(new)) + new + struct.pack(">I", len(data)) + data
        for letter, number, new, data in requests
    )
    got = subprocess.run(sys.argv[OURS:], input=sent, stdout=subprocess.PIPE, check=True).stdout
    answers, at = [], 0
    while at < len(got):
        verdict, length = struct.unpack_from(">BI", got, at)
        answers.append((verdict, got[at + 5:at + 5 + length]))
        at += 5 + length
    assert len(answers) == len(requests)
    return answers


def judged(packets):
    return [verdict for verdict, _ in ours([("j", 0, b"", data) for data in packets])]


def asked(packets, fields):
    """The values that tshark prints for fields of packets: a list for each packet."""
    with tempfile.NamedTemporaryFile(suffix=".pcap") as file:
        file.write(struct.pack("<IHHIIII", 0xA1B2C3D4, 2, 4, 0, 0, 65535, 101))  # raw IP
        for i, data in enumerate(packets):
            file.write(struct.pack("<IIII", i, 0, len(data), len(data)) + data)
        file.flush()
        words = ["tshark", "-n", "-r", file.name, "-T", "fields", "-E", "separator=,", "-E", "occurrence=f"]
        words += [w for f in fields for w in ("-e", f)]
        words += [w for f in ("ip", "udp", "tcp") for w in ("-o", f + ".check_checksum:TRUE")]
        said = subprocess.run(words, stdout=subprocess.PIPE, stderr=subprocess.DEVNULL, check=True, text=True).stdout
    lines = said.splitlines()
    assert len(lines) == len(packets)
    return [line.split(",") for line in lines]


def status(said):
    """What tshark says of a sum, as a number: some editions print words."""
    return {"Bad": "0", "Good": "1", "Not present": "3", "Illegal": "4"}.get(said, said)


def tshark(packets):
    """What tshark's checksum check finds, in our verdict numbers; None where it says neither good nor bad."""
    fields = [f + ".checksum.status" for f in ("ip", "udp", "tcp", "icmp", "icmpv6")]
    verdicts = []
    for values in asked(packets, fields):
        header, *others = map(status, values)
        message = next((s for s in others if s), None)
        found = {"0": MESSAGE_SUM, "1": GOOD, "3": UNSUMMED, "4": MISSING}.get(message)
        verdicts.append(HEADER_SUM if header == "0" else found)
    return verdicts


def delivered(post, packets):
    """What the other kernel finds in UDP packets, in our verdict numbers, and the datagrams that its socket got; None
    where it neither hands on one nor refuses one."""
    found = {(1, 0, 0): GOOD, (0, 1, 1): MESSAGE_SUM, (0, 1, 0): SHAPE}
    return [(found.get((len(got), *counts)), got) for got, *counts in post.all_sent(packets)]


def layer(packet):
    """The message as scapy's, its field left open; a UDP field of 0000 over IPv4 is kept."""
    kinds = {1: ICMP, 6: TCP, 17: UDP, 58: ICMPv6Unknown}  # of ICMPv6 scapy leaves types that it doesn't know unread
    message = kinds[packet.protocol](packet.data[packet.start:packet.end])
    if not (packet.four and packet.unsummed):
        message.delfieldval("cksum" if packet.protocol == 58 else "chksum")
    return message


def rebuilt(packet):
    """The packet with its fields worked out by scapy, over the message alone."""
    made = (IP if packet.four else IPv6)(packet.data[:packet.start]) / layer(packet)
    if packet.four:
        made.len = packet.end
    else:
        made.plen = packet.end - 40
    return with_area(bytes(made), packet.data[packet.end:packet.declared])


# What several of them are asked about


def addressed(family, size):
    """A packet of scapy's to the socket of the other kernel."""
    ip = (IP if family == 4 else IPv6)(src=HERE[family], dst=THERE[family])
    return bytes(ip / UDP(sport=rng.randrange(1024, 65536), dport=PORT) / Raw(rng.randbytes(size)))


def frames(path):
    """The frames of a capture of Ethernet."""
    with open(path, "rb") as file:
        data = file.read()
    assert data[:4] in (b"\xd4\xc3\xb2\xa1", b"\x4d\x3c\xb2\xa1") and data[20] == 1, "no capture of Ethernet"
    at, found = 24, []
    while at < len(data):
        length = struct.unpack_from("<I", data, at + 8)[0]
        found.append(data[at + 16:at + 16 + length])
        at += 16 + length
    return found


def relayed(seen, sent):
    """The packets that came to our relay, each with what left it for it: nothing if it was refused."""
    came, left = frames(seen), frames(sent)
    assert len(came) == len(left)
    return [(before[14:], after[14:]) for before, after in zip(came, left)]


def is_full(data):
    """Whether TCP's field is FFFF: a kernel that sums for its card writes that for 0000, and tshark calls it bad."""
    packet = Packet(data)
    return packet.protocol == 6 and data[packet.field:packet.field + 2] == b"\xff\xff"


def one_less(data):
    """An IPv6 packet with one less in its lifetime."""
    return data[:7] + bytes([data[7] - 1]) + data[8:]


def spoilt(data, places):
    """A packet with one bit or one byte changed at one of some places."""
    at, data = rng.choice(places), bytearray(data)
    data[at] ^= 1 << rng.randrange(8) if rng.random() < 0.5 else rng.randrange(1, 256)
    return bytes(data)


def damaged(packet, ahead=0.3):
    """A packet that is changed where a sum must see it: ahead of the message so often, or if that has no sum."""
    header = [1, 4, 5, 8, *range(10, 20)] if packet.four else range(8, 40)
    lengths = {6: (12,), 17: (4, 5)}.get(packet.protocol, ())
    message = [i for i in range(packet.start, packet.end) if i - packet.start not in lengths]
    data = spoilt(packet.data, header if packet.unsummed or rng.random() < ahead else message)
    return damaged(packet, ahead) if not packet.unsummed and Packet(data).unsummed else data


def check_delivered(what, want, packets, post):
    """Packets to the other kernel, by card, and by a raw socket too if they have no tail: its verdict is ours, and of a
    good one it hands on the datagram and nothing else."""
    whole = [data for data in packets if len(data) == Packet(data).declared]
    sent, agreed = [(data, False) for data in packets] + [(data, True) for data in whole], 0
    for (data, _), we, (they, got) in zip(sent, judged(packets + whole), delivered(post, sent)):
        packet = Packet(data)
        if we == they == want and got == [data[packet.body:packet.end]] * (want == GOOD):
            agreed += 1
        else:
            disagree(f"{what}: {want} wanted, we say {we}, the other kernel {they} with {got}", data)
    found = {
        GOOD: "good for us and for it, and the datagram alone comes out",
        SHAPE: "4 for us, and no datagram for it",
        MESSAGE_SUM: "9 for us, and a wrong sum for it",
    }
    count(f"{what}; {found[want]}", agreed, len(sent))
