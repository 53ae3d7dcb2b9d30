"""Who cuts messages into fragments: kernels, as captures have it, and scapy."""
from scapy.layers.inet import ICMP, IP, TCP, UDP, IPOption_NOP, IPOption_RR, IPOption_Router_Alert, fragment
from scapy.packet import Raw

from cutting import MOST, together, whole
from fragments import is_fragment, messages, number
from judges import disagree, frames, is_full, rng
from post import HERE, PORT, THERE

CLOSED = 50506  # a port of the other kernel's
TO = [bytes([10, net, at, 2]) for net, at in ((99, 0), (98, 0), (97, 2))]  # the other kernel, as run.sh has it
ROUTE = IPOption_RR(length=11, pointer=4, routers=["0.0.0.0"] * 2)
OPTIONS = [[], [], [IPOption_NOP()], [IPOption_Router_Alert()], [ROUTE]]


def captured(path):
    """The messages that came in fragments over IPv4, each as its fragments in the order in which they came."""
    packets = [frame[14:] for frame in frames(path) if frame[12:14] == b"\x08\x00"]
    return by_message([data for data in packets if is_fragment(data)])


def by_message(packets):
    """The messages of fragments, but for those that tshark can't judge."""
    found = messages(packets)
    for message in found:
        if message.whole is None:
            disagree("a kernel's fragments don't fill a message", packets[message.last])
    sets = [[packets[i] for i in message.places] for message in found if message.whole is not None]
    return [fragments for fragments in sets if not is_full(whole(fragments))]


def is_posted(fragments):
    """Whether the other kernel shows what it makes of a message: a datagram for its socket, a segment for no
    connection, and an echo."""
    message, data = together(fragments), fragments[0]
    shown = {1: message[0] == 8, 6: True, 17: number(message[2:4]) == PORT}
    return data[16:20] in TO and shown.get(data[9], False)


def scapy_whole(addresses, size):
    """A packet of scapy's with so many bytes behind a UDP, TCP or ICMP header. To the other kernel it is for its
    socket, for a port that is closed, or an echo."""
    ports = {"sport": rng.randrange(1024, 65536)}
    stamp = [("NOP", None), ("NOP", None), ("Timestamp", (rng.getrandbits(32), 7))]
    message = rng.choice([
        UDP(dport=PORT, **ports), UDP(dport=PORT, **ports), ICMP(id=rng.getrandbits(16), seq=rng.getrandbits(16)),
        TCP(dport=CLOSED, flags=rng.choice(["S", "A", "PA"]), seq=rng.getrandbits(32), options=rng.choice([[], stamp]),
            **ports),
    ])
    ip = IP(src=addresses[0], dst=addresses[1], ttl=rng.randrange(2, 256), id=rng.getrandbits(16),
            tos=4 * rng.getrandbits(6), flags=rng.choice(["", "DF"]), options=rng.choice(OPTIONS))
    return bytes(ip / message / Raw(rng.randbytes(size)))


def scapy_cut(addresses):
    """A packet of scapy's in 1 to 64 fragments by scapy; those of few fragments are tried more often."""
    size = rng.choice([8, 16, 24, 56, 128, 552])
    pieces = rng.choice([1, 2, 2, 3, 3, 4, 4, 5, rng.randrange(6, MOST - 4)])
    data = scapy_whole(addresses, rng.randrange(size * (pieces - 1), size * pieces))
    return [bytes(each) for each in fragment(IP(data), fragsize=size)]


def anywhere():
    return [".".join(map(str, rng.randbytes(4))) for _ in range(2)]


def there():
    return HERE[4], THERE[4]
