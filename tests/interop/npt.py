"""A kernel that exchanges prefixes itself (ip6t_NPT) as a judge: hands it packets to forward, and gets what comes out
at its other card. And the packets on which it and the library differ, or might.

npt.py: prints its rules for ip6tables-restore. For each pair of prefixes it exchanges the source on the way out, and
the destination on the way in.
"""
import socket

from apart import SAID as SAID_BETWEEN, apart
from headers import HOP
from post import inside, one_processor
from prefixes import ALL_ONES, FAR, NET_99, OTHER_99, PAIRS, SIZE, exchanged, place, with_start, word
from trailing import with_word

IPV6, OUTGOING, SO_RCVBUFFORCE, ROOM = 0x86DD, 4, 33, 1 << 22
CARDS = "in", "out"  # as run.sh names them; what has its source exchanged comes to the first
NOTHING, ICMPV6, UNREACHABLE = 59, 58, 1


def rules():
    def text(prefix):
        return prefix.hex(":", 2) + "::/48"

    yield "*mangle"
    for here, there in (map(text, pair) for pair in PAIRS):
        yield f"-A POSTROUTING -o {CARDS[1]} -s {here} -j SNPT --src-pfx {here} --dst-pfx {there}"
        yield f"-A PREROUTING -i {CARDS[1]} -d {there} -j DNPT --src-pfx {there} --dst-pfx {here}"
    yield "COMMIT"


class Gate:
    """The way through that kernel: both its ends in one namespace, and the kernel's cards in another."""

    def __init__(self, ends, kernel):
        self.cards, self.towards, self.marks = [], [], 0
        for name in CARDS:
            with inside(ends):
                card = socket.socket(socket.AF_PACKET, socket.SOCK_DGRAM, socket.htons(IPV6))
                card.setsockopt(socket.SOL_SOCKET, SO_RCVBUFFORCE, ROOM)
                card.bind((name, IPV6))
                card.settimeout(5)
                self.cards.append(card)
            with inside(kernel), socket.socket(socket.AF_PACKET, socket.SOCK_DGRAM) as card:
                card.bind((name, 0))
                self.towards.append((name, IPV6, 0, 0, card.getsockname()[4]))

    def mark(self, side):
        """A packet that is forwarded as it is, and like no other."""
        self.marks += 1
        destination = b"\xfd" + FAR[1:] if side else FAR
        head = bytes([0x60, 0, 0, 0, 0, 8, NOTHING, 64]) + FAR + bytes(10) + destination + bytes(10)
        return head + self.marks.to_bytes(8, "big")

    def came(self, side):
        """The next packet to come out, but for the kernel's own, which are from its cards' addresses or for all."""
        while True:
            data, address = self.cards[1 - side].recvfrom(65536)
            if address[2] != OUTGOING and data[8] != 0xFE and data[24] != 0xFF:
                return data

    def passed(self, side, data):
        """What comes out of a packet, before the mark that follows it."""
        mark, found = self.mark(side), []
        for each in (data, mark):
            self.cards[side].sendto(each, self.towards[side])
        while (data := self.came(side))[8:] != mark[8:]:
            found.append(data)
        return found

    def all_passed(self, packets):
        with one_processor():
            return [self.passed(side, data) for side, data in packets]


# Where the rules ask for more than the kernel does, or for less


def unchanged(data, side, new):
    return data


def as_zeros(data, side, new):
    """What becomes of the packet with the word 0000 behind its prefix."""
    old = data[place(side):place(side) + SIZE]
    return exchanged(with_start(data, side, old, 0), side, new)


def quoted(data, side, new):
    """Exchanged, and so is the address where the quoted packet has it, on its other side."""
    data = exchanged(data, side, new)
    return data[:48] + exchanged(data[48:], 1 - side, new)


WORD, OTHER, CUT, LENGTH = "the word FFFF", "another prefix", "fewer bytes than declared", "lengths that contradict"
HOP_PAST, HOP_OPTIONS = "a hop-by-hop header past the payload", "hop-by-hop options that routers refuse"
FRAGMENT, COVER, SILENT = "a fragment header", "headers or a protocol not covered", "UDP without a sum"
ODD, QUOTING = "headers between that receivers refuse, or sum otherwise", "an ICMPv6 error that quotes the address"

# What is said of each: our verdict, and what comes out of the kernel, in words and worked out; None where nothing does.
SAID = {
    # All ones are zeros in one's complement: the kernel makes the same of both, and can't give the ones back. The rules
    # don't let them stand there.
    WORD: (10, "exchanged as 0000 is", as_zeros),
    # The kernel has no rule for it.
    OTHER: (10, "left as it was", unchanged),
    CUT: (2, "dropped", None),
    # Behind the fixed header the kernel looks at hop-by-hop alone, which is for routers too. The rules refuse what the
    # address edit refuses.
    LENGTH: (4, "exchanged", exchanged),
    HOP_PAST: (4, "dropped", None),
    FRAGMENT: (6, "exchanged", exchanged),
    COVER: (7, "exchanged", exchanged),
    SILENT: (8, "exchanged", exchanged),
    HOP_OPTIONS: (0, "dropped", None),
    ODD: (0, "exchanged", exchanged),
    # So the error's receiver knows its own packet again. By the rules no other byte changes.
    QUOTING: (0, "exchanged, and the quoted one too", quoted),
}
BETWEEN = {
    (4, False): LENGTH, (4, True): HOP_PAST, (6, False): FRAGMENT, (7, False): COVER, (8, False): SILENT,
    (0, False): ODD, (0, True): HOP_OPTIONS,
}


def error(data, side, old, after):
    """A packet that becomes an error about one that went the other way."""
    about = with_start(with_start(data, side, FAR, 0), 1 - side, old, after)
    made = bytes([UNREACHABLE, 0, 0, 0, 0, 0, 0, 0]) + about
    return with_word(data[:6] + bytes([ICMPV6]) + data[7:40] + made, 4, len(made))


def plain_differing(rng, plain):
    """A plain UDP packet in each direction of each pair, and what it becomes."""
    for pair in PAIRS:
        for side, (old, new) in enumerate((pair, pair[::-1])):
            after = rng.randrange(ALL_ONES)
            data = with_start(with_start(plain, 1 - side, FAR, 0), side, old, after)
            yield WORD, side, old + new, with_start(data, side, old, ALL_ONES)
            yield CUT, side, old + new, data[:-1]
            yield LENGTH, side, old + new, with_word(data, 44, rng.choice([0, 7, len(data) - 39, 0xFFFF]))
            yield QUOTING, side, old + new, error(data, side, old, after)
            if side == 0:  # on the way in it would have no way
                yield OTHER, side, old + new, with_start(data, side, old[:-1] + bytes([old[-1] ^ 1]), after)


def is_dropped(verdict, kernels, data):
    """Whether a router drops a packet with headers between: for hop-by-hop alone, if it reaches past the payload, or if
    the kernel as a receiver drops it for nothing that the rules look at."""
    past = 0 < word(data, 4) < 8 + 8 * data[41]
    return data[6] == HOP and (past or verdict == 0 and kernels is None)


def differing(rng, plains):
    """All of these, by what they are: requests for us of side, expected and new prefix, and packet."""
    found = {}
    for what, side, both, data in plain_differing(rng, plains[-1]):
        found.setdefault(what, []).append(("x", side, both, data))
    for what, packets in apart(rng, plains).items():
        judged, *_, kernels = SAID_BETWEEN[what]
        verdict = 0 if judged == 9 else judged  # a wrong sum is exchanged as any other
        for data in packets:
            kind = BETWEEN[verdict, is_dropped(verdict, kernels, data)]
            found.setdefault(kind, []).append(("x", 0, NET_99 + OTHER_99, with_start(data, 1, FAR, 0)))
    return found


if __name__ == "__main__":
    print(*rules(), sep="\n")
