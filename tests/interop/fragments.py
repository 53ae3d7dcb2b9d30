"""What a fragment is, and what fragments make together. Read from the RFCs' layouts, and not by our library."""
from headers import FRAGMENT, walked


def number(data):
    return int.from_bytes(data, "big")


def is_fragment(data):
    """Whether an IPv4 packet has more to come or an offset, or an IPv6 one a fragment header, behind others or not."""
    return number(data[6:8]) & 0x3FFF != 0 if data[0] >> 4 == 4 else walked(data)[1] == FRAGMENT


class Fragment:
    """A piece of a message, and which message that is."""

    def __init__(self, data):
        self.four = data[0] >> 4 == 4
        if self.four:
            word, self.lifetime, self.protocol, self.start = number(data[6:8]), data[8], data[9], 4 * (data[0] & 15)
            self.offset, self.more, end = 8 * (word & 0x1FFF), word & 0x2000 != 0, number(data[2:4])
            self.source, self.message = data[12:16], data[4:6] + data[9:10] + data[12:20]
        else:
            at = walked(data)[2]
            word, self.lifetime, self.protocol, self.start = number(data[at + 2:at + 4]), data[7], data[at], at + 8
            self.offset, self.more, end = word & 0xFFF8, word & 1 != 0, 40 + number(data[4:6])
            self.source, self.message = data[8:24], data[at + 4:at + 8] + data[at:at + 1] + data[8:40]
        self.piece = data[self.start:end]


class Message:
    """Fragments of one message, in the order in which they came: their places in a list, and their bytes joined, or
    None if they don't fill it from 0 to the end."""

    def __init__(self, places, fragments):
        self.places, self.last = places, places[-1]
        self.four, self.protocol, self.source = fragments[0].four, fragments[0].protocol, fragments[0].source
        fragments = sorted(fragments, key=lambda fragment: fragment.offset)
        self.whole = b""
        for fragment in fragments:
            if self.whole is not None:
                self.whole = self.whole + fragment.piece if fragment.offset == len(self.whole) else None
        if [fragment.more for fragment in fragments] != [True] * (len(fragments) - 1) + [False]:
            self.whole = None


def messages(packets):
    """The messages that fragments are of."""
    places = {}
    for i, data in enumerate(packets):
        places.setdefault(Fragment(data).message, []).append(i)
    return [Message(those, [Fragment(packets[i]) for i in those]) for those in places.values()]
