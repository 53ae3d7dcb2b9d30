"""The other kernel as a judge: hands it packets as they are, from one network namespace to another. Post does so with
UDP, straight, and with fragments of all that it puts together; Way with all that goes through our relay.

They have sockets in both, so that one process sees all, and send from one processor, whose queue keeps the order: what
came before the mark that follows a packet is of that packet, and nothing else of it comes later.
"""
import contextlib
import ctypes
import os
import socket
import sys
import typing

CARD, FAR_CARD = "card", "far"
PORT = 50505  # both bytes differ from talk.py's, so that one damaged byte doesn't lead there
HERE = {4: "10.99.0.1", 6: "fd99::1"}  # as run.sh gives them
THERE = {4: "10.99.0.2", 6: "fd99::2"}
TYPES = {4: 0x0800, 6: 0x86DD}
PROTOCOLS = [6, 17, 58]
MESSAGES = ["Tcp:OutRsts", "Icmp:InEchos"]  # the answer to a good segment for a closed port, and good echoes
REFUSED = ["Udp:InErrors", "Tcp:InErrs", "Icmp:InErrors"]
WRONG = ["Udp:InCsumErrors", "Tcp:InCsumErrors", "Icmp:InCsumErrors"]  # of the refused
COUNTED = ["Tcp:", "Udp6", "Icmp6"]  # what the kernel's counts of these are called; TCP's are of both families
IP_RECVTTL, IP_TTL = 12, 2  # Linux's numbers
TOLD = [  # what a socket is told of each datagram: its lifetime, and for whom it is
    (socket.IPPROTO_IP, IP_RECVTTL), (socket.IPPROTO_IPV6, socket.IPV6_RECVHOPLIMIT),
    (socket.IPPROTO_IPV6, socket.IPV6_RECVPKTINFO),
]
MAPPED = bytes(10) + b"\xff\xff"  # what stands before an IPv4 address that is written as an IPv6 one


def enter(file):
    if ctypes.CDLL(None, use_errno=True).setns(file.fileno(), 0) != 0:
        raise OSError(ctypes.get_errno(), "setns")


@contextlib.contextmanager
def inside(namespace):
    """What is opened inside a network namespace stays there."""
    with open("/proc/self/ns/net") as home, open("/var/run/netns/" + namespace) as there:
        enter(there)
        try:
            yield
        finally:
            enter(home)


@contextlib.contextmanager
def one_processor():
    processors = os.sched_getaffinity(0)
    os.sched_setaffinity(0, {min(processors)})
    try:
        yield
    finally:
        os.sched_setaffinity(0, processors)


def box(port):
    """A socket that gets all datagrams to a port, or to one that is free if it is 0."""
    found = socket.socket(socket.AF_INET6, socket.SOCK_DGRAM)
    found.setsockopt(socket.IPPROTO_IPV6, socket.IPV6_V6ONLY, 0)
    for level, option in TOLD:
        found.setsockopt(level, option, 1)
    found.bind(("::", port))
    found.settimeout(5)
    return found


class Letter(typing.NamedTuple):
    """What comes out of a datagram at a socket, and what the socket is told of it."""

    body: bytes
    source: bytes
    port: int
    destination: bytes
    lifetime: int


def address(data):
    """An address of either family, as its packets carry it."""
    return data.removeprefix(MAPPED)


def letter(came):
    """What a socket got."""
    body, told, _, (source, port, *_) = came
    told = {kind: data for _, kind, data in told}
    lifetime = int.from_bytes(told.get(IP_TTL) or told[socket.IPV6_HOPLIMIT], sys.byteorder)
    source = socket.inet_pton(socket.AF_INET6, source)
    return Letter(body, address(source), port, address(told[socket.IPV6_PKTINFO][:16]), lifetime)


def counts(files):
    """A kernel's counts: IPv4's, and TCP's of both families, by protocol and name, and IPv6's by names of its own."""
    four, six = files
    four.seek(0)
    six.seek(0)
    lines, found = [line.split() for line in four], dict(line.split() for line in six)
    for names, values in zip(lines[::2], lines[1::2]):
        found.update((names[0] + name, value) for name, value in zip(names[1:], values[1:]))
    return {name: int(value) for name, value in found.items()}


def count_files():
    """Where the kernel of the namespace that this is called in has them."""
    return open("/proc/self/net/snmp"), open("/proc/self/net/snmp6")


class Post:
    """Sockets to send from in one namespace, and one to get datagrams in the other."""

    def __init__(self, here, there):
        with inside(here):
            self.marking = socket.socket(socket.AF_INET6, socket.SOCK_DGRAM)
            self.card = socket.socket(socket.AF_PACKET, socket.SOCK_DGRAM)
            self.raw = {
                4: socket.socket(socket.AF_INET, socket.SOCK_RAW, socket.IPPROTO_RAW),
                6: socket.socket(socket.AF_INET6, socket.SOCK_RAW, socket.IPPROTO_RAW),
            }
        with inside(there):
            self.box, self.files = box(PORT), count_files()
            with socket.socket(socket.AF_PACKET, socket.SOCK_DGRAM) as card:
                card.bind((CARD, 0))
                self.address = card.getsockname()[4]
        self.marks = 0

    def counted(self):
        """How many datagrams the other kernel has refused, and how many of them for their sum."""
        found = counts(self.files)
        return [found["Udp:" + name] + found["Udp6" + name] for name in ("InErrors", "InCsumErrors")]

    def send(self, data, raw):
        """A packet as it is, tail and all; through a raw socket as far as the kernel, which writes IPv4's total length
        and header sum itself."""
        family = data[0] >> 4
        if raw:
            self.raw[family].sendto(data, (THERE[family], 0))
        else:
            self.card.sendto(data, (CARD, TYPES[family], 0, 0, self.address))

    def letters(self):
        """What the socket gets before the mark that follows, and what it is told of it."""
        found = []
        self.marks += 1
        mark = b"that was packet %d" % self.marks
        self.marking.sendto(mark, (THERE[6], PORT))
        while (came := self.box.recvmsg(65536, 1024))[0] != mark:
            found.append(letter(came))
        return found

    def got(self):
        """What the socket gets before the mark that follows, without what it is told."""
        return [letter.body for letter in self.letters()]

    def sent(self, data, raw):
        """What the socket gets of a packet, and by how much the two counts grow."""
        before = self.counted()
        self.send(data, raw)
        return self.got(), *(now - then for now, then in zip(self.counted(), before))

    def all_sent(self, packets):
        with one_processor():
            return [self.sent(data, raw) for data, raw in packets]

    def counted_together(self):
        """How many messages the other kernel has taken besides datagrams, how many it has refused, and how many of
        these for their sum."""
        found = counts(self.files)
        return [sum(found[name] for name in names) for names in (MESSAGES, REFUSED, WRONG)]

    def sent_together(self, fragments):
        """What the socket gets of fragments that come in this order, and by how much the three counts grow."""
        before = self.counted_together()
        for data in fragments:
            self.send(data, False)
        return self.got(), *(now - then for now, then in zip(self.counted_together(), before))

    def all_together(self, sets):
        with one_processor():
            return [self.sent_together(fragments) for fragments in sets]


class Way:
    """The way through our relay: frames from a card in one namespace to the kernel of another. Marks go from an address
    of the first to one of the second, as the first knows it."""

    def __init__(self, here, there, source, destination):
        with inside(here):
            self.marking = socket.socket(socket.AF_INET6, socket.SOCK_DGRAM)
            self.marking.bind((source, 0))
            self.card = socket.socket(socket.AF_PACKET, socket.SOCK_RAW)
            self.card.bind((FAR_CARD, 0))
        with inside(there):
            self.box, self.files = box(0), count_files()
        self.destination, self.marks = (destination, self.box.getsockname()[1]), 0

    def wrong(self):
        """How many wrong sums the other kernel has counted, by protocol."""
        found = counts(self.files)
        return [found[name + "InCsumErrors"] for name in COUNTED]

    def sent(self, frame):
        """By how much the counts grow with a frame."""
        before = self.wrong()
        self.marks += 1
        mark = b"that was frame %d" % self.marks
        self.card.send(frame)
        self.marking.sendto(mark, self.destination)
        while self.box.recv(65536) != mark:
            pass
        return [now - then for now, then in zip(self.wrong(), before)]

    def all_sent(self, frames):
        with one_processor():
            return [self.sent(frame) for frame in frames]
