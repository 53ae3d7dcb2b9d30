"""Makes the kernel send packets with headers between, as some recorders do: from sockets that ask for them.

recorder.py send ADDRESS LONGEST: sends UDP, TCP and ICMPv6 to talk.py's server, with headers of at most so many bytes
in a packet, and sees that each is answered.
recorder.py large ADDRESS: the same with datagrams that the kernel cuts, behind the headers that each fragment repeats.
recorder.py try ADDRESS: prints which headers the kernel lets sockets ask for, and with which error it refuses others.
"""
import errno
import random
import socket
import sys

from headers import options, routing
from post import PORT as UDP_PORT
from talk import LARGE, PORT as TCP_PORT

HOP, DST, BEFORE, ROUTE = socket.IPV6_HOPOPTS, socket.IPV6_DSTOPTS, socket.IPV6_RTHDRDSTOPTS, socket.IPV6_RTHDR
NAMES = {HOP: "IPV6_HOPOPTS", DST: "IPV6_DSTOPTS", BEFORE: "IPV6_RTHDRDSTOPTS", ROUTE: "IPV6_RTHDR"}
SIZES = [0, 1, 2, 7, 8, 55, 100, 255, 256, 1000]
WAYS = [("UDP", False), ("UDP", True), ("TCP", False), ("ICMPv6", False), ("ICMPv6", True)]  # whether for one alone
rng = random.Random(3)


def opened(kind, address):
    """A socket of UDP, TCP or ICMPv6 towards the server; TCP's isn't connected yet."""
    types = {"UDP": socket.SOCK_DGRAM, "TCP": socket.SOCK_STREAM, "ICMPv6": socket.SOCK_RAW}
    s = socket.socket(socket.AF_INET6, types[kind], socket.IPPROTO_ICMPV6 if kind == "ICMPv6" else 0)
    s.settimeout(5)
    if kind != "TCP":
        s.connect((address, UDP_PORT if kind == "UDP" else 0))
    return s


def ask_for(s, wishes):
    """Headers for all that a socket sends."""
    for option, header in wishes.items():
        s.setsockopt(socket.IPPROTO_IPV6, option, header)


def beside(wishes):
    """The same for one message, beside its bytes."""
    return [(socket.IPPROTO_IPV6, option, header) for option, header in wishes.items()]


def echo(size, number):
    """A message of ICMPv6 that asks for an answer; the kernel writes the sum."""
    return bytes([128, 0, 0, 0]) + number.to_bytes(4, "big") + rng.randbytes(size)


def answered(s, kind, data):
    """Waits for what a datagram or an echo is answered with: the same bytes, or an echo's without its sum."""
    came = s.recv(65536)
    while came != data if kind == "UDP" else (came[0], came[4:]) != (129, data[4:]):
        came = s.recv(65536)


def messages(address, kind, wishes, alone, sizes):
    """Datagrams or echoes with headers, wished for each alone or for the whole socket."""
    with opened(kind, address) as s:
        if not alone:
            ask_for(s, wishes)
        for size in sizes:
            data = rng.randbytes(size) if kind == "UDP" else echo(size, rng.getrandbits(32))
            s.sendmsg([data], beside(wishes) if alone else [])
            answered(s, kind, data)


def stream(address, wishes):
    with opened("TCP", address) as s:
        ask_for(s, wishes)
        s.connect((address, TCP_PORT))
        for size in SIZES[1:]:
            data = rng.randbytes(size)
            s.sendall(data)
            back = b""
            while len(back) < size:
                back += s.recv(2048)
            assert back == data


def refusal(address, kind, wishes, alone):
    """The name of the error with which the kernel refuses headers, or none. What it sends with them is not waited for:
    with segments left the other kernel may drop it."""
    with opened(kind, address) as s:
        data = rng.randbytes(8) if kind == "UDP" else echo(8, 0)
        try:
            if not alone:
                ask_for(s, wishes)
            if kind != "TCP":
                s.sendmsg([data], beside(wishes) if alone else [])
        except OSError as error:
            return errno.errorcode[error.errno]
    return None


def some(length):
    return options(length, rng.randbytes, rng.randrange(5))


def lists(there):
    """What sockets wish for: each header by itself, short and long, and all that can stand together."""
    one, three = routing(4, 0, [there]), routing(4, 0, [there, rng.randbytes(16), rng.randbytes(16)])
    yield from ({option: some(length)} for option in (HOP, DST) for length in (8, 16, 24, 72, 272, 1032, 2040))
    yield from ({HOP: some(8), DST: some(8)}, {HOP: some(24), DST: some(264)}, {ROUTE: one}, {ROUTE: three})
    yield from ({BEFORE: some(8), ROUTE: one}, {BEFORE: some(40), ROUTE: three, DST: some(16)})
    yield from ({HOP: some(8), ROUTE: one}, {HOP: some(16), BEFORE: some(8), ROUTE: three, DST: some(32)})
    yield {ROUTE: routing(4, 1, [there, there])}


def send(address, there, longest):
    for wishes in lists(there):
        if sum(map(len, wishes.values())) > longest:
            continue
        for kind, alone in WAYS:
            if refusal(address, kind, wishes, alone):
                continue
            if kind == "TCP":
                stream(address, wishes)
            else:
                messages(address, kind, wishes, alone, SIZES)


def large(address, there):
    for wishes in {HOP: some(8)}, {HOP: some(24), BEFORE: some(16), ROUTE: routing(4, 0, [there])}:
        if not refusal(address, "UDP", wishes, False):
            messages(address, "UDP", wishes, False, [min(size, 65000) for size in LARGE])  # headers need room too


def tries(address, there):
    print("| asked of the kernel | " + " | ".join(kind + " for one message" * alone for kind, alone in WAYS) + " |")
    print("|---" * (len(WAYS) + 1) + "|")
    wishes = [(NAMES[option], {option: options(8)}) for option in (HOP, BEFORE, DST)]
    for kind, left in (0, 0), (0, 1), (2, 0), (2, 1), (3, 0), (3, 1), (4, 0), (4, 1):
        name = f"{NAMES[ROUTE]} of type {kind}, segments left {left}"
        wishes.append((name, {ROUTE: routing(kind, left, [there] * (left + 1 if kind == 4 else 1))}))
    for name, wish in wishes:
        said = [refusal(address, kind, wish, alone) for kind, alone in WAYS]
        print(f"| {name} | " + " | ".join(error or "yes" for error in said) + " |")


def main():
    address = sys.argv[2]
    there = socket.inet_pton(socket.AF_INET6, address)
    if sys.argv[1] == "send":
        send(address, there, int(sys.argv[3]))
    elif sys.argv[1] == "large":
        large(address, there)
    else:
        tries(address, there)


if __name__ == "__main__":
    main()
