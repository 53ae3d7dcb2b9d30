"""Makes the kernel send UDP and TCP packets, between two network namespaces.

talk.py serve: answers each datagram and each connection with what it got, until it is ended; recorder.py's too.
talk.py ask ADDRESS..: sends so much to each address, and sees that it comes back.
talk.py large ADDRESS..: the same with datagrams that the kernel must cut into three fragments or more.
talk.py much ADDRESS..: the same with a million bytes and more in one connection.
talk.py cut ADDRESS..: the same with datagrams that have options behind their IPv4 header, and to the other port; and
what nobody answers, of a protocol that the rules know no sum of.
"""
import random
import selectors
import socket
import sys

from post import PORT as OTHER_PORT

PORT = 40404
SO_NO_CHECK = 11  # Linux: send UDP over IPv4 without a sum
SIZES = [0, 1, 2, 3, 4, 5, 7, 8, 15, 16, 31, 32, 63, 64, 100, 255, 256, 511, 512, 999, 1000, 1400]
LARGE = [2600, 2601, 4096, 9999, 30000, 65507]  # the last is the longest that IPv4 has
CUT = [4001, 5000, 9999, 20000]
OPTIONS = ["", "94040000", "0707040000000000", "940400000707040000000000"]  # none, for each fragment, the first, both
OTHER = 253  # a protocol for trials (RFC 3692)
MUCH = [30001] * 35  # each is answered before the next, so that no buffer on the way is filled up


def serve():
    picker = selectors.DefaultSelector()
    for kind, port in (socket.SOCK_DGRAM, PORT), (socket.SOCK_DGRAM, OTHER_PORT), (socket.SOCK_STREAM, PORT):
        s = socket.socket(socket.AF_INET6, kind)
        s.setsockopt(socket.IPPROTO_IPV6, socket.IPV6_V6ONLY, 0)
        s.bind(("::", port))
        if kind == socket.SOCK_STREAM:
            s.listen()
        picker.register(s, selectors.EVENT_READ)
    print("ready", flush=True)
    while True:
        for key, _ in picker.select():
            if key.fileobj.type == socket.SOCK_DGRAM:
                data, peer = key.fileobj.recvfrom(65536)
                key.fileobj.sendto(data, peer)
            else:
                with key.fileobj.accept()[0] as connection:
                    while data := connection.recv(2048):
                        connection.sendall(data)


def datagrams(address, sizes):
    family = socket.AF_INET6 if ":" in address else socket.AF_INET
    rng = random.Random(1)
    for summed in (True, False) if family == socket.AF_INET else (True,):
        with socket.socket(family, socket.SOCK_DGRAM) as s:
            s.settimeout(5)
            if not summed:
                s.setsockopt(socket.SOL_SOCKET, SO_NO_CHECK, 1)
            for size in sizes:
                data = rng.randbytes(size)
                s.sendto(data, (address, PORT))
                assert s.recv(65536) == data


def options(address):
    rng = random.Random(4)
    for each in OPTIONS:
        with socket.socket(socket.AF_INET, socket.SOCK_DGRAM) as s:
            s.settimeout(5)
            s.setsockopt(socket.IPPROTO_IP, socket.IP_OPTIONS, bytes.fromhex(each))
            for size in CUT:
                data = rng.randbytes(size)
                s.sendto(data, (address, OTHER_PORT))
                assert s.recv(65536) == data


def others(address):
    with socket.socket(socket.AF_INET, socket.SOCK_RAW, OTHER) as s:
        for size in CUT:
            s.sendto(random.Random(size).randbytes(size), (address, 0))


def stream(address, sizes):
    rng = random.Random(2)
    with socket.create_connection((address, PORT), timeout=5) as s:
        for size in sizes:
            data = rng.randbytes(size)
            s.sendall(data)
            back = b""
            while len(back) < size:
                back += s.recv(2048)
            assert back == data


def main():
    if sys.argv[1] == "serve":
        serve()
    elif sys.argv[1] == "ask":
        for each in sys.argv[2:]:
            datagrams(each, SIZES)
            stream(each, SIZES[1:])
    elif sys.argv[1] == "large":
        for each in sys.argv[2:]:
            datagrams(each, LARGE)
    elif sys.argv[1] == "cut":
        for each in sys.argv[2:]:
            options(each)
            others(each)
    else:
        for each in sys.argv[2:]:
            stream(each, MUCH)


if __name__ == "__main__":
    main()
