"""A relay between two cards: hands each IP packet to the library, and sends on what that edited.

relay.py EDIT LEFT RIGHT SEEN.pcap SENT.pcap OURS..: what it does, the cards' names, two captures that it writes, and
the words that start ours.c's program. With `lower` it lowers each lifetime. With `exchange` it exchanges the prefixes
of RFC 6296's example: the one inside for the one outside in the source of what comes from the left, and back in the
destination of what comes from the right. The captures have the same frames in the same order: SEEN as they came, and
SENT as they went, with nothing behind the Ethernet head where the library refused. What isn't IP and what asks for
neighbours, who must find each other as they are, goes by unchanged and is in neither. Prints a line once it listens,
and works until it is ended.
"""
import os
import selectors
import signal
import socket
import struct
import subprocess
import sys

from prefixes import INSIDE, OUTSIDE

HEAD, OUTGOING, ALL, SO_RCVBUFFORCE, ROOM = 14, 4, 3, 33, 1 << 23
ND = [bytes([kind]) for kind in range(133, 138)]  # ICMPv6 about neighbours and routers


def card(name):
    """What comes in at a card, and its way out."""
    s = socket.socket(socket.AF_PACKET, socket.SOCK_RAW, socket.htons(ALL))
    s.setsockopt(socket.SOL_SOCKET, SO_RCVBUFFORCE, ROOM)
    s.bind((name, 0))
    return s


def is_for_us(frame):
    four, six = frame[12:14] == b"\x08\x00", frame[12:14] == b"\x86\xdd"
    neighbours = frame[HEAD + 6:HEAD + 7] == b"\x3a" and frame[HEAD + 40:HEAD + 41] in ND
    return four or six and not neighbours


# What the library is asked for, by the card where a packet comes: a letter, a number and new bytes.
EDITS = {
    "lower": [(b"l", 0, b"")] * 2,
    "exchange": [(b"x", 0, INSIDE + OUTSIDE), (b"x", 1, OUTSIDE + INSIDE)],
}


def edited(ours, edit, packet):
    """Asks the library for one packet: the packet after the edit, or none."""
    letter, number, new = edit
    ours.stdin.write(letter + struct.pack(">II", number, len(new)) + new + struct.pack(">I", len(packet)) + packet)
    ours.stdin.flush()
    verdict, length = struct.unpack(">BI", ours.stdout.read(5))
    answer = ours.stdout.read(length)
    return answer if verdict == 0 else b""


def capture(path):
    file = open(path, "wb")
    file.write(struct.pack("<IHHIIII", 0xA1B2C3D4, 2, 4, 0, 0, 65535, 1))
    return file


def record(file, frame):
    file.write(struct.pack("<IIII", 0, 0, len(frame), len(frame)) + frame)
    file.flush()


def main():
    os.sched_setaffinity(0, {min(os.sched_getaffinity(0))})  # one processor's queue keeps the order
    edits, left, right = EDITS[sys.argv[1]], card(sys.argv[2]), card(sys.argv[3])
    seen, sent = capture(sys.argv[4]), capture(sys.argv[5])
    ours = subprocess.Popen(sys.argv[6:] + ["live"], stdin=subprocess.PIPE, stdout=subprocess.PIPE)
    signal.signal(signal.SIGTERM, lambda *_: sys.exit(0))
    picker = selectors.DefaultSelector()
    picker.register(left, selectors.EVENT_READ, (right, edits[0]))
    picker.register(right, selectors.EVENT_READ, (left, edits[1]))
    print("ready", flush=True)
    while True:
        for key, _ in picker.select():
            (onward, edit), (frame, address) = key.data, key.fileobj.recvfrom(65536)
            if address[2] == OUTGOING:
                continue
            if is_for_us(frame):
                record(seen, frame)
                frame = frame[:HEAD] + edited(ours, edit, frame[HEAD:])
                record(sent, frame)
            if len(frame) > HEAD:
                onward.send(frame)


if __name__ == "__main__":
    main()
