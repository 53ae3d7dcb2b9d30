"""Packets that we build: held to scapy, which builds them too, to tshark, which reads them, and to the other kernel,
whose socket gets what they carry. That kernel gets each as we built it, and its counts show that it looks at both
sums."""
import itertools
import socket
import subprocess
import time
import typing

from scapy.layers.inet import IP, UDP
from scapy.layers.inet6 import IPv6
from scapy.packet import Raw

from judges import (
    GOOD, HEADER_SUM, MESSAGE_SUM, MISSING, PLACE, UNSUMMED, Packet, asked, count, damaged, disagree, judged, ours, rng,
    status, tshark,
)
from post import HERE, PORT, THERE, Letter, counts, one_processor
from trailing import with_word

SPENT, ROOM, MOST = 11, 16, 1400
MADE, FULLS, POSTED = 5000, 500, 200  # of each family
ANY, ZERO, THERE_TOO = "built by us, any content", "built by us, a sum of 0000", ", to the other kernel"
CORNERS = [0, 1, 2, MOST - 1, MOST]  # lengths of bodies
FAMILIES = {4: socket.AF_INET, 6: socket.AF_INET6}
SIZES = {4: 4, 6: 16}
WRONG = {4: "Udp:InCsumErrors", 6: "Udp6InCsumErrors"}
REFUSED = {4: "Udp:InErrors", 6: "Udp6InErrors"}
HEADERS = "Ip:InHdrErrors"


class Ask(typing.NamedTuple):
    """What a packet is built of."""

    source: bytes
    destination: bytes
    ports: tuple
    lifetime: int
    body: bytes

    def family(self):
        return 4 if len(self.source) == 4 else 6

    def texts(self):
        """The addresses as they are written."""
        return [socket.inet_ntop(FAMILIES[self.family()], data) for data in (self.source, self.destination)]


def length(ask):
    return {4: 28, 6: 48}[ask.family()] + len(ask.body)


def by_scapy(ask):
    """The packet that scapy builds, all that the request leaves open being 0."""
    (source, destination), (sport, dport) = ask.texts(), ask.ports
    if ask.family() == 4:
        ip = IP(src=source, dst=destination, ttl=ask.lifetime, tos=0, id=0, flags=0, frag=0)
    else:
        ip = IPv6(src=source, dst=destination, hlim=ask.lifetime, tc=0, fl=0)
    return bytes(ip / UDP(sport=sport, dport=dport) / Raw(ask.body))


def answers(asks, buffers):
    """What we answer: verdict, length, and the buffer afterwards."""
    requests = []
    for (source, destination, (sport, dport), lifetime, body), buffer in zip(asks, buffers):
        new = bytes([lifetime, len(source)]) + source + bytes([len(destination)]) + destination + body
        requests.append(("b", sport << 16 | dport, new, buffer))
    return [(verdict, int.from_bytes(data[-8:], "big"), data[:-8]) for verdict, data in ours(requests)]


# What is asked for


def some(size):
    """Bytes: any, or now and then all zeros or all ones."""
    return rng.choice([rng.randbytes, rng.randbytes, rng.randbytes, bytes, lambda size: b"\xff" * size])(size)


def sizes(number):
    """Lengths of bodies: those at the corners, and many others, of which the short ones are more."""
    return CORNERS + [rng.choice([rng.randrange(70), rng.randrange(MOST + 1)]) for _ in range(number - len(CORNERS))]


def anywhere(family, size):
    """From anyone to anyone."""
    ports = rng.choice([0, 1, 0xFFFF, rng.getrandbits(16)]), rng.getrandbits(16)
    lifetime = rng.choice([1, 255, rng.randrange(1, 256)])
    return Ask(some(SIZES[family]), some(SIZES[family]), ports, lifetime, some(size))


def posted(family, size):
    """From any neighbour of the other kernel to its socket."""
    net = socket.inet_pton(FAMILIES[family], HERE[family])
    source = net[:3] + bytes([rng.randrange(3, 255)]) if family == 4 else net[:8] + rng.randbytes(8)
    destination = socket.inet_pton(FAMILIES[family], THERE[family])
    return Ask(source, destination, (rng.getrandbits(16), PORT), rng.randrange(1, 256), rng.randbytes(size))


def field(data):
    """Where UDP has its field."""
    return 26 if data[0] >> 4 == 4 else 46


def full(ask):
    """The same with one word of the body chosen so that the sum comes out 0000, as scapy has it."""
    at = 2 * rng.randrange(len(ask.body) // 2)
    blank = ask._replace(body=with_word(ask.body, at, 0))
    data = by_scapy(blank)
    return blank._replace(body=blank.body[:at] + data[field(data):field(data) + 2] + blank.body[at + 2:])


def both(kind, number):
    """Asks of one kind: so many of each family."""
    return [kind(family, size) for family in (4, 6) for size in sizes(number)]


def fulls(kind, number):
    """Such asks whose sum comes out 0000, which takes two bytes of body."""
    return [full(ask) for ask in both(kind, number) if len(ask.body) > 1]


# What is tried


def check_made(what, asks):
    """Asks that nothing refuses, in buffers with room for more. Answers those that were built, each with its packet."""
    buffers = [rng.randbytes(length(ask) + rng.choice([0, 0, 1, 2, 7, 8, 40])) for ask in asks]
    found, pairs = answers(asks, buffers), []
    packets = [after[:size] for _, size, after in found]
    mended = ours([("m", 0, b"", data) for data in packets])
    for ask, before, (verdict, size, after), we, again in zip(asks, buffers, found, judged(packets), mended):
        made = by_scapy(ask)
        right = verdict == we == GOOD and size == len(made) and after == made + before[size:]
        if right and again == (GOOD, made):
            pairs.append((ask, after[:size]))
        else:
            disagree(f"{what}: answered {verdict} and {size}, we say {we}, scapy makes {made.hex()}", after)
    count(f"{what}; the bytes that scapy makes, the rest of the buffer as it was, good for us, and left so by our "
          "mender", len(pairs), len(asks))
    return pairs


def fields(ask):
    """What tshark is to print for a packet, by the names that it has for it. All sums are good."""
    (source, destination), (sport, dport) = ask.texts(), ask.ports
    udp = {"udp.srcport": sport, "udp.dstport": dport, "udp.length": 8 + len(ask.body), "udp.checksum.status": 1}
    if ask.family() == 4:
        ip = {"ip.hdr_len": 20, "ip.len": length(ask), "ip.ttl": ask.lifetime, "ip.proto": 17, "ip.dsfield": 0,
              "ip.id": 0, "ip.flags": 0, "ip.frag_offset": 0, "ip.checksum.status": 1}
        return {**udp, **ip}, {"ip.src": source, "ip.dst": destination}
    ip = {"ipv6.plen": 8 + len(ask.body), "ipv6.hlim": ask.lifetime, "ipv6.nxt": 17, "ipv6.tclass": 0, "ipv6.flow": 0}
    return {**udp, **ip}, {"ipv6.src": source, "ipv6.dst": destination}


def check_read(what, pairs):
    """What was built, as tshark reads it."""
    agreed = 0
    for family in (4, 6):
        those = [pair for pair in pairs if pair[0].family() == family]
        if not those:
            continue
        names = [name for part in fields(those[0][0]) for name in part] + ["udp.payload"]
        for (ask, data), said in zip(those, asked([data for _, data in those], names)):
            numbers, texts = fields(ask)
            read = [int(status(value) or "-1", 0) for value in said[:len(numbers)]]
            body = bytes.fromhex(said[-1].replace(":", ""))
            if read == list(numbers.values()) and said[len(numbers):-1] == list(texts.values()) and body == ask.body:
                agreed += 1
            else:
                disagree(f"{what}: tshark reads {dict(zip(names, said))}", data)
    count(f"{what}; all sums good for tshark, and the fields that were asked for", agreed, len(pairs))


def check_broken(what, pairs):
    """What was built, with one bit or one byte changed."""
    broken, agreed = [damaged(Packet(data)) for _, data in pairs], 0
    for data, we, they in zip(broken, judged(broken), tshark(broken)):
        if we == they and we in (HEADER_SUM, MESSAGE_SUM):
            agreed += 1
        else:
            disagree(f"{what}, damaged: we say {we}, tshark {they}", data)
    count(f"{what}, damaged, one bit or one byte; refused by us and by tshark, for the same sum", agreed, len(pairs))


def silenced(data):
    return with_word(data, field(data), 0)


def check_ones(what, pairs):
    """Packets whose sum comes out 0000: FFFF stands there, and 0000 in its place would be no sum."""
    agreed, silent = 0, [silenced(data) for _, data in pairs]
    for (ask, data), we, they in zip(pairs, judged(silent), tshark(silent)):
        at, want = field(data), UNSUMMED if ask.family() == 4 else MISSING
        if data[at:at + 2] == b"\xff\xff" and we == they == want:
            agreed += 1
        else:
            disagree(f"{what}: FFFF is to stand there; with 0000 we say {we}, tshark {they}", data)
    count(f"{what}; FFFF stands there, and with 0000 it has no sum for us and for tshark", agreed, len(pairs))


# The other kernel


def grown(before, post):
    """Which counts of the other kernel's have grown, and by how much."""
    after, watched = counts(post.files), [HEADERS, *WRONG.values(), *REFUSED.values()]
    return {name: after[name] - before[name] for name in watched if after[name] != before[name]}


def sent(post, data):
    """What the other kernel's socket gets of a packet as it is, and the counts that grow."""
    before = counts(post.files)
    post.send(data, False)
    return post.letters(), grown(before, post)


def check_sent(what, rows, post):
    """Packets to the other kernel, by card, and what it is to hand on and to count for each."""
    agreed = 0
    with one_processor():
        for data, want in rows:
            found = sent(post, data)
            if found == want:
                agreed += 1
            else:
                disagree(f"{what}: {found} and not {want}", data)
    count(what, agreed, len(rows))


def handed(ask):
    """What the socket is to get, and no count grows."""
    return [Letter(ask.body, ask.source, ask.ports[0], ask.destination, ask.lifetime)], {}


def wrong(ask):
    """Nothing, and a wrong sum is counted."""
    return [], {WRONG[ask.family()]: 1, REFUSED[ask.family()]: 1}


def flipped(data, places):
    """A packet with one bit changed at one of some places."""
    at = rng.choice(places)
    return data[:at] + bytes([data[at] ^ 1 << rng.randrange(8)]) + data[at + 1:]


def behind(ask, data):
    """A packet with one bit of the body changed, or of the source port if there is no body."""
    at = field(data)
    return flipped(data, range(at + 2, len(data)) if ask.body else range(at - 6, at - 4)), wrong(ask)


def ahead(ask, data):
    """A packet with one bit changed that only a sum sees: of the identification over IPv4, of the source's end over
    IPv6."""
    if ask.family() == 4:
        return flipped(data, range(4, 6)), ([], {HEADERS: 1})
    return flipped(data, range(16, 24)), wrong(ask)


def check_posted(what, asks, post):
    """What was built, as the other kernel's socket gets it, and what that makes of it with one bit changed."""
    pairs = check_made(what, asks)
    check_sent(f"{what}; the body comes out, and the socket is told source, port, destination and lifetime",
               [(data, handed(ask)) for ask, data in pairs], post)
    check_sent(f"{what}, one bit of the body changed (of the source port if there is none); nothing comes out, and its "
               "family counts a wrong sum", [behind(*pair) for pair in pairs], post)
    check_sent(f"{what}, one bit of IPv4's identification or IPv6's source changed; nothing comes out, and a wrong "
               "header or sum is counted", [ahead(*pair) for pair in pairs], post)
    return pairs


def check_silent(what, pairs, post):
    """FFFF made 0000: the other kernel takes that over IPv4, unlooked at, and not over IPv6."""
    check_sent(f"{what}, FFFF made 0000; the same comes out over IPv4, and over IPv6 a wrong sum is counted",
               [(silenced(data), handed(ask) if ask.family() == 4 else wrong(ask)) for ask, data in pairs], post)


def check_example(here, program, post):
    """The example, which sends from the first kernel's side by a raw socket: texts that are empty, short and longest.
    There that kernel may first have to ask who the other is, so the mark may come before."""
    texts, agreed = (b"", b"altitude 1200 metres", b"m" * MOST), 0
    asks = [posted(family, 0)._replace(body=text) for family in (4, 6) for text in texts]
    for ask in asks:
        (source, destination), (sport, dport) = ask.texts(), ask.ports
        words = [*program, "--send", source, str(sport), destination, str(dport), str(ask.lifetime), ask.body]
        before, letters, tries = counts(post.files), [], 0
        with one_processor():
            said = subprocess.run(["ip", "netns", "exec", here, *words], stderr=subprocess.PIPE).stderr
            while not letters and tries < 50:
                letters, tries = post.letters(), tries + 1
                time.sleep(0 if letters else 0.1)
        if (letters, grown(before, post)) == handed(ask):
            agreed += 1
        else:
            disagree(f"sent by the example, which says {said}: {letters} came for {ask}", b"")
    count("built and sent by the example; the body comes out at the other kernel, and the socket is told source, port, "
          "destination and lifetime", agreed, len(asks))


# What is refused


def refusals():
    """Asks with each fault and with each two that meet: what must be answered, the ask, and how long the buffer is."""
    lengths = (0, 4, 5, 16, 17)
    for source, destination in itertools.product(lengths, lengths):
        for size, lifetime, less in itertools.product((0, MOST, MOST + 1), (0, 1), (0, 1, 20)):
            fits = source == destination and source in (4, 16) and size <= MOST
            ask = Ask(rng.randbytes(source), rng.randbytes(destination), (1, 2), lifetime, rng.randbytes(size))
            room = {4: 28}.get(source, 48) + size - less
            verdict = PLACE if not fits else SPENT if lifetime == 0 else ROOM if less else GOOD
            if verdict != GOOD:
                yield verdict, ask, room


def check_refused():
    """Nothing is written, and the length is 0."""
    asks, agreed = list(refusals()), 0
    buffers = [rng.randbytes(room) for *_, room in asks]
    rows = zip(asks, buffers, answers([ask for _, ask, _ in asks], buffers))
    for (want, ask, room), before, answer in rows:
        if answer == (want, 0, before):
            agreed += 1
        else:
            disagree(f"to be refused with {want}, answered {answer[:2]}: {ask}, room for {room}", answer[2])
    met = {want for want, *_ in asks}
    if met != {PLACE, SPENT, ROOM}:
        disagree(f"only the refusals {sorted(met)} were tried", b"")
    count("built by us, or not: addresses of 0, 4, 5, 16 and 17 bytes in every pairing, bodies of 0, 1,400 and 1,401, "
          "lifetimes of 0 and 1, a buffer too small; refused with 10, 11 or 16, in that order, and nothing written",
          agreed, len(asks))


def check_all_built(here, program, post):
    """All that is tried with packets that we build: the words of the example's program, and where it is to run."""
    pairs = check_made(ANY, both(anywhere, MADE))
    check_read(ANY, pairs)
    check_broken(ANY, pairs)
    pairs = check_made(ZERO, fulls(anywhere, FULLS))
    check_read(ZERO, pairs)
    check_ones(ZERO, pairs)
    check_posted("built by us" + THERE_TOO, both(posted, POSTED), post)
    check_silent(ZERO + THERE_TOO, check_posted(ZERO + THERE_TOO, fulls(posted, POSTED), post), post)
    check_example(here, program, post)
    check_refused()
