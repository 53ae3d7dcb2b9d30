"""Prefixes exchanged by us, held to RFC 6296 worked out apart, to scapy and tshark, to the kernels at both ends of our
relay, and to a kernel that exchanges prefixes itself. No sum is touched, and each must find what it found before."""
import itertools

from scapy.layers.inet import TCP, UDP
from scapy.layers.inet6 import ICMPv6EchoRequest, IPv6
from scapy.packet import Raw

from between import hand_put, long_put, scapy_put
from fragments import is_fragment
from judges import (
    GOOD, MESSAGE_SUM, SENT, Packet, addressed, check_delivered, count, damaged, disagree, frames, is_full, judged,
    layer, one_less, ours, rebuilt, relayed, rng, tshark,
)
from npt import SAID, Gate, differing
from post import PROTOCOLS, Way
from prefixes import (
    ALL_ONES, FAR, INSIDE, NET_99, OUTSIDE, PAIRS, SIZE, begins, behind, check_rfc, corners, exchanged, place,
    with_start,
)
from trailing import with_word

HOST, SEEN_AS, OTHER = "fd01:203:405:1::1234", "2001:db8:1:d550::1234", "2001:db8:2::2"  # as run.sh gives them
AGAIN = 60  # frames of each protocol that go through our relay once more, each way
sides = []


def exchange(data, side, new):
    """Asks us to exchange the prefix that stands there."""
    return "x", side, data[place(side):place(side) + SIZE] + new, data


def started(data, side, prefix, after):
    """A packet with another start of one address, and scapy's sums."""
    packet = Packet(with_start(data, side, prefix, after))
    return rebuilt(packet) + data[packet.declared:]


def anywhere(packets):
    """Any prefix for any other on either side, before any word that may stand there."""
    for data in packets:
        side, old, new = rng.randrange(2), rng.randbytes(SIZE), rng.randbytes(SIZE)
        yield exchange(started(data, side, old, rng.randrange(ALL_ONES)), side, new)


def at_corners(packets):
    """Every pair, there and back, before each word at which something turns. The other address is far away."""
    for data, (side, old, new, after) in zip(packets, itertools.cycle(corners())):
        data = with_start(data, 1 - side, FAR, rng.getrandbits(16))
        yield exchange(started(data, side, old, after), side, new)


def is_fresh(data):
    """Whether scapy works out the sum that stands there."""
    packet = Packet(data)
    return rebuilt(packet) == data[:packet.declared]


def check_exchanged(what, requests, want=GOOD):
    """Packets that are good, with scapy's sums, or wrong: the RFC's address, and found as they were before."""
    answers, agreed = ours(requests), 0
    befores, afters = [data for *_, data in requests], [data for _, data in answers]
    rows = zip(requests, answers, judged(befores), judged(afters), tshark(befores), tshark(afters))
    for (_, side, both, before), (verdict, after), *said in rows:
        fresh = is_fresh(before), is_fresh(after)
        right = verdict == GOOD and after == exchanged(before, side, both[SIZE:])
        if right and said == [want] * 4 and fresh == (want == GOOD,) * 2:
            agreed += 1
        else:
            disagree(f"{what}: answered {verdict}, we and tshark say {said}, scapy's sum {fresh}", after)
    found = {GOOD: "good for us and tshark, with scapy's sum", MESSAGE_SUM: "a wrong sum for us, tshark and scapy"}
    count(f"{what}, prefix exchanged by us; RFC 6296's address, all else as it was, and before and after {found[want]}",
          agreed, len(requests))
    return afters


def check_back(what, requests, afters):
    """Exchanged once more, the other way."""
    back = [exchange(after, side, both[:SIZE]) for (_, side, both, _), after in zip(requests, afters)]
    agreed = 0
    for (*_, before), answer in zip(requests, ours(back)):
        if answer == (GOOD, before):
            agreed += 1
        else:
            disagree(f"{what}, exchanged there and back: answered {answer[0]}, and it was {before.hex()}", answer[1])
    count(f"{what}, prefix exchanged by us there and back; the packet as it was", agreed, len(requests))


def check_wrong(requests):
    """The same packets damaged, where that leaves a word that may be exchanged."""
    broken = [(damaged(Packet(data)), side, both[SIZE:]) for _, side, both, data in requests]
    kept = [exchange(data, side, new) for data, side, new in broken if behind(data, side) != ALL_ONES]
    check_exchanged("damaged by us", kept, MESSAGE_SUM)


def check_example():
    """The RFC's printed example, out and back, with the addresses as scapy reads them."""
    check_rfc()
    agreed, messages = 0, [UDP() / Raw(b"height"), TCP() / Raw(b"height"), ICMPv6EchoRequest(data=b"height")]
    for message in messages:
        out, back = IPv6(src=HOST, dst=OTHER) / message, IPv6(src=OTHER, dst=SEEN_AS) / message
        wants = IPv6(src=SEEN_AS, dst=OTHER) / message, IPv6(src=OTHER, dst=HOST) / message
        answers = ours([exchange(bytes(out), 0, OUTSIDE), exchange(bytes(back), 1, INSIDE)])
        for want, answer in zip(wants, answers):
            if answer == (GOOD, bytes(want)):
                agreed += 1
            else:
                disagree(f"RFC 6296's printed example: answered {answer[0]}", answer[1])
    count("RFC 6296's printed example, out and back, prefix exchanged by us; the packet that scapy makes", agreed,
          2 * len(messages))


def every_word(side, old):
    """A good packet with each word behind a prefix that may be exchanged: a word of its body makes up for it."""
    far = with_start(addressed(6, 2), 1 - side, FAR, 0)
    data = started(with_word(far, 48, ALL_ONES), side, old, 0)
    for after in range(ALL_ONES):
        yield with_word(with_start(data, side, old, after), 48, ALL_ONES - after)


def all_words():
    """All words behind the RFC's prefixes, out and back."""
    for side, old, new in ((0, INSIDE, OUTSIDE), (1, OUTSIDE, INSIDE)):
        yield from (exchange(data, side, new) for data in every_word(side, old))


def check_words(requests):
    """Each word becomes one that no other becomes, and the packets stay good."""
    agreed, answers, words = 0, ours(requests), set()
    good = zip(judged([data for *_, data in requests]), judged([data for _, data in answers]))
    for (_, side, both, before), (verdict, after), said in zip(requests, answers, good):
        word, right = (side, behind(after, side)), after == exchanged(before, side, both[SIZE:])
        if verdict == GOOD and right and said == (GOOD, GOOD) and word not in words:
            agreed += 1
        else:
            disagree(f"every word: answered {verdict}, we say {said}", after)
        words.add(word)
    count("every word behind RFC 6296's prefixes, out and back, prefix exchanged by us; its address, another for each, "
          "and good", agreed, len(requests))


# The other kernel


def for_post(plain):
    """Packets that are from any prefix, and packets that are for any but the other kernel's, until exchanged."""
    for _, old, new, after in corners():
        yield exchange(started(plain(), 0, old, after), 0, new)
    for other in itertools.chain(*PAIRS):
        yield exchange(exchanged(plain(), 1, other), 1, NET_99)


def check_posted(post):
    """UDP to the other kernel, good and damaged before: what is right for us is right for it."""
    sizes, kind = itertools.cycle(SENT), "prefix exchanged by us, to the other kernel"
    requests = list(for_post(lambda: addressed(6, next(sizes))))
    wrong = [(*request, damaged(Packet(data), ahead=0)) for *request, data in requests]
    check_delivered(kind, GOOD, [data for _, data in ours(requests)], post)
    check_delivered(kind + ", damaged by us before", MESSAGE_SUM, [data for _, data in ours(wrong)], post)


# Our relay between two kernels


def ways_between(here, there):
    """Both ways through our relay. Up to now nobody has damaged anything, and the kernels have found no wrong sum."""
    ways = Way(here, there, HOST, OTHER), Way(there, here, OTHER, SEEN_AS)
    for way in ways:
        if any(way.wrong()):
            disagree(f"a kernel found wrong sums in what nobody damaged: {way.wrong()}", b"")
    return ways


def on_the_way(data):
    """Which side of a packet our relay exchanges, and for which prefix; None if it has no prefix to exchange."""
    if begins(data, 0, INSIDE):
        return 0, OUTSIDE
    return (1, INSIDE) if begins(data, 1, OUTSIDE) else None


def is_refused(data):
    """Whether our relay must refuse what a kernel sent: another prefix, a fragment, or the word FFFF."""
    found = data[0] >> 4 == 6 and on_the_way(data)
    return not found or is_fragment(data) or behind(data, found[0]) == ALL_ONES


def check_kinds(passed, refused):
    """All protocols must have come to our relay, both ways, and something to refuse for each reason."""
    kinds = {(on_the_way(data)[0], Packet(data).protocol) for data in passed}
    reasons = {is_fragment(data) for data in refused if on_the_way(data)}
    if kinds != set(itertools.product((0, 1), PROTOCOLS)) or reasons != {False, True}:
        disagree(f"to our relay came only {sorted(kinds)}, and to be refused {sorted(reasons)}", b"")


def check_relayed(pairs):
    """What came to our relay from the kernels, and what left it. Answers the requests that led to that."""
    refused = [pair for pair in pairs if is_refused(pair[0])]
    passed = [pair for pair in pairs if not is_refused(pair[0]) and not is_full(pair[0])]
    check_kinds([before for before, _ in passed], [before for before, _ in refused])
    requests, agreed = [exchange(before, *on_the_way(before)) for before, _ in passed], 0
    for (_, after), made in zip(passed, check_exchanged("by the kernel", requests)):
        if after == made:
            agreed += 1
        else:
            disagree(f"by the kernel: we made {made.hex()} of it, and this left our relay", after)
    count("by the kernel, prefix exchanged by our relay; the same, and no wrong sum for the kernel at the other end",
          agreed, len(passed))
    for after in filter(None, (after for _, after in refused)):
        disagree("our relay sent on what has no prefix to exchange", after)
    count("by the kernel, a fragment, the word FFFF or another prefix; refused by our relay",
          [after for _, after in refused].count(b""), len(refused))
    return requests


def check_again(what, said, change, grows, ways, came):
    """Frames that came to our relay, changed and once more through it: the kernel at the other end counts so many wrong
    sums more for each, under its protocol."""
    agreed = packets = 0
    for side, protocol in itertools.product((0, 1), PROTOCOLS):
        those = [frame for frame in came[side] if Packet(frame[14:]).protocol == protocol][:AGAIN]
        sent, want = [frame[:14] + change(Packet(frame[14:])) for frame in those], [0] * len(PROTOCOLS)
        want[PROTOCOLS.index(protocol)] = grows
        for frame, grew in zip(sent, ways[side].all_sent(sent)):
            packets += 1
            if grew == want:
                agreed += 1
            else:
                disagree(f"{what}, once more through our relay: the counts of wrong sums grew by {grew}", frame)
    count(f"by the kernel, {what}, once more through our relay; {said} for the kernel at the other end", agreed,
          packets)


def check_relay(folder, ways):
    seen, sent = folder + "/exchange-seen.pcap", folder + "/exchange-sent.pcap"
    requests = check_relayed(relayed(seen, sent))
    passed = [frame for frame in frames(seen) if not is_refused(frame[14:])]
    came = [[frame for frame in passed if on_the_way(frame[14:])[0] == side] for side in (0, 1)]
    check_again("as it was", "no wrong sum", lambda packet: packet.data, 0, ways, came)
    check_again("damaged by us before", "one wrong sum", lambda packet: damaged(packet, ahead=0), 1, ways, came)
    return requests


# A kernel that exchanges prefixes itself


def forwarded(data):
    """A packet as a router sends it on: with one less in the hop limit, and without a tail. A payload length of 0
    before hop-by-hop is none to Linux."""
    return one_less(data if data[4:7] == bytes(3) else data[:Packet(data).declared])


def check_gate(gate, what, requests):
    """The kernel makes what we make."""
    agreed, passed = 0, gate.all_passed([(side, data) for _, side, _, data in requests])
    for (_, after), left in zip(ours(requests), passed):
        if left == [forwarded(after)]:
            agreed += 1
        else:
            disagree(f"{what}: the kernel exchanges to {[data.hex() for data in left]}", after)
    count(f"{what}, prefix exchanged by us and by the kernel itself; the same bytes, but for the hop limit", agreed,
          len(requests))


def check_differing(gate):
    """Packets on which we and the kernel differ, or might: each says what it has its reasons for."""
    found = differing(rng, [addressed(6, size) for size in (0, 7, 8, 100)])
    for what, (verdict, said, kernels) in SAID.items():
        requests, agreed = found[what], 0
        passed = gate.all_passed([(side, data) for _, side, _, data in requests])
        for (_, side, both, data), answer, left in zip(requests, ours(requests), passed):
            want = exchanged(data, side, both[SIZE:]) if verdict == GOOD else data
            theirs = [forwarded(kernels(data, side, both[SIZE:]))] if kernels else []
            if answer == (verdict, want) and left == theirs:
                agreed += 1
            else:
                disagree(f"{what}: answered {answer[0]}, and the kernel sends on {[each.hex() for each in left]}", data)
        sides.append((what, len(requests), agreed, verdict, said))


def print_exchanged():
    """What we say and what the kernel does where we may differ."""
    if sides:
        print("| prefix exchanged | packets | so said | we | the kernel itself |\n" + "|---" * 5 + "|")
    for row in sides:
        print("| " + " | ".join(map(str, row)) + " |")


def check_all_exchanged(six, folder, ways, post, middle, npt):
    """All that is tried with prefixes, of scapy's packets over IPv6 and of what the kernels sent."""
    bases = [(packet.data[8:40], packet.protocol, layer(packet)) for packet in map(Packet, six)]
    headers = [*scapy_put(rng, bases), *hand_put(rng, six), *long_put(rng, six)]
    tried = {
        "made by scapy": list(anywhere(six + six)),
        "made by scapy, words at corners": list(at_corners(six + six)),
        "headers between, words at corners": list(at_corners(headers)),
    }
    check_example()
    for what, requests in tried.items():
        check_back(what, requests, check_exchanged(what, requests))
    check_wrong(list(itertools.chain(*tried.values())))
    tried["every word behind RFC 6296's prefixes"] = list(all_words())
    check_words(tried["every word behind RFC 6296's prefixes"])
    check_posted(post)
    tried["by the kernel"] = check_relay(folder, ways)
    if npt == "none":
        print("interop: this kernel exchanges no prefixes itself (ip6t_NPT): ours are not compared with its own")
        return
    gate = Gate(middle, npt)
    del tried["made by scapy"]  # the kernel has rules for the pairs alone
    for what, requests in tried.items():
        check_gate(gate, what, requests)
    check_differing(gate)
