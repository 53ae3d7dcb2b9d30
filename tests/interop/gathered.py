"""Fragments judged by us: those of kernels that cut, scapy's and ours, in many orders, damaged, left out, doubled and
exchanged. Held to tshark and to the other kernel, which put them together, and to what the rules say of the whole."""
from scapy.layers.inet import IP, UDP
from scapy.packet import Raw

from cutters import anywhere, by_message, captured, is_posted, scapy_cut, there
from cutting import (
    DONT, LONGEST, MORE, MOST, RESERVED, cut, flipped, header_flipped, marked, numbered, orders, placed, record,
    request, said, sealed, whole, with_byte, with_one, without_options,
)
from fragments import Fragment, is_fragment, number
from judges import CUT, FRAGMENT, GOOD, HEADER_SUM, PLACE, SHAPE, UNCOVERED, count, disagree, is_full, ours, rng
from post import HERE, PORT, THERE
from reassembly import check, judged_together, receivers, tshark_together, want_good
from received import check_apart, longest
from talk import OTHER
from trailing import with_area

SHUFFLES, MADE, POSTED = 8, 300, 120


# What is tried


def check_orders(what, sets, post=None):
    """Fragments that nobody damaged, in every order that is tried."""
    ordered = [order for fragments in sets for order in orders(rng, fragments, SHUFFLES) if len(order) <= MOST]
    wants = [want_good(order) for order in ordered]
    said_of = "7 for us, and no sum" if UNCOVERED in wants else "good (or unsummed) for us and"
    check(f"fragments {what}, in many orders; {said_of} for {receivers(post)}", ordered, wants, post)


def some(fragments):
    """Places in a list: all of a short one."""
    if len(fragments) <= 6:
        return range(len(fragments))
    return [0, len(fragments) - 1, *rng.sample(range(1, len(fragments) - 1), 3)]


def mixed(fragments):
    return rng.sample(fragments, len(fragments))


def each_changed(sets, change):
    """Each set once more for some of its fragments, with another number, that one changed, and in any order."""
    for fragments in sets:
        for i in some(fragments):
            those = numbered(fragments)
            yield mixed(with_one(those, i, change(those[i])))


def message_flipped(data):
    """One bit of what a fragment brings."""
    return flipped(rng, data, range(4 * (data[0] & 15), number(data[2:4])))


def check_damaged(what, sets, post=None):
    """One bit of one fragment: of its message, and of its header."""
    broken = [those for those in each_changed(sets, message_flipped) if not is_full(whole(those))]
    check(f"fragments {what}, one bit of a message damaged; 9 for us, or by UDP's length or field what the rules say, "
          f"and the same for {receivers(post)}", broken, [said(those) for those in broken], post)
    broken = list(each_changed(sets, lambda data: header_flipped(rng, data)))
    check(f"fragments {what}, one bit of a header damaged; 5 for us, and no message for {receivers(post)}", broken,
          [HEADER_SUM] * len(broken), post, False)


def check_missing(what, sets, post=None):
    """One fragment left out, the last with more to come, or so far behind that it ends past the longest message."""
    left = []
    for fragments in sets:
        for i in some(fragments):
            those = numbered(fragments)
            left.append(mixed(those[:i] + those[i + 1:]))
    left = [those for those in left if those]
    check(f"fragments {what}, one left out; 6 for us, and no message for {receivers(post)}", left,
          [FRAGMENT] * len(left), post, False)
    endless = [mixed(numbered(with_end(fragments, unended))) for fragments in sets]
    check(f"fragments {what}, the last with more to come; 6 for us, and no message for {receivers(post)}", endless,
          [FRAGMENT] * len(endless), post, False)
    far = [mixed(numbered(with_end(fragments, moved))) for fragments in sets]
    check(f"fragments {what}, the last moved past byte 65,515; 4 for us, and no message for {receivers(post)}", far,
          [SHAPE] * len(far), post, False)


def with_end(fragments, change):
    """Fragments with another last one."""
    i = max(range(len(fragments)), key=lambda i: Fragment(fragments[i]).offset)
    return with_one(fragments, i, change(fragments[i]))


def unended(data):
    return marked(data, MORE)


def moved(data):
    """The first place that is too far, the last that there is, or one between."""
    part = Fragment(data)
    first = (LONGEST - len(part.piece)) // 8 + 1
    return placed(data, 8 * rng.choice([first, 8191, rng.randrange(first, 8192)]), part.more, part.piece)


def check_doubled(what, sets):
    """One fragment listed twice, which is an overlap. Receivers see it otherwise."""
    twice, agreed = [mixed(those + [those[i]]) for those in sets for i in some(those)], 0
    for those, we in zip(twice, judged_together(twice)):
        if we == FRAGMENT:
            agreed += 1
        else:
            disagree(f"one fragment doubled: we say {we}", b"".join(those))
    count(f"fragments {what}, one doubled; 6 for us", agreed, len(twice))


def check_replaced(what, sets, post=None):
    """One fragment doubled and another left out, so that their lengths are together the message's."""
    gapped = []
    for fragments in sets:
        pieces = [Fragment(data) for data in fragments]
        for i in some(fragments):
            same = [j for j, part in enumerate(pieces) if part.more and len(part.piece) == len(pieces[i].piece)]
            if pieces[i].more and len(same) > 1:
                those = numbered(fragments)
                gapped.append(mixed(with_one(those, i, those[rng.choice([j for j in same if j != i])])))
    check(f"fragments {what}, one doubled in another's place; 6 for us, and no message for {receivers(post)}", gapped,
          [FRAGMENT] * len(gapped), post, False)


def kind(data):
    """What must be the same in a fragment that takes the place of another."""
    part = Fragment(data)
    return data[9], data[12:20], part.offset, part.more, len(part.piece)


def exchanges(sets):
    """Each set with a fragment of another message in place of its own, if there is such a one."""
    others = {}
    for at, fragments in enumerate(sets):
        for data in fragments:
            others.setdefault(kind(data), []).append((at, data))
    for at, fragments in enumerate(sets):
        for i in some(fragments):
            those = [data for place, data in others[kind(fragments[i])] if place != at]
            if those:
                mine = numbered(fragments)
                yield mine, i, numbered([rng.choice(those)])[0]


def check_exchanged(what, sets, post=None):
    """One fragment exchanged with another message's: with the number that it had, and with this message's."""
    found = list(exchanges([those for those in sets if len(those) > 1 and want_good(those) == GOOD]))
    if not found:
        disagree(f"fragments {what}: no two messages have a fragment to exchange", b"")
    foreign = [mixed(with_one(mine, i, other)) for mine, i, other in found]
    check(f"fragments {what}, one exchanged with another packet's; 4 for us, and no message for {receivers(post)}",
          foreign, [SHAPE] * len(foreign), post, False)
    taken = [mixed(with_one(numbered(mine), i, other)) for mine, i, other in found]
    taken = [numbered(those) for those in taken if not is_full(whole(those))]
    check(f"fragments {what}, one exchanged with another packet's and renumbered; 9 for us, or by UDP's length what "
          f"the rules say, and the same for {receivers(post)}", taken, [said(those) for those in taken], post)


def altered(data):
    """A fragment with another source, destination or protocol, and a right header."""
    if rng.randrange(3) == 0:
        return sealed(with_byte(data, 9, data[9] ^ 1))
    return sealed(flipped(rng, data, range(12, 20)))


def check_strangers(what, sets, post=None):
    sets = [fragments for fragments in sets if len(fragments) > 1]
    strange = list(each_changed(sets, altered))
    check(f"fragments {what}, one with another source, destination or protocol; 4 for us, and no message for "
          f"{receivers(post)}", strange, [SHAPE] * len(strange), post, False)


def varied(fragments):
    """Fragments with lifetimes, service bytes, the two other flags and options of their own."""
    for data in numbered(fragments):
        data = with_byte(with_byte(data, 8, rng.randrange(1, 256)), 1, 4 * rng.getrandbits(6))
        data = without_options(data) if rng.randrange(2) else data
        yield marked(data, rng.choice([0, DONT, RESERVED, DONT | RESERVED]))


def check_varied(what, sets, post=None):
    sets = [mixed(list(varied(fragments))) for fragments in sets for _ in range(3)]
    check(f"fragments {what}, each with its own lifetime, service byte, flags and options; good (or unsummed) for us "
          f"and for {receivers(post)}", sets, [want_good(fragments) for fragments in sets], post)


def steps(length):
    """Sizes of pieces that a message is cut into by hand, of one size or of many."""
    found, at, top = [], 0, rng.choice([1, 2, 4, 16])
    while at + 8 * top < length and len(found) < MOST - 1:
        found.append(8 * rng.randrange(1, top + 1))
        at += found[-1]
    return found


def check_areas(post):
    """Datagrams with a trailing area, which may be in fragments of its own, right and damaged there alone."""
    sets = []
    for length in range(1, 200):
        data = bytes(IP(src=HERE[4], dst=THERE[4]) / UDP(sport=40000 + length, dport=PORT) /
                     Raw(rng.randbytes(rng.randrange(40))))
        data = with_area(data, rng.choice([rng.randbytes, bytes])(length))
        sets.append(numbered(cut(data, steps(len(data) - 20))))
    sets = [mixed(fragments) for fragments in sets if len(fragments) > 1]
    check(f"fragments cut by hand, a trailing area behind the datagram; good for us and for {receivers(post)}", sets,
          [GOOD] * len(sets), post)
    broken = []
    for fragments in sets:
        data = numbered([whole(fragments)])[0]
        places = range(20 + number(data[24:26]), len(data))
        broken.append(mixed(cut(flipped(rng, data, places), steps(len(data) - 20))))
    check(f"fragments cut by hand, damaged in the trailing area alone; good for us and for {receivers(post)}", broken,
          [GOOD] * len(broken), post)


def check_longest(post):
    """The longest messages in as many fragments as a list may have, and as many of the shortest."""
    sets = [longest(LONGEST - less, 1024) for less in range(4)] + [longest(8 * MOST - less, 8) for less in range(4)]
    if [len(fragments) for fragments in sets] != [MOST] * len(sets):
        disagree("64 fragments were to be made", b"")
    check_orders("by hand, 64 of a message of 65,515 or 512 bytes or a little less", sets, post)
    check_damaged("by hand, 64", sets, post)
    check_missing("by hand, 64", sets, post)


# Lists that are refused before a fragment is looked at


def check_lists(sets):
    """No fragments, more than 64, and records that don't fit: refused whatever the fragments are."""
    wrong, wants = [("f", 0, b"", b""), ("f", 0, b"", rng.randbytes(100))], [CUT, CUT]
    for fragments in sets:
        letter, _, records, buffer = request(rng, fragments)
        for offset, length in ((len(buffer), 1), (len(buffer) + 1, 0), (0, len(buffer) + 1), (1, len(buffer)),
                               (2 ** 64 - 1, 1), (2 ** 64 - 20, 40), (1, 2 ** 64 - 1), (2 ** 63, 2 ** 63)):
            at = 16 * rng.randrange(len(fragments) + 1)
            wrong.append((letter, 0, records[:at] + record(offset, length) + records[at:], buffer))
            wants.append(PLACE)
        for more in (MOST + 1, MOST + 2, 4 * MOST):
            wrong.append((letter, 0, (records * more)[:16 * more], buffer))
            wants.append(PLACE)
        at = 16 * rng.randrange(len(fragments) + 1)
        wrong.append((letter, 0, records[:at] + record(len(buffer), 0) + records[at:], buffer))
        wants.append(CUT if len(fragments) < MOST else PLACE)
    agreed = 0
    for (*_, records, buffer), want, answer in zip(wrong, wants, ours(wrong)):
        if answer == (want, buffer):
            agreed += 1
        else:
            disagree(f"a list that is refused: {want} wanted, answered {answer[0]} to {records.hex()}", buffer)
    count("fragments by scapy in a list with no record, an empty one, more than 64, or one outside; 2 or 10 for us",
          agreed, len(wrong))


# All together


def check_kinds(what, sets, kinds):
    """Messages of all these protocols must have come."""
    found = {fragments[0][9] for fragments in sets}
    if found != kinds:
        disagree(f"fragments {what} came only of the protocols {sorted(found)}", b"")


def check_many(what, sets):
    """A kernel's fragments of one message, more than a list may have."""
    many, agreed = [fragments for fragments in sets if len(fragments) > MOST], 0
    for fragments, we, they in zip(many, judged_together(many), tshark_together(many)):
        if we == PLACE and they == [want_good(fragments)]:
            agreed += 1
        else:
            disagree(f"more than 64 fragments {what}: we say {we}, tshark {they}", fragments[0])
    if not many:
        disagree(f"no message came in more than 64 fragments {what}", b"")
    count(f"fragments {what}, more than 64; 10 for us, and good (or unsummed) for tshark", agreed, len(many))


def check_sets(what, sets, post=None):
    """All that is tried with fragments that nobody damaged, of messages that are covered."""
    check_orders(what, sets, post)
    check_varied(what, sets, post)
    few = [fragments for fragments in sets if len(fragments) < MOST]
    check_damaged(what, few, post)
    check_missing(what, few, post)
    check_doubled(what, few)
    check_replaced(what, few, post)
    check_exchanged(what, few, post)
    check_strangers(what, few, post)


def check_kernels(folder, pairs, post):
    """Fragments by kernels: those that came to our relay and what left it, and those that the other kernel had to put
    together, from the sender and from a kernel on the way. Those of which it shows what it makes go there once more."""
    passed = [pair for pair in pairs if pair[0][0] >> 4 == 4 and is_fragment(pair[0]) and pair[1]]
    near, narrow = captured(folder + "/cut.pcap"), captured(folder + "/narrow.pcap")
    came, left = (by_message(list(packets)) for packets in zip(*passed))
    check_kinds("by the kernel", came, {1, 17})
    check_kinds("by the kernel, with options", near, {1, 17, OTHER})
    check_kinds("by a kernel on the way", narrow, {1, 6, 17, OTHER})
    check_orders("by the kernel, lifetime lowered by us on the way", left)
    few = [fragments for fragments in came + near + narrow if len(fragments) <= MOST]
    check_orders("by kernels, of another protocol", [those for those in few if those[0][9] == OTHER])
    check_sets("by kernels", [those for those in few if those[0][9] != OTHER and not is_posted(those)])
    check_sets("by kernels, to the other kernel", [those for those in few if is_posted(those)], post)
    check_many("by a kernel on the way", narrow)


def check_all_gathered(folder, pairs, post):
    """All that is tried with fragments: of what came to our relay and left it, of what kernels cut, and of scapy's."""
    check_kernels(folder, pairs, post)
    made = [scapy_cut(anywhere()) for _ in range(MADE)]
    check_orders("by scapy", made)
    check_lists(made)
    check_sets("by scapy, to the other kernel", [numbered(scapy_cut(there())) for _ in range(POSTED)], post)
    check_areas(post)
    check_longest(post)
    check_apart(post)
