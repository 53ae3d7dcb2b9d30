"""The judges of fragments: our library, and tshark and the other kernel, which put them together."""
import itertools

from cutting import request, together, whole
from fragments import number
from judges import (
    GOOD, HEADER_SUM, MESSAGE_SUM, SHAPE, UNCOVERED, UNSUMMED, count, disagree, judged, ours, rng, tshark,
)


def judged_together(sets):
    """Our verdicts on sets of fragments. None of them may change the buffer."""
    requests = [request(rng, fragments) for fragments in sets]
    answers = ours(requests)
    for (*_, buffer), (_, after) in zip(requests, answers):
        if buffer != after:
            disagree("fragments judged by us: the buffer changed", after)
    return [verdict for verdict, _ in answers]


def tshark_together(sets):
    """What tshark says of the messages that it puts together, in our verdict numbers, or of a header."""
    found = iter(tshark([data for fragments in sets for data in fragments]))
    return [[they for they in itertools.islice(found, len(fragments)) if they is not None] for fragments in sets]


def kernel_together(post, sets):
    """What the other kernel finds in the messages that it puts together, in our verdict numbers, and its datagrams."""
    for got, taken, refused, wrong in post.all_together(sets):
        yield [GOOD] * (len(got) + taken) + [MESSAGE_SUM] * wrong + [SHAPE] * (refused - wrong), got


def heard(want, fragments, filled):
    """What tshark finds, and a kernel, where the rules say this of fragments, which fill a message or don't. To a
    kernel UDP without a sum is as good, and a wrong header isn't a message's. A length that contradicts is an error to
    it, and tshark looks for no sum, or says that UDP has none; but TCP's data offset past the message the kernel
    doesn't count, and tshark does sum."""
    if want in (GOOD, UNSUMMED, MESSAGE_SUM):
        return [want], [GOOD if want == UNSUMMED else want]
    if want == SHAPE and filled:
        message, protocol = together(fragments), fragments[0][9]
        if protocol == 6 and 4 * (message[12] >> 4) > len(message):
            return [MESSAGE_SUM], []
        return [UNSUMMED] * (protocol == 17 and message[6:8] == b"\0\0"), [SHAPE]
    return [want] * (want == HEADER_SUM), []


def datagrams(want, fragments):
    """The datagrams that a socket gets of fragments with this verdict."""
    message = together(fragments)
    handed = want in (GOOD, UNSUMMED) and fragments[0][9] == 17
    return [message[8:number(message[4:6])]] if handed else []


def check(what, sets, wants, post=None, filled=True):
    """Sets of fragments with the verdict of each: ours, what tshark finds in the message, and what the other kernel
    does if they are for it. Of those that fill a message our judge says the same where it comes whole."""
    if not sets:
        disagree(f"{what}: there are none", b"")
    agreed, kernel = 0, kernel_together(post, sets) if post else itertools.repeat(None)
    wholes = judged([whole(fragments) for fragments in sets]) if filled else wants
    rows = zip(sets, wants, wholes, judged_together(sets), tshark_together(sets), kernel)
    for fragments, want, judge, we, they, other in rows:
        find, found = heard(want, fragments, filled)
        right = post is None or other == (found, datagrams(want, fragments))
        if we == judge == want and they == find and right:
            agreed += 1
        else:
            found = f"we say {we}, of the whole {judge}, tshark {they}, the other kernel {other}"
            disagree(f"{what}: {want} wanted, {found}", b"".join(fragments))
    count(what, agreed, len(sets))


def want_good(fragments):
    """The verdict on what nobody damaged."""
    message = together(fragments)
    if fragments[0][9] not in (1, 6, 17):
        return UNCOVERED
    return UNSUMMED if fragments[0][9] == 17 and message[6:8] == b"\0\0" else GOOD


def receivers(post):
    return "tshark and the other kernel" if post else "tshark"
