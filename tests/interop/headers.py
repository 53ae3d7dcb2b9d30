"""The headers that may stand between IPv6's own and the message: where they are, and how they are made. Read from the
RFCs' layouts, and not by our library."""

HOP, ROUTING, FRAGMENT, OPTIONS = 0, 43, 44, 60
SKIPPED = 0x1E  # an option for trials (RFC 4727): who doesn't know it goes on behind it


def walked(data):
    """The headers between of an IPv6 packet, each with its number, its place and its end; then the number that ends the
    walk, and the place of what has it. No rule is asked of any of them."""
    found, number, at = [], data[6], 40
    while number in (HOP, ROUTING, OPTIONS) and at + 8 <= len(data):
        end = at + 8 + 8 * data[at + 1]
        found.append((number, at, end))
        number, at = data[at], end
    return found, number, at


def options(length, fill=bytes, pad=0, kind=SKIPPED):
    """A header of options of so many bytes, of which some pad it. Its next header is left open."""
    made, room = b"", length - 2 - pad
    while room > 1:
        size = min(room - 2, 255)
        made += bytes([kind, size]) + fill(size)
        room -= size + 2
    pad += room
    return bytes([0, length // 8 - 1]) + made + (bytes([1, pad - 2]) + bytes(pad - 2) if pad > 1 else bytes(pad))


def routing(kind, left, addresses):
    """A routing header with its addresses, as types 0, 2 and 4 have them: the last has their number, less one, too."""
    last = len(addresses) - 1 if kind == 4 else 0
    return bytes([0, 2 * len(addresses), kind, left, last, 0, 0, 0]) + b"".join(addresses)


def with_headers(data, headers):
    """An IPv6 packet with headers put between, each a number and bytes. Its sum stays: it is of what remains."""
    numbers = [number for number, _ in headers] + [data[6]]
    between = b"".join(bytes([after]) + header[1:] for after, (_, header) in zip(numbers[1:], headers))
    length = int.from_bytes(data[4:6], "big") + len(between)
    return data[:4] + length.to_bytes(2, "big") + bytes(numbers[:1]) + data[7:40] + between + data[40:]
