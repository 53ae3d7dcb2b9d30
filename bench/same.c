/* The library's strongest opponents: C that makes the same tests in the same order, for all protocols and families, and
 * so gives the same answers and bytes. Everything is inlined. `bench same` holds all of it to the library.
 *
 * SHAPE is ONCE, as libraries are written and as ours is: what is found is handed on as values, and what follows stands
 * once for all protocols and families. Or it is COPIES: each protocol of each family has its own copy of all that
 * follows, and an IPv4 header of 20 bytes its own copies again, as has an IPv6 message with headers before it. KIND is
 * that of the sums, and BY the name of the way that this becomes. */
#include "sums.h"
#include "ways.h"

enum { ICMP = 1, TCP = 6, UDP = 17, ICMP6 = 58 };
enum { HOP_BY_HOP = 0, ROUTING = 43, FRAGMENT = 44, OPTIONS = 60 };

#define ONCE 0
#define COPIES 1

/* How far a call looks: at the IP header and the declared length (a lifetime), at the message's shape too, and at the
 * header's sum as well (a judge). */
enum look { OUTER, SHAPED, SUMMED };

/* A message, as far as it is known: behind how many bytes of headers it stands, whether IPv6 has headers between, and
 * where its body begins; UDP's is the datagram, once its length was read. Family, protocol and what depends on them are
 * constants in each copy, and so is the header's length but for IPv4 with options and IPv6 with headers between. */
struct message {
    int family, between;
    unsigned protocol;
    size_t header, len, fixed, field, body;
};

/* What is asked besides the packet: a side or place, and new bytes; and where a message is handed on. */
struct ask {
    size_t number, len;
    const uint8_t *bytes;
    struct message *found;
};

/* What a call does once it has looked. */
typedef uint8_t work(uint8_t *p, struct message m, struct ask ask);

/* The layout */

EACH uint8_t inner(work *then, uint8_t *p, struct message m, struct ask ask)
{
    const uint8_t *message = p + m.header;
    if (RARE(m.len < m.fixed))
        return 4;
    m.body = m.fixed;
    if (m.protocol == TCP) {
        m.body = message[12] / 16 * 4u;
        if (RARE(m.body < 20 || m.body > m.len))
            return 4;
    }
    /* mostly UDP says the message's length; IPv6 has declared that in the same byte order if nothing stands between,
     * which is of use where it is known */
    int declared = SHAPE == COPIES && m.family == 6 && !m.between;
    if (m.protocol == UDP && RARE(declared ? two(message + 4) != two(p + 4) : number(message + 4) != m.len)) {
        size_t datagram = number(message + 4);
        if (datagram < 8 || datagram > m.len)
            return 4;
        m.len = datagram;
    }
    return then(p, m, ask);
}

EACH struct message of(struct message m, unsigned protocol, size_t fixed, size_t field)
{
    m.protocol = protocol;
    m.fixed = fixed;
    m.field = field;
    return m;
}

/* *other is whether the protocol isn't in the table. */
EACH uint8_t covered(work *then, uint8_t *p, struct message m, struct ask ask, int *other)
{
    *other = 0;
    if (__builtin_expect(m.protocol == UDP, 1))
        return inner(then, p, of(m, UDP, 8, 6), ask);
    if (m.protocol == TCP)
        return inner(then, p, of(m, TCP, 20, 16), ask);
    if (m.family == 4 && m.protocol == ICMP)
        return inner(then, p, of(m, ICMP, 8, 2), ask);
    if (m.family == 6 && m.protocol == ICMP6)
        return inner(then, p, of(m, ICMP6, 4, 2), ask);
    *other = 1;
    return 7;
}

/* Walks the headers between, of which the first is met, and finds protocol and place of the message behind them. */
EACH uint8_t walk(const uint8_t *p, struct message *m)
{
    const uint8_t *at = p + m->header;
    size_t left = m->len;
    unsigned next = m->protocol;
    for (int passed = 0; next != UDP; passed++) {
        if (next == FRAGMENT)
            return 6;
        if (next != HOP_BY_HOP && next != ROUTING && next != OPTIONS)
            break;
        if (RARE(next == HOP_BY_HOP ? passed > 0 : passed == 8))
            return 7;
        if (RARE(left < 8))
            return 4;
        size_t size = 8u * at[1] + 8;
        if (RARE(size > left))
            return 4;
        if (next == ROUTING && RARE(at[3] != 0))
            return 7;
        next = at[0];
        at += size;
        left -= size;
    }
    *m = (struct message){6, 1, next, (size_t)(at - p), left, 0, 0, 0};
    return 0;
}

/* The message of a packet whose IP header is right. Only a protocol that isn't in the table is taken for a header
 * between, so that messages which have none before them pay for no walk. */
EACH uint8_t reached(work *then, uint8_t *p, struct message m, struct ask ask)
{
    int other;
    uint8_t verdict = covered(then, p, m, ask, &other);
    if (m.family == 4 || !other)
        return verdict;
    verdict = walk(p, &m);
    return verdict ? verdict : covered(then, p, m, ask, &other);
}

/* What follows the IP header: a copy of all the rest, or, once, what is known is handed on. */
EACH uint8_t behind(work *then, enum look look, uint8_t *p, int family, unsigned protocol, size_t header, size_t len,
                    struct ask ask)
{
    struct message m = {family, 0, protocol, header, len, 0, 0, 0};
    return SHAPE == COPIES && look != OUTER ? reached(then, p, m, ask) : then(p, m, ask);
}

/* An IPv4 header of which 20 bytes are there. */
EACH uint8_t outer4(work *then, enum look look, uint8_t *p, size_t len, size_t header, struct ask ask)
{
    /* a declared length below the header's wraps, and is then too much too */
    size_t message = (size_t)number(p + 2) - header;
    if (RARE(message > len - header))
        return number(p + 2) < header ? 4 : 2;
    if (look == SUMMED) {
        u64 t = add_two(eight(p), four(p + 8), eight(p + 12));
        for (size_t i = 20; i < header; i += 4)
            t = add(t, four(p + i));
        if (RARE(!passes(t)))
            return 5;
    }
    if (look != OUTER && RARE(two(p + 6) & 0xFF3F))
        return 6;
    return behind(then, look, p, 4, p[9], header, message, ask);
}

/* Finds the message, or the first refusal. */
EACH uint8_t outer(work *then, enum look look, uint8_t *p, size_t len, struct ask ask)
{
    if (RARE(len < 20)) {
        if (len == 0)
            return 2;
        return p[0] >> 4 == 4 || p[0] >> 4 == 6 ? 2 : 3;
    }
    if (SHAPE == COPIES && p[0] == 0x45)
        return outer4(then, look, p, len, 20, ask);
    if (p[0] >> 4 == 6) {
        size_t message = number(p + 4);
        if (RARE(len < 40) || RARE(message > len - 40))
            return 2;
        return behind(then, look, p, 6, p[6], 40, message, ask);
    }
    if (p[0] >> 4 != 4)
        return 3;
    size_t header = 4u * (p[0] & 15);
    if (header < 20)
        return 4;
    if (len < header)
        return number(p + 2) < header ? 4 : 2;
    return outer4(then, look, p, len, header, ask);
}

/* Hands a message on. */
EACH uint8_t found(uint8_t *p, struct message m, struct ask ask)
{
    (void)p;
    *ask.found = m;
    return 0;
}

/* Does the work of a call on a packet that nothing refused: in copies inside the layout, or once behind it. */
EACH uint8_t whole(work *then, enum look look, uint8_t *p, size_t len, struct ask ask)
{
    if (SHAPE == COPIES)
        return outer(then, look, p, len, ask);
    struct message m;
    ask.found = &m;
    uint8_t refused = outer(found, look, p, len, ask);
    if (look != OUTER && !refused)
        refused = reached(found, p, m, ask);
    return refused ? refused : then(p, m, ask);
}

/* Sums */

/* The total of what a message's field covers. Of the pseudo-header, length and protocol stand in low bytes, and 256 is
 * their weight here. */
EACH u64 total(const uint8_t *p, struct message m, u64 t)
{
    if (m.protocol != ICMP) {
        t += (u64)(m.len + m.protocol) << 8;
        t = m.family == 4 ? add(t, eight(p + 12)) : add_32(t, p + 8);
    }
    return add_bytes(t, p + m.header, m.len);
}

/* What is rare is asked before the protocol, here and below: in copies the protocol is no question. */
EACH int silent(const uint8_t *p, struct message m)
{
    return RARE(two(p + m.header + m.field) == 0) && m.protocol == UDP;
}

/* A field, low byte first, from itself and old - new (RFC 1624). UDP's 0000 is sent as FFFF. */
EACH unsigned changed(u64 sum, int udp)
{
    unsigned f = (unsigned)(sum % 65535);
    return RARE(f == 0) && udp ? 0xFFFF : f;
}

/* Judging and mending */

EACH uint8_t judged(uint8_t *p, struct message m, struct ask ask)
{
    (void)ask;
    if (silent(p, m))
        return m.family == 4 ? 1 : 8;
    return passes(total(p, m, 0)) ? 0 : 9;
}

/* Whether bytes are all zeros. */
EACH int blank(const uint8_t *at, size_t len)
{
    while (len > 0 && *at == 0)
        at++, len--;
    return len == 0;
}

EACH uint8_t mended(uint8_t *p, struct message m, struct ask ask)
{
    (void)ask;
    uint8_t *message = p + m.header;
    if (m.family == 4) {
        u64 t = add_two(eight(p), two(p + 8), eight(p + 12));
        for (size_t i = 20; i < m.header; i += 4)
            t = add(t, four(p + i));
        put_two(p + 10, field_of(t));
        if (silent(p, m))
            return 0;
    }
    /* the field is summed with the rest, and its complement makes it nothing */
    unsigned field = two(message + m.field) ^ 0xFFFF;
    unsigned fresh = field_of(total(p, m, field));
    if (RARE(fresh == 0) && m.protocol == UDP)
        fresh = 0xFFFF;
    if (RARE(fresh == 0) && m.protocol == ICMP && two(message) == 0 && blank(message + 4, m.len - 4))
        fresh = 0xFFFF;
    put_two(message + m.field, fresh);
    return 0;
}

/* Edits */

EACH uint8_t lowered(uint8_t *p, struct message m, struct ask ask)
{
    (void)ask;
    if (m.family == 6) {
        if (RARE(p[7] < 2))
            return 11;
        p[7]--;
        return 0;
    }
    /* the field is the high half of the four bytes from the lifetime on: one less here is one more there */
    uint32_t w = (uint32_t)four(p + 8);
    if (RARE((uint8_t)w < 2))
        return 11;
    w += RARE(w >= 0xFFFE0000) ? 0x1FFFF : 0xFFFF;
    memcpy(p + 8, &w, 4);
    return 0;
}

EACH uint8_t addressed(uint8_t *p, struct message m, struct ask ask)
{
    uint8_t *field = p + m.header + m.field;
    if (m.family == 6 && silent(p, m))
        return 8;
    if (RARE(ask.number > 1) || RARE(ask.len != (m.family == 4 ? 4 : 16)))
        return 10;
    if (m.family == 4) {
        uint8_t *at = p + 12 + 4 * ask.number;
        uint32_t new = (uint32_t)four(ask.bytes);
        u64 change = four(at) + (uint32_t)~new;
        memcpy(at, &new, 4);
        put_two(p + 10, changed(change + two(p + 10), 0));
        if (m.protocol == ICMP || silent(p, m))
            return 0;
        put_two(field, changed(change + two(field), m.protocol == UDP));
    } else {
        uint8_t *at = p + 8 + 16 * ask.number;
        u64 low = eight(ask.bytes), high = eight(ask.bytes + 8);
        u64 change = add_two(add(eight(at), eight(at + 8)), ~low, ~high);
        memcpy(at, &low, 8);
        memcpy(at + 8, &high, 8);
        put_two(field, changed(add(change, two(field)), m.protocol == UDP));
    }
    return 0;
}

/* Whether ICMP, its field aside, is all zeros now, or would be with the new bytes at a place of the message. */
EACH int blanks(const uint8_t *message, size_t len, size_t at, struct ask ask)
{
    size_t end = at + ask.len;
    return two(message) == 0 && blank(message + 4, at - 4) && blank(message + end, len - end) &&
           (blank(message + at, ask.len) || blank(ask.bytes, ask.len));
}

/* Writes bytes and answers old - new modulo 65535, by the place of the first. */
EACH u64 replace(uint8_t *at, const uint8_t *bytes, size_t len)
{
    u64 t = 0;
    for (; len >= 8; len -= 8, at += 8, bytes += 8) {
        u64 new = eight(bytes);
        t = add_two(t, eight(at), ~new);
        memcpy(at, &new, 8);
    }
    if (len & 4) {
        uint32_t new = (uint32_t)four(bytes);
        t = add(t, four(at) + (uint32_t)~new);
        memcpy(at, &new, 4);
        at += 4;
        bytes += 4;
    }
    if (len & 2) {
        unsigned new = two(bytes);
        t = add(t, two(at) + (new ^ 0xFFFF));
        put_two(at, new);
        at += 2;
        bytes += 2;
    }
    if (len & 1) {
        t = add(t, *at + (*bytes ^ 0xFFFFu));
        *at = *bytes;
    }
    return t;
}

EACH uint8_t stretched(uint8_t *p, struct message m, struct ask ask)
{
    uint8_t *message = p + m.header, *field = message + m.field;
    size_t room = m.len - m.body, at = m.body + ask.number;
    if (silent(p, m) && m.family == 6)
        return 8;
    if (RARE(ask.len > room) || RARE(ask.number > room - ask.len))
        return 10;
    if (RARE(ask.len == 0))
        return 0;
    if (m.protocol == ICMP && RARE(blanks(message, m.len, at, ask)))
        return 12;
    u64 change = replace(message + at, ask.bytes, ask.len);
    if (m.family == 4 && silent(p, m))
        return 0;
    /* from an odd place each byte has 256 times the weight, or a 256th of it, which is the same */
    unsigned turn = ask.number % 2 * 8;
    change = change << turn | change >> (-turn & 63);
    put_two(field, changed(add(change, two(field)), m.protocol == UDP));
    return 0;
}

/* Whether a message has a sum where it must: nothing else of it concerns a prefix. */
EACH uint8_t present(uint8_t *p, struct message m, struct ask ask)
{
    (void)ask;
    return silent(p, m) ? 8 : 0;
}

EACH u64 six(const uint8_t *at)
{
    return four(at) | (u64)two(at + 4) << 32;
}

/* Modulo 65535 a number of eight bytes is the sum of its words, and the complement of one of six bytes is minus that:
 * the old words less the new prefix are the new word. */
EACH uint8_t exchange(uint8_t *at, u64 expected, u64 new)
{
    u64 old = eight(at), ones = 0xFFFFFFFFFFFF;
    if (RARE((old & ones) != expected) || RARE(old >> 48 == 0xFFFF))
        return 10;
    new |= add(old, new ^ ones) % 65535 << 48;
    memcpy(at, &new, 8);
    return 0;
}

/* The calls */

static const struct ask none = {0, 0, 0, 0};

static uint16_t field(const uint8_t *bytes, size_t len)
{
    u64 t = RARE(len < 8) ? few(bytes, len) : add_bytes(0, bytes, len);
    return RARE(t == 0) ? 0xFFFF : __builtin_bswap16((uint16_t)field_of(t));
}

static uint8_t judge(const uint8_t *packet, size_t len)
{
    return whole(judged, SUMMED, (uint8_t *)packet, len, none);
}

static uint8_t mend(uint8_t *packet, size_t len)
{
    return whole(mended, SHAPED, packet, len, none);
}

static uint8_t lower(uint8_t *packet, size_t len)
{
    return whole(lowered, OUTER, packet, len, none);
}

static uint8_t address(uint8_t *packet, size_t len, uint32_t side, const uint8_t *bytes, size_t bytes_len)
{
    return whole(addressed, SHAPED, packet, len, (struct ask){side, bytes_len, bytes, 0});
}

static uint8_t stretch(uint8_t *packet, size_t len, size_t place, const uint8_t *bytes, size_t bytes_len)
{
    return whole(stretched, SHAPED, packet, len, (struct ask){place, bytes_len, bytes, 0});
}

static uint8_t prefix(uint8_t *packet, size_t len, uint32_t side, const uint8_t *expected, size_t expected_len,
                      const uint8_t *bytes, size_t bytes_len)
{
    if (RARE(len < 40))
        return len == 0 || packet[0] >> 4 == 6 ? 2 : 3;
    if (RARE(packet[0] >> 4 != 6))
        return 3;
    uint8_t refused = whole(present, SHAPED, packet, len, none);
    if (RARE(refused))
        return refused;
    if (RARE(side > 1) || RARE(expected_len != 6) || RARE(bytes_len != 6))
        return 10;
    return exchange(packet + 8 + 16 * side, six(expected), six(bytes));
}

static const struct way way = {
    SHAPE == ONCE ? "once" : KIND == PLAIN ? "copies" : KIND == CHAINS ? "adc" : "SSE2",
    field, 0, judge, mend, lower, address, stretch, prefix, 0, 0,
};
const struct way *const BY = &way;
