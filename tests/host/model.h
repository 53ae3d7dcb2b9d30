/* A model of the rules for packets whose IP header and declared length are right: over IPv6 a walk past the headers
 * between, and the rules paper's formulas over the covered block, which is laid out whole, pseudo-header first, and
 * summed byte by byte. It finds each message from the packet's bytes alone, and never asks the library. Fragments,
 * whose headers may be wrong in any way, are put together into one packet, which is judged. A packet that is to be
 * built is laid out field by field, as RFC 791, 8200 and 768 have it. The model counts how often it takes the rare
 * branches. */
#ifndef MODEL_H
#define MODEL_H

#include <stdint.h>
#include <string.h>

#include "hifrostum.h"

enum { ICMP = 1, TCP = 6, UDP = 17, ICMP6 = 58, ROOM = 65700 };
enum { HOP_BY_HOP = 0, ROUTING = 43, FRAGMENT = 44, OPTIONS = 60 };

/* Kinds of packets. In those with a tail bytes follow the UDP datagram inside the packet, and in the last four headers
 * stand between the fixed header and the message. */
static const struct kind {
    unsigned family, protocol, fixed, field, tail, between;
} kinds[] = {{4, ICMP, 8, 2, 0, 0},   {4, TCP, 20, 16, 0, 0}, {4, UDP, 8, 6, 0, 0}, {4, UDP, 8, 6, 1, 0},
             {6, TCP, 20, 16, 0, 0},  {6, UDP, 8, 6, 0, 0},   {6, UDP, 8, 6, 1, 0}, {6, ICMP6, 4, 2, 0, 0},
             {6, TCP, 20, 16, 0, 1},  {6, UDP, 8, 6, 0, 1},   {6, UDP, 8, 6, 1, 1}, {6, ICMP6, 4, 2, 0, 1}};
enum { KINDS = sizeof kinds / sizeof *kinds };

/* Rare branches, and how often the model took them in a compared call, for each kind of packet. */
enum branch {
    FRESH_ZERO,     /* a message's fresh field is 0000, or UDP's FFFF instead */
    FRESH_BLANK,    /* it is FFFF, since there are only zeros */
    PASSES_ZERO,    /* a message passes with the field 0000 */
    PASSES_FULL,    /* and with FFFF */
    TOTAL_ZERO,     /* a message doesn't pass, since there are only zeros, the field too */
    HEADER_ZERO,    /* the header passes with the field 0000 */
    HEADER_FULL,    /* and with FFFF */
    UPDATE_ZERO,    /* a message's update comes to 0000, or UDP's to FFFF instead */
    UPDATE_FULL,    /* and does so where equation 3 answers FFFF */
    UPDATED_HEADER, /* a header's update comes to 0000 */
    FULL_HEADER,    /* and does so where equation 3 answers FFFF */
    KEPT_SILENT,    /* a UDP field 0000 stays */
    BLANK_BEFORE,   /* ICMP is blank before an edit */
    BLANK_AFTER,    /* or would be after it */
    LOWERED_FAULT,  /* a lifetime is lowered that stands before a message which can't be judged */
    LOWERED_SILENT, /* or before UDP over IPv6 with the field 0000 */
    PREFIX_FOUR,    /* a prefix isn't exchanged, since the packet is IPv4 */
    PREFIX_OTHER,   /* or since the address begins with another */
    PREFIX_FULL,    /* or since the word behind it is FFFF */
    PREFIX_ZERO,    /* a prefix is exchanged, and the word comes to 0000 */
    PREFIX_LAST,    /* or to FFFE */
    PREFIX_SAME,    /* or stays, since the new prefix is the old one */
    PREFIX_CLASS,   /* or stays, since the new prefix is another of the same class */
    PREFIX_BLANK,   /* and the address comes to zeros alone, or from them */
    PREFIX_FIELD,   /* and a message field stays at FFFF that an address edit makes 0000 */
    TAIL_LENGTH,    /* a datagram doesn't pass that would with the message's length in its pseudo-header */
    TAIL_SUMMED,    /* or with the tail summed */
    TAIL_BOTH,      /* or with both */
    TAIL_OUT,       /* a datagram passes that wouldn't in any of these ways */
    TAIL_PADS,      /* an odd datagram passes that has another byte than 00 behind it */
    TAIL_BODY,      /* a stretch is refused that would fit if the tail were body */
    WALK_EIGHT,     /* a walk gets past eight headers, and to a message */
    WALK_LONG,      /* and past one with the length 255 */
    WALK_END,       /* and past one that ends with the payload */
    WALK_FRAGMENT,  /* it meets a fragment header */
    FRAGMENT_NINTH, /* and that as the ninth */
    FRAGMENT_SHORT, /* or with fewer than 8 bytes left */
    FRAGMENT_NONE,  /* or with none left */
    WALK_LATE,      /* it meets hop-by-hop that comes late */
    LATE_PAST,      /* and that passes the payload's end */
    WALK_NINTH,     /* it meets a ninth header */
    NINTH_PAST,     /* and that passes the payload's end */
    WALK_SHORT,     /* it meets a header with fewer than 8 bytes left */
    SHORT_NONE,     /* and that with none left */
    WALK_PAST,      /* it meets one that passes the payload's end */
    PAST_INSIDE,    /* and that though the bytes are there, behind the packet */
    PAST_LEFT,      /* and that has segments left */
    WALK_LEFT,      /* it meets a routing header with segments left */
    LEFT_FRAGMENT,  /* and that before a fragment header */
    WALK_OTHER,     /* it ends at a protocol that isn't covered */
    WALK_MOVED,     /* it ends at another place or protocol than the packet was built with */
    BETWEEN_LENGTH, /* a message doesn't pass that would with the payload's length in its pseudo-header */
    BETWEEN_SUMMED, /* or with the headers between summed */
    BETWEEN_BOTH,   /* or with both */
    BETWEEN_NAMED,  /* or with what the fixed header names as its protocol */
    BETWEEN_ROUTED, /* or with the last address of a routing header as its destination */
    BETWEEN_OUT,    /* a message passes that wouldn't in any of these ways */
    LIST_EMPTY,     /* there are no fragments */
    LIST_MANY,      /* there are more than 64 */
    LIST_OUTSIDE,   /* a record passes the buffer's end */
    LIST_WRAPS,     /* and its offset and length together, in 64 bits, don't */
    LIST_FIRST,     /* and a record before it has a header that is refused */
    HEAD_EMPTY,     /* a record has no bytes */
    HEAD_SIX,       /* or is IPv6 */
    HEAD_VERSION,   /* or of yet another version */
    HEAD_SHORT,     /* or has under 20 bytes */
    HEAD_WORDS,     /* or a header length under 5 words */
    HEAD_TOTAL,     /* or a total length below that */
    HEAD_CUT,       /* or fewer bytes than declared */
    HEAD_SUM,       /* or a header that doesn't pass */
    HEAD_LATER,     /* and a later record would be refused with another number */
    HEAD_APART,     /* and those before it can't be of one packet */
    APART_SOURCE,   /* fragments can't be of one packet, by their source alone */
    APART_TARGET,   /* or by their destination alone */
    APART_PROTOCOL, /* or by their protocol alone */
    APART_NUMBER,   /* or by their identification alone */
    APART_EMPTY,    /* or since one is empty */
    APART_PAST,     /* or since one ends past byte 65,515 */
    APART_UNFILLED, /* and don't fill a message either */
    FILL_LATE,      /* fragments lack the message's first bytes, and nothing else is wrong with them */
    FILL_GAP,       /* or others */
    FILL_OVERLAP,   /* or two have a byte in common */
    FILL_TWICE,     /* or one is there twice */
    FILL_MORE,      /* or the last has more-fragments set */
    FILL_CLEAR,     /* or another has it clear */
    FILL_EIGHTH,    /* one that isn't the last has a length that doesn't divide by 8 */
    JOINED_ONE,     /* a message is judged that came whole */
    JOINED_MOST,    /* or in 64 fragments */
    JOINED_LONGEST, /* or ends at byte 65,515 */
    JOINED_ORDER,   /* or whose records aren't in order */
    JOINED_INSIDE,  /* or overlap in the buffer */
    JOINED_TAIL,    /* or whose fragments have tails of their own */
    JOINED_OPTIONS, /* or headers of different lengths */
    JOINED_FLAGS,   /* or other flags, lifetimes and service bytes than the first */
    JOINED_OTHER,   /* its protocol isn't covered */
    JOINED_FEW,     /* and it is shorter than any fixed header */
    JOINED_SHORT,   /* it is shorter than its fixed header */
    JOINED_LENGTH,  /* TCP's data offset or UDP's length doesn't fit it */
    JOINED_FITS,    /* and they fit, but wouldn't fit the first fragment */
    JOINED_SILENT,  /* it has no sum */
    JOINED_ZERO,    /* it passes with the field 0000 */
    JOINED_FULL,    /* and with FFFF */
    JOINED_BLANK,   /* it doesn't pass, since there are only zeros */
    JOINED_FIRST,   /* or would pass with the first fragment's length in its pseudo-header */
    JOINED_SECOND,  /* TCP's data offset doesn't stand in the first fragment */
    JOINED_THIRD,   /* nor does its field, nor where that is */
    ENDS_INSIDE,    /* a datagram ends inside a fragment that isn't the last, and passes */
    ENDS_ODD,       /* and its length is odd */
    ENDS_BETWEEN,   /* it ends where a fragment does that isn't the last, and passes */
    ENDS_LENGTH,    /* it doesn't pass, and would with the message's length in its pseudo-header */
    ENDS_SUMMED,    /* or with the tail summed */
    ENDS_BOTH,      /* or with both */
    BUILD_SOURCE,   /* a packet isn't built, since its source has the size of no family, and nothing else is wrong */
    BUILD_TARGET,   /* or its destination */
    BUILD_NEITHER,  /* or both, in one size */
    BUILD_FAMILIES, /* or since they are of two families */
    BUILD_BODY,     /* or since its body has 1,401 bytes */
    BUILD_SPENT,    /* or since its lifetime is 0 */
    BUILD_ROOM,     /* or since the buffer lacks one byte */
    BUILD_NO_ROOM,  /* or has none */
    PLACE_SPENT,    /* it doesn't fit, and its lifetime is 0 too */
    PLACE_ROOM,     /* or there is no room for it */
    PLACE_BOTH,     /* or both */
    SPENT_ROOM,     /* its lifetime is 0, and there is no room for it */
    BUILT_EMPTY,    /* a packet is built, and its body is empty */
    BUILT_ONE,      /* or one byte */
    BUILT_ODD,      /* or of odd length, and another byte than 00 stands behind it */
    BUILT_MOST,     /* or of 1,400 bytes */
    BUILT_BARELY,   /* and its lifetime is 1 */
    BUILT_EXACT,    /* and the buffer has no byte more */
    BUILT_BEFORE,   /* and other bytes are behind it */
    BUILT_FULL,     /* and UDP's field comes to 0000, so that FFFF is written */
    BUILT_LEAST,    /* or to 0001 */
    BUILT_LAST,     /* or to FFFE, since what it covers comes to 1 modulo 65535 */
    BUILT_CARRY,    /* and the sum of its total's words is past 16 bits again */
    BUILT_HEADER,   /* and the header's field is 0000 */
    BRANCHES
};
static unsigned long met[KINDS][BRANCHES];
static int comparing;

static unsigned word(const uint8_t *at)
{
    return 256u * at[0] + at[1];
}

static void put(uint8_t *at, unsigned long value)
{
    at[0] = (uint8_t)(value >> 8);
    at[1] = (uint8_t)value;
}

/* Sums */

/* The total of bytes that begin at a place of a block. */
static unsigned long total_at(size_t place, const uint8_t *bytes, size_t len)
{
    unsigned long sum = 0;
    for (size_t i = 0; i < len; i++)
        sum += (place + i) % 2 ? bytes[i] : 256ul * bytes[i];
    return sum;
}

static unsigned long total(const uint8_t *bytes, size_t len)
{
    return total_at(0, bytes, len);
}

static unsigned fold(unsigned long sum)
{
    return sum == 0 ? 0 : (unsigned)(1 + (sum - 1) % 65535);
}

/* RFC 1624's equation 3. */
static unsigned equation3(unsigned field, unsigned old, unsigned new)
{
    return 65535 - fold(65535ul - field + 65535ul - old + new);
}

/* A packet. It was built as one kind, with its message at a place and so many bytes of tail inside; what kind it is,
 * and where its message begins, is found from its bytes. Bytes may follow its declared end. */
struct packet {
    const struct kind *built, *kind;
    size_t placed, header, len, tail;
    uint8_t bytes[ROOM];
};

static void copy(struct packet *to, const struct packet *from)
{
    to->built = from->built;
    to->kind = from->kind;
    to->placed = from->placed;
    to->header = from->header;
    to->len = from->len;
    to->tail = from->tail;
    memcpy(to->bytes, from->bytes, from->len);
}

/* Counts a branch, unless the walk has found another message than was built. */
static void meet(const struct packet *p, enum branch branch, int taken)
{
    int as_built = p->kind->protocol == p->built->protocol && p->header == p->placed;
    met[p->built - kinds][branch] += comparing && taken && as_built;
}

/* Counts a branch of the walk. */
static void meet_walk(const struct packet *p, enum branch branch, int taken)
{
    met[p->built - kinds][branch] += comparing && taken && p->built->between;
}

/* The declared end. */
static size_t end_of(const struct packet *p)
{
    return p->built->family == 4 ? word(p->bytes + 2) : 40 + word(p->bytes + 4);
}

static size_t message_len(const struct packet *p)
{
    return end_of(p) - p->header;
}

/* How much of the message is covered: what UDP says of its datagram, and of others all. */
static size_t covered_len(const struct packet *p)
{
    return p->kind->protocol == UDP ? word(p->bytes + p->header + 4) : message_len(p);
}

static uint8_t *field_of(struct packet *p)
{
    return p->bytes + p->header + p->kind->field;
}

static size_t body_of(const struct packet *p)
{
    return p->header + (p->kind->protocol == TCP ? p->bytes[p->header + 12] / 16 * 4u : p->kind->fixed);
}

/* Walks from byte 40 to the message, past the headers between. Answers the first refusal met, or 0 with the protocol
 * and the place where the walk ends. */
static unsigned walk(const struct packet *p, unsigned *protocol, size_t *place)
{
    unsigned next = p->bytes[6], passed = 0;
    size_t at = 40, end = end_of(p);
    while (next == HOP_BY_HOP || next == ROUTING || next == FRAGMENT || next == OPTIONS) {
        const uint8_t *header = p->bytes + at;
        size_t left = end - at, size = left < 8 ? 8 : 8 + 8u * header[1];
        int late = next == HOP_BY_HOP && passed > 0, ninth = passed == 8, past = size > left;
        int unfinished = next == ROUTING && left >= 8 && header[3] != 0;
        if (next == FRAGMENT) {
            meet_walk(p, WALK_FRAGMENT, 1);
            meet_walk(p, FRAGMENT_NINTH, ninth);
            meet_walk(p, FRAGMENT_SHORT, left < 8);
            meet_walk(p, FRAGMENT_NONE, left == 0);
            return 6;
        }
        meet_walk(p, WALK_LATE, late && !ninth && !past);
        meet_walk(p, LATE_PAST, late && !ninth && past);
        meet_walk(p, WALK_NINTH, !late && ninth && !past);
        meet_walk(p, NINTH_PAST, !late && ninth && past);
        if (late || ninth)
            return 7;
        meet_walk(p, WALK_SHORT, left < 8);
        meet_walk(p, SHORT_NONE, left == 0);
        meet_walk(p, WALK_PAST, left >= 8 && past);
        meet_walk(p, PAST_INSIDE, left >= 8 && past && at + size <= p->len);
        meet_walk(p, PAST_LEFT, past && unfinished);
        if (past)
            return 4;
        meet_walk(p, WALK_LEFT, unfinished);
        meet_walk(p, LEFT_FRAGMENT, unfinished && header[0] == FRAGMENT);
        if (unfinished)
            return 7;
        meet_walk(p, WALK_LONG, header[1] == 255);
        meet_walk(p, WALK_END, size == left);
        next = header[0];
        at += size;
        passed++;
    }
    meet_walk(p, WALK_EIGHT, passed == 8);
    meet_walk(p, WALK_MOVED, at != p->placed || next != p->built->protocol);
    *protocol = next;
    *place = at;
    return 0;
}

/* Finds the message, and answers the first refusal of a packet's shape: a fragment or what the walk meets, a protocol
 * that isn't covered, a message without a whole fixed header, or TCP's data offset or UDP's length below the fixed
 * header's length or past the message. */
static unsigned refused(struct packet *p)
{
    unsigned family = p->built->family, protocol = p->bytes[9], refusal = 0;
    if (family == 4) {
        p->header = 4u * (p->bytes[0] & 15);
        refusal = word(p->bytes + 6) & 0x3FFF ? 6 : 0;
    } else
        refusal = walk(p, &protocol, &p->header);
    if (refusal)
        return refusal;
    const struct kind *kind = kinds;
    while (kind < kinds + KINDS && (kind->family != family || kind->protocol != protocol))
        kind++;
    meet_walk(p, WALK_OTHER, kind == kinds + KINDS);
    if (kind == kinds + KINDS)
        return 7;
    p->kind = kind;
    if (message_len(p) < kind->fixed)
        return 4;
    size_t said = protocol == TCP ? body_of(p) - p->header : covered_len(p);
    return said < kind->fixed || said > message_len(p) ? 4 : 0;
}

/* How the covered block is read: right, or with the message's length in UDP's pseudo-header, the tail summed, or
 * both; or with the payload's length there, the headers between summed, or both; or with the protocol that the fixed
 * header names, or the last address of the last routing header as destination. */
enum how { RIGHT, LENGTH, SUMMED, BOTH, PAYLOAD, HEADERS, WHOLE, NAMED, ROUTED };

/* The last 16 bytes of the last routing header that has as many, or else the fixed header's destination. */
static const uint8_t *routed(const struct packet *p)
{
    const uint8_t *found = p->bytes + 24;
    unsigned next = p->bytes[6];
    for (size_t at = 40; at < p->header; at += 8 + 8u * p->bytes[at + 1]) {
        if (next == ROUTING && p->bytes[at + 1] >= 2)
            found = p->bytes + at + 8u * p->bytes[at + 1] - 8;
        next = p->bytes[at];
    }
    return found;
}

/* Lays out the block, and answers how long it is. */
static size_t block(const struct packet *p, enum how how, uint8_t *out)
{
    size_t size = 0, from = p->header;
    size_t len = how == SUMMED || how == BOTH ? message_len(p) : covered_len(p);
    size_t length = how == LENGTH || how == BOTH ? message_len(p) : covered_len(p);
    if (p->kind->family == 4 && p->kind->protocol != ICMP) {
        memcpy(out, p->bytes + 12, 8);
        out[8] = 0;
        out[9] = (uint8_t)p->kind->protocol;
        put(out + 10, length);
        size = 12;
    } else if (p->kind->family == 6) {
        memcpy(out, p->bytes + 8, 16);
        memcpy(out + 16, how == ROUTED ? routed(p) : p->bytes + 24, 16);
        memset(out + 32, 0, 8);
        put(out + 34, how == PAYLOAD || how == WHOLE ? end_of(p) - 40 : length);
        out[39] = how == NAMED ? p->bytes[6] : (uint8_t)p->kind->protocol;
        size = 40;
        from = how == HEADERS || how == WHOLE ? 40 : from;
    }
    len += p->header - from;
    memcpy(out + size, p->bytes + from, len);
    return size + len;
}

/* The total of what is covered, if that is read so. */
static unsigned long total_read(const struct packet *p, enum how how)
{
    static uint8_t covered[ROOM + 40];
    return total(covered, block(p, how, covered));
}

static unsigned long message_total(const struct packet *p)
{
    return total_read(p, RIGHT);
}

static int passes(unsigned long sum)
{
    return sum > 0 && sum % 65535 == 0;
}

/* Looks which branches a judged message with a tail takes. */
static void meet_tail(const struct packet *p, int passed)
{
    size_t covered = covered_len(p);
    int others = 0;
    if (!p->built->tail || covered == message_len(p))
        return;
    for (enum how how = LENGTH; how <= BOTH; how++) {
        int other = passes(total_read(p, how));
        meet(p, TAIL_LENGTH + how - LENGTH, !passed && other);
        others |= other;
    }
    meet(p, TAIL_OUT, passed && !others);
    meet(p, TAIL_PADS, passed && covered % 2 == 1 && p->bytes[p->header + covered] != 0);
}

/* And one with headers between, unless it is long: there are enough short ones. */
static void meet_between(const struct packet *p, int passed)
{
    int others = 0;
    if (!p->built->between || p->header == 40 || message_len(p) > 300)
        return;
    for (enum how how = PAYLOAD; how <= ROUTED; how++) {
        int other = passes(total_read(p, how)) && (how != ROUTED || routed(p) != p->bytes + 24);
        meet(p, BETWEEN_LENGTH + how - PAYLOAD, !passed && other);
        others |= other;
    }
    meet(p, BETWEEN_OUT, passed && !others);
}

static int silent(struct packet *p)
{
    return p->kind->protocol == UDP && word(field_of(p)) == 0;
}

/* Calls. Each changes the packet as the library must and answers the verdict. */

static unsigned judge(struct packet *p)
{
    unsigned refusal = refused(p);
    if (p->kind->family == 4) {
        if (!passes(total(p->bytes, p->header)))
            return 5;
        meet(p, HEADER_ZERO, word(p->bytes + 10) == 0);
        meet(p, HEADER_FULL, word(p->bytes + 10) == 0xFFFF);
    }
    if (refusal)
        return refusal;
    if (silent(p))
        return p->kind->family == 4 ? 1 : 8;
    unsigned long sum = message_total(p);
    meet(p, TOTAL_ZERO, sum == 0);
    meet_tail(p, passes(sum));
    meet_between(p, passes(sum));
    if (!passes(sum))
        return 9;
    meet(p, PASSES_ZERO, word(field_of(p)) == 0);
    meet(p, PASSES_FULL, word(field_of(p)) == 0xFFFF);
    return 0;
}

static unsigned mend(struct packet *p)
{
    unsigned refusal = refused(p);
    if (refusal)
        return refusal;
    if (p->kind->family == 4) {
        put(p->bytes + 10, 0);
        put(p->bytes + 10, 65535 - fold(total(p->bytes, p->header)));
        if (silent(p))
            return 0;
    }
    put(field_of(p), 0);
    unsigned fresh = 65535 - fold(message_total(p));
    meet(p, FRESH_ZERO, fresh == 0);
    meet(p, FRESH_BLANK, fresh == 0xFFFF);
    put(field_of(p), p->kind->protocol == UDP && fresh == 0 ? 0xFFFF : fresh);
    return 0;
}

/* A field after bytes at a place of its block were exchanged for others: 0000 where equation 3 answers FFFF. */
static unsigned renewed(const struct packet *p, int header, unsigned field, size_t place, const uint8_t *old,
                        const uint8_t *new, size_t len)
{
    unsigned answer = equation3(field, fold(total_at(place, old, len)), fold(total_at(place, new, len)));
    meet(p, header ? FULL_HEADER : UPDATE_FULL, answer == 0xFFFF);
    answer = answer == 0xFFFF ? 0 : answer;
    meet(p, header ? UPDATED_HEADER : UPDATE_ZERO, answer == 0);
    return answer;
}

static void renew_header(struct packet *p, size_t place, const uint8_t *old, const uint8_t *new, size_t len)
{
    if (p->kind->family == 4)
        put(p->bytes + 10, renewed(p, 1, word(p->bytes + 10), place, old, new, len));
}

static void renew_message(struct packet *p, size_t place, const uint8_t *old, const uint8_t *new, size_t len)
{
    meet(p, KEPT_SILENT, silent(p));
    if (silent(p))
        return;
    unsigned answer = renewed(p, 0, word(field_of(p)), place, old, new, len);
    put(field_of(p), p->kind->protocol == UDP && answer == 0 ? 0xFFFF : answer);
}

/* It doesn't look behind the IP header: that it asks what is refused is for the counts alone. */
static unsigned lower(struct packet *p)
{
    uint8_t *lifetime = p->bytes + (p->kind->family == 4 ? 8 : 7), less = (uint8_t)(*lifetime - 1);
    if (*lifetime < 2)
        return 11;
    unsigned refusal = refused(p);
    meet(p, LOWERED_FAULT, refusal != 0);
    meet(p, LOWERED_SILENT, refusal == 0 && p->kind->family == 6 && silent(p));
    renew_header(p, 8, lifetime, &less, 1);
    *lifetime = less;
    return 0;
}

static unsigned set_address(struct packet *p, unsigned side, const uint8_t *new)
{
    size_t size = p->kind->family == 4 ? 4 : 16;
    uint8_t *at = p->bytes + (p->kind->family == 4 ? 12 : 8) + side * size;
    unsigned refusal = refused(p);
    if (refusal)
        return refusal;
    if (p->kind->family == 6 && silent(p))
        return 8;
    renew_header(p, 12, at, new, size);
    if (p->kind->protocol != ICMP)
        renew_message(p, 0, at, new, size);
    memcpy(at, new, size);
    return 0;
}

/* Looks which branches an exchange takes that is done. */
static void meet_exchange(const struct packet *p, unsigned field, const uint8_t *old, const uint8_t *new)
{
    static const uint8_t zeros[16];
    int same = memcmp(old, new, 6) == 0, blank = memcmp(old, zeros, 16) == 0 || memcmp(new, zeros, 16) == 0;
    meet(p, PREFIX_ZERO, word(new + 6) == 0);
    meet(p, PREFIX_LAST, word(new + 6) == 0xFFFE);
    meet(p, PREFIX_SAME, same);
    meet(p, PREFIX_CLASS, !same && word(old + 6) == word(new + 6));
    meet(p, PREFIX_BLANK, !same && blank);
    meet(p, PREFIX_FIELD, field == 0xFFFF && p->kind->protocol != UDP);
}

/* Exchanges the first six bytes of an address, and sets the word behind them to what keeps the address's total modulo
 * 65535. */
static unsigned exchange_prefix(struct packet *p, size_t side, const uint8_t *expected, size_t expected_len,
                                const uint8_t *new, size_t new_len)
{
    meet(p, PREFIX_FOUR, p->built->family == 4);
    if (p->built->family == 4)
        return 3;
    unsigned refusal = refused(p);
    if (refusal)
        return refusal;
    if (silent(p))
        return 8;
    if (side > 1 || expected_len != 6 || new_len != 6)
        return 10;
    uint8_t *at = p->bytes + 8 + 16 * side, was[16];
    int other = memcmp(at, expected, 6) != 0, full = word(at + 6) == 0xFFFF;
    meet(p, PREFIX_OTHER, other);
    meet(p, PREFIX_FULL, !other && full);
    if (other || full)
        return 10;
    memcpy(was, at, 16);
    memcpy(at, new, 6);
    put(at + 6, 0);
    put(at + 6, (total(was, 16) % 65535 + 65535 - total(at, 16) % 65535) % 65535);
    meet_exchange(p, word(field_of(p)), was, at);
    return 0;
}

/* Whether ICMP's message is all zeros, its field aside. */
static int blank(const struct packet *p)
{
    unsigned long sum = 0;
    for (size_t i = p->header; i < end_of(p); i++)
        if (i - p->header < 2 || i - p->header > 3)
            sum += p->bytes[i];
    return p->kind->protocol == ICMP && sum == 0;
}

static unsigned set_stretch(struct packet *p, size_t place, const uint8_t *new, size_t len)
{
    static struct packet after;
    unsigned refusal = refused(p);
    if (refusal)
        return refusal;
    uint8_t *at = p->bytes + body_of(p) + place;
    if (p->kind->family == 6 && silent(p))
        return 8;
    int past = place + len > p->header + covered_len(p) - body_of(p);
    meet(p, TAIL_BODY, past && place + len <= end_of(p) - body_of(p));
    if (past)
        return 10;
    if (len == 0)
        return 0;
    if (p->kind->protocol == ICMP) {
        copy(&after, p);
        memcpy(after.bytes + body_of(p) + place, new, len);
        meet(p, BLANK_BEFORE, blank(p) && !blank(&after));
        meet(p, BLANK_AFTER, blank(&after) && !blank(p));
        if (blank(p) || blank(&after))
            return 12;
    }
    renew_message(p, (size_t)(at - p->bytes) - p->header, at, new, len);
    memcpy(at, new, len);
    return 0;
}

/* Fragments */

enum { MOST = 64, LONGEST_MESSAGE = 65515 };

/* What the header of a fragment says: where in the message its bytes begin, how many there are, and whether more
 * follow. */
static struct part {
    const uint8_t *packet, *bytes;
    size_t at, len;
    int more;
} parts[MOST];

/* Counts a branch of fragments that were built as a kind of packet. */
static void meet_parts(const struct kind *built, enum branch branch, int taken)
{
    met[built - kinds][branch] += comparing && taken && built->family == 4;
}

/* The first refusal of a record by its header, where only IPv4 is taken, and which branch that is. */
static unsigned refused_head(const uint8_t *packet, size_t len, enum branch *branch)
{
    if (len == 0)
        return *branch = HEAD_EMPTY, 2;
    if (packet[0] >> 4 != 4)
        return *branch = packet[0] >> 4 == 6 ? HEAD_SIX : HEAD_VERSION, 3;
    if (len < 20)
        return *branch = HEAD_SHORT, 2;
    size_t header = 4u * (packet[0] & 15), declared = word(packet + 2);
    if (header < 20)
        return *branch = HEAD_WORDS, 4;
    if (declared < header)
        return *branch = HEAD_TOTAL, 4;
    if (declared > len)
        return *branch = HEAD_CUT, 2;
    return *branch = HEAD_SUM, passes(total(packet, header)) ? 0 : 5;
}

/* The list itself: how many records there are, and whether each lies in the buffer. */
static unsigned refused_list(const struct kind *built, const uint8_t *buffer, size_t len,
                             const struct hifrostum_fragment *list, size_t count)
{
    int outside = 0, wraps = 1, first = 0;
    enum branch branch;
    meet_parts(built, LIST_EMPTY, count == 0);
    meet_parts(built, LIST_MANY, count > MOST);
    if (count == 0 || count > MOST)
        return count == 0 ? 2 : 10;
    for (size_t i = 0; i < count; i++)
        if (list[i].offset > len || list[i].length > len - list[i].offset) {
            outside = 1;
            wraps &= list[i].offset + list[i].length <= len;
        } else
            first |= !outside && refused_head(buffer + list[i].offset, list[i].length, &branch);
    meet_parts(built, LIST_OUTSIDE, outside);
    meet_parts(built, LIST_WRAPS, outside && wraps);
    meet_parts(built, LIST_FIRST, outside && first);
    return outside ? 10 : 0;
}

/* Whether the parts don't fill a message. Each byte up to the last that any part has must be had by one. The last part
 * is the one that begins last. Counts branches if asked to. */
static int unfilled(const struct kind *built, size_t count, int counts)
{
    static uint8_t had[2 * 65536];
    size_t end = 0, last = 0;
    int gap = 0, overlap = 0, twice = 0, clear = 0, eighth = 0;
    for (size_t i = 0; i < count; i++) {
        end = parts[i].at + parts[i].len > end ? parts[i].at + parts[i].len : end;
        last = parts[i].at > parts[last].at ? i : last;
    }
    memset(had, 0, end);
    for (size_t i = 0; i < count; i++) {
        clear |= i != last && !parts[i].more;
        eighth |= i != last && parts[i].len % 8 != 0;
        for (size_t j = 0; j < i; j++)
            twice |= parts[i].at == parts[j].at && parts[i].len == parts[j].len;
        for (size_t j = 0; j < parts[i].len; j++)
            had[parts[i].at + j] += had[parts[i].at + j] < 2;
    }
    size_t start = 0;
    while (start < end && had[start] == 0)
        start++;
    for (size_t i = start; i < end; i++) {
        gap |= had[i] == 0;
        overlap |= had[i] == 2;
    }
    int late = start > 0, more = parts[last].more, faults = late + gap + overlap + clear + eighth + more;
    if (counts) {
        meet_parts(built, FILL_LATE, late && faults == 1);
        meet_parts(built, FILL_GAP, gap && faults == 1);
        meet_parts(built, FILL_OVERLAP, overlap && !twice && faults == 1);
        meet_parts(built, FILL_TWICE, twice && faults == 1);
        meet_parts(built, FILL_MORE, more && faults == 1);
        meet_parts(built, FILL_CLEAR, clear && faults == 1);
        meet_parts(built, FILL_EIGHTH, eighth);
    }
    return faults != 0;
}

/* Whether the parts can't be of one packet: they differ in what all must share, one is empty, or one ends late. */
static unsigned apart(const struct kind *built, size_t count)
{
    enum { REASONS = 6 };
    int reasons[REASONS] = {0}, all = 0;
    for (size_t i = 0; i < count; i++) {
        const uint8_t *own = parts[i].packet, *other = parts[0].packet;
        reasons[0] |= memcmp(own + 12, other + 12, 4) != 0;
        reasons[1] |= memcmp(own + 16, other + 16, 4) != 0;
        reasons[2] |= own[9] != other[9];
        reasons[3] |= word(own + 4) != word(other + 4);
        reasons[4] |= parts[i].len == 0;
        reasons[5] |= parts[i].at + parts[i].len > LONGEST_MESSAGE;
    }
    for (int i = 0; i < REASONS; i++)
        all += reasons[i];
    for (int i = 0; i < REASONS; i++)
        meet_parts(built, (enum branch)(APART_SOURCE + i), reasons[i] && all == 1);
    meet_parts(built, APART_UNFILLED, all && unfilled(built, count, 0));
    return all ? 4 : 0;
}

/* Whether the list isn't in the order of the message, records overlap in the buffer, and how headers differ. */
static void meet_list(const struct kind *built, const struct hifrostum_fragment *list, size_t count)
{
    int order = 0, inside = 0, tail = 0, options = 0, flags = 0;
    for (size_t i = 0; i < count; i++) {
        const uint8_t *own = parts[i].packet, *other = parts[0].packet;
        order |= i > 0 && parts[i].at < parts[i - 1].at;
        tail |= list[i].length > word(own + 2);
        options |= (own[0] & 15) != (other[0] & 15);
        flags |= own[1] != other[1] && own[8] != other[8] && own[6] >> 6 != other[6] >> 6;
        for (size_t j = 0; j < i; j++)
            inside |= list[i].offset < list[j].offset + list[j].length &&
                      list[j].offset < list[i].offset + list[i].length;
    }
    meet_parts(built, JOINED_ONE, count == 1);
    meet_parts(built, JOINED_MOST, count == MOST);
    meet_parts(built, JOINED_ORDER, order);
    meet_parts(built, JOINED_INSIDE, inside);
    meet_parts(built, JOINED_TAIL, tail);
    meet_parts(built, JOINED_OPTIONS, options);
    meet_parts(built, JOINED_FLAGS, flags);
}

/* Which part has a byte of the message. */
static size_t part_with(size_t place, size_t count)
{
    size_t i = 0;
    while (i < count && (place < parts[i].at || place >= parts[i].at + parts[i].len))
        i++;
    return i;
}

/* Looks which branches the whole message takes, which has this verdict. */
static void meet_joined(const struct kind *built, struct packet *whole, size_t count, unsigned verdict)
{
    size_t len = message_len(whole), first = parts[part_with(0, count)].len, fixed = built->fixed;
    unsigned protocol = whole->bytes[9];
    meet_parts(built, JOINED_LONGEST, len == LONGEST_MESSAGE);
    meet_parts(built, JOINED_OTHER, verdict == 7);
    meet_parts(built, JOINED_FEW, verdict == 7 && len < 4);
    if (protocol != built->protocol)
        return;
    meet_parts(built, JOINED_SHORT, len < fixed);
    meet_parts(built, JOINED_LENGTH, verdict == 4 && len >= fixed);
    if (verdict == 4)
        return;
    size_t said = protocol == TCP ? body_of(whole) - whole->header : covered_len(whole);
    unsigned long sum = message_total(whole);
    meet_parts(built, JOINED_FITS, protocol != ICMP && said > first);
    meet_parts(built, JOINED_SILENT, verdict == 1);
    meet_parts(built, JOINED_ZERO, verdict == 0 && word(field_of(whole)) == 0);
    meet_parts(built, JOINED_FULL, verdict == 0 && word(field_of(whole)) == 0xFFFF);
    meet_parts(built, JOINED_BLANK, verdict == 9 && sum == 0);
    meet_parts(built, JOINED_FIRST, verdict == 9 && protocol != ICMP && passes(sum - covered_len(whole) + first));
    meet_parts(built, JOINED_SECOND, verdict == 0 && protocol == TCP && part_with(12, count) != part_with(0, count));
    meet_parts(built, JOINED_THIRD, verdict == 0 && protocol == TCP && first == 8 &&
                                        part_with(16, count) != part_with(12, count));
    if (!built->tail || protocol != UDP || said == len)
        return;
    size_t end = part_with(said - 1, count), next = part_with(said, count);
    int early = parts[end].at + parts[end].len < len;
    meet_parts(built, ENDS_INSIDE, verdict == 0 && early && end == next);
    meet_parts(built, ENDS_ODD, verdict == 0 && early && end == next && said % 2 == 1);
    meet_parts(built, ENDS_BETWEEN, verdict == 0 && end != next);
    for (enum how how = LENGTH; how <= BOTH; how++)
        meet_parts(built, (enum branch)(ENDS_LENGTH + how - LENGTH), verdict == 9 && passes(total_read(whole, how)));
}

/* Puts the parts together: a packet with a header of 20 bytes, and behind it the message. */
static void join(const struct kind *built, struct packet *whole, size_t count)
{
    whole->built = whole->kind = built;
    whole->placed = whole->header = 20;
    whole->tail = 0;
    whole->len = 20;
    memcpy(whole->bytes, parts[0].packet, 20);
    for (size_t i = 0; i < count; i++) {
        memcpy(whole->bytes + 20 + parts[i].at, parts[i].bytes, parts[i].len);
        whole->len += parts[i].len;
    }
    whole->bytes[0] = 0x45;
    put(whole->bytes + 2, whole->len);
    put(whole->bytes + 6, 0);
    put(whole->bytes + 10, 0);
    put(whole->bytes + 10, 65535 - fold(total(whole->bytes, 20)));
}

/* The first refusal of a record by its header, in list order. The records before that become parts. */
static unsigned refused_heads(const struct kind *built, const uint8_t *buffer, const struct hifrostum_fragment *list,
                              size_t count)
{
    int counted = comparing;
    enum branch branch, later;
    for (size_t i = 0; i < count; i++) {
        const uint8_t *packet = buffer + list[i].offset;
        unsigned refusal = refused_head(packet, list[i].length, &branch), other;
        if (refusal) {
            comparing = 0;
            other = i > 0 && apart(built, i);
            comparing = counted;
            meet_parts(built, branch, 1);
            meet_parts(built, HEAD_APART, other != 0);
            for (size_t j = i + 1; j < count; j++) {
                other = refused_head(buffer + list[j].offset, list[j].length, &later);
                meet_parts(built, HEAD_LATER, other && other != refusal);
            }
            return refusal;
        }
        size_t header = 4u * (packet[0] & 15);
        parts[i] = (struct part){packet, packet + header, 8u * (word(packet + 6) & 0x1FFF), word(packet + 2) - header,
                                 (packet[6] & 0x20) != 0};
    }
    return 0;
}

/* Judges fragments that were built as a kind of packet. The branches that the whole packet takes in the judge aren't
 * counted for that call. */
static unsigned judge_fragments(const struct kind *built, const uint8_t *buffer, size_t len,
                                const struct hifrostum_fragment *list, size_t count)
{
    static struct packet whole;
    int counted = comparing;
    unsigned refusal = refused_list(built, buffer, len, list, count);
    if (refusal == 0)
        refusal = refused_heads(built, buffer, list, count);
    if (refusal == 0)
        refusal = apart(built, count);
    if (refusal)
        return refusal;
    if (unfilled(built, count, 1))
        return 6;
    join(built, &whole, count);
    comparing = 0;
    unsigned verdict = judge(&whole);
    comparing = counted;
    meet_list(built, list, count);
    meet_joined(built, &whole, count, verdict);
    return verdict;
}

/* Building */

enum { LONGEST_BODY = 1400 };

/* A packet that is to be built, as one kind: that of the family which is meant, whatever size its addresses have. */
struct status {
    const struct kind *built;
    const uint8_t *source, *destination, *body;
    size_t source_len, destination_len, body_len;
    unsigned source_port, destination_port, lifetime;
};

/* Counts a branch of a packet that is to be built. */
static void meet_status(const struct status *s, enum branch branch, int taken)
{
    met[s->built - kinds][branch] += comparing && taken;
}

/* Bytes that go to a place. Answers the place behind them. */
static size_t lay_bytes(uint8_t *out, size_t at, const uint8_t *bytes, size_t len)
{
    for (size_t i = 0; i < len; i++)
        out[at + i] = bytes[i];
    return at + len;
}

/* A number of 8 or 16 bits that goes to a place. Answers the place behind it. */
static size_t lay_8(uint8_t *out, size_t at, size_t number)
{
    out[at] = (uint8_t)number;
    return at + 1;
}

static size_t lay_16(uint8_t *out, size_t at, size_t number)
{
    put(out + at, number);
    return at + 2;
}

/* RFC 791's header, field by field, for so many bytes of datagram: version and length, type of service, total length;
 * identification, flags and fragment offset; time to live, protocol, checksum; source and destination. */
static size_t lay_four(const struct status *s, uint8_t *out, size_t datagram)
{
    size_t at = lay_16(out, lay_8(out, lay_8(out, 0, 4 * 16 + 5), 0), 20 + datagram);
    at = lay_16(out, lay_16(out, at, 0), 0);
    at = lay_16(out, lay_8(out, lay_8(out, at, s->lifetime), UDP), 0);
    at = lay_bytes(out, lay_bytes(out, at, s->source, 4), s->destination, 4);
    unsigned field = 65535 - fold(total(out, at));
    meet_status(s, BUILT_HEADER, field == 0);
    put(out + 10, field);
    return at;
}

/* RFC 8200's: version, traffic class and flow label; payload length, next header, hop limit; source and destination. */
static size_t lay_six(const struct status *s, uint8_t *out, size_t datagram)
{
    size_t at = lay_16(out, lay_16(out, 0, 6 * 4096), 0);
    at = lay_8(out, lay_8(out, lay_16(out, at, datagram), UDP), s->lifetime);
    return lay_bytes(out, lay_bytes(out, at, s->source, 16), s->destination, 16);
}

/* RFC 768's datagram: source port, destination port, length, checksum, body. The pseudo-header's total is that of the
 * addresses, the protocol and the length. */
static size_t lay_datagram(const struct status *s, uint8_t *out, size_t datagram)
{
    size_t at = lay_16(out, lay_16(out, lay_16(out, 0, s->source_port), s->destination_port), datagram);
    at = lay_bytes(out, lay_16(out, at, 0), s->body, s->body_len);
    unsigned long sum = total(s->source, s->source_len) + total(s->destination, s->destination_len) + UDP + datagram +
                        total(out, datagram);
    unsigned field = 65535 - fold(sum);
    meet_status(s, BUILT_FULL, field == 0);
    meet_status(s, BUILT_LEAST, field == 1);
    meet_status(s, BUILT_LAST, field == 0xFFFE);
    meet_status(s, BUILT_CARRY, (sum >> 16) + (sum & 0xFFFF) > 0xFFFF);
    put(out + 6, field == 0 ? 0xFFFF : field);
    return at;
}

/* Whether an address has the size of neither family. */
static int no_size(size_t len)
{
    return len != 4 && len != 16;
}

/* The first refusal of a packet that is to be built in so many bytes. */
static unsigned refused_status(const struct status *s, size_t room)
{
    size_t header = s->source_len == 4 ? 20 : 40;
    int source = no_size(s->source_len), target = no_size(s->destination_len);
    int families = !source && !target && s->source_len != s->destination_len, body = s->body_len > LONGEST_BODY;
    int place = source || target || families || body, spent = s->lifetime == 0;
    int small = room < header + 8 || room - header - 8 < s->body_len, one = !spent && !small;
    meet_status(s, BUILD_SOURCE, source && !target && !body && one);
    meet_status(s, BUILD_TARGET, target && !source && !body && one);
    meet_status(s, BUILD_NEITHER, source && s->source_len == s->destination_len && !body && one);
    meet_status(s, BUILD_FAMILIES, families && !body && one);
    meet_status(s, BUILD_BODY, s->body_len == LONGEST_BODY + 1 && !source && !target && !families && one);
    meet_status(s, PLACE_SPENT, place && spent && !small);
    meet_status(s, PLACE_ROOM, place && !spent && small);
    meet_status(s, PLACE_BOTH, place && spent && small);
    if (place)
        return 10;
    meet_status(s, BUILD_SPENT, spent && !small);
    meet_status(s, SPENT_ROOM, spent && small);
    if (spent)
        return 11;
    meet_status(s, BUILD_ROOM, room + 1 == header + 8 + s->body_len);
    meet_status(s, BUILD_NO_ROOM, room == 0);
    return small ? 16 : 0;
}

/* Builds a packet in a buffer. */
static unsigned build_udp(const struct status *s, uint8_t *buffer, size_t room, size_t *length)
{
    unsigned refusal = refused_status(s, room);
    *length = 0;
    if (refusal)
        return refusal;
    size_t datagram = 8 + s->body_len;
    size_t start = s->source_len == 4 ? lay_four(s, buffer, datagram) : lay_six(s, buffer, datagram);
    *length = start + lay_datagram(s, buffer + start, datagram);
    meet_status(s, BUILT_EMPTY, s->body_len == 0);
    meet_status(s, BUILT_ONE, s->body_len == 1);
    meet_status(s, BUILT_ODD, s->body_len % 2 == 1 && room > *length && buffer[*length] != 0);
    meet_status(s, BUILT_MOST, s->body_len == LONGEST_BODY);
    meet_status(s, BUILT_BARELY, s->lifetime == 1);
    meet_status(s, BUILT_EXACT, room == *length);
    meet_status(s, BUILT_BEFORE, room > *length);
    return 0;
}

#endif
