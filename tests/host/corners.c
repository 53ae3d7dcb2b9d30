/* Packets that meet the rare branches by design: totals that are multiples of 65535, fields at 0000, FFFF and beside
 * them, changes of 0, 1 and 65534; messages of every length at every address modulo 32; lifetimes in packets that no
 * other edit takes; prefixes whose words are corners, and every word behind one; UDP datagrams that end before their
 * message does; headers between, such as a walk gets past and such as it doesn't; messages in fragments, which lie
 * in one buffer in any order, right and with each thing that can be wrong; and packets that are built, of every size,
 * or refused, for each reason and for each two together.
 *
 * What is wanted is the answer of model.h. After each call the verdict and every byte are compared, and in the end each
 * rare branch of the model must have been taken. Each packet that is judged is also judged as a list of one fragment.
 */
#include <stdio.h>
#include <string.h>

#include "hifrostum.h"
#include "model.h"

static const unsigned corners[] = {
    0, 1, 2, 0x00FF, 0x0100, 0x0101, 0x7FFF, 0x8000, 0xFEFE, 0xFEFF, 0xFF00, 0xFFFD, 0xFFFE, 0xFFFF,
};
enum { CORNERS = sizeof corners / sizeof *corners };

static unsigned long checks, failed, group_checks;

/* Comparing. The packet lies at an address that is chosen, with guard bytes around. */

enum { GUARD = 64 };
static uint8_t room[GUARD + 64 + ROOM + GUARD] __attribute__((aligned(64)));

/* For an exchange of prefixes the new bytes are the expected prefix and then the new one. */
enum call { JUDGE, MEND, LOWER, ADDRESS, STRETCH, PREFIX };
static const char *const names[] = {"judge",       "mend",        "lower lifetime",
                                    "set address", "set stretch", "exchange prefix"};

/* Compares a call on fragments, which were built as a kind of packet. Neither the buffer nor the list may change. */
static void hold_list(const struct kind *kind, const uint8_t *buffer, size_t len,
                      const struct hifrostum_fragment *records, size_t n)
{
    static uint8_t was[1 << 18];
    static struct hifrostum_fragment were[80];
    memcpy(was, buffer, len);
    memcpy(were, records, n * sizeof *records);
    comparing = 1;
    unsigned wanted = judge_fragments(kind, was, len, were, n);
    comparing = 0;
    unsigned got = hifrostum_judge_fragments(buffer, len, records, n);
    checks++;
    if (got == wanted && memcmp(buffer, was, len) == 0 && memcmp(records, were, n * sizeof *records) == 0)
        return;
    if (failed++ < 20)
        printf("corners: failed: judge fragments, built as protocol %u%s, %zu records: wanted %u, got %u\n",
               kind->protocol, kind->tail ? " with a tail" : "", n, wanted, got);
}

static void hold(enum call call, const struct packet *p, size_t address, size_t number, const uint8_t *new, size_t len)
{
    static struct packet want;
    uint8_t *at = room + GUARD + address;
    int kept = 1;
    copy(&want, p);
    memset(at - GUARD, 0xA5, GUARD);
    memcpy(at, p->bytes, p->len);
    memset(at + p->len, 0xA5, GUARD);
    comparing = 1;
    unsigned wanted = call == JUDGE     ? judge(&want)
                      : call == MEND    ? mend(&want)
                      : call == LOWER   ? lower(&want)
                      : call == ADDRESS ? set_address(&want, (unsigned)number, new)
                      : call == STRETCH ? set_stretch(&want, number, new, len)
                                        : exchange_prefix(&want, number, new, 6, new + 6, len - 6);
    comparing = 0;
    unsigned got = call == JUDGE     ? hifrostum_judge(at, p->len)
                   : call == MEND    ? hifrostum_mend(at, p->len)
                   : call == LOWER   ? hifrostum_lower_lifetime(at, p->len)
                   : call == ADDRESS ? hifrostum_set_address(at, p->len, (uint32_t)number, new, len)
                   : call == STRETCH ? hifrostum_set_stretch(at, p->len, number, new, len)
                                     : hifrostum_exchange_prefix(at, p->len, (uint32_t)number, new, 6, new + 6,
                                                                 len - 6);
    for (size_t i = 0; i < GUARD; i++)
        kept &= at[-1 - (ptrdiff_t)i] == 0xA5 && at[p->len + i] == 0xA5;
    if (call == JUDGE) {
        struct hifrostum_fragment one = {GUARD + address, p->len};
        hold_list(p->built, room, one.offset + p->len + GUARD, &one, 1);
    }
    checks++;
    if (got == wanted && memcmp(at, want.bytes, p->len) == 0 && kept)
        return;
    if (failed++ < 20)
        printf("corners: failed: %s, IPv%u, protocol %u at %zu, message of %zu bytes, %zu covered, fields %04X and "
               "%04X: wanted %u with %04X and %04X, got %u with %04X and %04X%s\n",
               names[call], p->kind->family, p->kind->protocol, p->header, message_len(p), covered_len(p),
               word(p->bytes + 10), word(p->bytes + p->header + p->kind->field), wanted, word(want.bytes + 10),
               word(field_of(&want)), got, word(at + 10), word(at + p->header + p->kind->field),
               kept ? "" : "; a guard byte changed");
}

static void expect(int holds, const char *what)
{
    checks++;
    if (!holds && failed++ < 20)
        printf("corners: failed: %s\n", what);
}

static void group(const char *name)
{
    printf("corners: %s: %lu checks\n", name, checks - group_checks);
    group_checks = checks;
}

/* Building */

static uint32_t state = 1;

static unsigned any(unsigned below)
{
    state = state * 1664525 + 1013904223;
    return (state >> 8) % below;
}

/* Sets what a message's shape depends on: TCP's data offset, UDP's length. */
static void shape(struct packet *p)
{
    if (p->kind->protocol == TCP)
        p->bytes[p->header + 12] = 0x50;
    if (p->kind->protocol == UDP)
        put(p->bytes + p->header + 4, message_len(p) - p->tail);
}

/* Sets both fields fresh, UDP's 0000 too. */
static void freshen(struct packet *p)
{
    put(field_of(p), 1);
    mend(p);
}

/* A header between: its number and its length byte. */
struct header {
    unsigned number, units;
};

/* Draws so many headers between, mostly short ones and sometimes a longest. */
static void draw(struct header *headers, size_t count)
{
    for (size_t i = 0; i < count; i++) {
        headers[i].number = i == 0 && any(2) ? HOP_BY_HOP : any(2) ? ROUTING : OPTIONS;
        headers[i].units = any(64) == 0 ? 255 : any(4);
    }
}

/* The byte that names what stands at a place: a header between, or the message. */
static uint8_t *name_of(struct packet *p, size_t place)
{
    uint8_t *name = p->bytes + 6;
    for (size_t at = 40; at < place; at += 8 + 8u * p->bytes[at + 1])
        name = p->bytes + at;
    return name;
}

/* Builds a packet of a kind behind these headers, with so many bytes of message, random, with both fields fresh. A tail
 * follows the datagram, or takes its end where a packet can't be longer. */
static void build_behind(struct packet *p, const struct kind *kind, size_t options, const struct header *headers,
                         size_t count, size_t message)
{
    p->built = p->kind = kind;
    p->header = kind->family == 4 ? 20 + options : 40;
    for (size_t i = 0; i < count; i++)
        p->header += 8 + 8 * headers[i].units;
    p->placed = p->header;
    p->tail = kind->tail ? 1 + any(40) : 0;
    size_t longest = kind->family == 4 ? 65535 : 40 + 65535, len = p->header + message + p->tail;
    p->len = len < longest ? len : longest;
    for (size_t i = 0; i < p->len; i++)
        p->bytes[i] = (uint8_t)any(256);
    if (kind->family == 4) {
        p->bytes[0] = (uint8_t)(0x40 + p->header / 4);
        put(p->bytes + 2, p->len);
        put(p->bytes + 6, 0x4000);
        p->bytes[9] = (uint8_t)kind->protocol;
    } else {
        p->bytes[0] = 0x60;
        put(p->bytes + 4, p->len - 40);
        uint8_t *name = p->bytes + 6;
        for (size_t i = 0, at = 40; i < count; at += 8 + 8 * headers[i++].units) {
            *name = (uint8_t)headers[i].number;
            name = p->bytes + at;
            name[1] = (uint8_t)headers[i].units;
            name[3] = headers[i].number == ROUTING ? 0 : name[3];
        }
        *name = (uint8_t)kind->protocol;
    }
    p->bytes[kind->family == 4 ? 8 : 7] = 64;
    shape(p);
    freshen(p);
}

/* The same behind a few headers, sometimes eight, if it is of a kind that has such. */
static void build(struct packet *p, const struct kind *kind, size_t options, size_t message)
{
    struct header headers[8] = {{0, 0}};
    size_t count = !kind->between ? 0 : any(8) == 0 ? 8 : 1 + any(3);
    draw(headers, count);
    build_behind(p, kind, options, headers, count, message);
}

/* Puts a header of 8 bytes before the message. */
static void insert(struct packet *p, unsigned number)
{
    uint8_t *at = p->bytes + p->header, *name = name_of(p, p->header);
    memmove(at + 8, at, p->len - p->header);
    at[0] = *name;
    at[1] = at[3] = 0;
    *name = (uint8_t)number;
    p->header += 8;
    p->placed += 8;
    p->len += 8;
    put(p->bytes + 4, end_of(p) + 8 - 40);
}

/* Ways to spoil what lies behind an IP header, or what the header says of it. */
enum spoil { FIRST, MIDDLE, LAST, OTHER, EMPTY, SHORT, LESS, MORE, LATE, NINTH, PAST, LEFT, SPOILS };

/* Makes an IPv6 packet's headers between such as a walk doesn't get past: the message is called hop-by-hop, there are
 * nine, the last one passes the payload's end, or there is a routing header with segments left. */
static void spoil_walk(struct packet *p, enum spoil how)
{
    if (how == LATE)
        *name_of(p, p->header) = HOP_BY_HOP;
    if (how == PAST)
        name_of(p, p->header)[1] = 255;
    for (unsigned i = 0; how == NINTH && i < 9; i++)
        insert(p, OPTIONS);
    if (how == LEFT) {
        insert(p, ROUTING);
        p->bytes[p->header - 5] = 1;
    }
}

/* Makes a packet a fragment (in IPv6 by a fragment header, the first or the last), gives it another protocol, cuts its
 * message and its declared length, or has TCP or UDP say a length below the fixed header's or past the message; or
 * spoils the walk. The header field becomes fresh. Answers 0 if this kind of packet can't be spoiled so. */
static int spoil(struct packet *p, enum spoil how)
{
    static const unsigned flags[] = {0x2000, 0x60B9, 0x1FFF};
    int four = p->kind->family == 4;
    uint8_t *message = p->bytes + p->header;
    if (how <= LAST && four)
        put(p->bytes + 6, flags[how]);
    else if (how <= OTHER)
        *(four ? p->bytes + 9 : name_of(p, how == FIRST ? 40 : p->header)) = how == OTHER ? 47 : FRAGMENT;
    else if (how <= SHORT) {
        p->len = p->header + (how == EMPTY ? 0 : p->kind->fixed - 1);
        put(p->bytes + (four ? 2 : 4), four ? p->len : p->len - 40);
    } else if (how >= LATE && p->built->between)
        spoil_walk(p, how);
    else if (how <= MORE && p->kind->protocol == TCP)
        message[12] = how == LESS ? 0x40 : 0xF0;
    else if (how <= MORE && p->kind->protocol == UDP)
        put(message + 4, how == LESS ? 7 : message_len(p) + 1);
    else
        return 0;
    if (four) {
        put(p->bytes + 10, 0);
        put(p->bytes + 10, 65535 - fold(total(p->bytes, p->header)));
    }
    return 1;
}

/* Changes a word so that a total becomes a multiple of 65535. */
static void balance(uint8_t *at, unsigned long sum)
{
    put(at, (word(at) + 65535 - sum % 65535) % 65535);
}

/* Makes the fresh message field 0000 (UDP's FFFF): the block passes with its field read as 0000. An address is
 * changed, or where none is covered the message's second word from the end of its fixed header. */
static void balance_message(struct packet *p)
{
    put(field_of(p), 0);
    balance(p->kind->protocol == ICMP ? p->bytes + p->header + 4 : p->bytes + (p->kind->family == 4 ? 16 : 38),
            message_total(p));
}

static void balance_header(struct packet *p)
{
    put(p->bytes + 10, 0);
    balance(p->bytes + 4, total(p->bytes, p->header));
}

/* Groups */

static struct packet p, q;

/* A message of a length at an address: good, with one bit wrong, and mended. Some have bodies of ones, with addresses
 * of ones or with such as bring a total of 64 bits near its end; and some are all zeros. */
static void message(const struct kind *kind, size_t options, size_t len, size_t address)
{
    build(&p, kind, options, len);
    if (address % 4 == 3) {
        size_t from = kind->family == 4 ? 12 : 8, to = kind->family == 4 ? 20 : 40;
        memset(p.bytes + body_of(&p), address % 16 == 3 ? 0 : 0xFF, p.len - p.tail - body_of(&p));
        memset(p.bytes + from, address % 8 == 7 ? 0xFF : 0, to - from);
        memset(p.bytes + to - 4, address % 16 == 3 ? 0 : 0xFF, 4);
        freshen(&p);
    }
    hold(JUDGE, &p, address, 0, NULL, 0);
    p.bytes[p.header + any((unsigned)message_len(&p))] ^= (uint8_t)(1 << any(8));
    shape(&p);
    hold(JUDGE, &p, address, 0, NULL, 0);
    hold(MEND, &p, address, 0, NULL, 0);
}

/* Every length up to 300 at every address modulo 32, and longer ones up to the longest that there is. */
static void lengths(void)
{
    static const size_t longer[] = {383,  384,  385,  511,  512,  513,   1023, 1024,
                                    1025, 1480, 2049, 4097, 65001, 65514, 65515};
    for (size_t k = 0; k < KINDS; k++) {
        for (size_t len = kinds[k].fixed; len <= 300; len++)
            for (size_t address = 0; address < 32; address++)
                message(&kinds[k], len % 5 == 0 ? 4 * any(11) : 0, len, address);
        for (size_t i = 0; i < sizeof longer / sizeof *longer; i++)
            for (size_t address = 0; address < 32; address += longer[i] < 5000 ? 1 : 5)
                message(&kinds[k], 0, longer[i], address);
    }
    for (size_t k = 0; k < KINDS; k++)
        for (size_t address = 0; address < 16 && kinds[k].family == 6; address++)
            message(&kinds[k], 0, 65535, address);
    group("messages of every length");
}

/* Totals that are multiples of 65535, under every corner field. */
static void multiples(void)
{
    static const size_t sizes[] = {0,  1,   2,   7,   8,   9,   31,  32,  33,  63, 64,
                                   65, 100, 119, 120, 121, 127, 128, 129, 255, 256, 280};
    for (size_t k = 0; k < KINDS; k++)
        for (size_t s = 0; s < sizeof sizes / sizeof *sizes; s++)
            for (size_t c = 0; c < CORNERS; c++) {
                build(&p, &kinds[k], s % 3 == 2 ? 40 : 0, kinds[k].fixed + sizes[s]);
                balance_message(&p);
                put(field_of(&p), corners[c]);
                if (kinds[k].family == 4) {
                    put(p.bytes + 10, 0);
                    put(p.bytes + 10, 65535 - fold(total(p.bytes, p.header)));
                }
                hold(JUDGE, &p, s, 0, NULL, 0);
                hold(MEND, &p, s, 0, NULL, 0);
                if (kinds[k].family == 4) {
                    balance_header(&p);
                    put(p.bytes + 10, corners[(c + s) % CORNERS]);
                    hold(JUDGE, &p, s, 0, NULL, 0);
                    hold(MEND, &p, s, 0, NULL, 0);
                    put(p.bytes + 10, c % 2 ? 0 : 0xFFFF);
                    hold(JUDGE, &p, s, 0, NULL, 0);
                }
            }
    group("totals that are multiples of 65535");
}

/* ICMP of zeros alone, and of zeros with words of FFFF, or with one byte: only zeros themselves have a total of 0. */
static void blanks(void)
{
    static const uint8_t one = 1;
    static const uint8_t zeros[300];
    for (size_t len = 8; len <= 300; len++)
        for (size_t c = 0; c < CORNERS; c++) {
            build(&p, &kinds[0], 0, len);
            memset(p.bytes + p.header, 0, len);
            put(field_of(&p), corners[c]);
            hold(JUDGE, &p, len % 32, 0, NULL, 0);
            hold(MEND, &p, len % 32, 0, NULL, 0);
            hold(STRETCH, &p, len % 32, 0, zeros, len - 8);
            if (len > 8)
                hold(STRETCH, &p, len % 32, any((unsigned)len - 8), &one, 1);
            copy(&q, &p);
            size_t ones = 2 * any((unsigned)len / 2);
            put(q.bytes + q.header + (ones == 2 ? 4 : ones), 0xFFFF);
            hold(JUDGE, &q, len % 32, 0, NULL, 0);
            hold(MEND, &q, len % 32, 0, NULL, 0);
            size_t at = any((unsigned)len - 4) + 4;
            p.bytes[p.header + at] = (uint8_t)(1 + any(255));
            hold(JUDGE, &p, len % 32, 0, NULL, 0);
            hold(MEND, &p, len % 32, 0, NULL, 0);
            /* the last byte that isn't zero goes, or stays */
            if (at >= 8) {
                hold(STRETCH, &p, len % 32, at - 8, zeros, 1);
                hold(STRETCH, &p, len % 32, 0, zeros, len - 8);
                hold(STRETCH, &p, len % 32, at - 8, &one, 1);
            } else
                hold(STRETCH, &p, len % 32, 0, zeros, len - 8);
        }
    group("blank and nearly blank ICMP");
}

/* Exchanges the prefix that an address of a packet has for a new one. */
static void exchange(const struct packet *from, size_t address, size_t side, const uint8_t *new)
{
    uint8_t both[12];
    memcpy(both, from->bytes + 8 + 16 * (side % 2), 6);
    memcpy(both + 6, new, 6);
    hold(PREFIX, from, address, side, both, 12);
}

/* The lifetime under every header field that there is, and every lifetime. */
static void lifetimes(void)
{
    for (size_t k = 0; k < KINDS; k++) {
        build(&p, &kinds[k], 0, kinds[k].fixed + 4);
        for (unsigned field = 0; field < 65536 && kinds[k].family == 4; field += k == 0 ? 1 : 251) {
            put(p.bytes + 10, field);
            hold(LOWER, &p, 0, 0, NULL, 0);
        }
        for (unsigned c = 0; c < CORNERS; c++)
            for (unsigned lifetime = 0; lifetime < 256; lifetime++) {
                put(p.bytes + 10, corners[c]);
                put(field_of(&p), corners[(c + lifetime) % CORNERS]);
                p.bytes[kinds[k].family == 4 ? 8 : 7] = (uint8_t)lifetime;
                hold(LOWER, &p, 1, 0, NULL, 0);
            }
    }
    group("lifetimes");
}

/* The same in packets that no other edit takes. The other calls are tried on them too, and after the model lowered a
 * lifetime the library must judge as before. */
static void lifetimes_before_anything(void)
{
    static const uint8_t new[16] = {0xFD, 1, 2};
    for (size_t k = 0; k < KINDS; k++)
        for (unsigned how = 0; how < SPOILS; how++) {
            size_t four = kinds[k].family == 4, lifetime_at = four ? 8 : 7;
            build(&p, &kinds[k], how % 2 ? 8 : 0, kinds[k].fixed + 4);
            if (!spoil(&p, how))
                continue;
            copy(&q, &p);
            for (unsigned field = 0; field < 65536 && four; field += k == 1 && how == FIRST ? 1 : 251) {
                put(q.bytes + 10, field);
                hold(LOWER, &q, 2, 0, NULL, 0);
            }
            for (unsigned lifetime = 0; lifetime < 256; lifetime++) {
                p.bytes[lifetime_at] = (uint8_t)lifetime;
                if (four)
                    balance_header(&p);
                for (unsigned c = 0; c < CORNERS; c++) {
                    if (four)
                        put(p.bytes + 10, corners[c]);
                    hold(LOWER, &p, 3, 0, NULL, 0);
                }
                if (four)
                    put(p.bytes + 10, corners[lifetime % 2 ? 0 : lifetime / 2 % CORNERS]);
                hold(JUDGE, &p, 3, 0, NULL, 0);
                hold(MEND, &p, 3, 0, NULL, 0);
                hold(ADDRESS, &p, 3, lifetime % 2, new, four ? 4 : 16);
                hold(STRETCH, &p, 3, 0, new, 1);
                exchange(&p, 3, lifetime % 3, new);
                lower(&p);
                hold(JUDGE, &p, 3, 0, NULL, 0);
            }
        }
    group("lifetimes in packets that no other edit takes");
}

/* Pairs of old and new words whose difference is a corner. */
static const struct {
    unsigned old, new;
} changes[] = {
    {0x1234, 0x1234}, {0x1234, 0x1235}, {0x1235, 0x1234}, {0, 0xFFFF},      {0xFFFF, 0},
    {0xFFFF, 0xFFFF}, {0, 0},           {0, 1},           {1, 0},           {0xFFFE, 0xFFFF},
    {0xFFFF, 0xFFFE}, {0xFFFF, 1},      {1, 0xFFFF},      {0, 0xFFFE},      {0xFFFE, 0},
    {0x0100, 0},      {0, 0x0100},      {0x00FF, 0xFF00}, {0x7FFF, 0x8000}, {0x8000, 0x7FFF},
};
enum { CHANGES = sizeof changes / sizeof *changes };

/* Fills with a word and random ones, or with the word alone. */
static void fill(uint8_t *at, size_t len, unsigned value, const uint8_t *common)
{
    for (size_t i = 0; i < len; i++)
        at[i] = common ? common[i] : (uint8_t)(i % 2 ? value : value >> 8);
    if (common)
        put(at + len - 2, value);
}

/* Addresses whose words change by corners, under corner fields. With one word changed and the others kept, or with all
 * words alike. */
static void addresses(void)
{
    uint8_t common[16], new[16];
    for (size_t k = 0; k < KINDS; k++)
        for (size_t c = 0; c < CHANGES; c++)
            for (size_t header = 0; header < CORNERS; header++)
                for (size_t message = 0; message < CORNERS; message++) {
                    size_t size = kinds[k].family == 4 ? 4 : 16, side = (header + message) % 2;
                    build(&p, &kinds[k], 0, kinds[k].fixed + 3);
                    uint8_t *at = p.bytes + (size == 4 ? 12 : 8) + side * size;
                    for (size_t i = 0; i < size; i++)
                        common[i] = (uint8_t)any(256);
                    const uint8_t *shared = message % 3 ? common : NULL;
                    fill(at, size, changes[c].old, shared);
                    fill(new, size, changes[c].new, shared);
                    if (size == 4)
                        put(p.bytes + 10, corners[header]);
                    put(field_of(&p), corners[message]);
                    hold(ADDRESS, &p, c, side, new, size);
                    /* the same on a good packet, whose fields must stay fresh */
                    freshen(&p);
                    hold(ADDRESS, &p, c, side, new, size);
                }
    group("addresses");
}

/* Whether mending leaves a packet as it is. */
static int fresh(const struct packet *from)
{
    static struct packet mended;
    copy(&mended, from);
    mend(&mended);
    return memcmp(mended.bytes, from->bytes, from->len) == 0;
}

/* Exchanges a prefix of p, and back: the verdict stays, a fresh field stays fresh and no other becomes so, and in the
 * end each byte is as it was. */
static void there_and_back(size_t address, size_t side, const uint8_t *new)
{
    uint8_t old[6];
    memcpy(old, p.bytes + 8 + 16 * side, 6);
    exchange(&p, address, side, new);
    copy(&q, &p);
    unsigned verdict = judge(&q);
    if (exchange_prefix(&q, side, old, 6, new, 6))
        return;
    expect(judge(&q) == verdict, "the verdict before an exchange and after it");
    expect(fresh(&q) == fresh(&p), "a fresh field before an exchange and after it");
    hold(JUDGE, &q, address, 0, NULL, 0);
    exchange(&q, address, side, old);
    exchange_prefix(&q, side, new, 6, old, 6);
    expect(memcmp(q.bytes, p.bytes, p.len) == 0, "an exchange and back");
}

/* Prefixes whose words change by corners, before corner words and under corner fields. With one word changed and the
 * others kept, or with all words alike; some addresses are zeros behind the word. */
static void prefixes(void)
{
    uint8_t common[6], new[6], other[12] = {0};
    for (size_t i = 0; i < KINDS * CHANGES * CORNERS * CORNERS; i++) {
        size_t c = i / KINDS % CHANGES, before = i / KINDS / CHANGES % CORNERS, message = i / KINDS / CHANGES / CORNERS;
        size_t side = (before + message) % 2;
        build(&p, &kinds[i % KINDS], 0, kinds[i % KINDS].fixed + 3);
        uint8_t *at = p.bytes + 8 + 16 * side;
        for (size_t j = 0; j < 6; j++)
            common[j] = (uint8_t)any(256);
        const uint8_t *shared = message % 3 ? common : NULL;
        if (p.kind->family == 6) {
            fill(at, 6, changes[c].old, shared);
            put(at + 6, corners[before]);
            memset(at + 8, 0, message % 3 == 0 ? 8 : 0);
            put(field_of(&p), corners[message]);
        }
        fill(new, 6, changes[c].new, shared);
        there_and_back(c, side, new);
        /* one bit off */
        memcpy(other, at, 6);
        other[i / KINDS % 6] ^= (uint8_t)(1 << any(8));
        hold(PREFIX, &p, c, side, other, 12);
        /* on a good packet, whose field must stay fresh */
        freshen(&p);
        there_and_back(c, side, new);
    }
    group("prefixes");
}

/* Every word behind the prefix of an address of p: each of 0000 to FFFE is written for one of them, and the last, FFFF,
 * is refused. The pair is the prefix and the new one. */
static void each_word(size_t side, const uint8_t *pair)
{
    uint8_t *at = p.bytes + 8 + 16 * side, written[65536] = {0};
    unsigned refusal = 0, once = 0;
    memcpy(at, pair, 6);
    for (unsigned before = 0; before < 65536; before++) {
        put(at + 6, before);
        hold(PREFIX, &p, 1, side, pair, 12);
        copy(&q, &p);
        refusal = exchange_prefix(&q, side, pair, 6, pair + 6, 6);
        if (refusal == 0)
            once += !written[word(q.bytes + (at - p.bytes) + 6)]++;
    }
    expect(refusal == 10, "FFFF is refused");
    expect(once == 65535 && !written[65535], "each of 0000 to FFFE is written");
}

static void words(void)
{
    static const uint8_t pairs[][12] = {
        {0xFD, 1, 2, 3, 4, 5, 0x20, 1, 0x0D, 0xB8, 0, 1},
        {0x20, 1, 0x0D, 0xB8, 0, 1, 0xFD, 1, 2, 3, 4, 5},
        {0},
        {0, 0, 0, 0, 0, 0, 255, 255, 255, 255, 255, 255},
        {255, 255, 255, 255, 255, 255, 255, 255, 255, 255, 255, 254},
    };
    for (size_t i = 0; i < sizeof pairs / sizeof *pairs; i++) {
        const struct kind *kind = &kinds[KINDS - 1 - i]; /* IPv6's are the last eight */
        build(&p, kind, 0, kind->fixed + 3);
        each_word(i % 2, pairs[i]);
    }
    group("words behind a prefix");
}

/* Stretches at even and odd places whose bytes change by corners, under corner fields: two bytes, one, and more with
 * the rest kept or all alike. */
static void stretches(void)
{
    uint8_t new[20];
    for (size_t k = 0; k < KINDS; k++)
        for (size_t c = 0; c < CHANGES; c++)
            for (size_t message = 0; message < CORNERS; message++)
                for (size_t len = 1; len <= 20; len++)
                    for (size_t place = 0; place < 4; place++) {
                        build(&p, &kinds[k], 0, kinds[k].fixed + 24);
                        uint8_t *at = p.bytes + body_of(&p) + place;
                        for (size_t i = 0; i < len; i++) {
                            at[i] = (uint8_t)(i % 2 ? changes[c].old : changes[c].old >> 8);
                            new[i] = (uint8_t)(i % 2 ? changes[c].new : changes[c].new >> 8);
                            /* from the third byte on half of the cases change nothing */
                            if (i >= 2 && message % 2)
                                new[i] = at[i];
                        }
                        if (message % 3 == 2) {
                            freshen(&p);
                            hold(STRETCH, &p, len, place, new, len);
                        }
                        put(field_of(&p), corners[message]);
                        hold(STRETCH, &p, len, place, new, len);
                    }
    group("stretches");
}

/* Edits that make the sum under a good field a multiple of 65535: the field comes to 0000, UDP's to FFFF; and back. */
static void to_multiples(void)
{
    for (size_t k = 0; k < KINDS; k++)
        for (size_t len = 2; len <= 40; len++)
            for (size_t turn = 0; turn < 8; turn++) {
                build(&p, &kinds[k], 0, kinds[k].fixed + 48);
                copy(&q, &p);
                uint8_t new[64];
                size_t place = turn % 4, at = body_of(&p) + place, even = at + (place % 2);
                for (size_t i = 0; i < len; i++)
                    q.bytes[at + i] = (uint8_t)any(256);
                if (even + 2 <= at + len) {
                    put(field_of(&q), 0);
                    balance(q.bytes + even, message_total(&q));
                }
                memcpy(new, q.bytes + at, len);
                hold(STRETCH, &p, turn, place, new, len);
                /* and back */
                put(field_of(&q), turn < 4 || kinds[k].protocol == UDP ? 0xFFFF : 0);
                memcpy(new, p.bytes + at, len);
                hold(STRETCH, &q, turn, place, new, len);
                hold(JUDGE, &q, turn, 0, NULL, 0);
                hold(MEND, &q, turn, 0, NULL, 0);
            }
    group("edits to multiples and back");
}

/* Judges and mends p with the field that would be right if the covered block were read so. */
static void misread(enum how how, size_t address)
{
    put(field_of(&p), 0);
    unsigned field = 65535 - fold(total_read(&p, how));
    put(field_of(&p), field == 0 ? 0xFFFF : field);
    hold(JUDGE, &p, address, 0, NULL, 0);
    hold(MEND, &p, address, 0, NULL, 0);
}

/* Edits of p. Stretches end on both sides of the datagram's end, and with the message. */
static void edits(size_t address)
{
    uint8_t new[40];
    size_t body = refused(&p) ? 0 : covered_len(&p) - 8;
    for (size_t i = 0; i < sizeof new; i++)
        new[i] = (uint8_t)any(256);
    hold(LOWER, &p, address, 0, NULL, 0);
    hold(ADDRESS, &p, address, any(2), new, p.kind->family == 4 ? 4 : 16);
    exchange(&p, address, any(3), new);
    for (size_t len = 0; len <= 4; len++)
        for (size_t end = body > len ? body : len; end <= body + 2; end++)
            hold(STRETCH, &p, address, end - len, new, len);
    hold(STRETCH, &p, address, 0, new, message_len(&p) - 8);
}

/* Every length that UDP may say, and some that it may not, in messages of 9 to 48 bytes. */
static void datagrams(void)
{
    static const size_t others[] = {0, 1, 6, 7, 0x00FF, 0x0100, 0x0800, 0x7FFF, 0x8008, 0xFF08, 0xFFFE, 0xFFFF};
    enum { OTHERS = sizeof others / sizeof *others };
    for (size_t i = 0; i < KINDS * 96; i++) {
        const struct kind *kind = &kinds[i / 96];
        build(&p, kind, i % 3 ? 0 : 4 * any(11), 8);
        for (size_t length = 8; kind->tail && length <= message_len(&p) + 2 + OTHERS; length++) {
            size_t past = message_len(&p) + 3;
            put(p.bytes + p.header + 4, length < past ? length : others[length - past]);
            hold(JUDGE, &p, i % 32, 0, NULL, 0);
            hold(MEND, &p, i % 32, 0, NULL, 0);
            for (enum how how = RIGHT; how <= BOTH && !refused(&p); how++)
                misread(how, i % 32);
            if (!refused(&p))
                freshen(&p);
            edits(i % 32);
        }
    }
    group("datagrams that end before their message");
}

/* Every call on p. Stretches are such as fit the body or pass it by one, and empty ones. */
static void every_call(size_t address)
{
    uint8_t new[64];
    size_t body = refused(&p) ? 1 : p.header + covered_len(&p) - body_of(&p), some = body < 63 ? body : 63;
    for (size_t i = 0; i < sizeof new; i++)
        new[i] = (uint8_t)any(256);
    hold(JUDGE, &p, address, 0, NULL, 0);
    hold(MEND, &p, address, 0, NULL, 0);
    hold(LOWER, &p, address, 0, NULL, 0);
    hold(ADDRESS, &p, address, 0, new, 16);
    hold(ADDRESS, &p, address, 1, new, 16);
    hold(PREFIX, &p, address, 0, new, 12);
    exchange(&p, address, 0, new);
    exchange(&p, address, 1, new);
    exchange(&p, address, 2, new);
    hold(STRETCH, &p, address, body - some, new, some);
    hold(STRETCH, &p, address, body - some, new, some + 1);
    hold(STRETCH, &p, address, any((unsigned)body + 1), new, any(2));
    hold(STRETCH, &p, address, body, NULL, 0);
}

/* What can be about one header between: nothing; it is a fragment header, or hop-by-hop; its length ends with the
 * payload, or passes its end, or is 255; it has segments left, also with such a length, or before a fragment header;
 * the payload ends before its eighth byte, or behind that; what follows all headers is another; or the payload ends
 * with the last one; or any bytes are others. */
enum about {
    NOTHING, FRAGMENTED, HOPPING, TO_END, PAST_END, LONGEST, SEGMENTS, SEGMENTS_PAST, SEGMENTS_FRAGMENT, CUT_EARLY,
    CUT_LATE, FOLLOWED, NO_MESSAGE, DAMAGED, ABOUTS
};

/* Has this be about a header of p. Bytes that the payload loses are behind the packet then. */
static void be(enum about about, uint8_t *header, unsigned turn)
{
    static const uint8_t others[] = {0, 43, 44, 60, 1, 6, 17, 58, 50, 51, 59, 135, 255};
    size_t at = (size_t)(header - p.bytes), end = end_of(&p), cut = end;
    uint8_t *last = name_of(&p, p.header);
    if (about >= SEGMENTS && about <= SEGMENTS_FRAGMENT) {
        *name_of(&p, at) = ROUTING;
        header[3] = (uint8_t)(turn % 3 ? 1 + any(255) : 1);
    }
    switch (about) {
    case FRAGMENTED: *name_of(&p, at) = FRAGMENT; break;
    case HOPPING: *name_of(&p, at) = HOP_BY_HOP; break;
    case TO_END: cut = end - (end - at) % 8; header[1] = (uint8_t)((cut - at) / 8 - 1); break;
    case PAST_END:
    case SEGMENTS_PAST: header[1] = (uint8_t)((end - at) / 8); break;
    case LONGEST: header[1] = 255; break;
    case SEGMENTS_FRAGMENT: header[0] = FRAGMENT; break;
    case CUT_EARLY: cut = at + turn % 8; break;
    case CUT_LATE: cut = at + 8 + any(8u * header[1] + 1); break;
    case FOLLOWED: *last = others[turn % sizeof others]; break;
    case NO_MESSAGE: cut = p.header; *last = others[turn % sizeof others]; break;
    case DAMAGED:
        for (unsigned i = 0; i <= turn % 3; i++)
            p.bytes[any(4) ? 40 + any((unsigned)p.header - 40) : 6] = (uint8_t)(any(2) ? any(256) : others[any(4)]);
        break;
    default: break;
    }
    put(p.bytes + 4, cut - 40);
}

/* Up to nine headers between, of which the ninth is refused anyway, and each thing that can be about any of them. What
 * is lent ends with the packet, or goes on. */
static void walks(void)
{
    struct header headers[9];
    for (size_t i = 0; i < KINDS * 9 * ABOUTS * 26; i++) {
        const struct kind *kind = &kinds[i % KINDS];
        size_t count = 1 + i / KINDS % 9, which = any((unsigned)count), at = 40;
        unsigned about = i / KINDS / 9 % ABOUTS, turn = (unsigned)(i / KINDS / 9 / ABOUTS);
        if (!kind->between)
            continue;
        draw(headers, count);
        build_behind(&p, kind, 0, headers, count, kind->fixed + any(2) * any(40));
        for (size_t j = 0; j < which; j++)
            at += 8 + 8 * headers[j].units;
        be(about, p.bytes + at, turn);
        if (turn % 2)
            p.len = end_of(&p);
        every_call(i % 32);
    }
    group("headers between");
}

/* Sums that are right only if the headers between are misread. One at least is a routing header with an address. */
static void misreadings(void)
{
    for (size_t i = 0; i < KINDS * 60; i++) {
        struct header headers[8] = {{0, 0}};
        size_t count = 1 + any(8);
        if (!kinds[i % KINDS].between)
            continue;
        draw(headers, count);
        headers[any((unsigned)count)] = (struct header){ROUTING, 2 + any(3)};
        build_behind(&p, &kinds[i % KINDS], 0, headers, count, kinds[i % KINDS].fixed + any(60));
        for (enum how how = PAYLOAD; how <= ROUTED; how++) {
            misread(how, i % 32);
            every_call(i % 32);
        }
    }
    group("headers between, misread");
}

/* Fragments. They lie in a yard, and the records say where. */

enum { YARD = 1 << 18, RECORDS = 70, FOURS = 4 };
static uint8_t yard[YARD];
static struct hifrostum_fragment list[RECORDS];
static size_t used, count;

static uint8_t *packet_at(size_t i)
{
    return yard + list[i].offset;
}

static void fresh_head(uint8_t *packet)
{
    put(packet + 10, 0);
    put(packet + 10, 65535 - fold(total(packet, 4u * (packet[0] & 15))));
}

/* Lays a fragment into the yard, the bytes of a packet's message from one place to another. Options, lifetime, service
 * byte, the flags beside more-fragments, and a tail are its own, and other bytes may lie before it. */
static void lay(const struct packet *from, size_t at, size_t end)
{
    size_t header = any(4) || end - at > 65000 ? 20 : 20 + 4 * any(11), len = header + end - at;
    size_t before = any(4) ? 0 : any(5), tail = any(4) ? 0 : any(9);
    for (size_t i = 0; i < before + len + tail; i++)
        yard[used + i] = (uint8_t)any(256);
    uint8_t *packet = yard + used + before;
    packet[0] = (uint8_t)(0x40 + header / 4);
    put(packet + 2, len);
    memcpy(packet + 4, from->bytes + 4, 2);
    put(packet + 6, 0x4000 * any(4) + (end < message_len(from) ? 0x2000 : 0) + at / 8);
    packet[9] = from->bytes[9];
    memcpy(packet + 12, from->bytes + 12, 8);
    memcpy(packet + header, from->bytes + from->header + at, end - at);
    fresh_head(packet);
    list[count++] = (struct hifrostum_fragment){used + before, len + tail};
    used += before + len + tail;
}

/* Cuts a packet's message into so many fragments, or as many as it has eights, and lays them in order. */
static void scatter(const struct packet *from, size_t pieces)
{
    size_t len = message_len(from), at = 0, eights = (len + 7) / 8;
    used = count = 0;
    for (pieces = pieces < eights ? pieces : eights; pieces > 1; pieces--) {
        size_t most = (len - at + 7) / 8 - (pieces - 1), some = 1 + any((unsigned)(2 * most / pieces + 1));
        size_t end = at + 8 * (some < most ? some : most);
        lay(from, at, end);
        at = end;
    }
    lay(from, at, len);
}

static void swap(size_t i, size_t j)
{
    struct hifrostum_fragment record = list[i];
    list[i] = list[j];
    list[j] = record;
}

static void shuffle(void)
{
    for (size_t i = count; i > 1; i--)
        swap(i - 1, any((unsigned)i));
}

static void reverse(void)
{
    for (size_t i = 0; i < count / 2; i++)
        swap(i, count - 1 - i);
}

static void hold_yard(const struct kind *kind)
{
    hold_list(kind, yard, used, list, count);
}

/* In the order that they have, in the other, and in any. */
static void hold_orders(const struct kind *kind)
{
    hold_yard(kind);
    reverse();
    hold_yard(kind);
    shuffle();
    hold_yard(kind);
}

/* The fragments of p: as they are, with one bit of the message wrong, with one bit wrong anywhere in the yard, with a
 * record that reaches over all behind it, with one left out, and with one twice. */
static void pieces_of(size_t pieces)
{
    const struct kind *kind = p.built;
    scatter(&p, pieces);
    hold_orders(kind);
    size_t which = any((unsigned)count), reaching = 0;
    uint8_t *packet = packet_at(which), *own = packet + 4 * (packet[0] & 15), *any_byte = yard + any((unsigned)used);
    uint8_t bit = (uint8_t)(1 << any(8)), other = (uint8_t)(1 << any(8));
    own += any((unsigned)(packet + word(packet + 2) - own));
    *own ^= bit;
    hold_orders(kind);
    *own ^= bit;
    *any_byte ^= other;
    hold_orders(kind);
    *any_byte ^= other;
    size_t length = list[which].length;
    list[which].length = used - list[which].offset;
    hold_orders(kind);
    for (size_t i = 0; i < count; i++)
        if (packet_at(i) == packet)
            list[reaching = i].length = length;
    swap(reaching, --count);
    hold_orders(kind);
    count++;
    list[count] = list[which];
    count++;
    hold_orders(kind);
}

/* Messages of every length up to 200, and some up to the longest, in one to 64 pieces. */
static void fragmentations(void)
{
    static const size_t longer[] = {504, 505, 512, 521, 1480, 4097, 65514, 65515}, some[] = {1, 64, 2, 3, 17};
    for (size_t k = 0; k < FOURS; k++) {
        for (size_t len = kinds[k].fixed; len <= 200; len++)
            for (size_t turn = 0; turn < 12; turn++) {
                build(&p, &kinds[k], 0, len);
                if (turn % 6 == 5)
                    put(field_of(&p), 0);
                pieces_of(turn < 6 ? 1 + turn % 4 : 1 + any(25));
            }
        for (size_t i = 0; i < sizeof longer / sizeof *longer; i++)
            for (size_t turn = 0; turn < (longer[i] < 5000 ? 5 : 2); turn++) {
                build(&p, &kinds[k], 0, longer[i]);
                pieces_of(some[turn]);
            }
    }
    group("messages in fragments");
}

/* Lists of no record, of 64, 65 and more; records that pass the buffer's end, by one byte, and by so many that their
 * sum wraps, also behind one whose header is wrong. */
static void lists(void)
{
    for (size_t i = 0; i < FOURS * 60; i++) {
        const struct kind *kind = &kinds[i % FOURS];
        build(&p, kind, 0, 640);
        scatter(&p, 64 + i / FOURS % 6);
        hold_orders(kind);
        scatter(&p, 1 + any(64));
        hold_list(kind, yard, used, list, 0);
        hold_list(kind, yard, 0, list, 0);
        if (i / FOURS % 2)
            packet_at(0)[any(20)] ^= (uint8_t)(1 << any(8));
        struct hifrostum_fragment *record = &list[any((unsigned)count)], was = *record;
        size_t past = used - was.offset + 1;
        const struct hifrostum_fragment outside[] = {
            {was.offset, past},      {was.offset, past - 1},      {used, 0},
            {used, 1},               {used + 1, 0},               {was.offset + past, SIZE_MAX - was.offset - past + 1},
            {was.offset, SIZE_MAX},  {1, SIZE_MAX},               {SIZE_MAX, 1},
            {SIZE_MAX, 0},           {SIZE_MAX, SIZE_MAX},        {0, SIZE_MAX},
            {was.offset, SIZE_MAX - was.offset + 1 + any(20)},    {SIZE_MAX - 19, 40},
            {(size_t)1 << 63, (size_t)1 << 63},                   {(size_t)1 << 32, was.length},
            {was.offset, was.length + ((size_t)1 << 32)},
        };
        for (size_t j = 0; j < sizeof outside / sizeof *outside; j++) {
            *record = outside[j];
            hold_yard(kind);
        }
        hold_list(kind, yard, was.offset + was.length - 1, list, count);
    }
    group("lists of fragments");
}

/* What can be wrong with a record by its header. */
enum head { NO_BYTES, IS_SIX, OTHER_VERSION, FEW_BYTES, FEW_WORDS, FEW_TOTAL, BYTE_SHORT, WRONG_SUM, HEADS };

/* Makes a record's header wrong. Its sum becomes right again, unless that is what is to be wrong. */
static void spoil_head(size_t i, enum head how)
{
    static const uint8_t others[] = {0x05, 0x15, 0x35, 0x55, 0x75, 0xF5};
    uint8_t *packet = packet_at(i);
    size_t header = 4u * (packet[0] & 15);
    switch (how) {
    case NO_BYTES: list[i].length = 0; break;
    case IS_SIX: packet[0] = (uint8_t)(0x60 + (packet[0] & 15)); break;
    case OTHER_VERSION: packet[0] = others[any(6)]; break;
    case FEW_BYTES: list[i].length = 1 + any(19); break;
    case FEW_WORDS: packet[0] = (uint8_t)(0x40 + any(5)); break;
    case FEW_TOTAL: put(packet + 2, header == 0 ? 0 : header - 1 - any(2) * any((unsigned)header)); break;
    case BYTE_SHORT: list[i].length = word(packet + 2) - (word(packet + 2) > 0); break;
    default: break;
    }
    if (list[i].length >= header)
        fresh_head(packet);
    if (how == WRONG_SUM)
        packet[10 + any(10)] ^= (uint8_t)(1 << any(8));
}

/* Each of them in each of four records, with another in the same record or another, and with fragments that aren't of
 * one packet, or of which one is empty. */
static void heads(void)
{
    for (size_t i = 0; i < FOURS * HEADS * 4 * (HEADS + 1) * 4; i++) {
        const struct kind *kind = &kinds[i % FOURS];
        enum head how = i / FOURS % HEADS, other = i / FOURS / HEADS / 4 % (HEADS + 1);
        build(&p, kind, 0, 40);
        scatter(&p, 4);
        shuffle();
        size_t which = i / FOURS / HEADS % 4, second = any(4);
        uint8_t *packet = packet_at(any(4));
        if (i % 3 == 0)
            packet[12 + any(8)] ^= 1;
        if (i % 3 == 1)
            put(packet + 2, 4u * (packet[0] & 15));
        fresh_head(packet);
        if (other < HEADS)
            spoil_head(second, other);
        spoil_head(which, how);
        hold_yard(kind);
    }
    group("fragments by their headers");
}

/* What can be wrong with fragments whose headers are right. */
enum misfit {
    SOURCE, TARGET, PROTOCOL, NUMBER, HOLLOW, BEYOND, LAST_OFFSET, LATER, EARLIER, MORE_SET, MORE_CLEAR, SHORTER,
    LONGER, OUT, TWICE, EXCHANGED, MISFITS
};

/* Makes a fragment unfit. Its header's sum stays right. */
static void misfit(size_t i, enum misfit how)
{
    uint8_t *packet = packet_at(i);
    size_t header = 4u * (packet[0] & 15), at = word(packet + 6) & 0x1FFF, len = word(packet + 2) - header;
    unsigned flags = word(packet + 6) & 0xE000;
    switch (how) {
    case SOURCE: packet[12 + any(4)] ^= (uint8_t)(1 << any(8)); break;
    case TARGET: packet[16 + any(4)] ^= (uint8_t)(1 << any(8)); break;
    case PROTOCOL: packet[9] ^= (uint8_t)(1 << any(8)); break;
    case NUMBER: packet[4 + any(2)] ^= (uint8_t)(1 << any(8)); break;
    case HOLLOW: put(packet + 2, header); break;
    /* the first place from which it ends past 65,515, or the last from which it doesn't */
    case BEYOND: put(packet + 6, flags + (65515 - len) / 8 + any(2)); break;
    case LAST_OFFSET: put(packet + 6, flags + 8191 - any(3)); break;
    case LATER: put(packet + 6, flags + ((at + 1 + any(3)) & 0x1FFF)); break;
    case EARLIER: put(packet + 6, flags + at - (at > 0)); break;
    case MORE_SET: put(packet + 6, word(packet + 6) | 0x2000); break;
    case MORE_CLEAR: put(packet + 6, word(packet + 6) & ~0x2000u); break;
    case SHORTER: put(packet + 2, header + len - (len > 8 ? 1 + any(8) : 1)); break;
    case LONGER: put(packet + 2, header + len + (any(2) ? 8 : 1 + any(8))); break;
    case OUT: swap(i, --count); break;
    case TWICE: list[count++] = list[i]; break;
    case EXCHANGED: memcpy(packet + header, q.bytes + q.header + 8 * at, len); break;
    default: break;
    }
    if (how == LONGER && list[i].length < word(packet + 2))
        list[i].length = word(packet + 2);
    fresh_head(packet);
}

/* Each of them in any of two to five fragments, with another and without, and in messages of another protocol. Those
 * that are longer end in the next one's header, or are the last, behind which there is room. */
static void misfits(void)
{
    for (size_t i = 0; i < FOURS * MISFITS * (MISFITS + 2) * 8; i++) {
        const struct kind *kind = &kinds[i % FOURS];
        enum misfit how = i / FOURS % MISFITS;
        size_t other = i / FOURS / MISFITS % (MISFITS + 2), turn = i / FOURS / MISFITS / (MISFITS + 2);
        build(&q, kind, 0, 90);
        build(&p, kind, 0, 40 + any(40));
        if (turn % 8 == 7)
            p.bytes[9] = (uint8_t)any(256);
        scatter(&p, 2 + turn % 4);
        used += 16;
        size_t which = any((unsigned)count);
        if (other < MISFITS)
            misfit(any((unsigned)count), other);
        misfit(which % count, how);
        hold_orders(kind);
    }
    group("fragments that don't fit");
}

/* A fragment that is 8 bytes longer than fits, or begins 8 bytes early, with the right bytes. */
static void overlaps(void)
{
    for (size_t i = 0; i < FOURS * 200; i++) {
        const struct kind *kind = &kinds[i % FOURS];
        build(&p, kind, 0, 64);
        size_t first = 8 * (1 + any(3)), second = first + 8 * (1 + any(3)), early = i / FOURS % 2 ? 8 : 0;
        used = count = 0;
        lay(&p, 0, first + 8 - early);
        lay(&p, first - early, second);
        lay(&p, second, message_len(&p));
        hold_orders(kind);
    }
    group("fragments that overlap");
}

/* Whole messages: totals that are multiples of 65535 under every corner field, ones without a sum among them. */
static void joined_multiples(void)
{
    for (size_t i = 0; i < FOURS * CORNERS * 30; i++) {
        const struct kind *kind = &kinds[i % FOURS];
        build(&p, kind, 0, kind->fixed + any(60));
        balance_message(&p);
        put(field_of(&p), corners[i / FOURS % CORNERS]);
        scatter(&p, 1 + any(6));
        hold_orders(kind);
        if (kind->protocol == ICMP) {
            memset(p.bytes + p.header, 0, message_len(&p));
            p.bytes[p.header + any((unsigned)message_len(&p))] = (uint8_t)(any(2) * any(256));
            scatter(&p, 1 + any(6));
            hold_orders(kind);
        }
    }
    group("messages in fragments, and multiples of 65535");
}

/* Messages of every protocol, ones shorter than their fixed header too, and with every data offset and lengths that UDP
 * may say or not. The field is right for the message, for the first fragment's length in the pseudo-header, and as the
 * covered block may be misread. */
static void joined_shapes(void)
{
    for (size_t i = 0; i < FOURS * 256 * 4; i++) {
        const struct kind *kind = &kinds[i % FOURS];
        unsigned turn = (unsigned)(i / FOURS) % 256;
        build(&p, kind, 0, 20 + any(60));
        uint8_t *message = p.bytes + p.header;
        size_t len = message_len(&p);
        if (kind->protocol == TCP)
            message[12] = (uint8_t)turn;
        if (kind->protocol == UDP)
            put(message + 4, turn < len + 3 ? turn : any(65536));
        if (!refused(&p)) {
            freshen(&p);
            for (enum how how = RIGHT; how <= BOTH && kind->tail; how++) {
                put(field_of(&p), 0);
                put(field_of(&p), 65535 - fold(total_read(&p, how)));
                scatter(&p, 1 + any(6));
                hold_yard(kind);
            }
            freshen(&p);
        }
        scatter(&p, 1 + any(6));
        hold_orders(kind);
        if (!refused(&p)) {
            size_t first = word(packet_at(0) + 2) - 4u * (packet_at(0)[0] & 15);
            balance(field_of(&p), message_total(&p) - covered_len(&p) + first);
            scatter(&p, 2);
            hold_yard(kind);
        }
        p.bytes[9] = (uint8_t)turn;
        scatter(&p, 1 + any(6));
        hold_yard(kind);
        p.bytes[9] = (uint8_t)(i % 3 ? kind->protocol : turn);
        put(p.bytes + 2, p.header + 1 + any(kind->fixed));
        scatter(&p, 1 + any(3));
        hold_orders(kind);
    }
    group("messages in fragments, and their shapes");
}

/* Packets that are built */

/* The kinds that are: UDP over IPv4 and over IPv6, with no tail and no header between. */
static const struct kind *const owns[] = {&kinds[2], &kinds[5]};
enum { OWNS = 2, ROOMIEST = 1800 };

/* Where addresses and body of the next status lie. Their bytes are random. */
static uint8_t sides[2][40], body[2048];

/* A status of a kind with so many bytes of body. */
static struct status status_of(const struct kind *kind, size_t len)
{
    size_t size = kind->family == 4 ? 4 : 16;
    for (size_t i = 0; i < sizeof sides; i++)
        sides[i / 40][i % 40] = (uint8_t)any(256);
    for (size_t i = 0; i < len; i++)
        body[i] = (uint8_t)any(256);
    return (struct status){kind,       sides[0], sides[1], body, size, size, len, corners[any(CORNERS)],
                           any(65536), 1 + any(255)};
}

static size_t size_of(const struct status *s)
{
    return (s->source_len == 4 ? 28 : 48) + s->body_len;
}

static unsigned call_build(const struct status *s, uint8_t *buffer, size_t len, size_t *length)
{
    return hifrostum_build_udp(s->source, s->source_len, s->destination, s->destination_len, (uint16_t)s->source_port,
                               (uint16_t)s->destination_port, (uint8_t)s->lifetime, s->body, s->body_len, buffer, len,
                               length);
}

/* Whether the packet, found as the model finds a message, says what it was built from, and nothing else. */
static int reads_back(const struct status *s, const uint8_t *bytes, size_t len)
{
    static struct packet got;
    size_t size = s->source_len, four = size == 4, from = four ? 12 : 8;
    got.built = got.kind = owns[four ? 0 : 1];
    got.len = len;
    memcpy(got.bytes, bytes, len);
    return refused(&got) == 0 && judge(&got) == 0 && end_of(&got) == len && got.header == from + 2 * size &&
           memcmp(bytes + from, s->source, size) == 0 && memcmp(bytes + from + size, s->destination, size) == 0 &&
           bytes[four ? 8 : 7] == s->lifetime && word(bytes + got.header) == s->source_port &&
           word(bytes + got.header + 2) == s->destination_port && covered_len(&got) == message_len(&got) &&
           len - body_of(&got) == s->body_len &&
           (s->body_len == 0 || memcmp(bytes + body_of(&got), s->body, s->body_len) == 0);
}

/* Compares a build into so many bytes at an address, which hold others, and what the library says of the packet. */
static void hold_build(const struct status *s, size_t address, size_t len)
{
    static uint8_t want[ROOMIEST], were[2][40], lent[sizeof body];
    uint8_t *at = room + GUARD + address;
    size_t length = SIZE_MAX, wanted_length;
    int kept = 1;
    for (size_t i = 0; i < GUARD + len + GUARD; i++)
        at[(ptrdiff_t)i - GUARD] = (uint8_t)(0xA5 + i * (address + 1));
    memcpy(want, at, len);
    memcpy(were, sides, sizeof sides);
    memcpy(lent, body, sizeof body);
    comparing = 1;
    unsigned wanted = build_udp(s, want, len, &wanted_length);
    comparing = 0;
    unsigned got = call_build(s, at, len, &length);
    for (size_t i = 0; i < GUARD; i++)
        kept &= at[(ptrdiff_t)i - GUARD] == (uint8_t)(0xA5 + i * (address + 1)) &&
                at[len + i] == (uint8_t)(0xA5 + (GUARD + len + i) * (address + 1));
    kept &= memcmp(were, sides, sizeof sides) == 0 && memcmp(lent, body, sizeof body) == 0;
    checks++;
    if ((got != wanted || length != wanted_length || memcmp(at, want, len) != 0 || !kept) && failed++ < 20)
        printf("corners: failed: build, IPv%u meant, addresses of %zu and %zu bytes, a body of %zu, a lifetime of %u, "
               "a buffer of %zu: wanted %u and %zu, got %u and %zu%s%s\n",
               s->built->family, s->source_len, s->destination_len, s->body_len, s->lifetime, len, wanted,
               wanted_length, got, length, memcmp(at, want, len) ? "; other bytes" : "",
               kept ? "" : "; a byte beside the buffer changed");
    if (got != 0 || wanted != 0)
        return;
    expect(reads_back(s, at, wanted_length), "a packet that was built reads back");
    expect(hifrostum_judge(at, len) == 0, "a packet that was built is good");
    expect(hifrostum_mend(at, len) == 0 && memcmp(at, want, len) == 0, "mending leaves it as it is");
}

/* Addresses of each two sizes, with bodies, lifetimes and buffers on both sides of what is taken. */
static void pairings(void)
{
    static const size_t sizes[] = {0, 1, 3, 4, 5, 8, 15, 16, 17, 20, 32}, bodies[] = {0, 1, 2, 1399, 1400, 1401, 2047};
    static const unsigned lives[] = {0, 1, 2, 255};
    for (size_t i = 0; i < OWNS * 11 * 11 * 7 * 4; i++) {
        struct status s = status_of(owns[i % 2], bodies[i / 2 % 7]);
        s.lifetime = lives[i / 14 % 4];
        s.source_len = sizes[i / 56 % 11];
        s.destination_len = sizes[i / 56 / 11];
        /* a pointer may be null where its length is 0 */
        s.source = s.source_len ? s.source : NULL;
        s.destination = s.destination_len ? s.destination : NULL;
        s.body = s.body_len ? s.body : NULL;
        size_t fits = size_of(&s) < ROOMIEST ? size_of(&s) : ROOMIEST;
        const size_t rooms[] = {0, 1, 27, 28, 47, 48, fits - 1, fits, fits + (fits < ROOMIEST), ROOMIEST};
        for (size_t j = 0; j < sizeof rooms / sizeof *rooms; j++)
            hold_build(&s, i % 32, rooms[j]);
    }
    group("packets built, and refused, by sizes");
}

/* Bodies of every length up to 300, and around 1,400, in a buffer at every address modulo 32. */
static void bodies(void)
{
    for (size_t i = 0; i < OWNS * 313 * 32; i++) {
        size_t len = i / 64 <= 300 ? i / 64 : 1090 + i / 64;
        struct status s = status_of(owns[i % 2], len);
        hold_build(&s, i / 2 % 32, size_of(&s) + (i % 3 ? any(40) : 0));
    }
    group("bodies of every length");
}

/* Every port, and every lifetime. */
static void numbers(void)
{
    for (size_t i = 0; i < OWNS * 65536; i++) {
        struct status s = status_of(owns[i % 2], 3);
        s.source_port = (unsigned)(i / 2);
        s.destination_port = 65535 - s.source_port;
        s.lifetime = s.source_port % 256;
        hold_build(&s, 1, size_of(&s) + 2);
    }
    group("ports and lifetimes");
}

/* Addresses, ports and bodies of zeros alone, of ones alone, and of both. */
static void plain(void)
{
    for (size_t i = 0; i < OWNS * 16 * 1401; i++) {
        struct status s = status_of(owns[i % 2], i / 32);
        memset(sides[0], i / 2 % 2 ? 0xFF : 0, sizeof sides[0]);
        memset(sides[1], i / 4 % 2 ? 0xFF : 0, sizeof sides[1]);
        memset(body, i / 8 % 2 ? 0xFF : 0, s.body_len);
        s.source_port = s.destination_port = i / 16 % 2 ? 0xFFFF : 0;
        hold_build(&s, 2, size_of(&s) + i % 5);
    }
    group("packets of zeros and of ones");
}

/* UDP's field at every corner, by a word of the body at an even place, of an address, or the source port. */
static void built_fields(void)
{
    static uint8_t packet[ROOMIEST];
    for (size_t i = 0; i < OWNS * 205 * CORNERS * 3; i++) {
        size_t len = i / OWNS / CORNERS / 3, way = i / OWNS % 3, length;
        unsigned aim = corners[i / OWNS / 3 % CORNERS];
        struct status s = status_of(owns[i % 2], len <= 200 ? len : 1196 + len);
        uint8_t *word_at = way == 0 && s.body_len > 1 ? body + 2 * any((unsigned)s.body_len / 2) : sides[0] + 2;
        build_udp(&s, packet, ROOMIEST, &length);
        /* the total grows by the field that is there less the one that is aimed at */
        unsigned field = word(packet + size_of(&s) - s.body_len - 2), more = (field + 65535 - aim) % 65535;
        if (way == 2)
            s.source_port = (s.source_port + more) % 65535;
        else
            put(word_at, (word(word_at) + more) % 65535);
        hold_build(&s, 3, size_of(&s) + any(3));
    }
    group("packets with every corner field");
}

/* The IPv4 header's field at every corner, by each word that a caller chooses. */
static void built_headers(void)
{
    static uint8_t packet[ROOMIEST];
    for (size_t i = 0; i < CORNERS * 4 * 100; i++) {
        size_t length;
        unsigned aim = corners[i % CORNERS];
        struct status s = status_of(owns[0], any(1401));
        uint8_t *word_at = sides[i / CORNERS % 2] + i / CORNERS / 2 % 2 * 2;
        build_udp(&s, packet, ROOMIEST, &length);
        put(word_at, (word(word_at) + word(packet + 10) + 65535 - aim) % 65535);
        hold_build(&s, 4, size_of(&s));
    }
    group("packets with every corner field in the header");
}

/* Addresses and body may be the same bytes, or lie over one another. */
static void shared(void)
{
    for (size_t i = 0; i < OWNS * 600; i++) {
        struct status s = status_of(owns[i % 2], i < 600 ? any(40) : any(1401));
        if (i % 3 != 1)
            s.destination = s.source + i % 5;
        if (i % 3 != 0)
            s.source = body + any(8);
        if (i % 3 == 2)
            s.destination = body + any(8);
        if (s.body_len <= 24 && i % 4 == 0)
            s.body = s.source;
        hold_build(&s, 5, size_of(&s) + any(9));
    }
    group("packets of bytes that overlap");
}

/* Fails unless each branch was met with each kind that has it. */
static unsigned long branches(void)
{
    unsigned long all = 0;
    for (size_t k = 0; k < KINDS; k++)
        for (unsigned b = 0; b < BRANCHES; b++) {
            int icmp = kinds[k].protocol == ICMP, udp = kinds[k].protocol == UDP, four = kinds[k].family == 4;
            int own = udp && !kinds[k].tail && !kinds[k].between;
            int possible = b == PASSES_ZERO                                      ? !udp
                           : b == KEPT_SILENT                                    ? udp && four
                           : b == FRESH_BLANK || b == TOTAL_ZERO                 ? icmp
                           : b == BLANK_BEFORE || b == BLANK_AFTER               ? icmp
                           : b == HEADER_ZERO || b == HEADER_FULL                ? four
                           : b == UPDATED_HEADER || b == FULL_HEADER             ? four
                           : b == LOWERED_SILENT                                 ? udp && !four
                           : b == PREFIX_FOUR                                    ? four
                           : b == PREFIX_FIELD                                   ? !udp && !four
                           : b > PREFIX_FOUR && b < PREFIX_FIELD                 ? !four
                           : b == JOINED_LENGTH || b == JOINED_FITS              ? four && !icmp
                           : b == JOINED_FIRST                                   ? four && !icmp
                           : b == JOINED_SILENT                                  ? four && udp
                           : b == JOINED_ZERO                                    ? four && !udp
                           : b == JOINED_BLANK                                   ? icmp
                           : b == JOINED_SECOND || b == JOINED_THIRD             ? four && !icmp && !udp
                           : b == BUILT_HEADER                                   ? own && four
                           : b >= BUILD_SOURCE                                   ? own
                           : b >= ENDS_INSIDE                                    ? four && kinds[k].tail
                           : b >= LIST_EMPTY                                     ? four
                           : b >= WALK_EIGHT                                     ? kinds[k].between != 0
                           : b >= TAIL_LENGTH                                    ? kinds[k].tail != 0
                                                                                 : 1;
            if ((met[k][b] != 0) != possible) {
                printf("corners: failed: branch %u was met %lu times, IPv%u, protocol %u%s%s\n", b, met[k][b],
                       kinds[k].family, kinds[k].protocol, kinds[k].tail ? " with a tail" : "",
                       kinds[k].between ? " behind headers" : "");
                failed++;
            }
            all += possible;
        }
    return all;
}

int main(void)
{
    lengths();
    multiples();
    blanks();
    lifetimes();
    lifetimes_before_anything();
    addresses();
    prefixes();
    words();
    stretches();
    to_multiples();
    datagrams();
    walks();
    misreadings();
    fragmentations();
    lists();
    heads();
    misfits();
    overlaps();
    joined_multiples();
    joined_shapes();
    pairings();
    bodies();
    numbers();
    plain();
    built_fields();
    built_headers();
    shared();
    unsigned long rare = branches();
    printf("corners: %lu checks, %lu failed (%lu rare branches, each met)\n", checks, failed, rare);
    return failed != 0;
}
