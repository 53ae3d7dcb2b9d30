/* Holds one way to another on random packets: all protocols, families, options, headers between, fragments, tails
 * behind the packet and behind UDP's datagram, corner fields, all lengths, and every refusal. Most packets are built
 * right and then damaged a little or not at all, so that each test decides often. */
#include <stdio.h>
#include <stdlib.h>
#include <string.h>

#include "ways.h"

enum { ROOM = 2048, GUARD = 16, MOST = 8 };

static uint64_t state;

/* A number below n: xorshift, whose high half is taken. */
static size_t below(size_t n)
{
    state ^= state << 13;
    state ^= state >> 7;
    state ^= state << 17;
    return (size_t)((state >> 32) % n);
}

static void put(uint8_t *at, size_t value)
{
    at[0] = (uint8_t)(value >> 8);
    at[1] = (uint8_t)value;
}

/* Random bytes, or all of one kind. */
static void fill(uint8_t *at, size_t len)
{
    size_t kind = below(8);
    for (size_t i = 0; i < len; i++)
        at[i] = kind == 0 ? 0 : kind == 1 ? 0xFF : kind == 2 ? (uint8_t)(0 - below(2)) : (uint8_t)below(256);
}

/* Field values that decide something, or any. */
static size_t corner(void)
{
    static const uint16_t corners[] = {0, 0xFFFF, 1, 0xFFFE, 0x0100, 0xFEFF};
    return below(2) ? corners[below(6)] : below(65536);
}

static size_t word(const uint8_t *at)
{
    return 256u * at[0] + at[1];
}

/* Puts a corner into the message's field and changes the last whole word of the bytes that it covers so that the sum is
 * right with it. */
static void settle(const struct way *ours, uint8_t *p, size_t header, size_t field, size_t covered, size_t end)
{
    uint8_t fresh[ROOM], *last = p + header + covered / 2 * 2 - 2;
    put(p + field, corner());
    memcpy(fresh, p, ROOM);
    put(fresh + field, 1); /* not UDP's 0000, which would stay */
    ours->mend(fresh, end);
    put(last, (word(last) + word(fresh + field) + 65535 - word(p + field)) % 65535);
}

/* How a packet was built: where its message begins and how much follows a UDP datagram inside it, and where its headers
 * between begin. */
struct built {
    size_t message, tail, headers, at[MOST];
};

/* Puts headers between IPv6's fixed header and a message of this protocol, mostly few and short. */
static void lead(uint8_t *p, uint8_t protocol, struct built *b)
{
    uint8_t *next = p + 6;
    b->message = 40;
    b->headers = below(3) == 0 ? 0 : below(4) == 0 ? MOST : 1 + below(3);
    for (size_t i = 0; i < b->headers; i++) {
        uint8_t *header = p + b->message;
        *next = (uint8_t)(i == 0 && below(2) ? 0 : below(2) ? 43 : 60);
        header[1] = (uint8_t)(below(6) ? below(3) : below(10));
        if (*next == 43)
            header[3] = 0;
        next = header;
        b->at[i] = b->message;
        b->message += 8 + 8u * header[1];
    }
    *next = protocol;
}

/* Builds a packet and answers its length. Its fields are fresh, or corners. */
static size_t build(const struct way *ours, uint8_t *p, struct built *b)
{
    static const struct {
        uint8_t protocol, fixed, field, four, six;
    } kinds[] = {{1, 8, 2, 1, 0}, {6, 20, 16, 1, 1}, {17, 8, 6, 1, 1}, {58, 4, 2, 0, 1}};
    size_t k = below(4), four = kinds[k].four && (!kinds[k].six || below(2));
    fill(p, ROOM);
    *b = (struct built){below(3) ? 20 : 20 + 4 * below(11), 0, 0, {0}};
    if (!four)
        lead(p, kinds[k].protocol, b);
    size_t header = b->message, field = header + kinds[k].field;
    size_t extra = below(4) == 0 ? below(1540 - header) : below(140), end = header + kinds[k].fixed + extra;
    b->tail = kinds[k].protocol == 17 && below(2) ? below(below(2) ? extra + 1 : extra % 16 + 1) : 0;
    size_t covered = end - header - b->tail;
    p[0] = (uint8_t)(four ? 64 + header / 4 : 96 + below(16));
    put(p + (four ? 2 : 4), four ? end : end - 40);
    if (four) {
        put(p + 6, below(2) ? 0x4000 : 0x8000 * below(2));
        p[9] = kinds[k].protocol;
    }
    if (below(8) == 0)
        p[four ? 8 : 7] = (uint8_t)below(3);
    if (kinds[k].protocol == 6)
        p[header + 12] = (uint8_t)(80 + 16 * below(below(2) ? 1 : 11));
    if (kinds[k].protocol == 17)
        put(p + header + 4, covered);
    ours->mend(p, end);
    if (extra - b->tail >= 4 && below(4) == 0)
        settle(ours, p, header, field, covered, end);
    else if (below(3) == 0)
        put(p + field, corner());
    else if (kinds[k].protocol == 17 && below(4) == 0)
        put(p + field, 0);
    if (four && below(6) == 0)
        put(p + 10, corner());
    return end + (below(4) ? 0 : below(20));
}

/* Makes a walk stumble, or end elsewhere: one of the headers between names another next, says another length, beside
 * the payload's end or any, or has segments left; or the payload ends among them. */
static void stumble(uint8_t *p, const struct built *b)
{
    static const uint8_t others[] = {0, 43, 44, 60, 6, 17, 58, 59};
    size_t end = 40 + word(p + 4), i = below(b->headers);
    uint8_t *header = p + b->at[i], *last = p + b->at[b->headers - 1];
    switch (below(7)) {
    case 0: *header = others[below(8)]; break;
    case 1: *header = (uint8_t)below(256); break;
    case 2: *last = others[below(4)]; break;
    case 3: header[1] = (uint8_t)((end - b->at[i]) / 8 + below(3) - 2); break;
    case 4: header[1] = (uint8_t)below(256); break;
    case 5: header[3] = (uint8_t)below(4); break;
    default: put(p + 4, below(b->message + 4 - 40)); break;
    }
}

/* Sets the IPv4 header's field fresh, whatever the header says: behind a wrong header sum a judge sees nothing. */
static void seal(uint8_t *p)
{
    size_t total = 0, header = 4u * (p[0] & 15);
    put(p + 10, 0);
    for (size_t i = 0; i < header; i++)
        total += i % 2 ? p[i] : 256u * p[i];
    put(p + 10, 65535 - (total == 0 ? 0 : 1 + (total - 1) % 65535));
}

/* Damages a packet: one of the places that a test looks at, or any byte; or its length; or what UDP says of its own, to
 * one beside 8 or beside the packet's end. */
static size_t damage(uint8_t *p, size_t len, const struct built *b)
{
    static const uint8_t places[] = {0, 2, 3, 4, 5, 6, 7, 8, 9, 10, 12, 24, 25, 32, 44, 45};
    size_t header = b->message;
    switch (below(9)) {
    case 0: return below(len + 1);
    case 1: return below(64);
    case 2: p[places[below(16)]] = (uint8_t)below(256); break;
    case 3: p[places[below(16)]] ^= (uint8_t)(1 << below(8)); break;
    case 4: p[header + below(20)] ^= (uint8_t)(1 << below(8)); break;
    case 5: p[below(len + 1)] = (uint8_t)below(256); break;
    case 6: put(p + (below(2) ? 2 : 4), header + below(len + 1)); break;
    case 7: put(p + header + 4, (below(2) ? 8 : len - header) + below(5) - 2); break;
    default: p[0] = (uint8_t)below(256); break;
    }
    return len;
}

/* What is called, with which arguments. */
enum { CALLS = 7, VERDICTS = 13 };
struct call {
    int op;
    size_t len, number, new_len, expected_len;
    uint8_t new[ROOM], expected[16];
};

static unsigned make(const struct way *way, const struct call *c, uint8_t *p)
{
    switch (c->op) {
    case 0: return way->field(p, c->len);
    case 1: return way->judge(p, c->len);
    case 2: return way->mend(p, c->len);
    case 3: return way->lower(p, c->len);
    case 4: return way->address(p, c->len, (uint32_t)c->number, c->new, c->new_len);
    case 5: return way->stretch(p, c->len, c->number, c->new, c->new_len);
    default:
        return way->prefix(p, c->len, (uint32_t)c->number, c->expected, c->expected_len, c->new, c->new_len);
    }
}

/* Prefixes, mostly of six bytes: an expected one that stands there, that differs in a bit, or any, and a new one, which
 * is sometimes the same, or has the same words in another order. */
static void choose_prefix(struct call *c, const uint8_t *p)
{
    const uint8_t *at = p + 8 + 16 * (c->number % 2);
    c->expected_len = below(20) ? 6 : below(16);
    c->new_len = below(20) ? 6 : below(16);
    memcpy(c->expected, at, 16);
    if (below(10) == 0)
        c->expected[below(6)] ^= (uint8_t)(1 << below(8));
    if (below(20) == 0)
        fill(c->expected, 16);
    if (below(8) == 0)
        memcpy(c->new, at, 6);
    if (below(8) == 0) {
        memcpy(c->new + 2, at, 4);
        memcpy(c->new, at + 4, 2);
    }
}

/* An edit's arguments: mostly such as fit, and sometimes what stands there now. */
static void choose(struct call *c, const uint8_t *p)
{
    int four = p[0] >> 4 == 4;
    fill(c->new, ROOM);
    if (c->op == 4 || c->op == 6)
        c->number = below(10) ? below(2) : below(2) ? below(5) : 0xFFFFFFFF - below(2);
    if (c->op == 4) {
        c->new_len = below(10) ? (four ? 4 : 16) : below(20);
        if (below(8) == 0)
            memcpy(c->new, p + (four ? 12 : 8), 16);
    } else if (c->op == 6) {
        choose_prefix(c, p);
    } else if (c->op == 5) {
        size_t size = below(3) ? 40 : 1500;
        c->number = below(10) ? below(size / 2) : below(2) ? below(ROOM) : SIZE_MAX - below(4);
        c->new_len = below(16) ? below(size / 2) : SIZE_MAX - below(4);
        if (below(8) == 0 && c->number < ROOM / 4)
            memcpy(c->new, p + 28 + c->number, ROOM / 4);
    }
}

static void show(const struct call *c, const uint8_t *packet, unsigned ours, unsigned others)
{
    fprintf(stderr, "operation %d: answers %u and %u; number %zu, %zu new bytes, %zu bytes of packet:\n", c->op, ours,
            others, c->number, c->new_len, c->len);
    for (size_t i = 0; i < c->len; i++)
        fprintf(stderr, "%02X%s", packet[i], i % 32 == 31 || i + 1 == c->len ? "\n" : " ");
}

/* Sorts of packets whose verdicts are counted: all; of those that weren't damaged, the ones with a tail inside, and
 * with headers between, where TCP's data offset may still be too large; and those whose walk alone was made to
 * stumble. */
enum { SORTS = 4 };
static const char *const sorts[SORTS] = {
    "", ", with a tail in the packet", ", with headers between", ", with a header between changed",
};

unsigned long differ(const struct way *ours, const char *by, const struct way *way, uint64_t seed,
                     unsigned long packets)
{
    static uint8_t packet[ROOM + GUARD], want[ROOM + GUARD], got[ROOM + GUARD];
    static struct call c;
    unsigned long calls = 0, seen[SORTS][CALLS][VERDICTS] = {{{0}}};
    state = seed * 0x9E3779B97F4A7C15 + 1;
    for (unsigned long i = 0; i < packets; i++) {
        struct built b;
        c.len = build(ours, packet, &b);
        size_t times = below(4), stumbles = b.headers > 0 && below(2);
        int right = times < 2 && !stumbles;
        int is[SORTS] = {1, right && b.tail > 0, right && b.headers > 0, times < 2 && stumbles};
        if (stumbles)
            stumble(packet, &b);
        for (; times > 1; times--)
            c.len = damage(packet, c.len, &b);
        if (packet[0] >> 4 == 4 && below(3) == 0)
            seal(packet);
        for (c.op = 0; c.op < CALLS; c.op++) {
            choose(&c, packet);
            memcpy(want, packet, sizeof packet);
            memcpy(got, packet, sizeof packet);
            unsigned a = make(ours, &c, want), b = make(way, &c, got);
            if (a != b || memcmp(want, got, sizeof want) != 0) {
                fprintf(stderr, "bench: %s%s differs from the library\n", by, way->name);
                show(&c, packet, a, b);
                exit(1);
            }
            for (int sort = 0; sort < SORTS && c.op > 0 && a < VERDICTS; sort++)
                seen[sort][c.op][a] += (unsigned)is[sort];
            calls++;
        }
    }
    /* every verdict that a call has for packets of this sort must have been met, and no other */
    static const unsigned possible[SORTS][CALLS] = {
        {0, 0x3FF, 0xDD, 0x81D, 0x5DD, 0x15DD, 0x5DD}, {0, 0x323, 1, 0x801, 0x501, 0x501, 0x509},
        {0, 0x311, 0x11, 0x801, 0x511, 0x511, 0x511},  {0, 0x3D1, 0xD1, 0x801, 0x5D1, 0x5D1, 0x5D1},
    };
    for (int i = 0; i < SORTS * CALLS * VERDICTS && packets >= 10000; i++) {
        int sort = i / (CALLS * VERDICTS), op = i / VERDICTS % CALLS, v = i % VERDICTS;
        if ((seen[sort][op][v] == 0) == (possible[sort][op] >> v & 1)) {
            fprintf(stderr, "bench: operation %d answered %d %lu times%s\n", op, v, seen[sort][op][v], sorts[sort]);
            exit(1);
        }
    }
    return calls;
}
