/* Holds one way to judge fragments to another on random lists: all protocols, options, orders, tails and gaps in the
 * buffer, lists too long and records outside. Most are of messages that are cut right and then changed a little or not
 * at all, so that each test decides often. */
#include <stdio.h>
#include <stdlib.h>
#include <string.h>

#include "ways.h"

enum { MOST = 64, ROOM = 1 << 17, LONGEST = 65515, VERDICTS = 11 };

static uint64_t state;

/* A number below n: xorshift, whose high half is taken. */
static size_t below(size_t n)
{
    state ^= state << 13;
    state ^= state >> 7;
    state ^= state << 17;
    return (size_t)((state >> 32) % n);
}

static void put(uint8_t *at, size_t value)
{
    at[0] = (uint8_t)(value >> 8);
    at[1] = (uint8_t)value;
}

static size_t word(const uint8_t *at)
{
    return 256u * at[0] + at[1];
}

/* Sets a header's sum fresh, whatever else the header says. */
static void seal(uint8_t *p)
{
    size_t total = 0, header = 4u * (p[0] & 15);
    put(p + 10, 0);
    for (size_t i = 0; i < header; i++)
        total += i % 2 ? p[i] : 256u * p[i];
    put(p + 10, 65535 - (total == 0 ? 0 : 1 + (total - 1) % 65535));
}

/* What is asked. */
struct asked {
    uint8_t buffer[ROOM];
    size_t len, count;
    struct hifrostum_fragment list[4 * MOST];
};

/* Builds a whole packet with right sums and answers its length. Now and then it has a wrong length or field, a sum of
 * zero, or a protocol that isn't covered. */
static size_t build(const struct way *ours, uint8_t *p)
{
    static const uint8_t protocols[] = {1, 6, 17, 17, 1, 6, 17, 17, 58, 0};
    uint8_t protocol = protocols[below(10)], *message = p + 20;
    size_t sizes[] = {12, 40, 300, 3000, LONGEST}, len = 1 + below(sizes[below(below(8) ? 4 : 5)]), end = 20 + len;
    for (size_t i = 0; i < end; i++)
        p[i] = (uint8_t)below(256);
    p[0] = 0x45;
    put(p + 2, end);
    put(p + 6, 0);
    p[9] = protocol;
    if (protocol == 6 && len > 12)
        message[12] = (uint8_t)(80 + 16 * below(below(4) ? 1 : 11));
    if (protocol == 17 && len >= 8) {
        put(message + 4, below(4) ? len : 8 + below(len - 7));
        put(message + 6, below(8) ? 1 : 0);
    }
    ours->mend(p, end);
    if (protocol == 17 && len >= 8 && below(8) == 0)
        put(message + 4, below(2) ? below(9) : len + below(3));
    if (protocol == 6 && len > 12 && below(8) == 0)
        message[12] = (uint8_t)below(256);
    return end;
}

/* Cuts a packet into fragments with options, gaps and tails, in any order. */
static void cut(struct asked *a, const uint8_t *p, size_t end)
{
    size_t left = end - 20, at = 0, step = 1 + left / 8 / (1 + below(below(4) ? 5 : MOST));
    a->len = a->count = 0;
    while (left > 0 && a->count < MOST) {
        size_t size = 8 * (below(3) ? step : 1 + below(2 * step)), header = below(3) ? 20 : 20 + 4 * below(11);
        size = size >= left || a->count + 1 == MOST ? left : size;
        a->len += below(3) ? 0 : below(40);
        uint8_t *to = a->buffer + a->len;
        for (size_t i = 0; i < header; i++)
            to[i] = i < 20 ? p[i] : (uint8_t)below(256);
        to[0] = (uint8_t)(64 + header / 4);
        to[1] = to[8] = (uint8_t)below(256);
        put(to + 2, header + size);
        put(to + 6, at / 8 + (size < left ? 0x2000 : 0) + 0x4000 * below(4));
        memcpy(to + header, p + 20 + at, size);
        seal(to);
        a->list[a->count++] = (struct hifrostum_fragment){a->len, header + size};
        a->len += header + size;
        at += size;
        left -= size;
    }
    for (size_t i = a->count; i > 1 && below(4); i--) {
        size_t j = below(i);
        struct hifrostum_fragment other = a->list[j];
        a->list[j] = a->list[i - 1];
        a->list[i - 1] = other;
    }
}

/* Changes a fragment's header, which stays right: one of the places that a test looks at. */
static void change(uint8_t *p)
{
    static const uint8_t places[] = {4, 5, 6, 7, 9, 12, 15, 16, 19, 2, 3, 0};
    size_t header = 4u * (p[0] & 15), last = (LONGEST - (word(p + 2) - header)) / 8;
    switch (below(5)) {
    case 0: p[places[below(12)]] ^= (uint8_t)(1 << below(8)); break;
    case 1: put(p + 6, word(p + 6) ^ 0x2000); break;
    case 2: put(p + 2, below(3) ? header : word(p + 2) - below(9)); break;
    case 3: put(p + 6, (word(p + 6) & 0x2000) | (below(2) ? last + below(2) : 8191)); break;
    default: put(p + 6, word(p + 6) + below(3) - 1); break;
    }
    seal(p);
}

/* Changes a list: a fragment, a record, one less, one twice, none, or too many. */
static void damage(struct asked *a)
{
    struct hifrostum_fragment *record = a->list + below(a->count);
    size_t wraps = 0 - below(40), inside = record->offset < a->len;
    struct hifrostum_fragment outside = {below(2) ? wraps : a->len + below(2), below(2) ? wraps : below(2)};
    switch (below(inside ? 12 : 7)) {
    case 0: a->buffer[below(a->len)] ^= (uint8_t)(1 << below(8)); break;
    case 1: record->length = below(2) ? below(24) : record->length - 1; break;
    case 2: record->length = a->len - record->offset + below(2); break;
    case 3: *record = a->list[--a->count]; break;
    case 4: a->list[a->count++] = *record; break;
    case 5: a->count = below(3) ? a->count : 0; break;
    case 6:
        while (below(16) && a->count <= MOST)
            a->list[a->count++] = *record;
        break;
    case 7: *record = outside; break;
    case 8: a->buffer[record->offset] = (uint8_t)below(256); break;
    default: change(a->buffer + record->offset);
    }
}

static void show(const struct asked *a, unsigned ours, unsigned others)
{
    fprintf(stderr, "answers %u and %u; %zu records:\n", ours, others, a->count);
    for (size_t i = 0; i < a->count; i++)
        fprintf(stderr, "%zu %zu\n", a->list[i].offset, a->list[i].length);
    for (size_t i = 0; i < a->len; i++)
        fprintf(stderr, "%02X%s", a->buffer[i], i % 32 == 31 || i + 1 == a->len ? "\n" : " ");
}

unsigned long differ_lists(const struct way *ours, const char *by, const struct way *way, uint64_t seed,
                           unsigned long lists)
{
    static uint8_t packet[ROOM];
    static struct asked a;
    unsigned long seen[VERDICTS] = {0};
    state = seed * 0x9E3779B97F4A7C15 + 1;
    for (unsigned long i = 0; i < lists; i++) {
        cut(&a, packet, build(ours, packet));
        for (size_t times = below(4); times > 1 && a.count > 0 && a.count <= MOST; times--)
            damage(&a);
        uint8_t want = ours->gather(a.buffer, a.len, a.list, a.count);
        uint8_t got = way->gather(a.buffer, a.len, a.list, a.count);
        if (want != got) {
            fprintf(stderr, "bench: %s%s differs from the library\n", by, way->name);
            show(&a, want, got);
            exit(1);
        }
        if (want < VERDICTS)
            seen[want]++;
    }
    /* every verdict that the call has must have been met, and no other: 8 is for IPv6 */
    for (int v = 0; v < VERDICTS && lists >= 1000; v++)
        if ((seen[v] == 0) != (v == 8)) {
            fprintf(stderr, "bench: fragments were answered %d %lu times\n", v, seen[v]);
            exit(1);
        }
    return lists;
}
