/* Holds one way to build a packet to another on random asks: both families, addresses of wrong and of differing sizes,
 * bodies up to the longest and past it, lifetimes of 0, and buffers with room, with none to spare, and without. Most
 * can be built, and many of those have a body that makes the field come out 0000. */
#include <stdio.h>
#include <stdlib.h>
#include <string.h>

#include "ways.h"

enum { MOST = 1400, ROOM = 2048, VERDICTS = 17 };

static uint64_t state;

/* A number below n: xorshift, whose high half is taken. */
static size_t below(size_t n)
{
    state ^= state << 13;
    state ^= state >> 7;
    state ^= state << 17;
    return (size_t)((state >> 32) % n);
}

/* What is asked. */
struct ask {
    uint8_t source[32], destination[32], body[ROOM], lifetime;
    uint16_t from, to;
    size_t source_len, destination_len, body_len, room;
};

static uint8_t make(const struct way *way, const struct ask *a, uint8_t *buffer, size_t *length)
{
    return way->build(a->source, a->source_len, a->destination, a->destination_len, a->from, a->to, a->lifetime,
                      a->body, a->body_len, buffer, a->room, length);
}

/* Chooses an ask, with a fault now and then. */
static void choose(struct ask *a)
{
    static const size_t bodies[] = {10, 100, 1000, MOST + 1}, sizes[] = {0, 4, 5, 16, 17, 3, 15, 32};
    size_t address = below(2) ? 4 : 16;
    for (size_t i = 0; i < sizeof a->source; i++) {
        a->source[i] = (uint8_t)below(256);
        a->destination[i] = (uint8_t)below(256);
    }
    a->from = (uint16_t)below(65536);
    a->to = (uint16_t)below(65536);
    a->lifetime = (uint8_t)(below(8) ? 1 + below(255) : 0);
    a->source_len = below(16) ? address : sizes[below(8)];
    a->destination_len = below(16) ? address : sizes[below(8)];
    a->body_len = below(8) ? below(bodies[below(4)]) : MOST - 2 + below(5);
    for (size_t i = 0; i < a->body_len; i++)
        a->body[i] = (uint8_t)below(256);
    size_t whole = (address == 4 ? 28 : 48) + a->body_len;
    a->room = below(3) ? whole + below(20) : below(2) ? whole - 1 + below(3) : below(whole);
}

/* Puts the field into the body of what is built: its words then sum up to a field of 0000, which is sent as FFFF. */
static void full(const struct way *ours, struct ask *a)
{
    static uint8_t buffer[ROOM];
    size_t length;
    if (a->body_len < 2)
        return;
    memset(a->body, 0, 2);
    if (make(ours, a, buffer, &length) == 0)
        memcpy(a->body, buffer + (a->source_len == 4 ? 26 : 46), 2);
}

static void show(const struct ask *a, unsigned ours, unsigned others)
{
    fprintf(stderr, "answers %u and %u; addresses of %zu and %zu bytes, lifetime %u, room for %zu, a body of %zu:\n",
            ours, others, a->source_len, a->destination_len, a->lifetime, a->room, a->body_len);
    for (size_t i = 0; i < a->body_len; i++)
        fprintf(stderr, "%02X%s", a->body[i], i % 32 == 31 || i + 1 == a->body_len ? "\n" : " ");
}

unsigned long differ_asks(const struct way *ours, const char *by, const struct way *way, uint64_t seed,
                          unsigned long asks)
{
    static struct ask a;
    static uint8_t want[ROOM], got[ROOM];
    unsigned long seen[VERDICTS] = {0}, fulls = 0;
    state = seed * 0x9E3779B97F4A7C15 + 1;
    for (unsigned long i = 0; i < asks; i++) {
        size_t length = ROOM, other = ROOM;
        choose(&a);
        if (below(4) == 0)
            full(ours, &a);
        for (size_t j = 0; j < sizeof want; j++)
            want[j] = got[j] = (uint8_t)(i + j);
        uint8_t v = make(ours, &a, want, &length), w = make(way, &a, got, &other);
        if (v != w || length != other || memcmp(want, got, sizeof want) != 0) {
            fprintf(stderr, "bench: %s%s differs from the library\n", by, way->name);
            show(&a, v, w);
            exit(1);
        }
        if (v < VERDICTS)
            seen[v]++;
        fulls += v == 0 && want[length - a.body_len - 2] == 0xFF && want[length - a.body_len - 1] == 0xFF;
    }
    /* every verdict that the call has must have been met, and no other, and the field FFFF too */
    for (int v = 0; v < VERDICTS && asks >= 1000; v++)
        if ((seen[v] == 0) == (v == 0 || v == 10 || v == 11 || v == 16) || fulls == 0) {
            fprintf(stderr, "bench: asks were answered %d %lu times, and %lu fields were FFFF\n", v, seen[v], fulls);
            exit(1);
        }
    return asks;
}
