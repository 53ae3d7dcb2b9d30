/* Measures the library beside the ways of ways.c, same.c, gather.c and build.c, on UDP packets, over IPv6 also behind
 * another header, a lifetime also on fragments, on lists of fragments, and on packets that are to be built.
 *
 *     bench calls        calls each once, between begin() and end(), and prints a line for each call:
 *                        what an emulator's trace is counted by
 *     bench lengths      the same for three of the library's edits alone, for lengths from 64 to 60,000
 *     bench watched      the same for those of the library's calls whose counts the gate watches
 *     bench nine         the same for the nine calls whose cycles are estimated
 *     bench times        measures nanoseconds for each call, and prints a line for each
 *     bench same COUNT   holds same.c to the library on so many random packets, gather.c on a tenth as many lists,
 *                        and build.c on as many asks
 *
 * A line is operation, packet, way and for times the nanoseconds, with bars between. All ways are first seen to do the
 * same. With ONLY_OURS defined the library alone is there, with NO_PREFIX it is one of before that exchanges none, with
 * NO_FRAGMENTS one that judges no lists of fragments, with NO_BUILD one that builds no packet, and without CLANG the
 * ways by clang aren't there. */
#define _POSIX_C_SOURCE 200809L
#include <stdio.h>
#include <stdlib.h>
#include <string.h>
#include <time.h>

#include "ways.h"

enum operation { FIELD, CHAIN, JUDGE, MEND, LOWER, ADDRESS, STRETCH, PREFIX, GATHER, BUILD, OPERATIONS };
enum { LONGEST = 67000, PIECE = 63, BATCH = 64, ROUNDS = 3000, FEWER = 150 };
enum { MOST = 64, TINY = 8 * MOST, MESSAGE = 65515 }; /* fragments, and their shortest and longest message */

static const char *const names[OPERATIONS] = {
    "field", "chain", "judge", "mend", "lower lifetime", "set address", "set stretch", "exchange prefix",
    "judge fragments", "build",
};
#ifdef NO_PREFIX
#define hifrostum_exchange_prefix 0
#endif
#ifdef NO_FRAGMENTS
#define hifrostum_judge_fragments 0
#endif
#ifdef NO_BUILD
#define hifrostum_build_udp 0
#endif
static const struct way library = {
    "ours", hifrostum_field, hifrostum_sum_chain, hifrostum_judge, hifrostum_mend, hifrostum_lower_lifetime,
    hifrostum_set_address, hifrostum_set_stretch, hifrostum_exchange_prefix, hifrostum_judge_fragments,
    hifrostum_build_udp,
};
static const struct way *const ours = &library;

/* All ways, the library first, and by which compiler. */
static const struct {
    const char *by;
    const struct way *const *way;
} ways[] = {
    {"", &ours},
#ifndef ONLY_OURS
    {"cc: ", plain_cc},           {"cc: ", plain_cc + 1},       {"cc: ", plain_cc + 2},
    {"cc: ", plain_cc + 3},       {"cc: ", &once_cc},           {"cc: ", &copies_cc},
    {"cc: ", &adc_cc},            {"cc: ", &sse2_cc},           {"cc: ", &copied_cc},
    {"cc: ", &placed_cc},         {"cc: ", &placed_adc_cc},     {"cc: ", &placed_sse2_cc},
    {"cc: ", &loop_cc},           {"cc: ", &wide_cc},           {"cc: ", &wide_adc_cc},
    {"cc: ", &wide_sse2_cc},
#ifdef CLANG
    {"clang: ", plain_clang},     {"clang: ", plain_clang + 1}, {"clang: ", plain_clang + 2},
    {"clang: ", plain_clang + 3}, {"clang: ", &once_clang},     {"clang: ", &copies_clang},
    {"clang: ", &adc_clang},      {"clang: ", &sse2_clang},     {"clang: ", &copied_clang},
    {"clang: ", &placed_clang},   {"clang: ", &placed_adc_clang}, {"clang: ", &placed_sse2_clang},
    {"clang: ", &loop_clang},     {"clang: ", &wide_clang},     {"clang: ", &wide_adc_clang},
    {"clang: ", &wide_sse2_clang},
#endif
#endif
};
enum { WAYS = sizeof ways / sizeof *ways };

static const size_t lengths[] = {40, 64, 128, 576, 1500}, bodies[] = {0, 15, 32, 64, 512, 1399, 1400};
static const uint8_t new[16] = {0xFD, 0x12, 0x34, 0x56, 0x78, 0x9A, 0xBC, 0xDE, 0xF0, 1, 2, 3, 4, 5, 6, 7};

/* What a call is given; a sum takes any bytes. A fragment is one from the middle of a datagram. A packet with a
 * hop-by-hop header of 8 bytes between has as much message as IPv6 without it has in 8 bytes less. Then come all the
 * fragments of a datagram, and the length is that of their message. The last two are for building, and the length is
 * that of the body. */
enum packet {
    IPV4, IPV6, FRAGMENT4, FRAGMENT6, HOP_BY_HOP, PACKETS, WHOLE = PACKETS, TWO, THREE, ORDER, BACK, MIXED, BODY4, BODY6
};
enum { BETWEEN = 8 };
static const char *const packets[] = {
    "IPv4",          "IPv6",          "IPv4 fragment",           "IPv6 fragment",           "IPv6 hop-by-hop",
    "1, message of", "2, message of", "3, message of",           "64 in order, message of", "64 reversed, message of",
    "64 shuffled, message of", "IPv4, body of", "IPv6, body of",
};

/* Calls that are looked at more closely. */
struct row {
    enum operation op;
    enum packet packet;
    size_t len;
};
static const struct row watched[] = {
    {JUDGE, IPV4, 40}, {JUDGE, IPV4, 64},   {JUDGE, IPV4, 1500}, {JUDGE, IPV6, 64},  {MEND, IPV4, 64}, {MEND, IPV6, 64},
    {LOWER, IPV4, 64}, {ADDRESS, IPV4, 64}, {STRETCH, IPV4, 64}, {PREFIX, IPV6, 64}, {FIELD, IPV4, 64},
    {GATHER, TWO, 1480}, {GATHER, ORDER, MESSAGE}, {GATHER, BACK, MESSAGE}, {BUILD, BODY4, 64}, {BUILD, BODY6, 1400},
};
static const struct row nine[] = {
    {JUDGE, IPV4, 64}, {JUDGE, IPV4, 1500}, {JUDGE, IPV6, 64},   {MEND, IPV4, 64},    {MEND, IPV4, 1500},
    {LOWER, IPV4, 64}, {ADDRESS, IPV4, 64}, {STRETCH, IPV4, 64}, {FIELD, IPV4, 1500},
};

/* The prefix of a packet's destination, and another. Who exchanges them takes turns, so that the next call finds what
 * it expects. */
static uint8_t prefixes[2][6] = {{0}, {0x20, 0x01, 0x0D, 0xB8, 0, 1}};
static int turn;

/* The pieces of a chain: a header of 20 bytes, and the rest 63 bytes at a time, so that odd pieces begin at even and
 * at odd places. */
static uint32_t pieces[2 * (LONGEST / PIECE + 2)];
static size_t pieces_len;

static void cut(size_t len)
{
    pieces_len = 0;
    for (size_t at = 0, size = 20; at < len; at += size, size = PIECE) {
        pieces[pieces_len++] = (uint32_t)at;
        pieces[pieces_len++] = (uint32_t)(size < len - at ? size : len - at);
    }
}

/* The fragments of a datagram in one buffer, one behind the other, and the list of them. */
static struct hifrostum_fragment records[MOST];
static size_t records_len;

/* What a packet is built of: two addresses, of four or sixteen bytes, and a body. The buffer has a few bytes more than
 * the packet needs, and they stay. */
enum { BEHIND = 24 };
static uint8_t source[16], destination[16], body[1400];
static size_t address_len, body_len;

/* What a trace is cut at. */
__attribute__((noinline)) void begin(void)
{
    __asm__ volatile("");
}

__attribute__((noinline)) void end(void)
{
    __asm__ volatile("");
}

static int has(const struct way *way, enum operation op)
{
    switch (op) {
    case FIELD: return way->field != 0;
    case CHAIN: return way->chain != 0;
    case JUDGE: return way->judge != 0;
    case MEND: return way->mend != 0;
    case PREFIX: return way->prefix != 0;
    case GATHER: return way->gather != 0;
    case BUILD: return way->build != 0;
    default: return way->lower != 0;
    }
}

/* One call. A chain answers its fold behind its length, or 1; a new address or prefix is a destination's; a stretch is
 * 8 bytes from the odd place 3 on; a packet of another length than the buffer was made for is a refusal. It stands in
 * counted() itself, whose instructions don't count. */
static inline __attribute__((always_inline)) unsigned call(const struct way *way, enum operation op, uint8_t *packet,
                                                           size_t len)
{
    uint16_t fold;
    uint64_t length;
    size_t size;
    uint8_t verdict;
    switch (op) {
    case FIELD: return way->field(packet, len);
    case CHAIN: return way->chain(packet, len, pieces, pieces_len, &fold, &length) ? 1 : (unsigned)length << 16 | fold;
    case JUDGE: return way->judge(packet, len);
    case MEND: return way->mend(packet, len);
    case LOWER: return way->lower(packet, len);
    case ADDRESS: return way->address(packet, len, 1, new, packet[0] >> 4 == 4 ? 4 : 16);
    case STRETCH: return way->stretch(packet, len, 3, new, 8);
    case PREFIX: return way->prefix(packet, len, 1, prefixes[turn], 6, prefixes[1 - turn], 6);
    case BUILD:
        verdict = way->build(source, address_len, destination, address_len, 40404, 50505, 64, body, body_len, packet,
                             len, &size);
        return verdict ? verdict : size != len - BEHIND;
    default: return way->gather(packet, len, records, records_len);
    }
}

static void put(uint8_t *at, size_t value)
{
    at[0] = (uint8_t)(value >> 8);
    at[1] = (uint8_t)value;
}

/* Makes a fragment of a good packet. The judge says 6 of it where an IPv4 header's sum is still right; of IPv6 a
 * library of before says 7. */
static int split(uint8_t *packet, size_t len, int four)
{
    enum { MIDDLE = 0x2000 + 64 / 8 };
    if (four) {
        uint16_t field = (uint16_t)(packet[10] << 8 | packet[11]);
        put(packet + 10, hifrostum_update(field, 0x4000, MIDDLE));
        put(packet + 6, MIDDLE);
    } else {
        packet[6] = 44;
    }
    uint8_t verdict = hifrostum_judge(packet, len);
    return verdict == HIFROSTUM_FRAGMENT || (!four && verdict == HIFROSTUM_UNCOVERED);
}

/* Puts a hop-by-hop header of padding between, which leaves a good packet good: no sum covers it. */
static void insert(uint8_t *packet, size_t len)
{
    uint8_t padding[BETWEEN] = {packet[6], 0, 1, 4};
    memmove(packet + 40 + BETWEEN, packet + 40, len - 40);
    memcpy(packet + 40, padding, BETWEEN);
    packet[6] = 0;
    put(packet + 4, len - 40 + BETWEEN);
}

/* Builds a good packet, whose lifetime lasts for a batch, or a fragment with a right header. */
static void build(uint8_t *packet, enum packet kind, size_t len)
{
    int four = kind == IPV4 || kind == FRAGMENT4, fragment = kind == FRAGMENT4 || kind == FRAGMENT6;
    size_t start = four ? 20 : 40;
    len -= kind == HOP_BY_HOP ? BETWEEN : 0;
    for (size_t i = 0; i < len; i++)
        packet[i] = (uint8_t)(i * 73 + 5);
    packet[0] = four ? 0x45 : 0x65;
    put(packet + (four ? 2 : 4), four ? len : len - 40);
    if (four)
        put(packet + 6, 0x4000);
    packet[four ? 8 : 7] = 255;
    packet[four ? 9 : 6] = 17;
    put(packet + start + 4, len - start);
    put(packet + start + 6, 1);
    if (hifrostum_mend(packet, len) != 0 || hifrostum_judge(packet, len) != 0 ||
        (fragment && !split(packet, len, four))) {
        fprintf(stderr, "bench: no good packet of %zu bytes\n", len);
        exit(1);
    }
    if (kind == HOP_BY_HOP)
        insert(packet, len);
}

/* Cuts a good packet into fragments of the same size and of what is left, and lists them. Answers the buffer's length.
 * The shuffled order is the same each time. */
static size_t gathered(uint8_t *buffer, enum packet kind, size_t message)
{
    static uint8_t packet[LONGEST];
    size_t count = kind == WHOLE ? 1 : kind == TWO ? 2 : kind == THREE ? 3 : MOST, len = 0, at = 0;
    size_t size = (message + 8 * count - 1) / (8 * count) * 8;
    build(packet, IPV4, 20 + message);
    for (records_len = 0; at < message; at += size, records_len++) {
        size_t piece = size < message - at ? size : message - at;
        uint8_t *p = buffer + len;
        memcpy(p, packet, 20);
        put(p + 2, 20 + piece);
        put(p + 6, at / 8 + (at + piece < message ? 0x2000 : 0));
        put(p + 10, 0);
        put(p + 10, hifrostum_field(p, 20));
        memcpy(p + 20, packet + 20 + at, piece);
        size_t i = records_len;
        i = kind == BACK ? count - 1 - i : kind == MIXED ? (37 * i + 5) % count : i;
        records[i] = (struct hifrostum_fragment){len, 20 + piece};
        len += 20 + piece;
    }
    if (records_len != count) {
        fprintf(stderr, "bench: no %zu fragments of %zu bytes\n", count, message);
        exit(1);
    }
    return len;
}

/* Fills what a packet is built of, and the buffer. Answers the buffer's length. */
static size_t asked(uint8_t *buffer, enum packet kind, size_t len)
{
    address_len = kind == BODY4 ? 4 : 16;
    body_len = len;
    for (size_t i = 0; i < sizeof source; i++) {
        source[i] = (uint8_t)(i * 37 + 10);
        destination[i] = (uint8_t)(i * 59 + 11);
    }
    for (size_t i = 0; i < sizeof body; i++)
        body[i] = (uint8_t)(i * 73 + 5);
    len += (kind == BODY4 ? 20 : 40) + 8 + BEHIND;
    memset(buffer, 0xA5, len);
    return len;
}

/* Stops unless a way answers and writes what the library does, and builds. Answers 0 if the library refuses a packet,
 * as one of before does a fragment or headers between: then there is nothing to measure. */
static int compare(const struct way *way, enum operation op, const uint8_t *packet, size_t len)
{
    static uint8_t want[LONGEST], got[LONGEST];
    memcpy(want, packet, len);
    memcpy(got, packet, len);
    unsigned answer = call(ours, op, want, len);
    if (answer != call(way, op, got, len) || memcmp(want, got, len) != 0 || (op == BUILD && answer != 0)) {
        fprintf(stderr, "bench: %s: %s differs at %zu bytes\n", names[op], way->name, len);
        exit(1);
    }
    return op <= CHAIN || answer == 0;
}

/* Calls a way once, to be counted. */
__attribute__((noinline)) static void counted(const struct way *way, enum operation op,
                                              const uint8_t *packet, size_t len)
{
    static uint8_t copy[LONGEST];
    memcpy(copy, packet, len);
    begin();
    call(way, op, copy, len);
    end();
}

static double now(void)
{
    struct timespec t;
    clock_gettime(CLOCK_MONOTONIC, &t);
    return 1e9 * (double)t.tv_sec + (double)t.tv_nsec;
}

/* Prints what is measured. */
static void print_row(struct row r, size_t w)
{
    printf("%s | %s %zu | %s%s", names[r.op], r.op <= CHAIN ? "bytes" : packets[r.packet], r.len,
           ways[w].by, (*ways[w].way)->name);
}

/* The best of many batches for each way, all ways taking turns. Each batch begins with the good packet, and none of its
 * calls may be refused: an even number of them leaves the turn as it was. */
static void timed(struct row r, const uint8_t *packet, size_t len)
{
    static uint8_t copy[LONGEST];
    double best[WAYS] = {0};
    for (int round = 0; round < (r.len > 9000 ? FEWER : ROUNDS); round++)
        for (size_t w = 0; w < WAYS; w++) {
            if (!has(*ways[w].way, r.op))
                continue;
            memcpy(copy, packet, len);
            unsigned answers = 0;
            double start = now();
            for (int i = 0; i < BATCH; i++, turn = 1 - turn)
                answers |= call(*ways[w].way, r.op, copy, len);
            double each = (now() - start) / BATCH;
            if (best[w] == 0 || each < best[w])
                best[w] = each;
            if (r.op > CHAIN && answers != 0) {
                fprintf(stderr, "bench: %s: %s refused a good packet\n", names[r.op], (*ways[w].way)->name);
                exit(1);
            }
        }
    for (size_t w = 0; w < WAYS; w++)
        if (has(*ways[w].way, r.op)) {
            print_row(r, w);
            printf(" | %.1f\n", best[w]);
        }
}

/* Measures one operation on one packet, done in each of the first ways: by counted calls, or by the clock. */
static void measure(int calls, struct row r, size_t first)
{
    static uint8_t packet[LONGEST];
    size_t len = r.len;
    if (r.op == GATHER) {
        len = gathered(packet, r.packet, r.len);
    } else if (r.op == BUILD) {
        len = asked(packet, r.packet, r.len);
    } else {
        build(packet, r.packet, len);
        memcpy(prefixes[0], packet + 24, sizeof prefixes[0]);
        cut(len);
    }
    for (size_t w = 0; w < first; w++) {
        if (!has(*ways[w].way, r.op) || !compare(*ways[w].way, r.op, packet, len))
            continue;
        if (calls) {
            counted(*ways[w].way, r.op, packet, len);
            print_row(r, w);
            printf("\n");
        }
    }
    if (!calls)
        timed(r, packet, len);
}

/* UDP has bytes behind its IP header, a sum has no family, of fragments only a lifetime is edited, and prefixes are
 * IPv6's. */
static int possible(struct row r)
{
    size_t header = r.packet == IPV4 || r.packet == FRAGMENT4 ? 20 : r.packet == HOP_BY_HOP ? 40 + BETWEEN : 40;
    int fragment = r.packet == FRAGMENT4 || r.packet == FRAGMENT6;
    return r.len > header && (r.op > CHAIN || r.packet == IPV4) && (!fragment || r.op == LOWER) &&
           (r.op != PREFIX || r.packet != IPV4);
}

static void measure_all(int calls)
{
    static const struct row lists[] = {
        {GATHER, WHOLE, 40},      {GATHER, TWO, 1480},     {GATHER, TWO, 2960},      {GATHER, THREE, 1480},
        {GATHER, THREE, 4000},    {GATHER, ORDER, TINY},   {GATHER, BACK, TINY},     {GATHER, MIXED, TINY},
        {GATHER, ORDER, MESSAGE}, {GATHER, BACK, MESSAGE}, {GATHER, MIXED, MESSAGE},
    };
    for (enum operation op = 0; op < GATHER; op++)
        for (enum packet packet = 0; packet < PACKETS; packet++)
            for (size_t i = 0; i < sizeof lengths / sizeof *lengths; i++) {
                struct row r = {op, packet, lengths[i] + (packet == HOP_BY_HOP ? BETWEEN : 0)};
                if (possible(r))
                    measure(calls, r, WAYS);
            }
    for (size_t i = 0; i < sizeof lists / sizeof *lists; i++)
        measure(calls, lists[i], WAYS);
    for (enum packet packet = BODY4; packet <= BODY6; packet++)
        for (size_t i = 0; i < sizeof bodies / sizeof *bodies; i++)
            measure(calls, (struct row){BUILD, packet, bodies[i]}, WAYS);
}

/* Edits of the library's whose cost must not grow with the packet. */
static void measure_lengths(void)
{
    static const struct row edits[] = {{LOWER, IPV4, 0}, {ADDRESS, IPV6, 0}, {PREFIX, IPV6, 0}};
    static const size_t longer[] = {64, 128, 576, 1500, 9000, 60000};
    for (size_t e = 0; e < sizeof edits / sizeof *edits; e++)
        for (size_t i = 0; i < sizeof longer / sizeof *longer; i++)
            measure(1, (struct row){edits[e].op, edits[e].packet, longer[i]}, 1);
}

#ifndef ONLY_OURS
/* gather.c's are the ways that judge fragments. */
static void hold_gathered(unsigned long lists)
{
    unsigned long held = 0, all = 0;
    for (size_t w = 1; w < WAYS; w++)
        all += has(*ways[w].way, GATHER);
    for (size_t w = 1; w < WAYS; w++)
        if (has(*ways[w].way, GATHER))
            held += differ_lists(ours, ways[w].by, *ways[w].way, w, lists / all);
    printf("gather.c does what the library does: %lu random lists of fragments\n", held);
}

/* build.c's are the ways that build packets. */
static void hold_built(unsigned long asks)
{
    unsigned long held = 0, all = 0;
    for (size_t w = 1; w < WAYS; w++)
        all += has(*ways[w].way, BUILD);
    for (size_t w = 1; w < WAYS; w++)
        if (has(*ways[w].way, BUILD))
            held += differ_asks(ours, ways[w].by, *ways[w].way, w, asks / all);
    printf("build.c does what the library does: %lu random asks\n", held);
}

/* same.c's are the ways that judge and have no chain. */
static void hold_same(unsigned long packets)
{
    unsigned long calls = 0, same = 0;
    for (size_t w = 0; w < WAYS; w++)
        same += has(*ways[w].way, JUDGE) && !has(*ways[w].way, CHAIN);
    for (size_t w = 0; w < WAYS; w++)
        if (has(*ways[w].way, JUDGE) && !has(*ways[w].way, CHAIN))
            calls += differ(ours, ways[w].by, *ways[w].way, w, packets / same);
    printf("same.c does what the library does: %lu calls on %lu random packets\n", calls, packets / same * same);
}
#endif

int main(int argc, char **argv)
{
    const char *what = argc >= 2 ? argv[1] : "";
    if (strcmp(what, "calls") == 0 || strcmp(what, "times") == 0)
        measure_all(what[0] == 'c');
    else if (strcmp(what, "lengths") == 0)
        measure_lengths();
    else if (strcmp(what, "watched") == 0)
        for (size_t i = 0; i < sizeof watched / sizeof *watched; i++)
            measure(1, watched[i], 1);
    else if (strcmp(what, "nine") == 0)
        for (size_t i = 0; i < sizeof nine / sizeof *nine; i++)
            measure(1, nine[i], WAYS);
#ifndef ONLY_OURS
    else if (strcmp(what, "same") == 0 && argc == 3) {
        hold_same(strtoul(argv[2], NULL, 10));
        hold_gathered(strtoul(argv[2], NULL, 10) / 10);
        hold_built(strtoul(argv[2], NULL, 10));
    }
#endif
    else {
        fprintf(stderr, "usage: bench calls|lengths|watched|nine|times|same COUNT\n");
        return 2;
    }
    return 0;
}
