/* Calls the archive with lengths that don't fit 32 bits.
 *
 *     lengths BLOCK CHAIN LIST
 *
 * The block that is summed has BLOCK bytes, and the chain CHAIN or a few more: over 2^32, or fewer in an
 * emulator. LIST is 1 if a chain of 2^64 bytes is tried too, and 0 if its long list would take too long.
 *
 * Packets, addresses, prefixes, captures, fragments and their list, bodies and buffers to build in lie
 * before memory that can't be touched: with a length of more than 2^32 a call that looked at a byte
 * behind them would end the program. Each such length is chosen so that its low 32 bits would give
 * another answer.
 */
#define _GNU_SOURCE
#include <stdio.h>
#include <stdlib.h>
#include <string.h>
#include <sys/mman.h>
#include <unistd.h>

#include "hifrostum.h"

enum { PAGE = 1 << 16 };
static const size_t over = (size_t)1 << 32;

static unsigned checks, failed;

static void expect(unsigned long got, unsigned long want, const char *what)
{
    checks++;
    if (got != want) {
        failed++;
        printf("lengths: failed: %s: wanted %lX and got %lX\n", what, want, got);
    }
}

/* Address space that can't be touched, or MAP_FAILED. */
static void *untouchable(size_t len)
{
    return mmap(NULL, len, PROT_NONE, MAP_PRIVATE | MAP_ANONYMOUS | MAP_NORESERVE, -1, 0);
}

/* The same, without which the program ends. */
static uint8_t *reserve(size_t len)
{
    uint8_t *map = untouchable(len);
    if (map == MAP_FAILED) {
        perror("lengths: no address space");
        exit(1);
    }
    return map;
}

static void allow(uint8_t *at, size_t len, int how)
{
    if (mprotect(at, len, how) != 0) {
        perror("lengths: mprotect");
        exit(1);
    }
}

/* The last bytes before a wall that is more than 2^32 long. */
static uint8_t *before_wall(size_t len)
{
    uint8_t *map = reserve(over + 2 * PAGE);
    allow(map, PAGE, PROT_READ | PROT_WRITE);
    return map + PAGE - len;
}

static const uint8_t udp[30] = {
    0x45, 0, 0, 0x1E, 0, 0, 0x40, 0, 0x40, 0x11, 0xB8, 0xB6, 0xC0, 0xA8, 0, 1, 0xC0, 0xA8, 0, 0xC7,
    0x13, 0x88, 0x13, 0x89, 0, 0x0A, 0x0E, 0x47, 0x48, 0x69,
};

/* The rules' UDP packet with a tail that can't be touched. The low 32 bits say 0 or 10 bytes: cut. */
static void packets(void)
{
    static const uint8_t new[4] = {10, 0, 0, 9};
    static const size_t tails[] = {0, 10};
    uint8_t *p = before_wall(30), *b = before_wall(4);
    memcpy(b, new, 4);
    for (size_t i = 0; i < 2; i++) {
        size_t len = over + tails[i];
        memcpy(p, udp, 30);
        expect(hifrostum_judge(p, len), 0, "judge");
        p[10] = p[27] = 0x55;
        expect(hifrostum_mend(p, len), 0, "mend");
        expect((unsigned)memcmp(p, udp, 30), 0, "what mending gives");
        expect(hifrostum_lower_lifetime(p, len), 0, "lower the lifetime");
        expect(p[8], 0x3F, "the lifetime");
        p[6] |= 0x20;
        expect(hifrostum_lower_lifetime(p, len), 0, "lower a fragment's lifetime");
        expect(p[8], 0x3E, "the fragment's lifetime");
        p[6] ^= 0x20;
        expect(hifrostum_set_address(p, len, 1, b, 4), 0, "a new destination");
        expect((unsigned)memcmp(p + 16, new, 4), 0, "the destination");
        expect(hifrostum_set_stretch(p, len, 1, b + 3, 1), 0, "a stretch");
        expect(p[29], 9, "the stretch");
        expect(hifrostum_judge(p, len), 0, "judge what was edited");
        expect(hifrostum_exchange_prefix(p, len, 1, b, 4, b, 4), 3, "a prefix of IPv4");
        expect(hifrostum_set_address(p, len, 1, b, over + 4), 10, "an address of 2^32 + 4 bytes");
        expect(hifrostum_set_stretch(p, len, 0, b, over + 1), 10, "a stretch of 2^32 + 1 bytes");
        expect(hifrostum_set_stretch(p, len, over, b, 1), 10, "place 2^32");
        expect(hifrostum_set_stretch(p, len, over + 2, b, 0), 10, "an empty stretch at place 2^32 + 2");
        p[29] ^= 1;
        expect(hifrostum_judge(p, len), 9, "a damaged packet");
        p[3] = 31;
        expect(hifrostum_mend(p, 30), 2, "a packet that is cut");
    }
}

/* UDP behind hop-by-hop and destination options, with a tail that can't be touched. The low 32 bits say 0 or 50 bytes:
 * cut. A header that passes the payload's end is refused, however much is lent. */
static void headers_between(void)
{
    static const uint8_t good[67] = {
        0x60, 0, 0, 0, 0, 27, 0, 64, [23] = 1, [39] = 1, 60, 0, 1, 4, 0, 0, 0, 0, 17, 0, 1, 4, 0, 0, 0, 0,
        0x13, 0x88, 0x13, 0x89, 0, 11, 0x6F, 0x5C, 0x48, 0x69, 0x21,
    };
    static const uint8_t outside[6] = {0x20, 1, 0x0D, 0xB8, 0, 1};
    static const size_t tails[] = {0, 50};
    uint8_t *p = before_wall(67), *old = before_wall(6), *new = before_wall(6);
    memcpy(new, outside, 6);
    for (size_t i = 0; i < 2; i++) {
        size_t len = over + tails[i];
        memcpy(p, good, 67);
        expect(hifrostum_judge(p, len), 0, "judge behind headers");
        p[62] = 0x55;
        expect(hifrostum_mend(p, len), 0, "mend behind headers");
        expect((unsigned)memcmp(p, good, 67), 0, "what mending gives");
        expect(hifrostum_set_address(p, len, 1, good + 8, 16), 0, "the same destination");
        expect(hifrostum_set_stretch(p, len, 2, good + 66, 1), 0, "the same stretch");
        expect(hifrostum_set_stretch(p, len, 2, good + 65, 2), 10, "a stretch past the body");
        expect((unsigned)memcmp(p, good, 67), 0, "what these give");
        expect(hifrostum_exchange_prefix(p, len, 1, old, over + 6, new, 6), 10, "an expected prefix of 2^32 + 6");
        expect(hifrostum_exchange_prefix(p, len, 1, old, 6, new, over + 6), 10, "a new prefix of 2^32 + 6 bytes");
        expect(hifrostum_exchange_prefix(p, len, 1, old, 6, new, 6), 0, "a prefix");
        expect((unsigned)memcmp(p + 24, outside, 6), 0, "the prefix");
        expect(256u * p[30] + p[31], 0xD245, "the word behind it");
        expect(hifrostum_judge(p, len), 0, "judge what was exchanged");
        expect(hifrostum_exchange_prefix(p, len, 1, new, 6, old, 6), 0, "and back");
        expect((unsigned)memcmp(p, good, 67), 0, "what was there");
        p[49] = 2;
        expect(hifrostum_exchange_prefix(p, len, 1, old, 6, new, 6), 4, "a prefix before a header past the end");
        expect(hifrostum_judge(p, len), 4, "a header past the payload's end");
        expect(hifrostum_mend(p, len), 4, "mend it");
        p[5] = 16;
        p[49] = 0;
        p[48] = 60;
        expect(hifrostum_judge(p, len), 4, "a header of which nothing is left");
        p[48] = 44;
        expect(hifrostum_judge(p, len), 6, "a fragment header of which nothing is left");
        expect(hifrostum_lower_lifetime(p, len), 0, "lower its lifetime");
    }
}

/* The rules' UDP packet as two fragments, of 8 bytes and 2. A tail that can't be touched follows the second; the low 32
 * bits of its record's length say 0, 21 or 22 bytes, and those of the buffer's that the second doesn't fit. Then both
 * lie around 2^32. A list of 2^16 + 2 records, of which the first two are these, has too many. */
static void fragments(void)
{
    static const uint8_t two[50] = {
        0x45, 0, 0, 0x1C, 0, 0, 0x20, 0, 0x40, 0x11, 0xD8, 0xB8, 0xC0, 0xA8, 0, 1, 0xC0, 0xA8, 0, 0xC7,
        0x13, 0x88, 0x13, 0x89, 0, 0x0A, 0x0E, 0x47,
        0x45, 0, 0, 0x16, 0, 0, 0, 1, 0x40, 0x11, 0xF8, 0xBD, 0xC0, 0xA8, 0, 1, 0xC0, 0xA8, 0, 0xC7, 0x48, 0x69,
    };
    static const size_t tails[] = {0, 21, 22};
    static struct hifrostum_fragment many[65536 + 2];
    uint8_t *p = before_wall(50), *map = reserve(over + PAGE), *lent = before_wall(2 * sizeof *many);
    struct hifrostum_fragment *list = (struct hifrostum_fragment *)lent;
    memcpy(p, two, 50);
    for (size_t i = 0; i < 2 * 3; i++) {
        size_t which = i % 2, length = over + tails[i / 2];
        list[1 - which] = (struct hifrostum_fragment){0, 28};
        list[which] = (struct hifrostum_fragment){28, length};
        expect(hifrostum_judge_fragments(p, 28 + length, list, 2), 0, "two fragments, one with a tail");
        expect(hifrostum_judge_fragments(p, 27 + length, list, 2), 10, "a record one byte too long");
        expect(hifrostum_judge_fragments(p, over, list, 2), 10, "or more than that");
        memcpy(many, list, 2 * sizeof *list);
        expect(hifrostum_judge_fragments(p, 28 + length, many, 65536 + 2), 10, "2^16 + 2 records");
        p[49] ^= 1;
        expect(hifrostum_judge_fragments(p, 28 + length, list, 2), 9, "two fragments, one damaged");
        p[49] ^= 1;
        list[which] = (struct hifrostum_fragment){over + 28, 22};
        expect(hifrostum_judge_fragments(p, 50, list, 2), 10, "a record at 2^32 + 28");
    }
    allow(map + over - PAGE, 2 * PAGE, PROT_READ | PROT_WRITE);
    memcpy(map + over - 24, two, 50);
    list[0] = (struct hifrostum_fragment){over + 4, 22};
    list[1] = (struct hifrostum_fragment){over - 24, 28};
    expect(hifrostum_judge_fragments(map, over + 26, list, 2), 0, "two fragments around 2^32");
    expect(hifrostum_judge_fragments(map, over + 25, list, 2), 10, "a buffer of one byte less");
    map[over + 2] ^= 1;
    expect(hifrostum_judge_fragments(map, over + 26, list, 2), 9, "a damaged field behind 2^32");
    map[over + 4 + 8] ^= 1;
    expect(hifrostum_judge_fragments(map, over + 26, list, 2), 5, "a damaged header behind 2^32");
}

/* The lengths of one call that builds a packet, of parts that lie before walls, and what is answered. */
struct build {
    size_t from_len, to_len, body_len, buffer_len;
    uint8_t lifetime, verdict;
    const char *what;
};

/* Builds the packet wanted, whose body is "Hi" and whose addresses have n bytes, with lengths that may be too long by a
 * step. The low bits of a buffer's length say that the packet doesn't fit, and those of an address's or a body's that
 * these do. A refused call leaves the buffer, and the packet's length is 0. */
static void build(const uint8_t *want, size_t len, size_t n)
{
    const size_t steps[] = {1 << 8, 1 << 16, over, over << 1, (size_t)1 << 63, SIZE_MAX - over + 1};
    uint8_t *from = before_wall(n), *to = before_wall(n), *body = before_wall(2), *buffer = before_wall(len);
    memcpy(from, want + len - 10 - 2 * n, n);
    memcpy(to, want + len - 10 - n, n);
    memcpy(body, want + len - 2, 2);
    for (size_t i = 0; i < sizeof steps / sizeof *steps; i++) {
        size_t step = steps[i], long_body = 2 + (step < 1400 ? over : step);
        const struct build calls[] = {
            {n, n, 2, step + 3, 0, 11, "a lifetime of 0 in a long buffer"},
            {n + step, n, 2, step + 3, 64, 10, "a source that is too long"},
            {n, n + step, 2, step + 3, 64, 10, "a destination that is too long"},
            {n + step, n + step, 2, step + 3, 64, 10, "both"},
            {n + step, n + step, 2, len, 0, 10, "both, and a lifetime of 0"},
            {n, n, SIZE_MAX, SIZE_MAX, 64, 10, "the longest body"},
            {n, n, SIZE_MAX - len + 3, SIZE_MAX, 64, 10, "a body with which the packet has 2^64 bytes"},
            {n, n, SIZE_MAX - 7, len, 64, 10, "a body with which the datagram has 2^64 bytes"},
            {n, n, 1400 + step, SIZE_MAX, 64, 10, "a body that is too long by as much"},
            {n, n, long_body, len, 64, 10, "a body that is too long"},
            {n, n, long_body, len, 0, 10, "and a lifetime of 0"},
            {n, n, 2, 0, 64, 16, "no buffer"},
            {n, n, 2, len - 1, 64, 16, "a buffer of one byte less"},
            {n, n, 2, step + 3, 64, 0, "a long buffer"},
            {n, n, 2, SIZE_MAX, 64, 0, "the longest buffer"},
        };
        for (const struct build *c = calls; c < calls + sizeof calls / sizeof *calls; c++) {
            size_t length = SIZE_MAX, kept = 0;
            memset(buffer, 0xA5, len);
            expect(hifrostum_build_udp(from, c->from_len, to, c->to_len, 5000, 5001, c->lifetime, body, c->body_len,
                                       buffer, c->buffer_len, &length),
                   c->verdict, c->what);
            expect(length, c->verdict ? 0 : len, "the packet's length, or 0");
            for (size_t j = 0; j < len; j++)
                kept += buffer[j] == (c->verdict ? 0xA5 : want[j]);
            expect(kept, len, "the packet, or what was there");
        }
    }
}

/* The rules' UDP packet without its flag, and one of ::1 to itself. */
static void builds(void)
{
    static const uint8_t four[30] = {
        0x45, 0, 0, 0x1E, 0, 0, 0, 0, 0x40, 0x11, 0xF8, 0xB6, 0xC0, 0xA8, 0, 1, 0xC0, 0xA8, 0, 0xC7,
        0x13, 0x88, 0x13, 0x89, 0, 0x0A, 0x0E, 0x47, 0x48, 0x69,
    };
    static const uint8_t six[50] = {
        0x60, 0, 0, 0, 0, 10, 17, 64, [23] = 1, [39] = 1, 0x13, 0x88, 0x13, 0x89, 0, 10, 0x90, 0x5E, 0x48, 0x69,
    };
    build(four, 30, 4);
    build(six, 50, 16);
}

/* A capture whose first record is too long. The low 32 bits say 5 bytes: no record. */
static void captures(void)
{
    static const uint8_t head[7] = {'G', 'L', 'R', 0, 1, 8, 1};
    uint8_t *capture = before_wall(7), *verdicts = before_wall(1);
    size_t count = 77;
    memcpy(capture, head, 7);
    expect(hifrostum_judge_capture(capture, over + 5, verdicts, 1, &count), 15, "a damaged capture");
    expect(count, 0, "its count");
    memset(capture + 5, 0, 2);
    expect(hifrostum_judge_capture(capture, 7, verdicts, over, &count), 0, "room for 2^32");
    expect(count, 1, "one record");
    expect(verdicts[0], 2, "its verdict");
}

/* Pieces of a buffer that lie around 2^32. */
static void chains(void)
{
    uint8_t *map = reserve(over + PAGE), *edge = map + over - PAGE;
    static const uint32_t around[] = {0xFFFFFFFF, 9, 0xFFFFFFF0, 4}, twice[] = {0xFFFFFFFF, 0xFFFFFFFF};
    uint16_t fold = 1;
    uint64_t length = 7;
    allow(edge, 2 * PAGE, PROT_READ | PROT_WRITE);
    for (size_t i = 0; i < 9; i++)
        map[over - 1 + i] = (uint8_t)(i + 1);
    map[0xFFFFFFF1] = 0x80;
    /* 0102 0304 0506 0708 0900, and behind the odd nine 00 80 00 00 as 8000 */
    expect(hifrostum_sum_chain(map, over + 8, around, 4, &fold, &length), 0, "a chain around 2^32");
    expect(fold, 0x1914 + 0x8000, "its fold");
    expect(length, 13, "its length");
    expect(hifrostum_sum_chain(map, over + 7, around, 4, &fold, &length), 10, "a chain one byte too long");
    expect(fold + length, 0, "beside a refusal");
    expect(hifrostum_sum_chain(map, over + PAGE, twice, 2, &fold, &length), 10, "a piece of 2^32 - 1 at 2^32 - 1");
    expect(hifrostum_sum_chain(map, over, around, 0, &fold, &length), 0, "an empty chain");
}

static unsigned long weigh(size_t position, const uint8_t *bytes, size_t len)
{
    unsigned long total = 0;
    for (size_t i = 0; i < len; i++)
        total += (position + i) % 2 ? bytes[i] : 256ul * bytes[i];
    return total;
}

static unsigned fold_of(unsigned long total)
{
    return total == 0 ? 0 : (unsigned)(1 + (total - 1) % 65535);
}

/* A chain of at least so many bytes: over and over a piece of odd length and one of even length. The odd ones
 * begin at even and odd positions in turn, and the even ones the other way round. Answers the chain's length. */
static size_t long_chain(size_t least)
{
    enum { ODD = 65535, EVEN = ODD - 1 };
    static uint8_t buffer[ODD];
    size_t times = least / (ODD + EVEN) + 1, late = times / 2, early = times - late;
    uint32_t *pieces = malloc(times * 4 * sizeof *pieces);
    uint16_t fold = 1;
    uint64_t length = 7;
    if (pieces == NULL) {
        perror("lengths: no memory");
        exit(1);
    }
    for (size_t i = 0; i < ODD; i++)
        buffer[i] = (uint8_t)(i * i >> 3);
    for (size_t i = 0; i < times; i++) {
        pieces[4 * i] = 0;
        pieces[4 * i + 1] = ODD;
        pieces[4 * i + 2] = 1;
        pieces[4 * i + 3] = EVEN;
    }
    unsigned long total = early * (weigh(0, buffer, ODD) + weigh(1, buffer + 1, EVEN)) +
                          late * (weigh(1, buffer, ODD) + weigh(0, buffer + 1, EVEN));
    expect(hifrostum_sum_chain(buffer, ODD, pieces, 4 * times, &fold, &length), 0, "a long chain");
    expect(fold, fold_of(total), "its fold");
    expect(length, times * (ODD + EVEN), "its length");
    free(pieces);
    return times * (ODD + EVEN);
}

/* A chain whose lengths come to 2^64 together: 2^32 + 1 pieces of 2^32 - 1 bytes and one of a single byte. Its
 * list is one file in memory, mapped again and again, and no byte of its buffer can be touched. So it must be
 * refused before a byte is summed. Answers 0 if there is no room for it. */
static int endless_chain(void)
{
    enum { FILE_SIZE = 1 << 26 };
    const size_t list_size = (size_t)1 << 35;
    uint16_t fold = 1;
    uint64_t length = 7;
    int file = memfd_create("list", 0), whole = file != -1 && ftruncate(file, FILE_SIZE) == 0;
    uint8_t *map = untouchable(list_size + PAGE), *buffer = untouchable(over);
    if (!whole || map == MAP_FAILED || buffer == MAP_FAILED)
        return 0;
    for (size_t at = 0; at < list_size; at += FILE_SIZE)
        if (mmap(map + at, FILE_SIZE, PROT_READ | PROT_WRITE, MAP_SHARED | MAP_FIXED | MAP_NORESERVE, file, 0) ==
            MAP_FAILED)
            return 0;
    allow(map + list_size, PAGE, PROT_READ | PROT_WRITE);
    uint32_t *pieces = (uint32_t *)map, *last = pieces + list_size / sizeof *pieces;
    for (size_t i = 1; i < FILE_SIZE / sizeof *pieces; i += 2)
        pieces[i] = UINT32_MAX;
    last[1] = UINT32_MAX;
    last[3] = 1;
    expect(hifrostum_sum_chain(buffer, UINT32_MAX, pieces, list_size / sizeof *pieces + 4, &fold, &length), 10,
           "a chain of 2^64 bytes");
    expect(fold, 0, "its fold");
    expect(length, 0, "its length");
    return 1;
}

/* A block of zeros with a few other bytes, at even and odd places and at both ends. */
static void block(size_t len)
{
    size_t room = (len / PAGE + 1) * PAGE, places[] = {0, 1, len / 2 - 1, len / 2, len - 2, len - 1};
    uint8_t *map = reserve(room);
    unsigned long total = 0;
    allow(map, room, PROT_READ);
    for (size_t i = 0; i < sizeof places / sizeof *places; i++) {
        uint8_t value = (uint8_t)(0xF1 + i);
        allow(map + places[i] / PAGE * PAGE, PAGE, PROT_READ | PROT_WRITE);
        map[places[i]] = value;
        total += places[i] % 2 ? value : 256ul * value;
    }
    expect(hifrostum_field(map, len), 65535 - fold_of(total), "the field of a long block");
}

int main(int argc, char **argv)
{
    size_t len = argc == 4 ? strtoull(argv[1], NULL, 10) : 0;
    if (len < 6) {
        fprintf(stderr, "usage: lengths BLOCK CHAIN LIST\n");
        return 2;
    }
    packets();
    headers_between();
    fragments();
    builds();
    captures();
    chains();
    block(len);
    size_t chained = long_chain(strtoull(argv[2], NULL, 10));
    const char *endless = strcmp(argv[3], "1") != 0 ? "left out, too slow"
                          : endless_chain()         ? "tried"
                                                    : "left out, no room";
    printf("lengths: %u checks, %u failed (the summed block has %zu bytes, the chain %zu; a chain of 2^64: %s)\n",
           checks, failed, len, chained, endless);
    return failed != 0;
}
