/* Calls the library for the interop test: requests on standard input, answers on standard output.
 *
 * A request is a letter (j judge, m mend, l lower lifetime, a set address, s set stretch, x exchange
 * prefix, c sum a chain, p sum piece by piece and join, f judge fragments, b build), a number (side or
 * place, for b both ports), new bytes (for x the expected prefix and the new one, for c and p the list of
 * pieces, for f the list of records, for b the lifetime, source and destination with a byte for the length
 * before each, and the body) and a packet (for f and b the buffer); an answer is a verdict number and the
 * packet (for c and p the fold and the length in its place, for b the length behind it). Numbers are
 * 32-bit, a record's two and a built packet's length are 64-bit, high byte first, and bytes come after
 * their number. With the word live each answer is out before the next request is awaited. */
#include <stdio.h>
#include <stdlib.h>
#include <string.h>

#include "hifrostum.h"

enum { LONGEST = 1 << 17 };

/* Stops: the test sent what is no request, or has gone. */
static void stop(const char *why)
{
    fprintf(stderr, "ours: %s\n", why);
    exit(1);
}

static uint32_t number(void)
{
    uint8_t b[4];
    if (fread(b, 1, 4, stdin) != 4)
        stop("a request is cut");
    return (uint32_t)b[0] << 24 | (uint32_t)b[1] << 16 | (uint32_t)b[2] << 8 | b[3];
}

static size_t bytes(uint8_t *to)
{
    size_t len = number();
    if (len > LONGEST || fread(to, 1, len, stdin) != len)
        stop("bytes are cut");
    return len;
}

/* A number of so many bytes, high byte first. */
static void put(uint8_t *to, size_t size, uint64_t value)
{
    for (; size > 0; value >>= 8)
        to[--size] = (uint8_t)value;
}

/* The partial sum of pieces of a packet, as one chain or each by itself and then joined. It takes the
 * packet's place. */
static uint8_t sum(int joined, const uint8_t *list, size_t list_len, uint8_t *packet, size_t *len)
{
    static uint32_t pieces[LONGEST / 4];
    size_t count = list_len / 4;
    uint16_t fold = 0, next;
    uint64_t length = 0, next_length;
    uint8_t verdict = 0;
    for (size_t i = 0; i < count; i++, list += 4)
        pieces[i] = (uint32_t)list[0] << 24 | (uint32_t)list[1] << 16 | (uint32_t)list[2] << 8 | list[3];
    if (!joined)
        verdict = hifrostum_sum_chain(packet, *len, pieces, count, &fold, &length);
    for (size_t i = 0; joined && verdict == 0 && i < count; i += 2) {
        verdict = hifrostum_sum_chain(packet, *len, pieces + i, 2, &next, &next_length);
        if (verdict == 0)
            verdict = hifrostum_join(fold, length, next, next_length, &fold, &length);
    }
    put(packet, 2, fold);
    put(packet + 2, 8, length);
    *len = 10;
    return verdict;
}

/* Two prefixes of one length stand one behind the other. */
static uint8_t exchange(uint8_t *packet, size_t len, uint32_t side, const uint8_t *both, size_t both_len)
{
    size_t size = both_len / 2;
    return hifrostum_exchange_prefix(packet, len, side, both, size, both + size, size);
}

static size_t place(const uint8_t *at)
{
    size_t value = 0;
    for (int i = 0; i < 8; i++)
        value = value << 8 | at[i];
    return value;
}

/* Judges the fragments of a buffer that a list of records names. */
static uint8_t fragments(const uint8_t *buffer, size_t len, const uint8_t *list, size_t list_len)
{
    static struct hifrostum_fragment records[LONGEST / 16];
    size_t count = list_len / 16;
    for (size_t i = 0; i < count; i++, list += 16)
        records[i] = (struct hifrostum_fragment){place(list), place(list + 8)};
    return hifrostum_judge_fragments(buffer, len, records, count);
}

/* Some of what is asked: a byte says how many, and they stand behind it. */
static const uint8_t *some(const uint8_t **ask, const uint8_t *end, size_t *len)
{
    const uint8_t *from = *ask + 1;
    if (*ask == end || (size_t)(end - from) < **ask)
        stop("an address is cut");
    *len = **ask;
    *ask = from + *len;
    return from;
}

/* Builds a packet into a buffer, and puts its length behind that. */
static uint8_t build(uint32_t ports, const uint8_t *ask, size_t ask_len, uint8_t *buffer, size_t *len)
{
    const uint8_t *end = ask + ask_len;
    size_t source_len, destination_len, length = SIZE_MAX;
    if (ask_len == 0 || *len + 8 > LONGEST)
        stop("no packet to build");
    uint8_t lifetime = *ask++;
    const uint8_t *source = some(&ask, end, &source_len), *destination = some(&ask, end, &destination_len);
    uint8_t verdict = hifrostum_build_udp(source, source_len, destination, destination_len, (uint16_t)(ports >> 16),
                                          (uint16_t)ports, lifetime, ask, (size_t)(end - ask), buffer, *len, &length);
    put(buffer + *len, 8, length);
    *len += 8;
    return verdict;
}

int main(int argc, char **argv)
{
    static uint8_t new[LONGEST], packet[LONGEST];
    int live = argc == 2 && strcmp(argv[1], "live") == 0;
    for (int letter; (letter = getchar()) != EOF;) {
        uint32_t where = number();
        size_t new_len = bytes(new), len = bytes(packet);
        uint8_t verdict = 0;
        switch (letter) {
        case 'j': verdict = hifrostum_judge(packet, len); break;
        case 'm': verdict = hifrostum_mend(packet, len); break;
        case 'l': verdict = hifrostum_lower_lifetime(packet, len); break;
        case 'a': verdict = hifrostum_set_address(packet, len, where, new, new_len); break;
        case 's': verdict = hifrostum_set_stretch(packet, len, where, new, new_len); break;
        case 'x': verdict = exchange(packet, len, where, new, new_len); break;
        case 'c':
        case 'p': verdict = sum(letter == 'p', new, new_len, packet, &len); break;
        case 'f': verdict = fragments(packet, len, new, new_len); break;
        case 'b': verdict = build(where, new, new_len, packet, &len); break;
        default: stop("no such letter");
        }
        uint8_t head[5] = {verdict};
        put(head + 1, 4, len);
        if (fwrite(head, 1, 5, stdout) != 5 || fwrite(packet, 1, len, stdout) != len || (live && fflush(stdout) != 0))
            stop("an answer was not taken");
    }
    if (fflush(stdout) != 0)
        stop("an answer was not taken");
    return 0;
}
