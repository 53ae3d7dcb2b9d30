/* Holds hifrostum_field and hifrostum_sum_chain to the second implementation.
 *
 * Standard input has records of a 32-bit length, so many bytes, and their field, high byte first (`second blocks`).
 * Each block is summed at every address modulo 64, and before memory that can't be touched; around it
 * stand bytes that would change the sum. A chain has it as one piece, and in two and three.
 */
#define _DEFAULT_SOURCE
#include <stdio.h>
#include <stdlib.h>
#include <string.h>
#include <sys/mman.h>

#include "hifrostum.h"

enum { LONGEST = (1 << 20) + 7, ROOM = 1 << 21, PAGE = 1 << 16, PLACES = 64 };

static unsigned long checks, failed;

static void expect(unsigned long got, unsigned long want, const char *what, size_t len, size_t place)
{
    checks++;
    if (got != want) {
        failed++;
        printf("blocks: failed: %s: %zu bytes at %zu: wanted %lX and got %lX\n", what, len, place, want, got);
    }
}

/* The block as a chain of pieces, which lie one after the other from a place of the buffer on. */
static void chain(const uint8_t *buffer, size_t place, size_t len, unsigned field, size_t first, size_t second)
{
    uint32_t pieces[6] = {
        (uint32_t)place,           (uint32_t)first,
        (uint32_t)(place + first), (uint32_t)second,
        (uint32_t)(place + first + second), (uint32_t)(len - first - second),
    };
    uint16_t fold = 1;
    uint64_t length = 7;
    expect(hifrostum_sum_chain(buffer, place + len, pieces, 6, &fold, &length), 0, "chain", len, place);
    expect(fold, 65535 - field, "a chain's fold", len, place);
    expect(length, len, "a chain's length", len, place);
}

static void block(uint8_t *room, const uint8_t *bytes, size_t len, unsigned field)
{
    uint8_t *wall = room + ROOM - len;
    /* a long block takes the emulator long: not all addresses */
    for (size_t place = 0; place < PLACES; place += len <= 300 ? 1 : len < 10000 ? 7 : 61) {
        memset(room + place, 0xE5, 64 + len + 64);
        memcpy(room + place + 64, bytes, len);
        expect(hifrostum_field(room + place + 64, len), field, "field", len, place);
        chain(room, place + 64, len, field, len, 0);
        chain(room, place + 64, len, field, len / 2, 0);
        chain(room, place + 64, len, field, len / 3, len / 2 | (len > 2));
    }
    memcpy(wall, bytes, len);
    expect(hifrostum_field(wall, len), field, "field before a wall", len, ROOM - len);
}

int main(void)
{
    static uint8_t bytes[LONGEST];
    uint8_t head[4], tail[2];
    uint8_t *room = mmap(NULL, ROOM + PAGE, PROT_READ | PROT_WRITE, MAP_PRIVATE | MAP_ANONYMOUS, -1, 0);
    unsigned long blocks = 0, longest = 0;
    size_t got;
    if (room == MAP_FAILED || mprotect(room + ROOM, PAGE, PROT_NONE) != 0) {
        perror("blocks: no memory");
        return 1;
    }
    while ((got = fread(head, 1, 4, stdin)) == 4) {
        size_t len = (size_t)head[0] << 24 | (size_t)head[1] << 16 | (size_t)head[2] << 8 | head[3];
        if (len > LONGEST || fread(bytes, 1, len, stdin) != len || fread(tail, 1, 2, stdin) != 2) {
            printf("blocks: failed: the input is cut, or a block is too long, after %lu blocks\n", blocks);
            return 1;
        }
        block(room, bytes, len, 256u * tail[0] + tail[1]);
        blocks++;
        longest = len > longest ? len : longest;
    }
    if (got != 0 || longest != LONGEST) {
        printf("blocks: failed: the input is cut, or its longest block has not %d bytes\n", LONGEST);
        return 1;
    }
    printf("blocks: %lu blocks, the longest of %lu bytes: %lu checks, %lu failed\n", blocks, longest, checks, failed);
    return failed != 0;
}
