/* Holds hifrostum_update to the second implementation, and both to equation 3.
 *
 * Standard input has records of four 16-bit words, high byte first: field, old fold, new fold and the
 * answer wanted (`second updates`). The triples whose answer is another than equation 3's must be just
 * those of field FFFF, old fold FFFF and new fold 0000, and there must be one.
 */
#include <stdint.h>
#include <stdio.h>

#include "hifrostum.h"

static unsigned word(const uint8_t *at)
{
    return 256u * at[0] + at[1];
}

static unsigned fold(unsigned long total)
{
    return total == 0 ? 0 : (unsigned)(1 + (total - 1) % 65535);
}

static int fail(const char *why, const uint8_t *record)
{
    printf("updates: failed: %s: field %04X, old fold %04X, new fold %04X\n", why, word(record),
           word(record + 2), word(record + 4));
    return 1;
}

int main(void)
{
    unsigned long triples = 0, others = 0;
    uint8_t record[8];
    size_t got;
    while ((got = fread(record, 1, 8, stdin)) == 8) {
        unsigned field = word(record), old = word(record + 2), new = word(record + 4), wanted = word(record + 6);
        unsigned answer = hifrostum_update((uint16_t)field, (uint16_t)old, (uint16_t)new);
        unsigned equation = 65535 - fold(65535ul - field + 65535ul - old + new);
        int corner = field == 0xFFFF && old == 0xFFFF && new == 0;
        if (answer != wanted) {
            printf("updates: wanted %04X and got %04X\n", wanted, answer);
            return fail("another answer", record);
        }
        if (corner != (answer != equation))
            return fail(corner ? "equation 3's answer" : "another answer than equation 3's", record);
        triples++;
        others += corner;
    }
    if (got != 0 || ferror(stdin)) {
        printf("updates: failed: the input is cut after %lu records\n", triples);
        return 1;
    }
    if (others == 0) {
        printf("updates: failed: %lu records, and none of field FFFF, old fold FFFF, new fold 0000\n", triples);
        return 1;
    }
    printf("updates: %lu answers agree, %lu of them 0000 where equation 3 has FFFF\n", triples, others);
    return 0;
}
