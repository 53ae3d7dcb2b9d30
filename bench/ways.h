/* The ways to do one thing that are measured beside each other: the library, and C that a user would
 * take instead. */
#ifndef WAYS_H
#define WAYS_H

#include "hifrostum.h"

struct way {
    const char *name;
    uint16_t (*field)(const uint8_t *, size_t);
    uint8_t (*chain)(const uint8_t *, size_t, const uint32_t *, size_t, uint16_t *, uint64_t *);
    uint8_t (*judge)(const uint8_t *, size_t);
    uint8_t (*mend)(uint8_t *, size_t);
    uint8_t (*lower)(uint8_t *, size_t);
    uint8_t (*address)(uint8_t *, size_t, uint32_t, const uint8_t *, size_t);
    uint8_t (*stretch)(uint8_t *, size_t, size_t, const uint8_t *, size_t);
    uint8_t (*prefix)(uint8_t *, size_t, uint32_t, const uint8_t *, size_t, const uint8_t *, size_t);
    uint8_t (*gather)(const uint8_t *, size_t, const struct hifrostum_fragment *, size_t);
    uint8_t (*build)(const uint8_t *, size_t, const uint8_t *, size_t, uint16_t, uint16_t, uint8_t, const uint8_t *,
                     size_t, uint8_t *, size_t, size_t *);
};

/* ways.c, as one C compiler makes it and as clang does: the loop of RFC 1071, a 64-bit accumulator, the shape of DPDK's
 * rte_raw_cksum, which exchange no prefix, and RFC 1624 and 6296 by hand, which have no field, chain, judge or mend. */
enum { PLAIN_WAYS = 4 };
extern const struct way *const plain_cc[PLAIN_WAYS], *const plain_clang[PLAIN_WAYS];

/* same.c, by both, in each shape and with each kind of its sums; it has no chain. */
extern const struct way *const once_cc, *const copies_cc, *const adc_cc, *const sse2_cc;
extern const struct way *const once_clang, *const copies_clang, *const adc_clang, *const sse2_clang;

/* gather.c, by both: fragments alone, the message copied together or summed in place, with each kind of sums. */
extern const struct way *const copied_cc, *const placed_cc, *const placed_adc_cc, *const placed_sse2_cc;
extern const struct way *const copied_clang, *const placed_clang, *const placed_adc_clang, *const placed_sse2_clang;

/* build.c, by both: packets built alone, summed by RFC 1071's loop, or by each kind of sums. */
extern const struct way *const loop_cc, *const wide_cc, *const wide_adc_cc, *const wide_sse2_cc;
extern const struct way *const loop_clang, *const wide_clang, *const wide_adc_clang, *const wide_sse2_clang;

/* differ.c: stops the program at the first difference between two ways, in answers or in bytes, on packets from a
 * seeded generator. Answers how many calls were compared. */
unsigned long differ(const struct way *ours, const char *by, const struct way *way, uint64_t seed,
                     unsigned long packets);

/* lists.c: the same for lists of fragments. */
unsigned long differ_lists(const struct way *ours, const char *by, const struct way *way, uint64_t seed,
                           unsigned long lists);

/* asks.c: the same for packets that are to be built. */
unsigned long differ_asks(const struct way *ours, const char *by, const struct way *way, uint64_t seed,
                          unsigned long asks);

#endif
