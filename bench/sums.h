/* The best sums that we know to write in C for any x86-64: 64 bits wide, low byte first, never folded on the way. A
 * total that passes 2^64 gets its carry back in at the low end, which keeps it modulo 65535, and only a total of no
 * bytes but zeros is 0.
 *
 * KIND is how: PLAIN C, in which each carry is added by itself; CHAINS of add-with-carry, which C can't say and which
 * are assembly; or VECTORS, SSE2's, for long strings, and chains for short ones. */
#ifndef SUMS_H
#define SUMS_H

#include <stddef.h>
#include <stdint.h>
#include <string.h>

#define PLAIN 0
#define CHAINS 1
#define VECTORS 2

#define EACH static inline __attribute__((always_inline))
#define RARE(condition) __builtin_expect(condition, 0)

typedef unsigned long long u64;

EACH u64 eight(const uint8_t *at)
{
    u64 w;
    memcpy(&w, at, 8);
    return w;
}

EACH u64 four(const uint8_t *at)
{
    uint32_t w;
    memcpy(&w, at, 4);
    return w;
}

EACH unsigned two(const uint8_t *at)
{
    uint16_t w;
    memcpy(&w, at, 2);
    return w;
}

EACH void put_two(uint8_t *at, unsigned value)
{
    uint16_t w = (uint16_t)value;
    memcpy(at, &w, 2);
}

/* A word as the number that it stands for. */
EACH unsigned number(const uint8_t *at)
{
    return __builtin_bswap16((uint16_t)two(at));
}

/* Both compilers make two instructions of it, and more of t + (t < w). */
EACH u64 add(u64 t, u64 w)
{
    int carry = __builtin_uaddll_overflow(t, w, &t);
    return t + (u64)carry;
}

#if KIND == PLAIN
EACH u64 add_two(u64 t, u64 v, u64 w)
{
    return add(add(t, v), w);
}

EACH u64 add_16(u64 t, const uint8_t *at)
{
    return add_two(t, eight(at), eight(at + 8));
}

EACH u64 add_32(u64 t, const uint8_t *at)
{
    return add_16(add_16(t, at), at + 16);
}

/* Four totals, which don't wait for each other's carries. */
EACH u64 add_turns(u64 t, const uint8_t *at, const uint8_t *end)
{
    u64 a = 0, b = 0, c = 0;
    do {
        t = add_two(t, eight(at), eight(at + 32));
        a = add_two(a, eight(at + 8), eight(at + 40));
        b = add_two(b, eight(at + 16), eight(at + 48));
        c = add_two(c, eight(at + 24), eight(at + 56));
        at += 64;
    } while (at != end);
    return add_two(add(t, a), b, c);
}

#else
/* gcc 12 keeps the total of _addcarry_u64 in memory, and both compilers take its carry out of the flag between turns:
 * hence assembly. clang always puts "rm" into memory. */
#define WORD(at, i) "m"(*(const uint8_t(*)[8])((at) + 8 * (i)))
#ifdef __clang__
#define ANY "r"
#else
#define ANY "rm"
#endif

EACH u64 add_two(u64 t, u64 v, u64 w)
{
    __asm__("add %1, %0\n\tadc %2, %0\n\tadc $0, %0" : "+r"(t) : ANY(v), ANY(w) : "cc");
    return t;
}

EACH u64 add_16(u64 t, const uint8_t *at)
{
    __asm__("add %1, %0\n\tadc %2, %0\n\tadc $0, %0" : "+r"(t) : WORD(at, 0), WORD(at, 1) : "cc");
    return t;
}

EACH u64 add_32(u64 t, const uint8_t *at)
{
    __asm__("add %1, %0\n\tadc %2, %0\n\tadc %3, %0\n\tadc %4, %0\n\tadc $0, %0"
            : "+r"(t)
            : WORD(at, 0), WORD(at, 1), WORD(at, 2), WORD(at, 3)
            : "cc");
    return t;
}

EACH u64 add_64(u64 t, const uint8_t *at)
{
    __asm__("add %1, %0\n\tadc %2, %0\n\tadc %3, %0\n\tadc %4, %0\n\t"
            "adc %5, %0\n\tadc %6, %0\n\tadc %7, %0\n\tadc %8, %0\n\tadc $0, %0"
            : "+r"(t)
            : WORD(at, 0), WORD(at, 1), WORD(at, 2), WORD(at, 3), WORD(at, 4), WORD(at, 5), WORD(at, 6), WORD(at, 7)
            : "cc");
    return t;
}

EACH u64 add_turns(u64 t, const uint8_t *at, const uint8_t *end)
{
    do {
        t = add_64(t, at);
        at += 64;
    } while (at != end);
    return t;
}
#endif

#if KIND == VECTORS
#include <emmintrin.h>

/* Two lanes add whole words and let the carries go, two add their high halves, from which the carries are found in the
 * end. Good for less than 2^35 bytes. */
EACH u64 add_vectors(u64 t, const uint8_t *at, const uint8_t *end)
{
    __m128i words = _mm_setzero_si128(), highs = words;
    do {
        for (int i = 0; i < 64; i += 16) {
            __m128i v = _mm_loadu_si128((const __m128i *)(const void *)(at + i));
            /* by _mm_add_epi64 and _mm_srli_epi64 gcc would shift a copy */
            __asm__("paddq %1, %0\n\tpsrlq $32, %1" : "+x"(words), "+x"(v));
            highs = _mm_add_epi64(highs, v);
        }
        at += 64;
    } while (at != end);
    words = _mm_add_epi64(words, _mm_unpackhi_epi64(words, words));
    highs = _mm_add_epi64(highs, _mm_unpackhi_epi64(highs, highs));
    u64 w = (u64)_mm_cvtsi128_si64(words), h = (u64)_mm_cvtsi128_si64(highs);
    return add_two(t, w - (h << 32), h);
}
#endif

/* Adds len bytes, at least one, of which the first has an even place. The eight bytes before the last one's end must be
 * readable: all that is left at the end is one load, and what was added before is shifted out. */
EACH u64 add_bytes(u64 t, const uint8_t *at, size_t len)
{
    const uint8_t *end = at + len;
    size_t before = len - 1;
    if (before >= 64) {
        const uint8_t *stop = at + (before & ~(size_t)63);
#if KIND == VECTORS
        t = before >= 192 ? add_vectors(t, at, stop) : add_turns(t, at, stop);
#else
        t = add_turns(t, at, stop);
#endif
        at = stop;
    }
    if (before & 32) {
        t = add_32(t, at);
        at += 32;
    }
    if (before & 16) {
        t = add_16(t, at);
        at += 16;
    }
    if (before & 8)
        t = add(t, eight(at));
    unsigned spent = -8u * (unsigned)len;
    __asm__("" : "+r"(spent)); /* the processor takes it modulo 64 by itself */
    return add(t, eight(end - 8) >> (spent & 63));
}

/* Up to 7 bytes, with none readable before them. */
EACH u64 few(const uint8_t *at, size_t len)
{
    u64 t = 0;
    if (len & 4) {
        t = four(at);
        at += 4;
    }
    if (len & 2) {
        t += two(at);
        at += 2;
    }
    if (len & 1)
        t += *at;
    return t;
}

/* Whether a total passes: a positive multiple of 65535. The factor is minus the inverse of 65535 modulo 2^64, and just
 * such multiples come out among the largest numbers. */
EACH int passes(u64 t)
{
    u64 factor = 0x0001000100010001, ignored;
    __asm__("" : "+r"(factor)); /* else gcc multiplies by shifts */
    return __builtin_uaddll_overflow(t * factor, factor, &ignored);
}

/* The field, low byte first, of a total that isn't 0: minus the total modulo 65535. */
EACH unsigned field_of(u64 t)
{
    return (unsigned)(~t % 65535);
}

#endif
