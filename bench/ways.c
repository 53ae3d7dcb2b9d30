/* What a C user would take instead of the library: three ways to sum, and chains, a relay's judge, mender
 * and edits over each. They serve UDP over IPv4 and IPv6 alone, and a lifetime whatever the message is, test
 * what a careful user tests, and sum in the machine's byte order, as RFC 1071 advises. An edit sums afresh
 * what it touched, but for the last way, which updates by RFC 1624, and exchanges prefixes by RFC 6296. All
 * answer 1 where they refuse. */
#include "ways.h"

#include <string.h>

/* Words and folding */

static inline uint16_t word(const uint8_t *at)
{
    uint16_t w;
    memcpy(&w, at, 2);
    return w;
}

static inline void put(uint8_t *at, uint16_t w)
{
    memcpy(at, &w, 2);
}

static inline uint16_t swap(uint16_t w)
{
    return (uint16_t)(w << 8 | w >> 8);
}

static inline uint16_t fold(uint64_t sum)
{
    sum = (sum & 0xFFFFFFFF) + (sum >> 32);
    while (sum >> 16)
        sum = (sum & 0xFFFF) + (sum >> 16);
    return (uint16_t)sum;
}

/* RFC 1071, section 4.1: word by word into 32 bits, then a byte that is left over, then the carries. */
static uint16_t sum_rfc1071(const uint8_t *bytes, size_t len)
{
    uint32_t sum = 0;
    while (len > 1) {
        sum += word(bytes);
        bytes += 2;
        len -= 2;
    }
    if (len > 0)
        sum += *bytes;
    while (sum >> 16)
        sum = (sum & 0xFFFF) + (sum >> 16);
    return (uint16_t)sum;
}

/* Eight bytes a turn into 64 bits, with the carry put back in, then the rest. */
static uint16_t sum_wide(const uint8_t *bytes, size_t len)
{
    uint64_t sum = 0, eight;
    for (; len >= 8; len -= 8, bytes += 8) {
        memcpy(&eight, bytes, 8);
        sum += eight;
        sum += sum < eight;
    }
    uint32_t four;
    eight = 0;
    if (len & 4) {
        memcpy(&four, bytes, 4);
        eight += four;
        bytes += 4;
    }
    if (len & 2) {
        eight += word(bytes);
        bytes += 2;
    }
    if (len & 1)
        eight += *bytes;
    sum += eight;
    sum += sum < eight;
    return fold(sum);
}

/* DPDK's shape: 16-bit words into 32 bits, four a turn, then the rest, then two folds. */
static uint16_t sum_dpdk(const uint8_t *bytes, size_t len)
{
    uint32_t sum = 0;
    for (; len >= 8; len -= 8, bytes += 8)
        sum += (uint32_t)word(bytes) + word(bytes + 2) + word(bytes + 4) + word(bytes + 6);
    for (; len >= 2; len -= 2, bytes += 2)
        sum += word(bytes);
    if (len == 1)
        sum += *bytes;
    sum = (sum & 0xFFFF) + (sum >> 16);
    sum = (sum & 0xFFFF) + (sum >> 16);
    return (uint16_t)sum;
}

/* Where things are in a packet. */
struct place {
    size_t start, end, source, address_len;
    int four;
};

/* Where UDP begins behind IPv6's headers between; 0 if these aren't such as may stand there, or it isn't UDP. It is
 * rarely called, and stands apart so that what is called always is inlined as it would be without it. */
static __attribute__((noinline)) size_t walk(const uint8_t *p, size_t end)
{
    size_t start = 40;
    unsigned next = p[6];
    for (int passed = 0; next != 17; passed++) {
        const uint8_t *header = p + start;
        if (passed == 8 || end - start < 8)
            return 0;
        if (!(next == 0 ? passed == 0 : next == 43 ? header[3] == 0 : next == 60))
            return 0;
        next = header[0];
        start += 8u + 8u * header[1];
        if (start > end)
            return 0;
    }
    return start;
}

/* Finds them, and looks whether it is UDP and whole: then the end is the datagram's. A lifetime needs the IP header and
 * the declared length alone. */
static inline int find(const uint8_t *p, size_t len, struct place *at, int udp)
{
    if (len >= 20 && p[0] >> 4 == 4) {
        *at = (struct place){4u * (p[0] & 15), swap(word(p + 2)), 12, 4, 1};
        if (at->start < 20 || at->end < at->start || at->end > len)
            return 0;
        if (udp && ((swap(word(p + 6)) & 0x3FFF) || p[9] != 17))
            return 0;
    } else if (len >= 40 && p[0] >> 4 == 6) {
        *at = (struct place){40, 40u + swap(word(p + 4)), 8, 16, 0};
        if (at->end > len || (udp && p[6] != 17 && (at->start = walk(p, at->end)) == 0))
            return 0;
    } else {
        return 0;
    }
    if (!udp)
        return 1;
    if (at->end - at->start < 8)
        return 0;
    size_t message = at->end - at->start, datagram = swap(word(p + at->start + 4));
    at->end = at->start + datagram;
    return datagram >= 8 && datagram <= message;
}

typedef uint16_t summing(const uint8_t *, size_t);
#define EACH static inline __attribute__((always_inline))

EACH uint8_t chain(summing sum, const uint8_t *b, size_t n, const uint32_t *list, size_t list_len, uint16_t *out,
                   uint64_t *length)
{
    uint64_t total = 0, so_far = 0;
    if (list_len % 2)
        return 1;
    for (; list_len > 0; list_len -= 2, list += 2) {
        if ((size_t)list[0] + list[1] > n)
            return 1;
        uint16_t piece = sum(b + list[0], list[1]);
        total += so_far % 2 ? swap(piece) : piece;
        so_far += list[1];
    }
    *out = swap(fold(total));
    *length = so_far;
    return 0;
}

EACH uint16_t message(summing sum, const uint8_t *p, const struct place *at)
{
    size_t len = at->end - at->start;
    uint64_t pseudo = (uint64_t)sum(p + at->source, 2 * at->address_len) + swap((uint16_t)len) + swap(17);
    return fold(pseudo + sum(p + at->start, len));
}

EACH void fresh_header(summing sum, uint8_t *p, const struct place *at)
{
    if (!at->four)
        return;
    put(p + 10, 0);
    put(p + 10, (uint16_t)~sum(p, at->start));
}

EACH void fresh_message(summing sum, uint8_t *p, const struct place *at)
{
    uint8_t *udp = p + at->start;
    if (at->four && word(udp + 6) == 0)
        return;
    put(udp + 6, 0);
    uint16_t field = (uint16_t)~message(sum, p, at);
    put(udp + 6, field ? field : 0xFFFF);
}

EACH uint8_t judge(summing sum, const uint8_t *p, size_t len)
{
    struct place at;
    if (!find(p, len, &at, 1) || (at.four && sum(p, at.start) != 0xFFFF))
        return 1;
    if (word(p + at.start + 6) == 0)
        return 1;
    return message(sum, p, &at) != 0xFFFF;
}

EACH uint8_t mend(summing sum, uint8_t *p, size_t len)
{
    struct place at;
    if (!find(p, len, &at, 1))
        return 1;
    fresh_header(sum, p, &at);
    fresh_message(sum, p, &at);
    return 0;
}

EACH uint8_t lower(summing sum, uint8_t *p, size_t len)
{
    struct place at;
    if (!find(p, len, &at, 0))
        return 1;
    uint8_t *lifetime = p + (at.four ? 8 : 7);
    if (*lifetime < 2)
        return 1;
    --*lifetime;
    fresh_header(sum, p, &at);
    return 0;
}

EACH uint8_t address(summing sum, uint8_t *p, size_t len, uint32_t side, const uint8_t *new, size_t new_len)
{
    struct place at;
    if (!find(p, len, &at, 1) || side > 1 || new_len != at.address_len)
        return 1;
    memcpy(p + at.source + side * at.address_len, new, at.address_len);
    fresh_header(sum, p, &at);
    fresh_message(sum, p, &at);
    return 0;
}

EACH uint8_t stretch(summing sum, uint8_t *p, size_t len, size_t where, const uint8_t *new, size_t new_len)
{
    struct place at;
    if (!find(p, len, &at, 1) || new_len > at.end - at.start - 8 || where > at.end - at.start - 8 - new_len)
        return 1;
    memcpy(p + at.start + 8 + where, new, new_len);
    fresh_message(sum, p, &at);
    return 0;
}

/* One way of all this for each way to sum. */
#define WAY(name, words)                                                                                       \
    static uint16_t name##_field(const uint8_t *b, size_t n)                                                   \
    {                                                                                                          \
        return (uint16_t)~swap(sum_##name(b, n));                                                              \
    }                                                                                                          \
    static uint8_t name##_chain(const uint8_t *b, size_t n, const uint32_t *list, size_t list_len,             \
                                uint16_t *out, uint64_t *length)                                               \
    {                                                                                                          \
        return chain(sum_##name, b, n, list, list_len, out, length);                                           \
    }                                                                                                          \
    static uint8_t name##_judge(const uint8_t *p, size_t n)                                                    \
    {                                                                                                          \
        return judge(sum_##name, p, n);                                                                        \
    }                                                                                                          \
    static uint8_t name##_mend(uint8_t *p, size_t n)                                                           \
    {                                                                                                          \
        return mend(sum_##name, p, n);                                                                         \
    }                                                                                                          \
    static uint8_t name##_lower(uint8_t *p, size_t n)                                                          \
    {                                                                                                          \
        return lower(sum_##name, p, n);                                                                        \
    }                                                                                                          \
    static uint8_t name##_address(uint8_t *p, size_t n, uint32_t side, const uint8_t *new, size_t new_len)     \
    {                                                                                                          \
        return address(sum_##name, p, n, side, new, new_len);                                                  \
    }                                                                                                          \
    static uint8_t name##_stretch(uint8_t *p, size_t n, size_t where, const uint8_t *new, size_t new_len)      \
    {                                                                                                          \
        return stretch(sum_##name, p, n, where, new, new_len);                                                 \
    }                                                                                                          \
    static const struct way name = {words,       name##_field, name##_chain,   name##_judge,                   \
                                    name##_mend, name##_lower, name##_address, name##_stretch, 0, 0, 0}

WAY(rfc1071, "RFC 1071 loop");
WAY(wide, "64-bit loop");
WAY(dpdk, "DPDK shape");

/* RFC 1624, equation 3 */
static inline uint16_t update(uint16_t field, uint16_t old, uint16_t new)
{
    return (uint16_t)~fold((uint64_t)(uint16_t)~field + (uint16_t)~old + new);
}

static inline void update_message(uint8_t *udp, uint16_t old, uint16_t new)
{
    uint16_t field = word(udp + 6);
    if (field == 0)
        return;
    field = update(field, old, new);
    put(udp + 6, field ? field : 0xFFFF);
}

static uint8_t hand_lower(uint8_t *p, size_t len)
{
    struct place at;
    if (!find(p, len, &at, 0))
        return 1;
    uint8_t *lifetime = p + (at.four ? 8 : 7);
    if (*lifetime < 2)
        return 1;
    --*lifetime;
    if (at.four)
        put(p + 10, update(word(p + 10), (uint16_t)(*lifetime + 1), *lifetime));
    return 0;
}

static uint8_t hand_address(uint8_t *p, size_t len, uint32_t side, const uint8_t *new, size_t new_len)
{
    struct place at;
    if (!find(p, len, &at, 1) || side > 1 || new_len != at.address_len)
        return 1;
    uint8_t *here = p + at.source + side * at.address_len;
    uint16_t old_fold = sum_rfc1071(here, at.address_len), new_fold = sum_rfc1071(new, at.address_len);
    memcpy(here, new, at.address_len);
    if (at.four)
        put(p + 10, update(word(p + 10), old_fold, new_fold));
    update_message(p + at.start, old_fold, new_fold);
    return 0;
}

static uint8_t hand_stretch(uint8_t *p, size_t len, size_t where, const uint8_t *new, size_t new_len)
{
    struct place at;
    if (!find(p, len, &at, 1) || new_len > at.end - at.start - 8 || where > at.end - at.start - 8 - new_len)
        return 1;
    uint8_t *here = p + at.start + 8 + where;
    uint16_t old_fold = sum_rfc1071(here, new_len), new_fold = sum_rfc1071(new, new_len);
    memcpy(here, new, new_len);
    if (where % 2)
        old_fold = swap(old_fold), new_fold = swap(new_fold);
    update_message(p + at.start, old_fold, new_fold);
    return 0;
}

/* RFC 6296 for prefixes of 48 bits. No message is looked at, nor is it known that there is one. */
static uint8_t hand_prefix(uint8_t *p, size_t len, uint32_t side, const uint8_t *expected, size_t expected_len,
                           const uint8_t *new, size_t new_len)
{
    enum { PREFIX = 6 };
    if (len < 40 || p[0] >> 4 != 6 || side > 1 || expected_len != PREFIX || new_len != PREFIX)
        return 1;
    uint8_t *here = p + 8 + 16 * side;
    if (memcmp(here, expected, PREFIX) != 0 || word(here + PREFIX) == 0xFFFF)
        return 1;
    uint16_t old_fold = sum_rfc1071(expected, PREFIX), new_fold = sum_rfc1071(new, PREFIX);
    uint16_t after = fold((uint64_t)word(here + PREFIX) + old_fold + (uint16_t)~new_fold);
    memcpy(here, new, PREFIX);
    put(here + PREFIX, after == 0xFFFF ? 0 : after);
    return 0;
}

static const struct way by_hand = {
    "RFC 1624 or 6296 by hand", 0, 0, 0, 0, hand_lower, hand_address, hand_stretch, hand_prefix, 0, 0,
};

/* BY is plain_cc or plain_clang. */
const struct way *const BY[PLAIN_WAYS] = {&rfc1071, &wide, &dpdk, &by_hand};
