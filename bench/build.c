/* C that builds a UDP packet, with the library's tests in the library's order, and so with its answers. Everything is
 * inlined but memcpy, which is the C library's. `bench same` holds all of it to the library.
 *
 * With LOOP it is what one writes from the RFCs: fields stored byte by byte, and 16-bit words summed in RFC 1071's
 * loop, of which a compiler is free to make vectors. Without, fields are stored eight bytes at a time, the header's sum
 * is known before, and the datagram is summed where it lies: KIND is that of the sums. BY is the name of the way that
 * this becomes. */
#include "sums.h"
#include "ways.h"

enum { UDP = 17, MOST = 1400, PLACE = 10, SPENT = 11, ROOM = 16 };

#if LOOP
EACH void put(uint8_t *at, unsigned value)
{
    at[0] = (uint8_t)(value >> 8);
    at[1] = (uint8_t)value;
}

/* Sums are in the machine's byte order, as RFC 1071 advises. */
EACH uint32_t words(uint32_t sum, const uint8_t *at, size_t len)
{
    for (; len > 1; at += 2, len -= 2)
        sum += two(at);
    return len > 0 ? sum + *at : sum;
}

EACH unsigned complement(uint32_t sum)
{
    while (sum >> 16)
        sum = (sum & 0xFFFF) + (sum >> 16);
    return ~sum & 0xFFFF;
}

EACH void lay_4(uint8_t *p, const uint8_t *source, const uint8_t *destination, uint8_t lifetime, size_t size)
{
    p[0] = 0x45;
    p[1] = 0;
    put(p + 2, (unsigned)size);
    put(p + 4, 0);
    put(p + 6, 0);
    p[8] = lifetime;
    p[9] = UDP;
    put(p + 10, 0);
    memcpy(p + 12, source, 4);
    memcpy(p + 16, destination, 4);
    put_two(p + 10, complement(words(0, p, 20)));
}

EACH void lay_6(uint8_t *p, const uint8_t *source, const uint8_t *destination, uint8_t lifetime, size_t size)
{
    p[0] = 0x60;
    p[1] = p[2] = p[3] = 0;
    put(p + 4, (unsigned)size);
    p[6] = UDP;
    p[7] = lifetime;
    memcpy(p + 8, source, 16);
    memcpy(p + 24, destination, 16);
}

EACH void lay_datagram(uint8_t *udp, const uint8_t *addresses, size_t addresses_len, uint16_t from, uint16_t to,
                       const uint8_t *body, size_t body_len)
{
    unsigned size = (unsigned)body_len + 8;
    put(udp, from);
    put(udp + 2, to);
    put(udp + 4, size);
    put(udp + 6, 0);
    if (body_len > 0)
        memcpy(udp + 8, body, body_len);
    uint32_t rest = (uint32_t)__builtin_bswap16((uint16_t)size) + __builtin_bswap16(UDP);
    unsigned field = complement(words(words(rest, addresses, addresses_len), udp, size));
    put_two(udp + 6, field ? field : 0xFFFF);
}

#else
EACH u64 high_first(unsigned value)
{
    return __builtin_bswap16((uint16_t)value);
}

EACH void put_eight(uint8_t *at, u64 value)
{
    memcpy(at, &value, 8);
}

/* The header's sum is known before anything is stored. */
EACH void lay_4(uint8_t *p, const uint8_t *source, const uint8_t *destination, uint8_t lifetime, size_t size)
{
    u64 first = 0x45 | high_first((unsigned)size) << 16, addresses = four(source) | four(destination) << 32;
    u64 second = lifetime | UDP << 8, field = field_of(add(first + second, addresses));
    uint32_t middle = (uint32_t)(second | field << 16);
    put_eight(p, first);
    memcpy(p + 8, &middle, 4);
    put_eight(p + 12, addresses);
}

EACH void lay_6(uint8_t *p, const uint8_t *source, const uint8_t *destination, uint8_t lifetime, size_t size)
{
    put_eight(p, 0x60 | high_first((unsigned)size) << 32 | (u64)UDP << 48 | (u64)lifetime << 56);
    memcpy(p + 8, source, 16);
    memcpy(p + 24, destination, 16);
}

/* Of the pseudo-header, length and protocol stand in low bytes, and 256 is their weight here. */
EACH void lay_datagram(uint8_t *udp, const uint8_t *addresses, size_t addresses_len, uint16_t from, uint16_t to,
                       const uint8_t *body, size_t body_len)
{
    unsigned size = (unsigned)body_len + 8;
    put_eight(udp, high_first(from) | high_first(to) << 16 | high_first(size) << 32);
    if (body_len > 0)
        memcpy(udp + 8, body, body_len);
    u64 t = (u64)(size + UDP) << 8;
    t = addresses_len == 8 ? add(t, eight(addresses)) : add_32(t, addresses);
    unsigned field = field_of(add_bytes(t, udp, size));
    put_two(udp + 6, RARE(field == 0) ? 0xFFFF : field);
}
#endif

static uint8_t build(const uint8_t *source, size_t source_len, const uint8_t *destination, size_t destination_len,
                     uint16_t from, uint16_t to, uint8_t lifetime, const uint8_t *body, size_t body_len, uint8_t *p,
                     size_t room, size_t *length)
{
    *length = 0;
    int of_four = source_len == 4;
    if (RARE(!of_four && source_len != 16) || RARE(destination_len != source_len) || RARE(body_len > MOST))
        return PLACE;
    if (RARE(lifetime == 0))
        return SPENT;
    size_t header = of_four ? 20 : 40, size = header + 8 + body_len;
    if (RARE(room < size))
        return ROOM;
    *length = size;
    if (of_four) {
        lay_4(p, source, destination, lifetime, size);
        lay_datagram(p + 20, p + 12, 8, from, to, body, body_len);
    } else {
        lay_6(p, source, destination, lifetime, size - 40);
        lay_datagram(p + 40, p + 8, 32, from, to, body, body_len);
    }
    return 0;
}

static const struct way way = {
    LOOP ? "loop" : KIND == PLAIN ? "64-bit" : KIND == CHAINS ? "adc" : "SSE2", 0, 0, 0, 0, 0, 0, 0, 0, 0, build,
};
const struct way *const BY = &way;
