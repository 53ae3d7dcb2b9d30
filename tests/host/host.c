/* Calls every exported function of the archive as a C host does.
 *
 * Each call is made four times: over buffers with guard bytes on both sides, over buffers at odd
 * addresses, over buffers that end where memory that can't be touched begins, and over buffers that
 * begin where it ends. The four must agree, no guard byte may change, and a refused call may change
 * nothing at all. An empty buffer is a null pointer in the first. Tails inside a packet also lie in
 * memory that can't be touched, and so does what headers between reach for behind a payload. Each
 * packet that is judged is judged as a list of one fragment too; fragments and their list lie in memory
 * that can't be written, once in four, and so do the addresses and the body of a packet that is to be
 * built, and its buffer if it is refused. What is wanted is the rules' or comes from the sums below.
 */
#define _DEFAULT_SOURCE
#include <stdio.h>
#include <stdlib.h>
#include <string.h>
#include <sys/mman.h>
#include <unistd.h>

#include "hifrostum.h"

/* fold_at and renewed, as they stand in the header's comment */
#include "example.h"

enum { GUARD = 64, FILL = 0xA5, SPACE = 1 << 21 };

/* Where in a room a buffer lies: between guard bytes, between them at odd addresses, before a wall, behind one. */
enum { GUARDED, ODDLY, BEFORE_WALL, BEHIND_WALL, LAYS };

/* Counting checks */

static unsigned checks, failed, group_checks;

static void check(int holds, const char *what)
{
    checks++;
    if (!holds) {
        failed++;
        printf("host: failed: %s\n", what);
    }
}

static void expect(unsigned long got, unsigned long want, const char *what)
{
    check(got == want, what);
    if (got != want)
        printf("host: wanted %lX and got %lX\n", want, got);
}

static void group(const char *name)
{
    printf("host: %s: %u checks\n", name, checks - group_checks);
    group_checks = checks;
}

/* Rooms: memory that is lent to one call, between two walls, which can't be touched */

struct room {
    uint8_t *map, *lent;
    size_t len;
    int lay;
};

static struct room first, second, third, fourth, fifth;

static void build(struct room *room)
{
    size_t page = (size_t)sysconf(_SC_PAGESIZE);
    uint8_t *walls = mmap(NULL, SPACE + 2 * page, PROT_NONE, MAP_PRIVATE | MAP_ANONYMOUS, -1, 0);
    if (walls == MAP_FAILED || mprotect(walls + page, SPACE, PROT_READ | PROT_WRITE) != 0) {
        perror("host: no memory");
        exit(1);
    }
    room->map = walls + page;
}

/* Copies bytes into a room, in units of 1, 2, 4 or 8 bytes, with guard bytes around. */
static void *lend(struct room *room, int lay, const void *bytes, size_t len, size_t unit)
{
    const size_t starts[LAYS] = {GUARD, GUARD + unit, SPACE - len, 0};
    room->lent = room->map + starts[lay];
    room->len = len;
    room->lay = lay;
    if (lay != BEHIND_WALL)
        memset(room->lent - GUARD, FILL, GUARD);
    if (lay != BEFORE_WALL)
        memset(room->lent + len, FILL, GUARD);
    if (len > 0)
        memcpy(room->lent, bytes, len);
    return lay == GUARDED && len == 0 ? NULL : room->lent;
}

static void guards(const struct room *room)
{
    int kept = 1;
    for (size_t i = 1; i <= GUARD; i++) {
        kept &= room->lay == BEHIND_WALL || room->lent[-(ptrdiff_t)i] == FILL;
        kept &= room->lay == BEFORE_WALL || room->lent[room->len + i - 1] == FILL;
    }
    check(kept, "guard bytes");
}

static void unchanged(const struct room *room, const void *bytes)
{
    check(room->len == 0 || memcmp(room->lent, bytes, room->len) == 0, "a byte that was to stay");
}

/* Calls */

enum operation { JUDGE, MEND, LIFETIME, ADDRESS, STRETCH, PREFIX };

/* Calls an operation on a packet, with a side or place and new bytes, or with two prefixes. Changes the packet as it
 * did. */
static unsigned call_with(enum operation op, uint8_t *packet, size_t len, size_t number,
                          const uint8_t *bytes, size_t bytes_len, const uint8_t *more, size_t more_len)
{
    static uint8_t was[SPACE];
    unsigned answer = 0;
    if (len > 0)
        memcpy(was, packet, len);
    for (int lay = 0; lay < LAYS; lay++) {
        uint8_t *p = lend(&first, lay, was, len, 1), *b = lend(&second, lay, bytes, bytes_len, 1);
        uint8_t *m = lend(&third, lay, more, more_len, 1);
        unsigned verdict = op == JUDGE      ? hifrostum_judge(p, len)
                           : op == MEND     ? hifrostum_mend(p, len)
                           : op == LIFETIME ? hifrostum_lower_lifetime(p, len)
                           : op == ADDRESS  ? hifrostum_set_address(p, len, (uint32_t)number, b, bytes_len)
                           : op == STRETCH  ? hifrostum_set_stretch(p, len, number, b, bytes_len)
                                            : hifrostum_exchange_prefix(p, len, (uint32_t)number, b, bytes_len,
                                                                        m, more_len);
        guards(&first);
        guards(&second);
        unchanged(&second, bytes);
        if (op == PREFIX) {
            guards(&third);
            unchanged(&third, more);
        }
        if (verdict != 0 || op == JUDGE)
            unchanged(&first, was);
        if (lay == 0) {
            answer = verdict;
            if (len > 0)
                memcpy(packet, first.lent, len);
        } else {
            expect(verdict, answer, "the same answer in another place");
            unchanged(&first, packet);
        }
    }
    return answer;
}

static unsigned call(enum operation op, uint8_t *packet, size_t len, size_t number,
                     const uint8_t *bytes, size_t bytes_len)
{
    return call_with(op, packet, len, number, bytes, bytes_len, NULL, 0);
}

_Static_assert(sizeof(struct hifrostum_fragment) == 2 * sizeof(size_t) &&
                   offsetof(struct hifrostum_fragment, offset) == 0 &&
                   offsetof(struct hifrostum_fragment, length) == sizeof(size_t),
               "a record is an offset and a length, each a size_t");

/* Sets whether what is lent of a room, and what follows it, may be written. */
static void allow(const struct room *room, int how)
{
    size_t page = (size_t)sysconf(_SC_PAGESIZE), start = (size_t)(room->lent - room->map) / page * page;
    if (start < SPACE && mprotect(room->map + start, SPACE - start, how) != 0) {
        perror("host: mprotect");
        exit(1);
    }
}

/* Judges fragments. Those before a wall, and their list, lie in memory that can only be read. */
static unsigned judge_list(const uint8_t *buffer, size_t len, const struct hifrostum_fragment *list, size_t count)
{
    unsigned answer = 0;
    for (int lay = 0; lay < LAYS; lay++) {
        const uint8_t *b = lend(&first, lay, buffer, len, 1);
        const struct hifrostum_fragment *l = lend(&second, lay, list, count * sizeof *list, sizeof(size_t));
        if (lay == BEFORE_WALL) {
            allow(&first, PROT_READ);
            allow(&second, PROT_READ);
        }
        unsigned verdict = hifrostum_judge_fragments(b, len, l, count);
        if (lay == BEFORE_WALL) {
            allow(&first, PROT_READ | PROT_WRITE);
            allow(&second, PROT_READ | PROT_WRITE);
        }
        guards(&first);
        guards(&second);
        unchanged(&first, buffer);
        unchanged(&second, list);
        answer = lay == 0 ? verdict : answer;
        expect(verdict, answer, "the same answer in another place");
    }
    return answer;
}

/* What a list of one packet gets that has this verdict: the same, but 3 for IPv6, and 4 for a fragment or a protocol
 * that isn't covered where the message is empty or ends past byte 65,515. */
static unsigned listed_alone(const uint8_t *packet, size_t len, unsigned verdict)
{
    if (len > 0 && packet[0] >> 4 == 6)
        return 3;
    if (verdict != 6 && verdict != 7)
        return verdict;
    size_t message = 256u * packet[2] + packet[3] - 4u * (packet[0] & 15);
    size_t at = 8 * (256u * (packet[6] & 31) + packet[7]);
    return message == 0 || at + message > 65515 ? 4 : verdict;
}

static unsigned judge(uint8_t *packet, size_t len)
{
    const struct hifrostum_fragment one = {0, len};
    unsigned verdict = call(JUDGE, packet, len, 0, NULL, 0);
    expect(judge_list(packet, len, &one, 1), listed_alone(packet, len, verdict), "judge it as a list of one");
    return verdict;
}

static unsigned mend(uint8_t *packet, size_t len)
{
    return call(MEND, packet, len, 0, NULL, 0);
}

static unsigned lower(uint8_t *packet, size_t len)
{
    return call(LIFETIME, packet, len, 0, NULL, 0);
}

static unsigned exchange(uint8_t *packet, size_t len, size_t side, const uint8_t *expected, size_t expected_len,
                         const uint8_t *new, size_t new_len)
{
    return call_with(PREFIX, packet, len, side, expected, expected_len, new, new_len);
}

static unsigned field(const uint8_t *bytes, size_t len)
{
    unsigned answer = 0;
    for (int lay = 0; lay < LAYS; lay++) {
        unsigned value = hifrostum_field(lend(&first, lay, bytes, len, 1), len);
        guards(&first);
        unchanged(&first, bytes);
        answer = lay == 0 ? value : answer;
        expect(value, answer, "the same field in another place");
    }
    return answer;
}

/* What stands where a partial sum is answered, before the call. */
static const uint16_t before_fold = 0x5A5A;
static const uint64_t before_length = 0x5A5A5A5A5A5A5A5A;

/* The fold of a chain, and checks of the verdict, of the length and of the answers beside a refusal. */
static unsigned chain(const uint8_t *bytes, size_t len, const uint32_t *pieces, size_t pieces_len,
                      unsigned verdict, uint64_t length)
{
    uint16_t answer = 0;
    for (int lay = 0; lay < LAYS; lay++) {
        uint8_t *b = lend(&first, lay, bytes, len, 1);
        uint32_t *q = lend(&second, lay, pieces, 4 * pieces_len, 4);
        uint16_t *fold = lend(&third, lay, &before_fold, 2, 2);
        uint64_t *summed = lend(&fourth, lay, &before_length, 8, 8);
        expect(hifrostum_sum_chain(b, len, q, pieces_len, fold, summed), verdict, "chain: verdict");
        expect(*summed, length, "chain: length");
        if (verdict != 0)
            expect(*fold, 0, "chain: fold beside a refusal");
        answer = lay == 0 ? *fold : answer;
        expect(*fold, answer, "the same fold in another place");
        guards(&first);
        guards(&second);
        guards(&third);
        guards(&fourth);
        unchanged(&first, bytes);
        unchanged(&second, pieces);
    }
    return answer;
}

/* Judges a capture and checks verdict, count and that nothing past the count is written. */
static void capture(const uint8_t *bytes, size_t len, uint8_t *verdicts, size_t verdicts_len,
                    unsigned verdict, size_t count)
{
    static uint8_t was[SPACE];
    static const size_t before_count = 77;
    memset(was, 0x5A, verdicts_len);
    for (int lay = 0; lay < LAYS; lay++) {
        uint8_t *b = lend(&first, lay, bytes, len, 1), *v = lend(&second, lay, was, verdicts_len, 1);
        size_t *c = lend(&third, lay, &before_count, sizeof *c, sizeof *c);
        expect(hifrostum_judge_capture(b, len, v, verdicts_len, c), verdict, "capture: verdict");
        expect(*c, count, "capture: count");
        guards(&first);
        guards(&second);
        guards(&third);
        unchanged(&first, bytes);
        if (verdict == 0 && count <= verdicts_len)
            check(count == verdicts_len || memcmp(v + count, was + count, verdicts_len - count) == 0,
                  "capture: past the count");
        else
            unchanged(&second, was);
        if (verdicts_len > 0)
            memcpy(verdicts, second.lent, verdicts_len);
    }
}

/* Sums of the test's own: RFC 1071 word by word */

static unsigned long weigh(const uint8_t *bytes, size_t len)
{
    unsigned long total = 0;
    for (size_t i = 0; i < len; i++)
        total += i % 2 ? bytes[i] : 256ul * bytes[i];
    return total;
}

static unsigned fold(unsigned long total)
{
    return total == 0 ? 0 : (unsigned)(1 + (total - 1) % 65535);
}

static unsigned word(const uint8_t *at)
{
    return 256u * at[0] + at[1];
}

static void put(uint8_t *at, size_t value)
{
    at[0] = (uint8_t)(value >> 8);
    at[1] = (uint8_t)value;
}

/* Joins two partial sums, and checks verdict, fold and length. What is wanted comes from the folds as
 * words one behind the other, the second a byte later if the first sum's length is odd. */
static void join(uint16_t fold_a, uint64_t length_a, uint16_t fold_b, uint64_t length_b)
{
    int past = length_b > UINT64_MAX - length_a;
    uint8_t both[5] = {0};
    put(both, fold_a);
    put(both + 2 + length_a % 2, fold_b);
    for (int lay = 0; lay < LAYS; lay++) {
        uint16_t *joined = lend(&first, lay, &before_fold, 2, 2);
        uint64_t *length = lend(&second, lay, &before_length, 8, 8);
        expect(hifrostum_join(fold_a, length_a, fold_b, length_b, joined, length), past ? 10 : 0, "join: verdict");
        expect(*joined, past ? fold_a : fold(weigh(both, 5)), "join: fold");
        expect(*length, past ? length_a : length_a + length_b, "join: length");
        guards(&first);
        guards(&second);
    }
}

/* Where a message begins, behind headers between too if they are right, of which protocol it is, and how long. */
static size_t start_of(const uint8_t *packet)
{
    if (packet[0] >> 4 == 4)
        return 4u * (packet[0] & 15);
    size_t at = 40;
    for (unsigned next = packet[6]; next == 0 || next == 43 || next == 60; at += 8 + 8u * packet[at + 1])
        next = packet[at];
    return at;
}

static unsigned protocol_of(const uint8_t *packet)
{
    unsigned next = packet[0] >> 4 == 4 ? packet[9] : packet[6];
    for (size_t at = 40; packet[0] >> 4 == 6 && at < start_of(packet); at += 8 + 8u * packet[at + 1])
        next = packet[at];
    return next;
}

static size_t message_of(const uint8_t *packet)
{
    return (packet[0] >> 4 == 4 ? word(packet + 2) : 40 + word(packet + 4)) - start_of(packet);
}

/* What so many bytes of message sum to, the field included, with a length in the pseudo-header. */
static unsigned sum_of(const uint8_t *packet, size_t len, size_t length)
{
    int four = packet[0] >> 4 == 4;
    unsigned protocol = protocol_of(packet);
    unsigned long total = weigh(packet + start_of(packet), len);
    if (protocol != 1)
        total += weigh(packet + (four ? 12 : 8), four ? 8 : 32) + protocol + length;
    return fold(total);
}

/* What a message's own sum comes to. UDP says how long it is. */
static unsigned message_sum(const uint8_t *packet)
{
    int udp = protocol_of(packet) == 17;
    size_t len = udp ? word(packet + start_of(packet) + 4) : message_of(packet);
    return sum_of(packet, len, len);
}

/* Builds a packet of a family and protocol whose message has so many bytes, all fields 0000, the
 * lifetime 64. Answers its length. */
static size_t packet_of(uint8_t *packet, int family, unsigned protocol, size_t message)
{
    size_t start = family == 4 ? 20 : 40;
    for (size_t i = 0; i < start + message; i++)
        packet[i] = (uint8_t)(i * 37 + 11);
    if (family == 4) {
        packet[0] = 0x45;
        put(packet + 2, 20 + message);
        put(packet + 6, 0x4000);
        packet[8] = 64;
        packet[9] = (uint8_t)protocol;
        put(packet + 10, 0);
    } else {
        packet[0] = 0x60;
        put(packet + 4, message);
        packet[6] = (uint8_t)protocol;
        packet[7] = 64;
    }
    uint8_t *m = packet + start;
    if (protocol == 6)
        m[12] = 0x50;
    if (protocol == 17)
        put(m + 4, message);
    put(m + (protocol == 6 ? 16 : protocol == 17 ? 6 : 2), protocol == 17 ? 0xFFFF : 0);
    return start + message;
}

/* The rules paper's packets */

static const uint8_t udp[30] = {
    0x45, 0, 0, 0x1E, 0, 0, 0x40, 0, 0x40, 0x11, 0xB8, 0xB6, 0xC0, 0xA8, 0, 1, 0xC0, 0xA8, 0, 0xC7,
    0x13, 0x88, 0x13, 0x89, 0, 0x0A, 0x0E, 0x47, 0x48, 0x69,
};
static const uint8_t icmp6[48] = {
    0x60, 0, 0, 0, 0, 8, 58, 64, [23] = 1, [39] = 1, 0x80, 0, 0x7F, 0xB9, 0, 1, 0, 1,
};
static const uint8_t glr[37] = {
    0x47, 0x4C, 0x52, 0, 1, 0, 0, 0, 0x1C,
    0x45, 0, 0, 0x1C, 0, 0, 0, 0, 0x40, 1, 0x66, 0xDF, 0x0A, 0, 0, 1, 0x0A, 0, 0, 2,
    8, 0, 0xF7, 0xFD, 0, 1, 0, 1,
};

static uint8_t p[SPACE], q[SPACE];

/* p becomes the paper's UDP packet. */
static void take_udp(void)
{
    memcpy(p, udp, sizeof udp);
}

/* RFC 6296's prefixes. */
static const uint8_t inside[6] = {0xFD, 1, 2, 3, 4, 5}, outside[6] = {0x20, 1, 0x0D, 0xB8, 0, 1};

/* Exchanges a prefix of p, where nothing is refused, and back. The new prefix stands, the word behind it keeps the
 * address's class modulo 65535 and isn't FFFF, and no other byte changes. The verdict and the message's sum stay, and
 * in the end each byte is as it was. */
static void exchanged(size_t len, size_t side, const uint8_t *new)
{
    static uint8_t was[SPACE], want[SPACE];
    size_t at = 8 + 16 * side;
    unsigned verdict = judge(p, len);
    memcpy(was, p, len);
    memcpy(want, p, len);
    memcpy(want + at, new, 6);
    expect(exchange(p, len, side, was + at, 6, new, 6), 0, "exchange a prefix");
    expect(weigh(p + at, 16) % 65535, weigh(was + at, 16) % 65535, "the class of the address");
    check(word(p + at + 6) != 0xFFFF, "the word isn't FFFF");
    put(want + at + 6, word(p + at + 6));
    check(memcmp(p, want, len) == 0, "the prefix, the word and no other byte");
    expect(judge(p, len), verdict, "the verdict stays");
    expect(message_sum(p), message_sum(was), "the message's sum stays");
    expect(exchange(p, len, side, new, 6, was + at, 6), 0, "exchange it back");
    check(memcmp(p, was, len) == 0, "what was there");
}

static const uint8_t words[8] = {0, 1, 0xF2, 3, 0xF4, 0xF5, 0xF6, 0xF7};

static void fields(void)
{
    static const uint8_t ones[2] = {0xFF, 0xFF}, zeros[2] = {0, 0}, odd[1] = {0xAB};
    expect(field(NULL, 0), 0xFFFF, "field of no bytes");
    expect(field(zeros, 2), 0xFFFF, "field of 00 00");
    expect(field(ones, 2), 0, "field of FF FF");
    expect(field(odd, 1), 0x54FF, "field of AB");
    expect(field(words, 8), 0x220D, "field of RFC 1071's words");
    memset(p, 0xFF, SPACE / 2);
    expect(field(p, SPACE / 2), 0, "field of a megabyte of FF");
    for (size_t i = 0; i < SPACE / 2; i++)
        p[i] = (uint8_t)(i * i >> 3);
    for (size_t len = 0; len < 70; len++)
        expect(field(p + len, len), 65535 - fold(weigh(p + len, len)), "field of each length");
    expect(field(p, SPACE / 2 - 1), 65535 - fold(weigh(p, SPACE / 2 - 1)), "field of an odd megabyte");
}

static void updates(void)
{
    expect(hifrostum_update(0xDD2F, 0x5555, 0x3285), 0, "update DD2F");
    expect(hifrostum_update(0xEDCB, 0x1234, 0), 0, "update EDCB");
    expect(hifrostum_update(0xB861, 0x4000, 0x3F00), 0xB961, "update of a lifetime");
    expect(hifrostum_update(0xFFFF, 0x1234, 0x1234), 0, "update of FFFF by nothing");
    expect(hifrostum_update(0xFFFF, 0xFFFF, 0), 0, "update of FFFF from FFFF to 0000");
    static const uint16_t corners[] = {0, 1, 0xFF, 0x100, 0x7FFF, 0x8000, 0xFFFE, 0xFFFF};
    for (unsigned i = 0; i < 512; i++) {
        uint16_t hc = corners[i / 64], m = corners[i / 8 % 8], n = corners[i % 8];
        unsigned equation = 65535 - fold(65535ul - hc + 65535ul - m + n);
        expect(hifrostum_update(hc, m, n), equation == 0xFFFF ? 0 : equation, "update at a corner");
    }
}

/* The header's example: a stretch at each place of a block, even and odd, and of each length. */
static void example(void)
{
    uint8_t before[40], after[40];
    for (size_t i = 0; i < 40; i++)
        before[i] = (uint8_t)(i * i * 7 + 3);
    for (size_t place = 0; place < 40; place++)
        for (size_t len = 0; place + len <= 40; len++) {
            memcpy(after, before, 40);
            for (size_t i = 0; i < len; i++)
                after[place + i] = (uint8_t)(place * 31 + i * 5 + 1);
            uint16_t was = (uint16_t)(65535 - fold(weigh(before, 40)));
            expect(renewed(was, place, before + place, after + place, len), 65535 - fold(weigh(after, 40)),
                   "the header's example");
        }
    expect(fold_at(1, words, 3), 0x01F2, "a fold at an odd place");
    /* two bytes of FF at each place become zeros, under a field at FFFF where the fresh one is 0000 */
    for (size_t place = 0; place < 37; place++) {
        put(before + place, 0xFFFF);
        put(before + 38, 0);
        put(before + 38, 65535 - fold(weigh(before, 40)));
        memcpy(after, before, 40);
        put(after + place, 0);
        expect(renewed(0xFFFF, place, before + place, after + place, 2), 65535 - fold(weigh(after, 40)),
               "the header's example under FFFF");
    }
}

static void chains(void)
{
    static const uint32_t joined[] = {0, 3, 3, 5}, gaps[] = {8, 0, 7, 1, 0, 0, 2, 3, 2, 3};
    static const uint8_t gathered[7] = {0xF7, 0xF2, 3, 0xF4, 0xF2, 3, 0xF4};
    static const uint32_t mixed[] = {0, 3, 2, 2, 5, 3, 7, 1, 1, 2};
    static const uint8_t mixture[11] = {0, 1, 0xF2, 0xF2, 3, 0xF5, 0xF6, 0xF7, 0xF7, 1, 0xF2};
    static const uint32_t wrapped[] = {0xFFFFFFFF, 1}, past[] = {0, 3, 9, 0}, late[] = {0, 8, 0, 8, 1, 8};
    expect(chain(words, 8, joined, 4, 0, 8), 0xDDF2, "chain of 3 bytes and 5");
    expect(chain(words, 8, joined, 2, 0, 3), 0xF201, "chain of 3 bytes");
    expect(chain(words, 8, joined + 2, 2, 0, 5), 0xF0EB, "chain of 5 bytes");
    expect(chain(words, 8, gaps, 10, 0, 7), fold(weigh(gathered, 7)), "chain of odd and repeated pieces");
    expect(chain(words, 8, mixed, 10, 0, 11), fold(weigh(mixture, 11)), "chain of odd and even pieces");
    expect(chain(words, 8, NULL, 0, 0, 0), 0, "empty chain");
    expect(chain(NULL, 0, joined, 0, 0, 0), 0, "empty chain of nothing");
    expect(chain(NULL, 0, gaps + 4, 2, 0, 0), 0, "empty piece of nothing");
    chain(words, 8, joined, 3, 10, 0);
    chain(words, 8, joined, 1, 10, 0);
    chain(words, 7, joined, 4, 10, 0);
    chain(words, 8, wrapped, 2, 10, 0);
    chain(words, 8, past, 4, 10, 0);
    chain(words, 8, late, 6, 10, 0);
    chain(NULL, 0, joined, 2, 10, 0);
    static uint32_t many[20000];
    for (size_t i = 0; i < 20000; i += 2) {
        many[i] = (uint32_t)i;
        many[i + 1] = 1;
        p[i] = q[i / 2] = (uint8_t)(i * i >> 3);
    }
    expect(chain(p, SPACE / 2, many, 20000, 0, 10000), fold(weigh(q, 10000)), "chain of ten thousand bytes");
}

static void joins(void)
{
    static const uint16_t folds[8] = {0, 1, 0xFF, 0x100, 0x1234, 0xFF00, 0xFFFE, 0xFFFF};
    static const uint64_t lengths[12] = {
        0, 1, 2, 3, 0xFFFFFFFF, 0x100000000, INT64_MAX, (uint64_t)INT64_MAX + 1, (uint64_t)INT64_MAX + 2,
        UINT64_MAX - 2, UINT64_MAX - 1, UINT64_MAX,
    };
    uint16_t sum;
    uint64_t length;
    expect(hifrostum_join(0xF201, 3, 0xF0EB, 5, &sum, &length), 0, "join 3 bytes and 5");
    expect(sum, 0xDDF2, "their fold");
    expect(length, 8, "their length");
    hifrostum_join(0x0100, 1, 0x0200, 1, &sum, &length);
    expect(sum, 0x0102, "01 before 02");
    hifrostum_join(0x0200, 1, 0x0100, 1, &sum, &length);
    expect(sum, 0x0201, "02 before 01");
    for (size_t i = 0; i < 64; i++)
        for (size_t odd = 0; odd < 4; odd++)
            join(folds[i / 8], 6 + odd / 2, folds[i % 8], 10 + odd % 2);
    /* each two lengths with two pairs of folds, and all of those in turn */
    for (size_t i = 0; i < 2 * 144; i++)
        join(folds[i * 5 % 64 / 8], lengths[i / 2 / 12], folds[i * 5 % 8], lengths[i / 2 % 12]);
}

/* The chains of a string's pieces, all of one length, joined in turn into a sum that begins with nothing. */
static void cuts(void)
{
    uint8_t bytes[40];
    for (size_t i = 0; i < 40; i++)
        bytes[i] = (uint8_t)(i * i * 7 + 3);
    for (uint32_t cut = 1; cut <= 40; cut++) {
        uint16_t sum = 0, other;
        uint64_t length = 0, other_length;
        for (uint32_t at = 0; at < 40; at += cut) {
            uint32_t piece[2] = {at, at + cut <= 40 ? cut : 40 - at};
            hifrostum_sum_chain(bytes, 40, piece, 2, &other, &other_length);
            expect(hifrostum_join(sum, length, other, other_length, &sum, &length), 0, "join at a cut");
            expect(sum, fold(weigh(bytes, at + piece[1])), "the fold so far");
            expect(length, at + piece[1], "the length so far");
        }
    }
}

/* A driver that joins a piece only where its sum ends. It gets all pieces over and over, and none in order. */
static void in_place(void)
{
    static const uint32_t pieces[6][2] = {{20, 7}, {4, 16}, {27, 13}, {3, 1}, {5, 2}, {0, 3}};
    uint16_t sum = 0, other;
    uint64_t length = 0, other_length;
    uint8_t bytes[40];
    for (size_t i = 0; i < 40; i++)
        bytes[i] = (uint8_t)(i * i * 5 + 1);
    for (size_t i = 0; i < 6 * 6; i++) {
        const uint32_t *piece = pieces[i % 6];
        hifrostum_sum_chain(bytes, 40, piece, 2, &other, &other_length);
        if (piece[0] == length)
            expect(hifrostum_join(sum, length, other, other_length, &sum, &length), 0, "join in place");
        expect(sum, fold(weigh(bytes, length)), "the sum of the first bytes");
    }
    expect(length, 40, "all of them");
}

static void judging(void)
{
    expect(judge(NULL, 0), 2, "no bytes");
    take_udp();
    expect(judge(p, 30), 0, "the paper's UDP packet");
    for (size_t len = 1; len < 30; len++)
        expect(judge(p, len), 2, "a cut packet");
    memcpy(q, icmp6, 48);
    expect(judge(q, 48), 0, "the paper's ICMPv6 packet");
    for (size_t len = 1; len < 48; len++)
        expect(judge(q, len), 2, "a cut IPv6 packet");
    memcpy(q, glr + 9, 28);
    expect(judge(q, 28), 0, "the paper's ICMP packet");
}

/* What the sum can't see: in each kind of packet two words of the body exchanged, as the pressure altitude
 * and the ellipsoidal height of a report, and a word that goes from 0000 to FFFF. A changed byte it sees. */
static void unseen(void)
{
    static const struct { int family; unsigned protocol; size_t body; } kind[] = {
        {4, 17, 28}, {4, 6, 40}, {4, 1, 28}, {6, 17, 48}, {6, 6, 60}, {6, 58, 44},
    };
    for (size_t k = 0; k < sizeof kind / sizeof *kind; k++) {
        size_t len = packet_of(p, kind[k].family, kind[k].protocol, 64);
        uint8_t *altitude = p + kind[k].body + 4, *height = p + kind[k].body + 8, *zero = p + kind[k].body + 12;
        put(altitude, 1234);
        put(height, 1187);
        put(zero, 0);
        expect(mend(p, len), 0, "a report made here");
        expect(judge(p, len), 0, "the report");
        put(altitude, 1187);
        put(height, 1234);
        expect(judge(p, len), 0, "altitude and height exchanged go unseen");
        put(zero, 0xFFFF);
        expect(judge(p, len), 0, "0000 that became FFFF goes unseen");
        put(height, 1235);
        expect(judge(p, len), 9, "a height of one more is seen");
    }
}

static void refusals(void)
{
    /* one byte at a time: where, its value, and the verdict */
    static const struct {
        size_t at;
        uint8_t value;
        unsigned verdict;
    } damage[] = {{0, 0x05, 3}, {0, 0x55, 3}, {0, 0x75, 3}, {0, 0x44, 4}, {0, 0x48, 4}, {3, 0x13, 4}, {3, 0x1F, 2},
                  {8, 0x3F, 5}, {29, 0x6A, 9}, {27, 0x48, 9}, {20, 0x12, 9}, {25, 0x0B, 4}};
    for (size_t i = 0; i < sizeof damage / sizeof *damage; i++) {
        take_udp();
        p[damage[i].at] = damage[i].value;
        expect(judge(p, 30), damage[i].verdict, "a damaged packet");
    }

    take_udp();
    put(p + 26, 0);
    expect(judge(p, 30), 1, "unsummed");
    put(p + 6, 0x2000);
    put(p + 10, 0xB8B6 + 0x2000);
    expect(judge(p, 30), 6, "more fragments");
    put(p + 6, 0x0001);
    put(p + 10, 0xB8B6 + 0x3FFF);
    expect(judge(p, 30), 6, "a later fragment");
    size_t len = packet_of(p, 4, 58, 8);
    put(p + 10, 65535 - fold(weigh(p, 20)));
    expect(judge(p, len), 7, "ICMPv6 in IPv4");
    len = packet_of(p, 6, 17, 8);
    put(p + 46, 0);
    expect(judge(p, len), 8, "UDP over IPv6 with no sum");
    memset(p, 0, 40);
    p[0] = 0x60;
    p[6] = 17;
    expect(judge(p, 40), 4, "an empty message");
}

static void mending(void)
{
    expect(mend(NULL, 0), 2, "no bytes");
    size_t len = packet_of(p, 4, 17, 95);
    memcpy(p, udp, 20);
    put(p + 2, 0x73);
    expect(mend(p, len), 0, "mend the paper's header");
    expect(word(p + 10), 0xB861, "the paper's header field");
    expect(lower(p, len), 0, "lower it");
    expect(word(p + 10), 0xB961, "the paper's lowered header field");

    take_udp();
    put(p + 26, 0x1234);
    put(p + 10, 0x1234);
    expect(mend(p, 30), 0, "mend the paper's UDP packet");
    check(memcmp(p, udp, 30) == 0, "the paper's UDP packet");
    put(p + 28, 0x56B0);
    expect(mend(p, 30), 0, "mend data 56 B0");
    expect(word(p + 26), 0xFFFF, "computed 0000, sent FFFF");
    expect(judge(p, 30), 0, "judge FFFF");
    put(p + 26, 0);
    expect(mend(p, 30), 0, "mend an unsummed packet");
    expect(word(p + 26), 0, "a kept zero");
    expect(judge(p, 30), 1, "judge a kept zero");

    memcpy(p, icmp6, 48);
    put(p + 42, 0);
    expect(mend(p, 48), 0, "mend the paper's ICMPv6 packet");
    expect(word(p + 42), 0x7FB9, "the paper's ICMPv6 field");
}

static void mending_each(void)
{
    static const struct {
        int family;
        unsigned protocol;
        size_t message;
    } kinds[] = {{4, 1, 8}, {4, 1, 9}, {4, 6, 20}, {4, 6, 21}, {4, 17, 8}, {4, 17, 1473},
                 {6, 6, 20}, {6, 6, 1441}, {6, 17, 8}, {6, 17, 9}, {6, 58, 4}, {6, 58, 1001}};
    for (size_t i = 0; i < sizeof kinds / sizeof *kinds; i++) {
        size_t len = packet_of(p, kinds[i].family, kinds[i].protocol, kinds[i].message);
        p[len] = 0xEE;
        expect(mend(p, len + 1), 0, "mend");
        expect(message_sum(p), 0xFFFF, "the message sums right");
        expect(p[len], 0xEE, "the tail stays");
        expect(judge(p, len + 1), 0, "judge what was mended");
        memcpy(q, p, len);
        expect(mend(p, len), 0, "mend again");
        check(memcmp(p, q, len) == 0, "twice is once");
    }
}

static void mending_corners(void)
{
    size_t len = packet_of(p, 6, 17, 8);
    put(p + 46, 0);
    expect(mend(p, len), 0, "mend UDP over IPv6 with no sum");
    expect(judge(p, len), 0, "which fills it in");
    len = packet_of(p, 4, 1, 12);
    memset(p + 20, 0, 12);
    expect(mend(p, len), 0, "mend blank ICMP");
    expect(word(p + 22), 0xFFFF, "its field");
    take_udp();
    put(p + 6, 1);
    expect(mend(p, 30), 6, "mend a fragment");
    put(p + 6, 0);
    p[9] = 58;
    expect(mend(p, 30), 7, "mend what is uncovered");
    p[9] = 6;
    expect(mend(p, 30), 4, "mend TCP without a header");
    p[0] = 0x15;
    expect(mend(p, 30), 3, "mend version 1");
}

static void lifetime(void)
{
    expect(lower(NULL, 0), 2, "no bytes");
    take_udp();
    for (unsigned left = 64; left > 1; left--) {
        expect(lower(p, 30), 0, "lower");
        expect(p[8], left - 1, "one less");
        expect(judge(p, 30), 0, "judge what was lowered");
    }
    expect(lower(p, 30), 11, "a lifetime of 1");
    p[8] = 0;
    expect(lower(p, 30), 11, "a lifetime of 0");
    memcpy(p, icmp6, 48);
    expect(lower(p, 48), 0, "lower IPv6");
    p[7]++;
    check(memcmp(p, icmp6, 48) == 0, "nothing but the hop limit");
    p[7] = 1;
    expect(lower(p, 48), 11, "a hop limit of 1");
    take_udp();
    p[29] = 0x6A;
    expect(lower(p, 30), 0, "lower a damaged packet");
    expect(judge(p, 30), 9, "it stays damaged");
    expect(lower(p, 29), 2, "lower a cut packet");
}

static void fresh_header(uint8_t *packet)
{
    if (packet[0] >> 4 != 4)
        return;
    put(packet + 10, 0);
    put(packet + 10, 65535 - fold(weigh(packet, 4u * (packet[0] & 15))));
}

/* Lowers p, which has this verdict, from several lifetimes. The lifetime changes, the IPv4 header field stays fresh,
 * the verdict and each other byte stay. The other edits refuse with the verdict (an exchange of prefixes in IPv4 with
 * 3), and the mender unless it is 8. */
static void passed_over(size_t len, unsigned verdict)
{
    static const uint8_t lifetimes[] = {255, 3, 2, 1, 0};
    size_t four = p[0] >> 4 == 4, place = four ? 8 : 7;
    for (size_t i = 0; i < sizeof lifetimes; i++) {
        p[place] = lifetimes[i];
        fresh_header(p);
        memcpy(q, p, len);
        q[place] -= lifetimes[i] > 1;
        fresh_header(q);
        expect(judge(p, len), verdict, "judge what only the lifetime edit takes");
        expect(lower(p, len), lifetimes[i] > 1 ? 0 : 11, "lower it");
        check(memcmp(p, q, len) == 0, "its bytes");
        expect(judge(p, len), verdict, "its verdict");
        expect(call(ADDRESS, p, len, 1, udp, four ? 4 : 16), verdict, "a new destination");
        expect(call(STRETCH, p, len, 0, udp, 1), verdict, "a stretch");
        expect(exchange(p, len, i % 2, q + 8 + i % 2 * 16, 6, outside, 6), four ? 3 : verdict, "a prefix");
        expect(exchange(p, len, 2, NULL, 0, outside, i), four ? 3 : verdict, "a prefix, all wrong");
        if (verdict != 8)
            expect(mend(p, len), verdict, "mend it");
        expect(lower(p, len), lifetimes[i] > 2 ? 0 : 11, "lower it again");
        expect(judge(p, len), verdict, "its verdict again");
    }
}

/* First, middle and last fragments of each protocol, with options and a tail or without, down to an empty message.
 * The last ones are zeros, also where a whole packet has its field: they are data and stay. Over IPv6 a fragment header
 * makes them so, whatever its bytes are. */
static void fragments(void)
{
    static const unsigned flags[] = {0x2000, 0x60B9, 0x0001}, protocols[] = {1, 6, 17, 58, 47};
    static const size_t messages[] = {0, 3, 8, 41};
    for (size_t i = 0; i < 3 * 5 * 4; i++) {
        size_t message = messages[i % 4], options = i % 3 * 20, tail = i % 2 * 5;
        size_t len = packet_of(p, 4, protocols[i / 12], options + message);
        p[0] = (uint8_t)(0x45 + options / 4);
        put(p + 6, flags[i / 4 % 3]);
        memset(p + 20 + options, 0, i / 4 % 3 == 2 ? message : 0);
        memset(p + len, 0xEE, tail);
        passed_over(len + tail, 6);
        len = packet_of(p, 6, 44, message);
        memset(p + 40, i / 4 % 3 == 2 ? 0 : (int)protocols[i / 12], message);
        memset(p + len, 0xEE, tail);
        passed_over(len + tail, 6);
    }
    /* from 255 down to 1; and with a wrong header sum, which stays wrong by as much */
    size_t len = packet_of(p, 4, 17, 24);
    put(p + 6, 0x2000);
    p[8] = 255;
    fresh_header(p);
    for (unsigned left = 255; left > 1; left--) {
        expect(lower(p, len), 0, "lower a fragment");
        expect(p[8], left - 1, "one less");
        expect(fold(weigh(p, 20)), 0xFFFF, "its header sums right");
    }
    expect(lower(p, len), 11, "a fragment's lifetime of 1");
    p[8] = 64;
    fresh_header(p);
    p[1] ^= 4;
    expect(judge(p, len), 5, "judge a fragment with a wrong header sum");
    expect(lower(p, len), 0, "lower it");
    expect(judge(p, len), 5, "it stays wrong");
    p[1] ^= 4;
    expect(judge(p, len), 6, "and is right without the damage");
}

/* Protocols that aren't covered, those of IPv6's headers among them that aren't walked; messages of a wrong shape; UDP
 * over IPv6 with no sum. */
static void unjudged(void)
{
    static const uint8_t other4[] = {0, 2, 41, 44, 47, 50, 58, 255};
    static const uint8_t other6[] = {1, 4, 41, 47, 50, 51, 59, 135, 139, 255};
    for (size_t i = 0; i < sizeof other4; i++)
        passed_over(packet_of(p, 4, other4[i], 5 * i), 7);
    for (size_t i = 0; i < sizeof other6; i++)
        passed_over(packet_of(p, 6, other6[i], 5 * i), 7);
    /* family, protocol, bytes of message, and where else in it a byte is another */
    static const struct {
        int family;
        unsigned protocol;
        size_t message, at;
        uint8_t value;
    } wrong[] = {{4, 1, 0, 0, 0}, {4, 1, 7, 0, 0}, {4, 6, 0, 0, 0}, {4, 6, 19, 0, 0},
                 {4, 17, 0, 0, 0}, {4, 17, 7, 0, 0}, {6, 6, 0, 0, 0}, {6, 6, 19, 0, 0},
                 {6, 17, 0, 0, 0}, {6, 17, 7, 0, 0}, {6, 58, 0, 0, 0}, {6, 58, 3, 0, 0},
                 {4, 6, 27, 12, 0x40}, {4, 6, 27, 12, 0x70}, {6, 6, 27, 12, 0x00}, {6, 6, 27, 12, 0xF0},
                 {4, 17, 12, 5, 7}, {4, 17, 12, 5, 13}, {6, 17, 12, 5, 7}, {6, 17, 12, 5, 13}};
    for (size_t i = 0; i < sizeof wrong / sizeof *wrong; i++) {
        size_t len = packet_of(p, wrong[i].family, wrong[i].protocol, wrong[i].message);
        if (wrong[i].at != 0)
            p[len - wrong[i].message + wrong[i].at] = wrong[i].value;
        passed_over(len, 4);
    }
    size_t len = packet_of(p, 6, 17, 12);
    put(p + 46, 0);
    passed_over(len, 8);
}

/* What the lifetime edit does look at: each header length with total lengths around it and around the bytes at hand,
 * and IPv6's payload length. The answer is the first of 4, 4, 2 and 11, of a whole packet and of a fragment. */
static void lengths(void)
{
    enum { BYTES = 64 };
    for (size_t words = 0; words < 16; words++) {
        size_t totals[] = {0, 19, 20, 4 * words - (words > 0), 4 * words, BYTES - 1, BYTES, BYTES + 1, 65535};
        for (size_t i = 0; i < 9 * 2 * 3; i++) {
            size_t total = totals[i / 6], lifetime = i % 3;
            packet_of(p, 4, 17, BYTES - 20);
            p[0] = (uint8_t)(0x40 + words);
            put(p + 2, total);
            put(p + 6, i / 3 % 2 ? 0x2001 : 0x4000);
            p[8] = (uint8_t)lifetime;
            unsigned verdict = words < 5 || total < 4 * words ? 4 : total > BYTES ? 2 : lifetime < 2 ? 11 : 0;
            expect(lower(p, BYTES), verdict, "a header length and a total length");
        }
    }
    for (size_t payload = 22; payload < 27; payload++)
        for (uint8_t lifetime = 0; lifetime < 3; lifetime++) {
            packet_of(p, 6, 44, BYTES - 40);
            put(p + 4, payload);
            p[7] = lifetime;
            expect(lower(p, BYTES), payload > BYTES - 40 ? 2 : lifetime < 2 ? 11 : 0, "a payload length");
        }
    /* a fragment cut at every byte, and one whose long header is cut */
    for (int family = 4; family <= 6; family += 2) {
        size_t len = packet_of(p, family, 44, 16);
        put(p + 6, family == 4 ? 0x2000 : 44 * 256);
        for (size_t cut = 0; cut < len; cut++)
            expect(lower(p, cut), 2, "a cut fragment");
    }
    packet_of(p, 4, 17, 64);
    p[0] = 0x4F;
    put(p + 6, 0x2000);
    for (size_t cut = 20; cut < 84; cut++)
        expect(lower(p, cut), 2, "a fragment with a cut header");
    put(p + 2, 59);
    for (size_t cut = 20; cut <= 84; cut++)
        expect(lower(p, cut), 4, "a fragment whose header is longer than its total length");
}

static void address(void)
{
    static const uint8_t new4[4] = {10, 0, 0, 9}, new6[17] = {0x20, 1, 0x0D, 0xB8, [15] = 9};
    static const uint8_t want[30] = {
        0x45, 0, 0, 0x1E, 0, 0, 0x40, 0, 0x40, 0x11, 0x70, 0x1D, 0xC0, 0xA8, 0, 1, 10, 0, 0, 9,
        0x13, 0x88, 0x13, 0x89, 0, 0x0A, 0xC5, 0xAD, 0x48, 0x69,
    };
    expect(call(ADDRESS, NULL, 0, 0, new4, 4), 2, "no bytes");
    take_udp();
    expect(call(ADDRESS, p, 30, 1, new4, 4), 0, "a new destination");
    check(memcmp(p, want, 30) == 0, "its bytes");
    expect(call(ADDRESS, p, 30, 0, new4, 4), 0, "a new source");
    expect(word(p + 12), 0x0A00, "in place");
    expect(judge(p, 30), 0, "judge it");
    expect(call(ADDRESS, p, 30, 2, new4, 4), 10, "side 2");
    expect(call(ADDRESS, p, 30, 0xFFFFFFFF, new4, 4), 10, "side FFFFFFFF");
    expect(call(ADDRESS, p, 30, 0, NULL, 0), 10, "no address");
    expect(call(ADDRESS, p, 30, 0, new4, 3), 10, "an address of 3 bytes");
    expect(call(ADDRESS, p, 30, 0, new6, 5), 10, "an address of 5 bytes");
    expect(call(ADDRESS, p, 30, 0, new6, 16), 10, "an address of the other family");
    put(p + 26, 0);
    expect(call(ADDRESS, p, 30, 1, udp + 16, 4), 0, "a new destination of an unsummed packet");
    expect(word(p + 26), 0, "a kept zero");
    expect(judge(p, 30), 1, "judge it");

    memcpy(p, icmp6, 48);
    for (size_t side = 0; side < 2; side++) {
        expect(call(ADDRESS, p, 48, side, new6, 16), 0, "a new IPv6 address");
        check(memcmp(p + 8 + 16 * side, new6, 16) == 0, "in place");
        expect(judge(p, 48), 0, "judge it");
    }
    expect(call(ADDRESS, p, 48, 2, new6, 16), 10, "side 2");
    expect(call(ADDRESS, p, 48, 1, new6, 15), 10, "an address of 15 bytes");
    expect(call(ADDRESS, p, 48, 1, new6, 17), 10, "an address of 17 bytes");
    expect(call(ADDRESS, p, 48, 1, new4, 4), 10, "an address of the other family");
    p[6] = 59;
    expect(call(ADDRESS, p, 48, 2, new4, 0), 7, "uncovered comes first");
    p[6] = 44;
    expect(call(ADDRESS, p, 48, 2, new4, 0), 6, "and so does a fragment");
    p[6] = 60;
    p[41] = 1;
    expect(call(ADDRESS, p, 48, 2, new4, 0), 4, "and a header that passes the payload's end");
}

static void stretch(void)
{
    static const uint8_t new[4] = {0xDE, 0xAD, 0xBE, 0xEF}, zero_sum[2] = {0x56, 0xB0};
    expect(call(STRETCH, NULL, 0, 0, NULL, 0), 2, "no bytes");
    take_udp();
    put(p + 28, 0x56B0);
    put(p + 26, 0xFFFF);
    expect(call(STRETCH, p, 30, 0, udp + 28, 2), 0, "a new body");
    check(memcmp(p, udp, 30) == 0, "its bytes");
    expect(call(STRETCH, p, 30, 1, new, 1), 0, "one byte at an odd place");
    expect(p[29], 0xDE, "in place");
    expect(judge(p, 30), 0, "judge it");
    take_udp();
    expect(call(STRETCH, p, 30, 0, zero_sum, 2), 0, "data 56 B0");
    expect(word(p + 26), 0xFFFF, "updated to 0000, sent FFFF");
    expect(call(STRETCH, p, 30, 0, new, 3), 10, "too long");
    expect(call(STRETCH, p, 30, 1, new, 2), 10, "too far");
    expect(call(STRETCH, p, 30, 2, NULL, 0), 0, "nothing at the end");
    expect(call(STRETCH, p, 30, 3, NULL, 0), 10, "nothing past the end");
    expect(call(STRETCH, p, 30, SIZE_MAX, new, 1), 10, "place SIZE_MAX");
    expect(call(STRETCH, p, 30, SIZE_MAX, NULL, 0), 10, "nothing at place SIZE_MAX");
    expect(call(STRETCH, p, 30, SIZE_MAX - 1, new, 4), 10, "a place that wraps");
}

static void stretch_each(void)
{
    static const uint8_t new[4] = {0xDE, 0xAD, 0xBE, 0xEF}, zeros[8] = {0};
    size_t len = packet_of(p, 6, 6, 41);
    p[52] = 0x70;
    mend(p, len);
    for (size_t place = 0; place <= 13; place++)
        for (size_t n = 0; n <= 4; n++) {
            expect(call(STRETCH, p, len, place, new, n), place + n > 13 ? 10 : 0, "TCP after its options");
            check(place + n > 13 || memcmp(p + 68 + place, new, n) == 0, "in place");
            expect(judge(p, len), 0, "judge it");
        }

    len = packet_of(p, 4, 1, 12);
    memset(p + 20, 0, 12);
    p[30] = 7;
    mend(p, len);
    expect(call(STRETCH, p, len, 0, zeros, 4), 12, "it would be blank");
    expect(call(STRETCH, p, len, 0, zeros, 2), 0, "it would not be blank");
    expect(call(STRETCH, p, len, 0, zeros, 5), 10, "place before blank");
    p[30] = 0;
    expect(call(STRETCH, p, len, 0, new, 1), 12, "it is blank");
    expect(call(STRETCH, p, len, 4, NULL, 0), 0, "nothing, though blank");
    expect(call(STRETCH, p, len - 1, 0, new, 1), 2, "a cut packet");
}

/* Fields at FFFF where the fresh ones are 0000, and bytes of the fold FFFF that become zeros: there equation 3
 * would keep the FFFF. Each updated field must be the mender's, 0000, and FFFF for UDP. */

struct kind {
    int family;
    unsigned protocol;
    size_t message, field, body;
};
static const struct kind each[] = {
    {4, 1, 20, 22, 28}, {4, 6, 20, 36, 40}, {4, 17, 20, 26, 28},
    {6, 6, 40, 56, 60}, {6, 17, 40, 46, 48}, {6, 58, 40, 42, 44},
};
enum { KINDS = sizeof each / sizeof *each, BODY = 20 };

static const uint8_t none[16] = {0};

/* p becomes a good packet with these bytes at a place, whose fields stand at FFFF and are 0000 when fresh. */
static size_t all_ones(const struct kind *kind, size_t place, const uint8_t *bytes, size_t bytes_len)
{
    size_t len = packet_of(p, kind->family, kind->protocol, kind->body - kind->message + BODY);
    memcpy(p + place, bytes, bytes_len);
    put(p + kind->field, 0);
    put(p + kind->message, 0);
    put(p + kind->message, 65535 - message_sum(p));
    put(p + kind->field, 0xFFFF);
    if (kind->family == 4) {
        put(p + 4, 0);
        put(p + 4, 65535 - fold(weigh(p, 20)));
        put(p + 10, 0xFFFF);
    }
    return len;
}

/* What a message field comes to: UDP's is never 0000. */
static unsigned zero(const struct kind *kind)
{
    return kind->protocol == 17 ? 0xFFFF : 0;
}

/* A field of p that an edit updated: its value, and the mender's if the packet was good. */
static void updated(size_t len, size_t field, unsigned value, int good)
{
    expect(word(p + field), value, "the updated field");
    memcpy(q, p, len);
    expect(mend(q, len), 0, "mend a copy");
    check(!good || word(q + field) == value, "the mender's field");
}

static void full_stretches(void)
{
    static const struct {
        size_t len;
        uint8_t bytes[8];
    } full[] = {{2, {0xFF, 0xFF}}, {3, {0x80, 0xFF, 0x7F}}, {4, {0x80, 0, 0x7F, 0xFF}}, {4, {0, 0, 0xFF, 0xFF}},
                {5, {0x12, 0x34, 0xED, 0xCB, 0}}, {8, {255, 255, 255, 255, 255, 255, 255, 255}}};
    for (size_t i = 0; i < KINDS * 6 * 8; i++) {
        const struct kind *kind = each + i / 48;
        const uint8_t *bytes = full[i / 8 % 6].bytes;
        size_t place = i / 2 % 4, n = full[i / 8 % 6].len, len = all_ones(kind, kind->body + place, bytes, n);
        int damaged = i % 2;
        p[kind->message + 1] ^= damaged ? 0x10 : 0;
        expect(judge(p, len), damaged ? 9 : 0, "judge a field at FFFF");
        expect(call(STRETCH, p, len, BODY + 1 - n, none, n), 10, "zeros that don't fit");
        expect(call(STRETCH, p, len, place, none, n), 0, "zeros for all ones");
        check(memcmp(p + kind->body + place, none, n) == 0, "in place");
        updated(len, kind->field, zero(kind), !damaged);
        expect(judge(p, len), damaged ? 9 : 0, "judge it");
        expect(call(STRETCH, p, len, place, bytes, n), 0, "all ones again");
        updated(len, kind->field, zero(kind), !damaged);
    }
}

static void full_addresses(void)
{
    static const uint8_t ends[4][4] = {
        {255, 255, 255, 255}, {0x80, 0, 0x7F, 0xFF}, {0, 0, 0xFF, 0xFF}, {0xFE, 0x80, 0x01, 0x7F},
    };
    for (size_t i = 0; i < KINDS * 4 * 4; i++) {
        const struct kind *kind = each + i / 16;
        size_t side = i / 2 % 2, n = kind->family == 4 ? 4 : 16;
        int damaged = i % 2, four = kind->family == 4;
        uint8_t full[16] = {0};
        memcpy(full, ends[i / 4 % 4], 2);
        memcpy(full + n - 2, ends[i / 4 % 4] + 2, 2);
        size_t place = (four ? 12 : 8) + side * n, len = all_ones(kind, place, full, n);
        p[four ? 1 : 41] ^= damaged ? 0x10 : 0;
        unsigned verdict = !damaged ? 0 : four ? 5 : 9;
        expect(judge(p, len), verdict, "judge fields at FFFF");
        expect(call(ADDRESS, p, len, 2, none, n), 10, "side 2");
        expect(call(ADDRESS, p, len, side, none, 20 - n), 10, "zeros of the other family");
        expect(call(ADDRESS, p, len, side, none, n), 0, "an address of zeros");
        check(memcmp(p + place, none, n) == 0, "in place");
        if (four)
            updated(len, 10, 0, !damaged);
        if (kind->protocol == 1)
            expect(word(p + kind->field), 0xFFFF, "a field that isn't updated");
        else
            updated(len, kind->field, zero(kind), !damaged || four);
        expect(judge(p, len), verdict, "judge it");
    }
}

/* A neighbour's packet, edits in turn, an unsummed packet and blank messages. */
static void fields_at_ffff(void)
{
    static const uint8_t neighbour[42] = {
        0x45, 0, 0, 0x2A, 0, 0, 0x40, 0, 0x40, 6, 0xB8, 0xB5, 0xC0, 0xA8, 0, 1, 0xC0, 0xA8, 0, 0xC7, 0x13, 0x88,
        0x13, 0x89, 0, 0, 0, 1, 0, 0, 0, 0, 0x50, 0x10, 6, 0xA8, 0xFF, 0xFF, 0, 0, 0xFF, 0xFF,
    };
    static const uint8_t ones[8] = {255, 255, 255, 255, 255, 255, 255, 255};
    memcpy(p, neighbour, 42);
    expect(judge(p, 42), 0, "the neighbour's packet");
    expect(call(STRETCH, p, 42, 0, none, 2), 0, "its body becomes zeros");
    updated(42, 36, 0, 1);
    check(memcmp(p, q, 42) == 0, "the mender has nothing to do");
    for (const struct kind *kind = each; kind < each + KINDS; kind++) {
        size_t len = all_ones(kind, kind->body, ones, 8);
        expect(call(STRETCH, p, len, 1, none, 2), 0, "two bytes of eight");
        updated(len, kind->field, zero(kind), 1);
        expect(call(STRETCH, p, len, BODY - 1, none, 2), 10, "a refused edit in between");
        expect(call(STRETCH, p, len, 5, none, 2), 0, "two more");
        updated(len, kind->field, zero(kind), 1);
        expect(lower(p, len), 0, "lower what was edited");
        expect(judge(p, len), 0, "judge it");
    }
    for (int four = 0; four < 2; four++) {
        const struct kind *kind = four ? each + 2 : each + 4;
        size_t n = four ? 4 : 16, place = four ? 12 : 8, len = all_ones(kind, place, ones, 4);
        memset(p + place + 4, 0, n - 4);
        put(p + kind->field, 0);
        expect(judge(p, len), four ? 1 : 8, "judge UDP with no sum");
        expect(call(ADDRESS, p, len, 0, none, n), four ? 0 : 8, "its address becomes zeros");
        expect(word(p + kind->field), 0, "a kept zero");
        expect(four ? word(p + 10) : 0, 0, "the header's field");
        expect(judge(p, len), four ? 1 : 8, "judge it");
    }
    size_t len = all_ones(each, 12, ones, 4);
    memset(p + 20, 0, len - 20);
    put(p + 22, 0xFFFF);
    expect(judge(p, len), 0, "judge a blank message");
    expect(call(ADDRESS, p, len, 0, none, 4), 0, "its source becomes zeros");
    updated(len, 10, 0, 1);
    updated(len, 22, 0xFFFF, 1);
    memcpy(p + 28, ones, 2);
    expect(judge(p, len), 0, "judge a message of one word");
    expect(call(STRETCH, p, len, 0, none, 2), 12, "it would be blank");
    expect(call(STRETCH, p, len, 0, ones, 2), 0, "the same word again");
    updated(len, 22, 0, 1);
}

/* UDP datagrams that end before their message does: what follows is a tail, inside the packet. */

static const uint8_t new_bytes[128] = {0xFD, 7, 0x80, 0xFF, 1, [9] = 0x7F, 0xC3, [15] = 9, 0xFF, 0xFF, 2, [40] = 0xA1};

/* The UDP field for what sums to this without it. */
static size_t field_for(unsigned sum)
{
    return sum == 0xFFFF ? 0xFFFF : 65535 - sum;
}

/* Where a message's field is, and where its body begins, TCP having no options. */
static size_t field_of(const uint8_t *packet)
{
    unsigned protocol = protocol_of(packet);
    return start_of(packet) + (protocol == 6 ? 16 : protocol == 17 ? 6 : 2);
}

static size_t body_of(const uint8_t *packet)
{
    unsigned protocol = protocol_of(packet);
    return start_of(packet) + (protocol == 6 ? 20 : protocol == 58 ? 4 : 8);
}

/* Sets both fields of a packet fresh. */
static void freshen(uint8_t *packet)
{
    uint8_t *field = packet + field_of(packet);
    fresh_header(packet);
    put(field, 0);
    put(field, protocol_of(packet) == 17 ? field_for(message_sum(packet)) : 65535 - message_sum(packet));
}

/* p becomes good UDP with so many bytes of options (IPv4 alone), of datagram, and of tail inside the packet. */
static size_t datagram_of(int family, size_t options, size_t datagram, size_t tail)
{
    size_t len = packet_of(p, family, 17, options + datagram + tail);
    p[0] = (uint8_t)(p[0] + options / 4);
    put(p + start_of(p) + 4, datagram);
    freshen(p);
    return len;
}

/* Each call on p, which is good. The bytes wanted are those of q, whose fields are worked out here. */
static void each_call(size_t len)
{
    size_t four = p[0] >> 4 == 4, start = start_of(p), body = word(p + start + 4) - 8, place = body / 3;
    memcpy(q, p, len);
    expect(judge(p, len), 0, "judge a datagram before a tail");
    put(p + start + 6, 0x1234);
    if (four)
        put(p + 10, 0x1234);
    expect(mend(p, len), 0, "mend it");
    check(memcmp(p, q, len) == 0, "what mending gives");
    expect(lower(p, len), 0, "lower it");
    q[four ? 8 : 7]--;
    fresh_header(q);
    check(memcmp(p, q, len) == 0, "what lowering gives");
    for (size_t side = 0; side < 2; side++) {
        size_t size = four ? 4 : 16;
        expect(call(ADDRESS, p, len, side, new_bytes + side, size), 0, "a new address");
        memcpy(q + (four ? 12 : 8) + side * size, new_bytes + side, size);
        freshen(q);
        check(memcmp(p, q, len) == 0, "what a new address gives");
        if (!four)
            exchanged(len, side, outside);
    }
    expect(call(STRETCH, p, len, place, new_bytes, body - place), 0, "a stretch to the datagram's end");
    memcpy(q + start + 8 + place, new_bytes, body - place);
    freshen(q);
    check(memcmp(p, q, len) == 0, "what a stretch gives");
}

/* What doesn't fit the body of good p, though it fits the packet; and what of p is judged. */
static void end_of_body(size_t len)
{
    size_t start = start_of(p), body = word(p + start + 4) - 8, tail = message_of(p) - 8 - body;
    expect(call(STRETCH, p, len, body, NULL, 0), 0, "nothing at the datagram's end");
    expect(call(STRETCH, p, len, body + 1, NULL, 0), 10, "nothing in the tail");
    expect(call(STRETCH, p, len, body, new_bytes, 1), 10, "a stretch in the tail");
    expect(call(STRETCH, p, len, body, new_bytes, tail), 10, "the whole tail");
    expect(call(STRETCH, p, len, 0, new_bytes, body + 1), 10, "a stretch into the tail");
    expect(call(STRETCH, p, len, 0, new_bytes, body + tail), 10, "body and tail");
    p[start + 8 + body] ^= 0x10;
    expect(judge(p, len), 0, "the tail's first byte isn't judged");
    p[start + 7 + body + tail] ^= 0x10;
    expect(judge(p, len), 0, "nor its last");
    p[start + 7 + body] ^= 0x10;
    expect(judge(p, len), 9, "the datagram's last byte is");
}

/* p without a sum: IPv4's field stays so, IPv6's is filled in by the mender and stops the edits. */
static void without_sum(size_t len)
{
    size_t four = p[0] >> 4 == 4, start = start_of(p), body = word(p + start + 4) - 8;
    put(p + start + 6, 0);
    memcpy(q, p, len);
    expect(judge(p, len), four ? 1 : 8, "judge no sum before a tail");
    expect(call(STRETCH, p, len, body, new_bytes, 1), four ? 10 : 8, "a stretch in the tail");
    expect(call(STRETCH, p, len, 0, new_bytes, body), four ? 0 : 8, "a whole new body");
    expect(call(ADDRESS, p, len, 1, new_bytes, four ? 4 : 16), four ? 0 : 8, "a new destination");
    expect(exchange(p, len, 1, q + 24, 6, outside, 6), four ? 3 : 8, "a new prefix");
    if (four) {
        memcpy(q + 16, new_bytes, 4);
        memcpy(q + start + 8, new_bytes, body);
        fresh_header(q);
    }
    check(memcmp(p, q, len) == 0, "what these give");
    expect(mend(p, len), 0, "mend no sum before a tail");
    if (!four)
        freshen(q);
    check(memcmp(p, q, len) == 0, "what mending gives");
}

/* Tails of each length, as built, of FF and of zeros, behind odd and even datagrams, with other tails behind the packet
 * and without. */
static void tails(void)
{
    static const size_t datagrams[] = {8, 9, 10, 15, 38, 71};
    for (size_t i = 0; i < 2 * 6 * 40; i++) {
        size_t datagram = datagrams[i / 80], tail = 1 + i / 2 % 40, four = i % 2, behind = i % 5;
        size_t len = datagram_of(four ? 4 : 6, four ? i % 11 * 4 : 0, datagram, tail);
        if (i / 2 % 3 != 0)
            memset(p + len - tail, i / 2 % 3 == 1 ? 0xFF : 0, tail);
        memset(p + len, 0xEE, behind);
        each_call(len + behind);
        end_of_body(len + behind);
        freshen(p);
        without_sum(len + behind);
    }
}

/* UDP's length: from 8 up to the message's it fits, and otherwise it is 4, also where there is no sum. A message under
 * 8 bytes is 4 whatever it says, though a tail behind the packet has what it lacks. */
static void said_lengths(void)
{
    static const size_t messages[] = {8, 9, 21, 46};
    for (size_t i = 0; i < 2 * 4 * 20; i++) {
        size_t message = messages[i / 40], four = i / 20 % 2, len = datagram_of(four ? 4 : 6, 0, 8, message - 8);
        size_t said[20] = {0, 1, 6, 7, 8, 9, 10, 0xFF, 0x100, 0x0800, 0x8008, 0xFF08, 0xFFFE, 0xFFFF,
                           message - 2, message - 1, message, message + 1, message + 2, message + 256};
        put(p + start_of(p) + 4, said[i % 20]);
        if (said[i % 20] >= 8 && said[i % 20] <= message) {
            freshen(p);
            expect(judge(p, len), 0, "judge a length that fits");
            without_sum(len);
        } else {
            passed_over(len, 4);
            put(p + start_of(p) + 6, 0);
            passed_over(len, 4);
        }
    }
    for (size_t i = 0; i < 2 * 8 * 9; i++) {
        size_t message = i / 2 % 8, said = i / 16, four = i % 2, len = packet_of(p, four ? 4 : 6, 17, 16);
        put(p + (four ? 2 : 4), four ? 20 + message : message);
        put(p + start_of(p) + 4, said);
        expect(lower(p, len), 0, "lower what is short");
        fresh_header(p);
        expect(judge(p, len), 4, "judge what is short");
        expect(mend(p, len), 4, "mend what is short");
        expect(call(ADDRESS, p, len, 0, new_bytes, four ? 4 : 16), 4, "a new source of what is short");
        expect(call(STRETCH, p, len, 0, NULL, 0), 4, "nothing in what is short");
        memcpy(q, p + 8, 6);
        expect(exchange(p, len, 0, q, 6, outside, 6), four ? 3 : 4, "a prefix of what is short");
    }
}

/* Ways to misread a tail: the message's length in the pseudo-header, the tail summed, both, or its first byte summed,
 * as if it padded an odd datagram. */
enum misreading { LENGTH = 1, SUMMED, BOTH, PADDING };

static unsigned misread_sum(enum misreading how)
{
    size_t said = word(p + start_of(p) + 4), message = message_of(p);
    size_t len = how == LENGTH ? said : how == PADDING ? said + 1 : message;
    return sum_of(p, len, how == LENGTH || how == BOTH ? message : said);
}

/* p has a sum that is right only if the tail is misread: it is wrong, an edit leaves it so, and the mender doesn't. */
static void tempting(size_t len)
{
    size_t four = p[0] >> 4 == 4;
    expect(judge(p, len), 9, "judge a sum that a tail would make right");
    expect(lower(p, len), 0, "lower it");
    expect(call(ADDRESS, p, len, 0, new_bytes, four ? 4 : 16), 0, "a new source");
    expect(call(STRETCH, p, len, 0, new_bytes, 1), 0, "a stretch");
    expect(judge(p, len), 9, "it stays wrong");
    memcpy(q, p, len);
    freshen(q);
    expect(mend(p, len), 0, "mend it");
    check(memcmp(p, q, len) == 0, "what mending gives");
}

/* Fields that a misreading makes right; and damaged datagrams, each with a tail that makes the sum right again. */
static void misreadings(void)
{
    static const size_t datagrams[] = {9, 14, 31};
    for (size_t i = 0; i < 2 * 3 * 40 * 4; i++) {
        enum misreading how = 1 + i % 4;
        size_t tail = 1 + i / 4 % 40, datagram = datagrams[i / 160 % 3], four = i / 480;
        size_t len = datagram_of(four ? 4 : 6, 0, datagram, tail), start = start_of(p);
        if (how == PADDING)
            memset(p + len - tail, 0xFF, tail);
        put(p + start + 6, 0);
        put(p + start + 6, field_for(misread_sum(how)));
        tempting(len);
        if (how == LENGTH || how == PADDING || tail < 3)
            continue;
        datagram_of(four ? 4 : 6, 0, datagram, tail);
        p[start + 1] ^= 0x10;
        uint8_t *at = p + start + datagram + datagram % 2;
        put(at, 0);
        put(at, 65535 - misread_sum(how));
        tempting(len);
    }
}

/* Tails in memory that can't be touched: a call that looked at a byte of one would end the program. */
static void untouched(void)
{
    static const size_t datagrams[] = {8, 9, 38, 71, 1001}, lengths[] = {1, 2, 7, 8, 40, 1000};
    for (size_t i = 0; i < 2 * 5 * 6; i++) {
        size_t tail = lengths[i % 6], datagram = datagrams[i / 6 % 5], four = i / 30, size = four ? 4 : 16, count = 77;
        size_t len = datagram_of(four ? 4 : 6, 0, datagram, tail), own = len - tail, start = start_of(p);
        size_t body = datagram - 8, some = body < 100 ? body : 100;
        uint8_t *at = first.map + SPACE - own, verdict = 77;
        memcpy(at, p, own);
        put(at + start + 6, 0x1234);
        expect(hifrostum_judge(at, len), 9, "judge before an untouchable tail");
        expect(hifrostum_mend(at, len), 0, "mend before it");
        check(memcmp(at, p, own) == 0, "what mending gives");
        expect(hifrostum_lower_lifetime(at, len), 0, "lower before it");
        expect(hifrostum_set_address(at, len, 0, new_bytes, size), 0, "a new source before it");
        expect(hifrostum_set_stretch(at, len, body - some, new_bytes, some), 0, "a stretch before it");
        expect(hifrostum_set_stretch(at, len, body, new_bytes, 1), 10, "a stretch in it");
        expect(hifrostum_exchange_prefix(at, len, 1, p + 24, 6, outside, 6), four ? 3 : 0, "a prefix before it");
        expect(hifrostum_exchange_prefix(at, len, 1, outside, 6, p + 24, 6), four ? 3 : 0, "and back");
        p[four ? 8 : 7]--;
        memcpy(p + (four ? 12 : 8), new_bytes, size);
        memcpy(p + own - some, new_bytes, some);
        freshen(p);
        check(memcmp(at, p, own) == 0, "what these give");
        memcpy(at - 7, glr, 5);
        put(at - 2, len);
        expect(hifrostum_judge_capture(at - 7, 7 + len, &verdict, 1, &count), 0, "a capture that ends with it");
        expect(count, 1, "its count");
        expect(verdict, 0, "its verdict");
    }
}

/* A capture of datagrams in messages of 30 bytes, over IPv4 and IPv6 in turn, with tails behind the packets too. */
static void tail_captures(void)
{
    enum { NONE, RIGHT, WRONG };
    static const struct {
        size_t said;
        int sum;
        unsigned four, six;
    } records[] = {{8, RIGHT, 0, 0}, {12, RIGHT, 0, 0}, {13, RIGHT, 0, 0}, {30, RIGHT, 0, 0}, {12, NONE, 1, 8},
                   {12, WRONG, 9, 9}, {29, WRONG, 9, 9}, {0, WRONG, 4, 4}, {7, NONE, 4, 4}, {31, RIGHT, 4, 4}};
    enum { RECORDS = sizeof records / sizeof *records };
    static uint8_t packets[4096], verdicts[2 * RECORDS + 1];
    size_t end = 5;
    memcpy(packets, glr, 5);
    for (size_t i = 0; i < 2 * RECORDS; i++) {
        size_t len = datagram_of(i % 2 ? 6 : 4, 0, 8, 22) + i % 3;
        uint8_t *message = p + start_of(p);
        put(message + 4, records[i / 2].said);
        freshen(p);
        if (records[i / 2].sum != RIGHT)
            put(message + 6, records[i / 2].sum == NONE ? 0 : word(message + 6) ^ 0x100);
        put(packets + end, len);
        memcpy(packets + end + 2, p, len);
        end += 2 + len;
    }
    capture(packets, end, verdicts, 2 * RECORDS + 1, 0, 2 * RECORDS);
    for (size_t i = 0; i < 2 * RECORDS; i++)
        expect(verdicts[i], i % 2 ? records[i / 2].six : records[i / 2].four, "a record with a tail");
    capture(packets, end, verdicts, 2 * RECORDS - 1, 16, 0);
}

/* Headers between, written as numbers with blanks between: "0 60 17" is hop-by-hop, destination options, and then UDP.
 * A header has 8 bytes. With +2 it has 16 more, and its length says so; with >2 its length says so alone. With ! its
 * byte 3 is 1, which in routing is a segment left. */

#define EIGHT "60 43 60 43 60 43 60 43 "
#define SEVEN "43 60 43 60 43 60 43 "

/* Puts these headers between, which leaves a good packet good. Answers its length. */
static size_t lead(uint8_t *packet, size_t len, const char *text)
{
    static uint8_t message[SPACE];
    size_t at = 40, left = len - 40;
    uint8_t *name = packet + 6;
    memcpy(message, packet + 40, left);
    for (char *rest = (char *)text;; text = rest) {
        unsigned number = (unsigned)strtoul(text, &rest, 10), size = 0, says = 0, mark = number == 43 ? 0 : 0xEE;
        *name = (uint8_t)number;
        if (*rest == '\0')
            break;
        if (*rest == '+')
            size = says = (unsigned)strtoul(rest + 1, &rest, 10);
        if (*rest == '>')
            says = (unsigned)strtoul(rest + 1, &rest, 10);
        if (*rest == '!')
            mark = 1, rest++;
        name = packet + at;
        for (size_t i = 0; i < 8 + 8 * size; i++)
            name[i] = (uint8_t)(at * 29 + i * 7 + 3);
        name[1] = (uint8_t)says;
        name[3] = (uint8_t)mark;
        at += 8 + 8 * size;
    }
    memcpy(packet + at, message, left);
    put(packet + 4, at + left - 40);
    return at + left;
}

/* p becomes a packet behind these headers, with so many bytes of message. */
static size_t behind(const char *text, size_t message)
{
    const char *last = strrchr(text, ' ');
    size_t len = packet_of(p, 6, (unsigned)strtoul(last ? last : text, NULL, 10), message);
    return lead(p, len, text);
}

/* Eight headers of the longest, 16,384 bytes. */
#define LONGEST "0+255 60+255 60+255 43+255 60+255 43+255 60+255 60+255 "

/* Headers between that are right, with the longest and as many as there may be, and in any order. */
static const char *const between[] = {
    "0 ", "60 ", "43 ", "0 60 ", "0 43 ", "60 43 ", "43 60 ", "60 60 ", "43 43 ", "0 60 43 60 ", "0+1 ", "43+2 ",
    "60+31 ", "0+255 ", "60+255 43 ", "43 60+255 ", "0! ", "60! ", "60 60! 43+4 ", EIGHT, "0 43 60 43 60 43 60 43 ",
    "0+2 60+1 43+2 60 43 60 43+4 60 ", LONGEST,
};
enum { BETWEEN = sizeof between / sizeof *between };
static const char *const follows[] = {"6", "17", "58"};

/* p becomes a good packet behind these headers: its field is that of the packet without them. */
static size_t good_behind(size_t which, size_t follow, size_t message)
{
    char text[128];
    size_t len = packet_of(p, 6, (unsigned)strtoul(follows[follow], NULL, 10), message);
    freshen(p);
    snprintf(text, sizeof text, "%s%s", between[which], follows[follow]);
    return lead(p, len, text);
}

/* What of p, which is good, is judged: bytes of the message, and none of a header between that a walk doesn't read. */
static void judged_behind(size_t len)
{
    size_t start = start_of(p), end = start + message_of(p), step = 1 + (end - start) / 12;
    for (size_t at = start; at < end; at += step) {
        p[at] ^= 0x10;
        check(judge(p, len) != 0, "a byte of the message is judged");
        p[at] ^= 0x10;
    }
    for (size_t at = 40; at < start; at += 8 + 8u * p[at + 1])
        for (size_t i = 4; i < 8; i++) {
            p[at + i] ^= 0x10;
            expect(judge(p, len), 0, "a byte of a header between isn't");
            p[at + i] ^= 0x10;
        }
    p[end - 1] ^= 0x10;
    expect(judge(p, len), 9, "the last byte of the message is judged");
    p[end - 1] ^= 0x10;
}

/* Each call on p, which is good. The bytes wanted are those of q, whose field is worked out here. */
static void each_behind(size_t len)
{
    size_t body = body_of(p), room = start_of(p) + message_of(p) - body, place = room / 3, some = room - place;
    some = some < sizeof new_bytes ? some : sizeof new_bytes;
    memcpy(q, p, len);
    freshen(q);
    check(memcmp(p, q, len) == 0, "no sum covers headers between");
    expect(judge(p, len), 0, "judge a message behind headers");
    put(p + field_of(p), 0x1234);
    expect(judge(p, len), 9, "a wrong field");
    expect(mend(p, len), 0, "mend it");
    check(memcmp(p, q, len) == 0, "what mending gives");
    expect(lower(p, len), 0, "lower it");
    q[7]--;
    check(memcmp(p, q, len) == 0, "what lowering gives");
    for (size_t side = 0; side < 2; side++) {
        expect(call(ADDRESS, p, len, side, new_bytes + side, 16), 0, "a new address");
        memcpy(q + 8 + side * 16, new_bytes + side, 16);
        freshen(q);
        check(memcmp(p, q, len) == 0, "what a new address gives");
        exchanged(len, side, outside);
    }
    expect(call(ADDRESS, p, len, 2, new_bytes, 16), 10, "side 2");
    expect(call(STRETCH, p, len, place, new_bytes, some), 0, "a stretch");
    memcpy(q + body + place, new_bytes, some);
    freshen(q);
    check(memcmp(p, q, len) == 0, "what a stretch gives");
    expect(call(STRETCH, p, len, room, NULL, 0), 0, "nothing at the body's end");
    expect(call(STRETCH, p, len, room, new_bytes, 1), 10, "a stretch behind it");
    expect(call(STRETCH, p, len, room + 1, NULL, 0), 10, "nothing behind it");
    expect(judge(p, len), 0, "judge what was edited");
}

/* Every call behind each of these, with messages that are just whole, and longer, with a tail and without. */
static void headers_between(void)
{
    static const size_t fixed[] = {20, 8, 4}, more[] = {0, 1, 2, 33, 90};
    for (size_t i = 0; i < BETWEEN * 3 * 5; i++) {
        size_t follow = i / 5 % 3, tail = i % 2 * 7;
        size_t len = good_behind(i / 15, follow, fixed[follow] + more[i % 5]);
        memset(p + len, 0xEE, tail);
        judged_behind(len + tail);
        each_behind(len + tail);
        if (follow == 1) {
            put(p + field_of(p), 0);
            passed_over(len + tail, 8);
            expect(mend(p, len + tail), 0, "mend no sum behind headers");
            freshen(q);
            q[7] = p[7];
            check(memcmp(p, q, len) == 0, "what mending gives");
        }
    }
}

/* Datagrams that end before their message does, and whose lengths don't fit it, behind headers. */
static void datagrams_behind(void)
{
    for (size_t i = 0; i < BETWEEN * 7; i++) {
        size_t len = good_behind(i / 7, 1, 40), start = start_of(p), payload = len - 40;
        size_t said[] = {8, 9, 30, 39, 7, 41, payload};
        put(p + start + 4, said[i % 7]);
        if (said[i % 7] < 8 || said[i % 7] > 40) {
            passed_over(len, 4);
            continue;
        }
        freshen(p);
        each_call(len);
        end_of_body(len);
    }
}

/* What a walk doesn't get past, or to no message that can be judged: headers, how many bytes follow them, and the
 * verdict. The first that is met counts. */
static const struct {
    const char *text;
    size_t left;
    unsigned verdict;
} stopped[] = {
    /* a fragment header, also with no bytes left, and as the ninth */
    {"44", 0, 6}, {"44", 1, 6}, {"44", 7, 6}, {"44", 8, 6}, {"44", 30, 6}, {"44 17", 12, 6}, {"44>255 17", 12, 6},
    {"0 44 17", 12, 6}, {"0 44", 0, 6}, {"60 44", 3, 6}, {"43+2 44", 0, 6}, {"0 60 43 44", 9, 6}, {"60>1 44", 8, 6},
    {EIGHT "44", 0, 6}, {EIGHT "44", 8, 6}, {EIGHT "44 17", 12, 6}, {EIGHT "44>255! 17", 12, 6},
    {"0 " SEVEN "44", 0, 6},
    /* hop-by-hop that comes late, also with no bytes left, past the end, or before a fragment header */
    {"60 0 17", 12, 7}, {"0 0 17", 12, 7}, {"0 60 0 17", 12, 7}, {"43 0 58", 8, 7}, {"60 0", 0, 7}, {"60 0", 5, 7},
    {"60 0", 8, 7}, {"0 0", 0, 7}, {"60 0>9 17", 12, 7}, {"60 0>255! 17", 12, 7}, {"60 0 44", 8, 7}, {"60>1 0", 8, 7},
    {SEVEN "0 17", 12, 7}, {EIGHT "0 17", 12, 7}, {EIGHT "0", 0, 7},
    /* a ninth, of which hop-by-hop may be the first; also with no bytes left, past the end, with segments left */
    {EIGHT "60 17", 12, 7}, {EIGHT "43 17", 12, 7}, {"0 " SEVEN "60 17", 12, 7}, {"0 " SEVEN "43 6", 20, 7},
    {EIGHT "60", 0, 7}, {EIGHT "43", 7, 7}, {EIGHT "60", 8, 7}, {EIGHT "60>255 17", 12, 7}, {EIGHT "43>2! 17", 12, 7},
    {EIGHT "43! 17", 12, 7}, {EIGHT "60 44", 8, 7}, {EIGHT "60 60 17", 12, 7},
    /* fewer than 8 bytes left, or an end past the payload's, by one byte and by many; also with segments left */
    {"0", 0, 4}, {"0", 1, 4}, {"0", 2, 4}, {"0", 7, 4}, {"43", 0, 4}, {"43", 3, 4}, {"43", 4, 4}, {"43", 7, 4},
    {"60", 0, 4}, {"60", 7, 4}, {"0 60", 0, 4}, {"0 43", 6, 4}, {SEVEN "60", 7, 4}, {"60>1 17", 7, 4},
    {"60>1 17", 1, 4}, {"0>2 17", 15, 4}, {"43>2 58", 15, 4}, {"0>255 17", 12, 4}, {"60>255 17", 2039, 4},
    {"0 60>3 17", 20, 4},
    {SEVEN "60>1 17", 7, 4}, {"60>2 44", 15, 4}, {"60>2 0", 15, 4}, {"43>1! 17", 7, 4}, {"43>255! 17", 12, 4},
    {"0 43>2! 44", 8, 4}, {"60>1 60", 8, 4}, {"60>1 43", 8, 4},
    /* segments left, in a header that ends with the payload too, and before what else would be refused */
    {"43! 17", 12, 7}, {"0 43! 17", 12, 7}, {"60 43+2! 17", 12, 7}, {"43>1! 17", 8, 7}, {"43! 44", 8, 7},
    {"43! 44", 0, 7}, {"43! 60", 0, 7}, {"43! 0", 0, 7}, {"43! 43>9! 17", 12, 7}, {"43! 17", 0, 7},
    {SEVEN "43! 60 17", 12, 7},
    /* another end of the walk than a protocol that is covered */
    {"0 59", 0, 7}, {"60 59", 12, 7}, {"60 1", 12, 7}, {"43 50", 30, 7}, {"60 51", 30, 7}, {"60 135", 30, 7},
    {"0 41", 60, 7}, {"60 4", 60, 7}, {"60 255", 2, 7}, {EIGHT "59", 0, 7}, {EIGHT "51", 12, 7}, {"60>1 59", 8, 7},
    /* and messages that are too short, also where nothing is left of them */
    {"0 17", 0, 4}, {"0 17", 7, 4}, {"60 6", 0, 4}, {"60 6", 19, 4}, {"43 58", 0, 4}, {"43 58", 3, 4},
    {"60>1 17", 8, 4}, {"60>1 58", 8, 4}, {"0>255 6", 2040, 4}, {EIGHT "17", 0, 4}, {EIGHT "17", 7, 4},
    {EIGHT "58", 3, 4},
};
enum { STOPPED = sizeof stopped / sizeof *stopped };

/* Every call on p, whose payload ends where memory that can't be touched begins, though more is lent. */
static void before_wall(size_t len, unsigned verdict)
{
    static const size_t behind[] = {0, 1, 8, 5000};
    uint8_t *at = first.map + SPACE - len;
    memcpy(at, p, len);
    at[7] = 1;
    for (size_t i = 0; i < 4; i++) {
        size_t lent = len + behind[i], count = 77;
        uint8_t judged = 77;
        expect(hifrostum_judge(at, lent), verdict, "judge before a wall");
        expect(hifrostum_mend(at, lent), verdict, "mend before a wall");
        expect(hifrostum_set_address(at, lent, 0, new_bytes, 16), verdict, "a new source before a wall");
        expect(hifrostum_set_address(at, lent, 2, new_bytes, 0), verdict, "side 2 before a wall");
        expect(hifrostum_exchange_prefix(at, lent, 0, p + 8, 6, outside, 6), verdict, "a prefix before a wall");
        expect(hifrostum_exchange_prefix(at, lent, 2, NULL, 0, NULL, 0), verdict, "no prefixes before a wall");
        expect(hifrostum_set_stretch(at, lent, 0, new_bytes, 1), verdict, "a stretch before a wall");
        expect(hifrostum_set_stretch(at, lent, SIZE_MAX, NULL, 0), verdict, "no stretch before a wall");
        expect(hifrostum_lower_lifetime(at, lent), 11, "a lifetime of 1 before a wall");
        at[7] = p[7];
        check(memcmp(at, p, len) == 0, "a refused call's bytes");
        at[7] = 2;
        expect(hifrostum_lower_lifetime(at, lent), 0, "lower before a wall");
        expect(at[7], 1, "one less");
        if (lent > 2048)
            continue;
        memcpy(at - 7, glr, 5);
        put(at - 2, lent);
        expect(hifrostum_judge_capture(at - 7, 7 + lent, &judged, 1, &count), 0, "a capture before a wall");
        expect(count, 1, "its count");
        expect(judged, verdict, "its verdict");
    }
}

/* Each of these, as it stands and with what it lacks behind the packet. */
static void stopped_walks(void)
{
    for (size_t i = 0; i < STOPPED; i++) {
        size_t len = behind(stopped[i].text, stopped[i].left);
        passed_over(len, stopped[i].verdict);
        before_wall(len, stopped[i].verdict);
        for (size_t at = len; at < len + 2100; at++)
            p[at] = (uint8_t)(at % 3 ? 0 : 60);
        passed_over(len + 2100, stopped[i].verdict);
    }
}

/* Good messages behind headers, which lie before memory that can't be touched though more is lent. */
static void untouched_behind(void)
{
    for (size_t i = 0; i < BETWEEN * 3 * 3; i++) {
        size_t len = good_behind(i / 9, i / 3 % 3, 60), lent = len + i % 3 * 1000, body = body_of(p), count = 77;
        uint8_t *at = first.map + SPACE - len, verdict = 77;
        memcpy(at, p, len);
        put(at + field_of(at), 0x1234);
        expect(hifrostum_judge(at, lent), 9, "judge behind headers, before a wall");
        expect(hifrostum_mend(at, lent), 0, "mend there");
        check(memcmp(at, p, len) == 0, "what mending gives");
        expect(hifrostum_lower_lifetime(at, lent), 0, "lower there");
        expect(hifrostum_exchange_prefix(at, lent, 0, p + 8, 6, outside, 6), 0, "a prefix there");
        expect(hifrostum_exchange_prefix(at, lent, 0, outside, 6, p + 8, 6), 0, "and back");
        expect(hifrostum_set_address(at, lent, 1, new_bytes, 16), 0, "a new destination there");
        expect(hifrostum_set_stretch(at, lent, len - body - 33, new_bytes, 33), 0, "a stretch there");
        p[7]--;
        memcpy(p + 24, new_bytes, 16);
        memcpy(p + len - 33, new_bytes, 33);
        freshen(p);
        check(memcmp(at, p, len) == 0, "what these give");
        if (lent > 2048)
            continue;
        memcpy(at - 7, glr, 5);
        put(at - 2, lent);
        expect(hifrostum_judge_capture(at - 7, 7 + lent, &verdict, 1, &count), 0, "a capture of it");
        expect(verdict, 0, "its verdict");
    }
}

/* A message whose field would be right if the pseudo-header had another length, protocol or destination, or the headers
 * were summed: it is wrong, an edit leaves it so, and the mender doesn't. */
static void misread_between(void)
{
    for (size_t i = 0; i < BETWEEN * 3 * 4; i++) {
        size_t len = good_behind(i / 12, i / 4 % 3, 50), start = start_of(p), field = field_of(p);
        unsigned protocol = protocol_of(p), sum;
        unsigned long others[] = {start - 40, weigh(p + 40, start - 40), p[6] + 65535ul - protocol,
                                  weigh(p + start - 16, 16) + 65535ul * 16 - weigh(p + 24, 16)};
        if (others[i % 4] % 65535 == 0)
            continue;
        put(p + field, 0);
        sum = fold(message_sum(p) + others[i % 4]);
        put(p + field, protocol == 17 ? field_for(sum) : 65535 - sum);
        expect(judge(p, len), 9, "judge a sum that is right if headers between are misread");
        expect(lower(p, len), 0, "lower it");
        expect(call(ADDRESS, p, len, 0, new_bytes, 16), 0, "a new source");
        exchanged(len, 0, inside);
        expect(call(STRETCH, p, len, 0, new_bytes, 1), 0, "a stretch");
        expect(judge(p, len), 9, "it stays wrong");
        memcpy(q, p, len);
        freshen(q);
        expect(mend(p, len), 0, "mend it");
        check(memcmp(p, q, len) == 0, "what mending gives");
    }
}

/* One edit of p, whose body has so many bytes. The numbers say with what. A walk's refusal comes first, if there is
 * one, and then what doesn't fit. */
static void edit_in_turn(size_t turn, unsigned numbers, size_t len, size_t body, unsigned refusal)
{
    size_t number = numbers >> 24, size = numbers >> 16 & 31, side = number % 3, place = number % 60;
    const uint8_t *address = p + 8 + 16 * (side % 2);
    uint8_t expected[6];
    memcpy(expected, address, 6);
    expected[size % 6] ^= number % 4 == 0;
    int exchangeable = side < 2 && number % 4 != 0 && word(address + 6) != 0xFFFF;
    int fits = turn % 4 == 1 ? side < 2 : turn % 4 == 2 ? place + size <= body : exchangeable;
    unsigned want = refusal ? refusal : fits ? 0 : 10;
    if (turn % 4 == 0)
        expect(lower(p, len), 0, "lower in turn");
    else if (turn % 4 == 1)
        expect(call(ADDRESS, p, len, side, new_bytes + size, 16), want, "an address in turn");
    else if (turn % 4 == 2)
        expect(call(STRETCH, p, len, place, new_bytes + number % 90, size), want, "a stretch in turn");
    else
        expect(exchange(p, len, side, expected, 6, new_bytes + size, 6), want, "a prefix in turn");
}

/* Edits in turn, refused ones among them, on good and on damaged messages behind headers, and on what a walk doesn't
 * get past. The verdict stays, no byte of the headers changes, and a right sum stays right. */
static void edits_behind(void)
{
    unsigned state = 1;
    for (size_t i = 0; i < BETWEEN * 3 * 2 + STOPPED; i++) {
        static uint8_t headers[SPACE];
        int stops = i >= BETWEEN * 6, damaged = !stops && i % 2;
        size_t walk = i - BETWEEN * 6;
        size_t len = stops ? behind(stopped[walk].text, stopped[walk].left) : good_behind(i / 6, i / 2 % 3, 57);
        size_t start = stops ? len : start_of(p), body = stops ? 0 : len - body_of(p);
        unsigned verdict = stops ? stopped[walk].verdict : damaged ? 9 : 0;
        p[start + 1] ^= damaged ? 0x20 : 0;
        memcpy(headers, p + 40, start - 40);
        for (size_t turn = 0; turn < 32; turn++) {
            state = state * 1664525 + 1013904223;
            edit_in_turn(turn, state, len, body, stops ? verdict : 0);
            expect(judge(p, len), verdict, "the verdict stays");
            check(memcmp(p + 40, headers, start - 40) == 0, "the headers stay");
        }
        expect(p[7], 64 - 8, "the lifetime");
        if (verdict == 0) {
            memcpy(q, p, len);
            freshen(q);
            check(memcmp(p, q, len) == 0, "the field is the fresh one");
        }
    }
}

/* A capture with headers between in each packet, one that ends inside them and one that lacks its last byte. */
static void captures_behind(void)
{
    enum { PACKETS = STOPPED + BETWEEN + 2 };
    static uint8_t packets[SPACE], want[PACKETS], got[PACKETS + 1];
    size_t end = 5, count = 0;
    memcpy(packets, glr, 5);
    for (size_t i = 0; i < PACKETS; i++) {
        size_t good = i - STOPPED, cut = good == BETWEEN ? 43 : good == BETWEEN + 1;
        size_t len = i < STOPPED ? behind(stopped[i].text, stopped[i].left) : good_behind(good % BETWEEN, i % 3, 40);
        if (len > 2048)
            continue;
        put(packets + end, len - cut);
        memcpy(packets + end + 2, p, len - cut);
        want[count++] = (uint8_t)(i < STOPPED ? stopped[i].verdict : cut > 0 ? 2 : 0);
        end += 2 + len - cut;
    }
    capture(packets, end, got, count + 1, 0, count);
    for (size_t i = 0; i < count; i++)
        expect(got[i], want[i], "a record with headers between");
    capture(packets, end, got, count - 1, 16, 0);
}

/* An old prefix and the word behind it, a new prefix and what the word comes to. The first is RFC 6296's example. */
static const struct {
    uint8_t old[6];
    unsigned word;
    uint8_t new[6];
    unsigned wanted;
} prefixes[] = {
    {{0xFD, 1, 2, 3, 4, 5}, 0x0001, {0x20, 1, 0x0D, 0xB8, 0, 1}, 0xD550},
    {{0xFD, 1, 2, 3, 4, 5}, 0x2AB0, {0x20, 1, 0x0D, 0xB8, 0, 1}, 0x0000},
    {{0xFD, 1, 2, 3, 4, 5}, 0x2AAF, {0x20, 1, 0x0D, 0xB8, 0, 1}, 0xFFFE},
    {{0xFD, 1, 2, 3, 4, 5}, 0xFFFE, {0x20, 1, 0x0D, 0xB8, 0, 1}, 0xD54E},
    {{0xFD, 1, 2, 3, 4, 5}, 0x0000, {0xFD, 1, 2, 3, 4, 5}, 0x0000},
    {{0xFD, 1, 2, 3, 4, 5}, 0xFFFE, {0xFD, 1, 2, 3, 4, 5}, 0xFFFE},
    {{0xFD, 1, 2, 3, 4, 5}, 0x1234, {4, 5, 0xFD, 1, 2, 3}, 0x1234},
    {{0xFD, 1, 2, 3, 4, 5}, 0x1234, {0xFD, 1, 2, 3, 5, 4}, 0x1135},
    {{0}, 0x0000, {0, 0, 0, 0, 0, 1}, 0xFFFE},
    {{0}, 0x0001, {0, 0, 0, 0, 0, 1}, 0x0000},
    {{0}, 0x0000, {255, 255, 255, 255, 255, 255}, 0x0000},
    {{0}, 0x0001, {255, 255, 255, 255, 255, 255}, 0x0001},
    {{0}, 0xFFFE, {255, 255, 255, 255, 255, 255}, 0xFFFE},
    {{0}, 0x0000, {255, 255, 255, 255, 255, 254}, 0x0001},
    {{0}, 0x0000, {0x80, 0, 0x80, 0, 0x80, 0}, 0x7FFE},
    {{0x80, 0, 0, 0, 0, 0}, 0x7FFF, {0}, 0x0000},
};
enum { PREFIXES = sizeof prefixes / sizeof *prefixes };

/* Each of these, and back, on both sides, in TCP, UDP and ICMPv6, good and damaged. Behind the word are zeros, so some
 * addresses are zeros alone. */
static void exchanges(void)
{
    for (size_t i = 0; i < PREFIXES * 2 * 3 * 2; i++) {
        size_t which = i / 12, side = i / 6 % 2, at = 8 + 16 * side;
        size_t len = packet_of(p, 6, each[3 + i / 2 % 3].protocol, 33);
        int damaged = i % 2;
        memset(p + at, 0, 16);
        memcpy(p + at, prefixes[which].old, 6);
        put(p + at + 6, prefixes[which].word);
        freshen(p);
        p[len - 1] ^= damaged ? 0x10 : 0;
        expect(judge(p, len), damaged ? 9 : 0, "judge it");
        exchanged(len, side, prefixes[which].new);
        expect(exchange(p, len, side, prefixes[which].old, 6, prefixes[which].new, 6), 0, "exchange it");
        check(memcmp(p + at, prefixes[which].new, 6) == 0, "the new prefix");
        expect(word(p + at + 6), prefixes[which].wanted, "the word behind it");
        exchanged(len, side, prefixes[which].old);
    }
}

/* Any field is left as it is, right or wrong, and so is one at FFFF where the fresh one is 0000, which an address edit
 * would change. */
static void fields_under_exchanges(void)
{
    static const unsigned fields[] = {0, 1, 0x7FFF, 0x8000, 0xFFFE, 0xFFFF};
    for (size_t i = 0; i < 3 * 2 * 6; i++) {
        const struct kind *kind = each + 3 + i / 12;
        size_t side = i / 6 % 2, len = all_ones(kind, 8 + 16 * side, inside, 6);
        expect(judge(p, len), 0, "judge a field at FFFF");
        exchanged(len, side, outside);
        put(p + kind->field, fields[i % 6]);
        if (kind->protocol == 17 && fields[i % 6] == 0)
            expect(exchange(p, len, side, inside, 6, outside, 6), 8, "no sum, no exchange");
        else
            exchanged(len, side, outside);
    }
}

/* What is 10: another side, a prefix of another length or none, another prefix by each of its bits, and the word FFFF,
 * also where nothing would change. The two prefixes may lie in the same place. */
static void unfit_prefixes(void)
{
    static const size_t sides[] = {2, 3, 255, 256, 65536, 0x7FFFFFFF, 0x80000000, 0xFFFFFFFE, 0xFFFFFFFF};
    static const size_t lengths[] = {0, 1, 2, 3, 4, 5, 7, 8, 16, 17, 48, 100};
    uint8_t old[16 + 100] = {0}, other[6];
    size_t len = packet_of(p, 6, 17, 20);
    freshen(p);
    memcpy(old, p + 8, 32);
    for (size_t i = 0; i < sizeof sides / sizeof *sides; i++)
        expect(exchange(p, len, sides[i], old, 6, outside, 6), 10, "another side");
    for (size_t i = 0; i < 2 * sizeof lengths / sizeof *lengths; i++) {
        size_t side = i % 2, n = lengths[i / 2];
        expect(exchange(p, len, side, old + 16 * side, n, outside, 6), 10, "an expected prefix of another length");
        expect(exchange(p, len, side, old + 16 * side, 6, old, n), 10, "a new prefix of another length");
        expect(exchange(p, len, side, old + 16 * side, n, old, n), 10, "both of another length");
    }
    for (size_t i = 0; i < 2 * 48; i++) {
        size_t side = i / 48;
        memcpy(other, old + 16 * side, 6);
        other[i % 48 / 8] ^= (uint8_t)(0x80 >> i % 8);
        expect(exchange(p, len, side, other, 6, outside, 6), 10, "another prefix");
        expect(exchange(p, len, side, other, 6, old + 16 * side, 6), 10, "another prefix for the one that is there");
    }
    for (size_t side = 0; side < 2; side++) {
        const uint8_t *own = old + 16 * side, *others = old + 16 - 16 * side;
        expect(exchange(p, len, side, others, 6, outside, 6), 10, "the other side's prefix");
        expect(hifrostum_exchange_prefix(p, len, (uint32_t)side, own, 6, own, 6), 0, "the same prefix");
        check(memcmp(p + 8, old, 32) == 0, "changes nothing");
        put(p + 14 + 16 * side, 0xFFFF);
        expect(exchange(p, len, side, own, 6, outside, 6), 10, "the word FFFF");
        expect(exchange(p, len, side, own, 6, own, 6), 10, "the word FFFF, and the same prefix");
        memcpy(p + 8, old, 32);
    }
}

/* Every version but 6 is 3, however short the packet and whatever else is wrong, and so is every packet of IPv4. */
static void other_versions(void)
{
    for (unsigned version = 0; version < 16; version++)
        for (size_t cut = 0; cut <= 48; cut++) {
            memcpy(p, icmp6, 48);
            p[0] = (uint8_t)(version * 16 + cut % 16);
            unsigned want = cut == 0 ? 2 : version != 6 ? 3 : cut < 48 ? 2 : 0;
            expect(exchange(p, cut, 0, none, 6, outside, 6), want, "a version");
            expect(exchange(p, cut, 2, NULL, 0, NULL, 0), want ? want : 10, "a version, and all else wrong");
        }
    for (const struct kind *kind = each; kind->family == 4; kind++) {
        size_t len = packet_of(p, 4, kind->protocol, 40);
        freshen(p);
        for (size_t cut = 1; cut <= len; cut++) {
            memcpy(q, p + 8, 6);
            expect(exchange(p, cut, 0, q, 6, outside, 6), 3, "IPv4");
        }
    }
}

/* What can be wrong with an exchange, in the order of the refusals, and what each is refused with. */
enum fault {
    NO_BYTES, NOT_SIX, UNDER_40, CUT, FRAGMENT, PAST, PROTOCOL, SHORT, UDP_LENGTH, NO_SUM, SIDE, EXPECTED, NEW, OTHER,
    FULL, FAULTS
};
static const unsigned refused_with[FAULTS] = {2, 3, 2, 2, 6, 4, 7, 4, 4, 8, 10, 10, 10, 10, 10};

/* An exchange with a set of faults, in UDP at 48 behind a header of destination options at 40. */
static unsigned faulty(unsigned faults)
{
    size_t len = lead(p, packet_of(p, 6, 17, 12), "60 17"), end = faults >> SHORT & 1 ? len - 5 : len;
    uint8_t prefix[6];
    memcpy(prefix, p + 8, 6);
    prefix[5] ^= faults >> OTHER & 1;
    put(p + 4, end - 40);
    p[0] = faults >> NOT_SIX & 1 ? 0x45 : 0x60;
    p[6] = faults >> FRAGMENT & 1 ? 44 : 60;
    p[40] = faults >> PROTOCOL & 1 ? 59 : 17;
    p[41] = faults >> PAST & 1 ? 200 : 0;
    if (faults >> FULL & 1)
        put(p + 14, 0xFFFF);
    if (faults >> UDP_LENGTH & 1)
        put(p + 52, 7);
    if (faults >> NO_SUM & 1)
        put(p + 54, 0);
    end -= faults >> CUT & 1;
    end = faults >> NO_BYTES & 1 ? 0 : faults >> UNDER_40 & 1 ? 39 : end;
    return exchange(p, end, faults >> SIDE & 1 ? 2 : 0, prefix, faults >> EXPECTED & 1 ? 5 : 6, outside,
                    faults >> NEW & 1 ? 0 : 6);
}

/* Each of them, each two, and each with all that come later: the first decides. */
static void faults_in_order(void)
{
    expect(faulty(0), 0, "no fault");
    for (unsigned early = 0; early < FAULTS; early++) {
        for (unsigned late = early; late < FAULTS; late++)
            expect(faulty(1u << early | 1u << late), refused_with[early], "one fault, or two");
        expect(faulty((1u << FAULTS) - (1u << early)), refused_with[early], "a fault and all that come later");
    }
}

/* Fragments of one packet. They lie in a yard, one behind the other, and a list says where. */

enum { MOST = 64 };
static uint8_t yard[SPACE / 2];
static struct hifrostum_fragment list[MOST + 8];
static size_t held, listed;

static uint8_t *packet_at(size_t i)
{
    return yard + list[i].offset;
}

static void swap(size_t i, size_t j)
{
    struct hifrostum_fragment record = list[i];
    list[i] = list[j];
    list[j] = record;
}

static void reverse(void)
{
    for (size_t i = 0; i < listed / 2; i++)
        swap(i, listed - 1 - i);
}

/* Lays a fragment of p into the yard: its message from one byte to another, behind so many bytes of options and before
 * a tail. Lifetimes, service bytes and the two flags that don't count differ. */
static void lay(size_t from, size_t to, size_t options, size_t tail)
{
    static const unsigned flags[] = {0, 0x4000, 0x8000, 0xC000};
    uint8_t *at = yard + held;
    size_t header = 20 + options, len = header + to - from;
    memcpy(at, p, 20);
    memset(at + 20, 1, options);
    at[0] = (uint8_t)(0x40 + header / 4);
    at[1] = (uint8_t)(listed * 5);
    put(at + 2, len);
    put(at + 6, flags[listed % 4] + (to < message_of(p) ? 0x2000 : 0) + from / 8);
    at[8] = (uint8_t)(64 - listed);
    memcpy(at + header, p + start_of(p) + from, to - from);
    memset(at + len, 0xEE, tail);
    fresh_header(at);
    list[listed++] = (struct hifrostum_fragment){held, len + tail};
    held += len + tail;
}

/* Cuts the message of p into pieces of so many bytes, the last of what is left. */
static void cut_by(size_t size, size_t options, size_t tail)
{
    size_t len = message_of(p);
    held = listed = 0;
    for (size_t at = 0; at < len; at += size)
        lay(at, at + size < len ? at + size : len, options, tail);
}

static unsigned judge_yard(void)
{
    return judge_list(yard, held, list, listed);
}

/* Judges the yard with the first so many records in every order. */
static void every_order(size_t first_ones, unsigned want, const char *what)
{
    if (first_ones < 2)
        expect(judge_yard(), want, what);
    for (size_t i = 0; first_ones >= 2 && i < first_ones; i++) {
        swap(i, first_ones - 1);
        every_order(first_ones - 1, want, what);
        swap(i, first_ones - 1);
    }
}

/* Judges the yard in every order of up to four records, and of more as they are, reversed, and with half of them
 * exchanged for the other half. In the end the list is as it was. */
static void in_orders(unsigned want, const char *what)
{
    struct hifrostum_fragment were[MOST + 8];
    memcpy(were, list, sizeof list);
    if (listed <= 4)
        every_order(listed, want, what);
    for (size_t i = 0; listed > 4 && i < 4; i++) {
        expect(judge_yard(), want, what);
        reverse();
        for (size_t j = 0; i % 2 && j < listed / 2; j++)
            swap(j, j + listed / 2);
    }
    memcpy(list, were, sizeof list);
}

/* p becomes a good packet of IPv4 with the identification 0907. */
static size_t good_four(unsigned protocol, size_t message)
{
    size_t len = packet_of(p, 4, protocol, message);
    put(p + 4, 0x0907);
    freshen(p);
    return len;
}

/* The rules' refusal of a fragment by its header, of which 20 bytes are there. */
static unsigned ruled_header(const uint8_t *packet, size_t len)
{
    size_t header = 4u * (packet[0] & 15), declared = word(packet + 2);
    if (packet[0] >> 4 != 4)
        return 3;
    if (header < 20 || declared < header)
        return 4;
    if (declared > len)
        return 2;
    return fold(weigh(packet, header)) == 0xFFFF ? 0 : 5;
}

/* The rules' verdict on the message of a whole packet, which is ICMP's, TCP's or UDP's over IPv4. */
static unsigned ruled_message(const uint8_t *packet)
{
    const uint8_t *message = packet + start_of(packet);
    size_t len = message_of(packet), fixed = packet[9] == 6 ? 20 : 8;
    if (len < fixed)
        return 4;
    size_t said = packet[9] == 6 ? message[12] / 16 * 4u : packet[9] == 17 ? word(message + 4) : fixed;
    if (said < fixed || said > len)
        return 4;
    if (packet[9] == 17 && word(message + 6) == 0)
        return 1;
    return message_sum(packet) == 0xFFFF ? 0 : 9;
}

/* Sets a word of a fragment, and its header's sum right again. */
static void reword(size_t i, size_t at, size_t value)
{
    put(packet_at(i) + at, value);
    fresh_header(packet_at(i));
}

/* The paper's UDP packet as two fragments, of 8 bytes and 2. */
static const uint8_t two[50] = {
    0x45, 0, 0, 0x1C, 0, 0, 0x20, 0, 0x40, 0x11, 0xD8, 0xB8, 0xC0, 0xA8, 0, 1, 0xC0, 0xA8, 0, 0xC7,
    0x13, 0x88, 0x13, 0x89, 0, 0x0A, 0x0E, 0x47,
    0x45, 0, 0, 0x16, 0, 0, 0, 1, 0x40, 0x11, 0xF8, 0xBD, 0xC0, 0xA8, 0, 1, 0xC0, 0xA8, 0, 0xC7, 0x48, 0x69,
};

static void two_fragments(void)
{
    struct hifrostum_fragment records[] = {{0, 28}, {28, 22}, {0, 28}, {28, 22}, {50, 0}, {51, 0}};
    expect(judge_list(two, 50, records, 2), 0, "the paper's UDP packet in two");
    expect(judge_list(two, 50, records + 1, 2), 0, "and in the other order");
    expect(judge_list(two, 50, records, 1), 6, "the first alone");
    expect(judge_list(two, 50, records + 1, 1), 6, "the second alone");
    expect(judge_list(two, 50, records, 3), 6, "the first twice");
    expect(judge_list(two, 50, records + 1, 3), 6, "the second twice");
    expect(judge_list(two, 50, records + 3, 2), 2, "an empty record at the buffer's end");
    expect(judge_list(two, 50, records, 5), 2, "and behind others");
    expect(judge_list(two, 50, records, 6), 10, "an empty record past the buffer's end");
    expect(judge_list(two, 49, records, 2), 10, "a buffer of one byte less");
    expect(judge_list(two, 0, records, 2), 10, "a buffer of no bytes");
    expect(judge_list(two, 50, NULL, 0), 2, "an empty list");
    expect(judge_list(NULL, 0, NULL, 0), 2, "an empty list in no buffer");
    memcpy(yard, two, 50);
    yard[49] ^= 1;
    expect(judge_list(yard, 50, records, 2), 9, "a damaged byte in the second");
    yard[36] ^= 1;
    expect(judge_list(yard, 50, records, 2), 5, "and in its header");
    yard[20] ^= 1;
    yard[36] ^= 1;
    yard[49] ^= 1;
    expect(judge_list(yard, 50, records, 2), 9, "a damaged byte in the first");
}

/* Where a record doesn't lie in the buffer, in whole numbers. Each takes the place of each record of three, also where
 * another record's header is wrong. */
static void records_outside(void)
{
    static const size_t top = SIZE_MAX, half = SIZE_MAX / 2 + 1, over = (size_t)1 << 32;
    good_four(17, 40);
    cut_by(16, 0, 0);
    const struct hifrostum_fragment fit[] = {{0, held}, {held - 1, 1}, {held, 0}, {0, 0}};
    const struct hifrostum_fragment outside[] = {
        {0, held + 1}, {1, held}, {held, 1}, {held + 1, 0}, {held - 20, 21}, {held + 1, top}, {1, top}, {20, top - 19},
        {20, top}, {top, 1}, {top, 0}, {top, 2}, {top, top}, {0, top}, {top - 19, 40}, {half, half}, {half, 0},
        {half, half + 30}, {0, half}, {over, 36}, {over, 0}, {36, over + 36}, {36, over}, {36, top - 35},
    };
    expect(judge_yard(), 0, "three fragments");
    for (size_t i = 0; i < 3 * 2; i++) {
        struct hifrostum_fragment *record = &list[i % 3], was = *record;
        yard[list[(i + 1) % 3].offset + 8] ^= (uint8_t)(i / 3);
        for (size_t j = 0; j < sizeof outside / sizeof *outside; j++) {
            *record = outside[j];
            expect(judge_yard(), 10, "a record outside");
        }
        for (size_t j = 0; j < sizeof fit / sizeof *fit; j++) {
            *record = fit[j];
            check(judge_yard() != 10, "a record that just fits");
        }
        *record = was;
        yard[list[(i + 1) % 3].offset + 8] ^= (uint8_t)(i / 3);
    }
}

/* None, one, 64 and 65 fragments, and more records than that of anything. */
static void counts(void)
{
    static const struct hifrostum_fragment empty[MOST + 8];
    for (size_t i = 0; i < 3; i++)
        for (size_t count = 1; count <= MOST + 6; count++) {
            good_four(each[i].protocol, 8 * count - 3 + (count < 3 ? 24 : 0));
            cut_by(count < 3 ? 24 + 8 * (count == 1) : 8, 0, count % 3);
            expect(listed, count, "as many fragments");
            in_orders(count > MOST ? 10 : 0, "so many fragments");
            packet_at(count - 1)[20] ^= 0x40;
            in_orders(count > MOST ? 10 : 9, "so many, and a byte damaged in the last");
            packet_at((count - 1) / 2)[9] ^= 0x40;
            expect(judge_yard(), count > MOST ? 10 : 5, "so many, and a header damaged");
            listed--;
            if (count > 1)
                in_orders(count - 1 > MOST ? 10 : 5, "so many but the last");
        }
    for (size_t count = 0; count < MOST + 8; count++) {
        expect(judge_list(NULL, 0, empty, count), count > MOST ? 10 : 2, "empty records in no buffer");
        expect(judge_list(two, 50, empty, count), count > MOST ? 10 : 2, "empty records in a buffer");
    }
}

/* What can be wrong with a record's header, and what it is refused with. */
enum heading { SPENT_BYTES, VERSION_6, VERSION_7, UNDER_20, WORDS, TOTAL, LACKING, SUM, HEADINGS };
static const unsigned headed[HEADINGS] = {2, 3, 3, 2, 4, 4, 2, 5};

/* Makes it wrong so, and its sum right, but for the last. */
static void head(size_t i, enum heading how)
{
    uint8_t *at = packet_at(i);
    if (how == VERSION_6 || how == VERSION_7)
        at[0] = how == VERSION_6 ? 0x65 : 0x75;
    if (how == WORDS)
        at[0] = 0x44;
    if (how == TOTAL || how == LACKING)
        put(at + 2, how == TOTAL ? 19 : list[i].length + 1);
    fresh_header(at);
    if (how == SUM)
        at[9] ^= 0x10;
    if (how == SPENT_BYTES || how == UNDER_20)
        list[i].length = how == SPENT_BYTES ? 0 : 19;
}

/* Each in each record of four, alone and with each other one in each later record: the first of the list decides. */
static void headings(void)
{
    for (size_t i = 0; i < 4 * HEADINGS * 4 * HEADINGS; i++) {
        size_t early = i % 4, how = i / 4 % HEADINGS, late = i / 4 / HEADINGS % 4, other = i / 16 / HEADINGS;
        good_four(each[i % 3].protocol, 61);
        cut_by(16, i % 5 * 4, 0);
        if (i % 2)
            reverse();
        if (late > early)
            head(late, other);
        head(early, how);
        expect(judge_yard(), headed[how], "a wrong header, the first in the list");
        /* and with a bad shape in the first record, which is tested later */
        if (early > 0) {
            reword(0, 4, 0x0908);
            expect(judge_yard(), headed[how], "a wrong header behind a fragment of another packet");
            reword(0, 2, 4u * (packet_at(0)[0] & 15));
            expect(judge_yard(), headed[how], "a wrong header behind an empty fragment");
        }
    }
    /* header lengths, total lengths and the bytes at hand: the first of 4, 4 and 2 */
    for (size_t i = 0; i < 16 * 8 * 4; i++) {
        size_t words = i % 16, bytes = 20 + i / 16 % 4 * 20;
        const size_t totals[] = {0, 19, 20, 4 * words, 4 * words - (words > 0), bytes, bytes + 1, 65535};
        size_t total = totals[i / 64];
        good_four(17, 61);
        cut_by(64, 0, 0);
        packet_at(0)[0] = (uint8_t)(0x40 + words);
        put(packet_at(0) + 2, total);
        list[0].length = bytes;
        unsigned want = ruled_header(yard, bytes);
        check(want != 0, "lengths, or a sum, that are wrong");
        expect(judge_yard(), want, "a header length and a total length");
    }
}

/* What all fragments must share, by each of its bits; what they need not; an empty fragment, and one that ends past
 * byte 65,515. In any order, with a gap and without. */
static void shared(void)
{
    static const size_t own[] = {4, 5, 9, 12, 13, 14, 15, 16, 17, 18, 19}, others[] = {1, 8, 20, 23};
    for (size_t i = 0; i < 11 * 8 * 3; i++) {
        good_four(17, 44);
        cut_by(16, 0, 0);
        packet_at(i % 3)[own[i / 3 % 11]] ^= (uint8_t)(1 << i / 33);
        fresh_header(packet_at(i % 3));
        in_orders(4, "a fragment of another packet");
        if (i % 3 == 1) {
            listed--;
            in_orders(4, "a fragment of another packet, and none that is last");
        }
    }
    for (size_t i = 0; i < 4 * 8 * 3; i++) {
        good_four(6, 44);
        cut_by(16, 4, 3);
        packet_at(i % 3)[others[i / 3 % 4]] ^= (uint8_t)(1 << i / 12);
        fresh_header(packet_at(i % 3));
        in_orders(0, "other service bytes, lifetimes and options");
    }
    for (size_t i = 0; i < 4; i++)
        for (size_t which = 0; which < 3; which++) {
            good_four(each[i % 3].protocol, 44);
            cut_by(16, 4 * i, 0);
            reword(which, 2, 20 + 4 * i);
            in_orders(4, "an empty fragment");
            swap(0, which);
            listed = 1;
            expect(judge_yard(), 4, "an empty fragment alone");
        }
}

/* Each place that a fragment can say, with each length around what ends at 65,515. */
static void ends(void)
{
    for (size_t at = 0; at < 8192; at += at < 8170 ? 817 : 1)
        for (size_t more = 0; more < 2; more++) {
            size_t left = 8 * at < 65515 ? 65515 - 8 * at : 0;
            size_t sizes[] = {1, 8, left, left + 1, left + 8, left - (left > 0)};
            for (size_t i = 0; i < 6; i++) {
                size_t size = sizes[i];
                if (size == 0 || size > 1000)
                    continue;
                packet_of(p, 4, 17, size);
                held = listed = 0;
                lay(0, size, 0, 0);
                reword(0, 6, 0x2000 * more + at);
                unsigned want = 8 * at + size > 65515 ? 4 : at > 0 || more ? 6 : ruled_message(yard);
                expect(judge_yard(), want, "a place and a length");
            }
        }
    /* the last of 64, of a message that ends at 65,515, and one byte later */
    good_four(1, 65515);
    cut_by(1024, 0, 0);
    in_orders(0, "64 fragments of the longest message");
    reword(63, 2, word(packet_at(63) + 2) + 1);
    list[63].length++;
    held++;
    in_orders(4, "one byte longer");
}

/* Gaps, overlaps, flags and lengths. */
static void filling(void)
{
    for (size_t i = 0; i < 3; i++)
        for (size_t which = 0; which < 4; which++) {
            unsigned protocol = each[i].protocol;
            good_four(protocol, 61);
            cut_by(16, 0, 8);
            in_orders(0, "four fragments");
            /* flags */
            unsigned flags = word(packet_at(which) + 6);
            reword(which, 6, flags ^ 0x2000);
            in_orders(6, which == 3 ? "no last fragment" : "two last fragments");
            reword(which, 6, flags ^ 0xC000);
            in_orders(0, "the other flags");
            /* places */
            reword(which, 6, flags + 1);
            in_orders(6, "one that begins 8 bytes late");
            reword(which, 6, flags + 100);
            in_orders(6, "one that begins 800 bytes late");
            if (which > 0) {
                reword(which, 6, flags - 1);
                in_orders(6, "one that begins 8 bytes early");
                reword(which, 6, flags - 2);
                in_orders(6, "one that begins where another does");
            }
            reword(which, 6, flags);
            /* lengths */
            size_t total = word(packet_at(which) + 2);
            for (size_t more = 1; more <= 8; more++) {
                reword(which, 2, total + more);
                if (which < 3)
                    in_orders(6, "a longer one");
                reword(which, 2, total - more);
                if (which < 3)
                    in_orders(6, "a shorter one");
            }
            reword(which, 2, total);
            /* one left out, one twice */
            list[4] = list[which];
            listed = 5;
            in_orders(6, "one that is there twice");
            listed = 4;
            swap(which, 3);
            listed = 3;
            in_orders(6, "one left out");
        }
}

/* Of three fragments the middle one has each length that doesn't divide by 8, and the last begins as near as it can. */
static void uneven(void)
{
    for (size_t i = 0; i < 3 * 3 * 7; i++) {
        size_t size = 8 + i % 7 + 1, at = 24 + i / 7 % 3 * 8 - 8;
        good_four(each[i / 21].protocol, 61);
        held = listed = 0;
        lay(0, 16, 0, 0);
        lay(16, 16 + size, 0, 0);
        lay(at, 61, 0, 0);
        in_orders(6, "a length that doesn't divide by 8");
    }
}

/* Records that overlap in the buffer: each reaches to its end; all reach there from where they lie; and a fragment lies
 * in the body of another, of which it is part. */
static void in_another(void)
{
    for (size_t i = 0; i < 3; i++) {
        good_four(each[i].protocol, 61);
        cut_by(24, 4, 5);
        for (size_t j = 0; j < listed; j++) {
            list[j].length = held - list[j].offset;
            in_orders(0, "a record that reaches to the buffer's end");
        }
        yard[held - 6] ^= 1;
        in_orders(9, "a damaged byte in what they share");
    }
    /* the first fragment has 48 bytes, the last 30 of which are the second: its header, and 10 bytes */
    packet_of(p, 4, 17, 58);
    put(p + 6, 0);
    held = listed = 0;
    lay(0, 48, 0, 0);
    lay(48, 58, 0, 0);
    memcpy(yard + 20 + 18, yard + 68, 30);
    memcpy(p + 20, yard + 20, 48);
    freshen(p);
    memcpy(yard + 20, p + 20, 8);
    list[1] = (struct hifrostum_fragment){20 + 18, 30};
    held = 68;
    expect(judge(p, 78), 0, "the whole packet");
    in_orders(0, "a fragment in another's body");
    /* both are only read, so the list may lie in the buffer */
    uint8_t *lent = first.map + 128;
    memcpy(first.map, yard, held);
    memcpy(lent, list, 2 * sizeof *list);
    expect(hifrostum_judge_fragments(first.map, 128 + 2 * sizeof *list, (struct hifrostum_fragment *)lent, 2), 0,
           "a list in the buffer");
    check(memcmp(first.map, yard, held) == 0 && memcmp(lent, list, 2 * sizeof *list) == 0, "which stays as it is");
}

/* The message of each protocol in every two and three pieces, against the judge's verdict on the whole packet. */
static void all_cuts(void)
{
    for (size_t i = 0; i < 3 * 6; i++) {
        size_t message = 20 + i % 6 * 9, len = good_four(each[i / 6].protocol, message);
        for (size_t bad = 0; bad < 2; bad++, p[len - 1] ^= 0x20)
            for (size_t from = 8; from < message; from += 8)
                for (size_t to = from; to < message; to += 8) {
                    held = listed = 0;
                    lay(0, from, 0, 0);
                    if (to > from)
                        lay(from, to, 8, 1);
                    lay(to, message, 0, 0);
                    unsigned verdict = bad ? 9 : 0;
                    expect(judge(p, len), verdict, "the whole packet");
                    in_orders(verdict, "its fragments");
                }
    }
}

/* UDP datagrams that end before their message: at each byte of fragments of 8 and of 16 bytes. What follows isn't
 * summed, and lies in memory that can't be touched where it has fragments of its own, the last. */
static void datagrams_in_fragments(void)
{
    for (size_t i = 0; i < 2 * 62; i++) {
        size_t datagram = i / 2, size = i % 2 ? 8 : 16, len = packet_of(p, 4, 17, 60);
        put(p + 24, datagram);
        freshen(p);
        cut_by(size, 0, 0);
        unsigned want = datagram < 8 || datagram > 60 ? 4 : 0;
        expect(judge(p, len), want, "the whole packet");
        in_orders(want, "a datagram's length");
        if (want)
            continue;
        if (datagram < 60) {
            packet_at((60 - 1) / size)[20 + (60 - 1) % size] ^= 1;
            in_orders(0, "the message's last byte isn't summed");
            packet_at(datagram / size)[20 + datagram % size] ^= 1;
            in_orders(0, "nor the tail's first");
        }
        packet_at((datagram - 1) / size)[20 + (datagram - 1) % size] ^= 1;
        in_orders(9, "the datagram's last byte is");
        put(packet_at(0) + 26, 0);
        in_orders(1, "no sum");
    }
    for (size_t datagram = 8; datagram <= 24; datagram++) {
        packet_of(p, 4, 17, 60);
        put(p + 24, datagram);
        freshen(p);
        held = listed = 0;
        lay(0, 24, 0, 0);
        lay(24, 60, 0, 7);
        size_t own = list[1].offset + 20;
        uint8_t *at = first.map + SPACE - own;
        memcpy(at, yard, own);
        for (size_t i = 0; i < 2; i++, reverse())
            expect(hifrostum_judge_fragments(at, held, list, 2), 0, "a tail in memory that can't be touched");
    }
}

/* TCP's data offset in the second fragment and its field in the third: every one, and both bytes of the field. */
static void headers_apart(void)
{
    for (size_t i = 0; i < 3 * 16; i++) {
        size_t words = i % 16, message = 20 + i / 16 * 13;
        packet_of(p, 4, 6, message);
        p[32] = (uint8_t)(words * 16);
        freshen(p);
        cut_by(8, 0, 0);
        unsigned want = words < 5 || 4 * words > message ? 4 : 0;
        expect(judge(p, 20 + message), want, "the whole packet");
        in_orders(want, "a data offset in the second fragment");
        packet_at(2)[20] ^= 0x40;
        in_orders(want ? want : 9, "a damaged field in the third");
    }
    for (size_t i = 0; i < 3; i++)
        for (size_t message = 1; message < (i == 1 ? 20 : 8); message++) {
            packet_of(p, 4, each[i].protocol, 30);
            put(p + 2, 20 + message);
            cut_by(8, 0, 0);
            in_orders(4, "a message shorter than its fixed header");
        }
    for (unsigned protocol = 0; protocol < 256; protocol++) {
        good_four(17, 30);
        p[9] = (uint8_t)protocol;
        cut_by(16, 0, 0);
        if (protocol != 1 && protocol != 6 && protocol != 17)
            in_orders(7, "another protocol");
        put(p + 2, 21);
        cut_by(8, 0, 0);
        in_orders(protocol == 1 || protocol == 6 || protocol == 17 ? 4 : 7, "and one byte of message");
    }
    packet_of(p, 4, 1, 30);
    memset(p + 20, 0, 30);
    cut_by(16, 0, 0);
    in_orders(9, "a blank message with the field 0000");
    put(packet_at(0) + 22, 0xFFFF);
    in_orders(0, "and with FFFF");
}

/* What can be wrong with two fragments of a UDP message of 16 bytes, in the order of the refusals; those of the first
 * header, those of the second, and then all else. */
enum misfit {
    NO_LIST, TOO_MANY, RECORD_OUTSIDE, FIRST_HEAD, SECOND_HEAD = FIRST_HEAD + HEADINGS,
    ANOTHER = SECOND_HEAD + HEADINGS, HOLLOW, BEYOND, LATE, STILL_MORE, UNCOVERED, NO_HEADER, LENGTH_PAST, SILENT,
    WRONG, MISFITS
};

static unsigned refused_as(enum misfit i)
{
    static const unsigned others[] = {4, 4, 4, 6, 6, 7, 4, 4, 1, 9};
    return i == NO_LIST     ? 2
           : i < FIRST_HEAD ? 10
           : i < ANOTHER    ? headed[(i - FIRST_HEAD) % HEADINGS]
                            : others[i - ANOTHER];
}

/* Two fragments with a set of these. */
static unsigned misfitting(uint32_t faults)
{
    good_four(17, 16);
    if (faults >> LENGTH_PAST & 1)
        put(p + 24, 17);
    if (faults >> SILENT & 1)
        put(p + 26, 0);
    p[35] ^= faults >> WRONG & 1;
    p[9] = faults >> UNCOVERED & 1 ? 58 : faults >> NO_HEADER & 1 ? 6 : 17;
    cut_by(8, 0, 0);
    if (faults >> STILL_MORE & 1)
        reword(1, 6, 0x2001);
    if (faults >> LATE & 1)
        reword(1, 6, 2);
    if (faults >> BEYOND & 1)
        reword(1, 6, 8191);
    if (faults >> HOLLOW & 1)
        reword(1, 2, 20);
    if (faults >> ANOTHER & 1)
        reword(1, 4, 0x0908);
    /* of two in one header the first is made last, so that it stands */
    for (unsigned i = HEADINGS; i-- > 0;) {
        if (faults >> (FIRST_HEAD + i) & 1)
            head(0, i);
        if (faults >> (SECOND_HEAD + i) & 1)
            head(1, i);
    }
    if (faults >> RECORD_OUTSIDE & 1)
        list[listed++] = (struct hifrostum_fragment){held, 1};
    while (faults >> TOO_MANY & 1 && listed <= MOST)
        list[listed++] = list[0];
    listed = faults >> NO_LIST & 1 ? 0 : listed;
    return judge_yard();
}

/* Each, each two, and each with all that come later: the first decides. */
static void misfits_in_order(void)
{
    expect(misfitting(0), 0, "no fault");
    for (unsigned early = 0; early < MISFITS; early++) {
        for (unsigned late = early; late < MISFITS; late++)
            expect(misfitting(1u << early | 1u << late), refused_as(early), "one fault of fragments, or two");
        expect(misfitting((1u << MISFITS) - (1u << early)), refused_as(early), "a fault and all that come later");
    }
}

static uint32_t state = 1;

static size_t any(size_t below)
{
    state = state * 1664525 + 1013904223;
    return (state >> 8) % below;
}

/* Cuts p anywhere, into at most 64 pieces, in any order. */
static void cut_anywhere(void)
{
    size_t len = message_of(p), at = 0, pieces = 1 + any(12), most = len / pieces / 4 + 1;
    held = listed = 0;
    while (at < len) {
        size_t to = listed == MOST - 1 ? len : at + 8 * (1 + any(most));
        to = to < len ? to : len;
        lay(at, to, to - at > 60000 ? 0 : any(11) * 4 * (any(3) == 0), any(3));
        at = to;
    }
    for (size_t i = listed; i > 1; i--)
        swap(i - 1, any(i));
}

/* One bit of a fragment's header, or of its message, is damaged. A header has its own refusal then, and the message the
 * verdict of the whole packet with that damage. */
static void damage(size_t len)
{
    size_t i = any(listed), header = start_of(packet_at(i)), bit = any(8);
    size_t at = any(word(packet_at(i) + 2)), from = 8u * (word(packet_at(i) + 6) & 0x1FFF);
    packet_at(i)[at] ^= (uint8_t)(1 << bit);
    if (at < header) {
        unsigned own = ruled_header(packet_at(i), list[i].length);
        check(own != 0, "a damaged header is seen");
        expect(judge_yard(), own, "one bit of a header damaged");
    } else {
        memcpy(q, p, len);
        q[20 + from + at - header] ^= (uint8_t)(1 << bit);
        unsigned whole = ruled_message(q);
        int tail = q[9] == 17 && from + at - header >= word(q + 24);
        check(tail || whole != 0, "a damaged message is seen");
        expect(judge(q, len), whole, "one bit of a whole packet damaged");
        expect(judge_yard(), whole, "one bit of a message damaged");
    }
    packet_at(i)[at] ^= (uint8_t)(1 << bit);
}

/* One fragment left out, doubled, or exchanged for that of another packet at the same place: of another identification,
 * and of the same, where the message has the verdict of the whole packet with those bytes. */
static void exchange_one(size_t len)
{
    size_t i = any(listed), header = start_of(packet_at(i)), from = 8u * (word(packet_at(i) + 6) & 0x1FFF);
    size_t size = word(packet_at(i) + 2) - header, all = listed;
    list[listed++] = list[i];
    expect(judge_yard(), listed > MOST ? 10 : 6, "one doubled");
    listed = all;
    swap(i, --listed);
    expect(judge_yard(), all == 1 ? 2 : 6, "one left out");
    swap(i, listed++);
    memcpy(q, p, len);
    for (size_t j = from; j < from + size; j++)
        q[20 + j] = (uint8_t)(j * 59 + 7);
    memcpy(packet_at(i) + header, q + 20 + from, size);
    unsigned whole = ruled_message(q);
    expect(judge(q, len), whole, "the whole packet with those bytes");
    expect(judge_yard(), whole, "one exchanged, of the same identification");
    reword(i, 4, word(p + 4) ^ 0x0100);
    if (all > 1)
        expect(judge_yard(), 4, "one exchanged, of another identification");
}

/* Messages of each protocol and of many lengths, without a sum or with a tail inside too, in pieces. */
static void anyhow(void)
{
    static const size_t longest[] = {40, 200, 1500, 8000};
    for (size_t i = 0; i < 3 * 500; i++) {
        size_t message = 20 + any(longest[i / 3 % 4]), len = packet_of(p, 4, each[i % 3].protocol, message);
        if (i >= 1490)
            len = packet_of(p, 4, each[i % 3].protocol, message = 65515 - any(5));
        for (size_t j = 40; j < len; j++)
            p[j] = (uint8_t)any(256);
        p[4] = (uint8_t)any(256);
        if (i % 3 == 2 && any(3) == 0)
            put(p + 24, 8 + any(message - 7));
        freshen(p);
        if (i % 3 == 2 && any(6) == 0)
            put(p + 26, 0);
        unsigned verdict = i % 3 == 2 && word(p + 26) == 0 ? 1 : 0;
        expect(judge(p, len), verdict, "a whole packet");
        cut_anywhere();
        expect(judge_yard(), verdict, "its fragments");
        reverse();
        expect(judge_yard(), verdict, "and in the other order");
        damage(len);
        damage(len);
        expect(judge_yard(), verdict, "its fragments again");
        exchange_one(len);
    }
}

/* Packets of the hut's own */

/* What a packet is to be built of. */
struct status {
    const uint8_t *source, *destination, *body;
    size_t source_len, destination_len, body_len;
    uint16_t source_port, destination_port;
    uint8_t lifetime;
};

/* The rules' verdict on a status, for a buffer of so many bytes. */
static unsigned ruled_status(const struct status *s, size_t room)
{
    int four = s->source_len == 4 && s->destination_len == 4, six = s->source_len == 16 && s->destination_len == 16;
    if ((!four && !six) || s->body_len > 1400)
        return 10;
    if (s->lifetime == 0)
        return 11;
    return room < (four ? 28 : 48) + s->body_len ? 16 : 0;
}

/* Lays out the packet, which is no refused one, by RFC 791 or 8200 and by RFC 768. Answers its length. */
static size_t lay_status(uint8_t *packet, const struct status *s)
{
    size_t four = s->source_len == 4, start = four ? 20 : 40, datagram = 8 + s->body_len;
    memset(packet, 0, start);
    packet[0] = four ? 0x45 : 0x60;
    put(packet + (four ? 2 : 4), four ? start + datagram : datagram);
    packet[four ? 9 : 6] = 17;
    packet[four ? 8 : 7] = s->lifetime;
    memcpy(packet + start - 2 * s->source_len, s->source, s->source_len);
    memcpy(packet + start - s->source_len, s->destination, s->source_len);
    put(packet + start, s->source_port);
    put(packet + start + 2, s->destination_port);
    put(packet + start + 4, datagram);
    if (s->body_len > 0)
        memcpy(packet + start + 8, s->body, s->body_len);
    freshen(packet);
    return start + datagram;
}

/* One call, with everything laid so. Source, destination and body can only be read before a wall, and so can the buffer
 * if the call is to be refused. The buffer has one kind of bytes before, and is to have another. */
static void call_build(const struct status *s, int lay, const uint8_t *was, const uint8_t *want, size_t room,
                       unsigned verdict, size_t length)
{
    static const size_t before = SIZE_MAX - 76;
    struct room *const lent[] = {&first, &second, &third, &fourth, &fifth};
    uint8_t *source = lend(&first, lay, s->source, s->source_len, 1);
    uint8_t *destination = lend(&second, lay, s->destination, s->destination_len, 1);
    uint8_t *body = lend(&third, lay, s->body, s->body_len, 1), *buffer = lend(&fourth, lay, was, room, 1);
    size_t *answer = lend(&fifth, lay, &before, sizeof before, sizeof before);
    size_t closed = lay != BEFORE_WALL ? 0 : verdict ? 4 : 3;
    for (size_t i = 0; i < closed; i++)
        allow(lent[i], PROT_READ);
    unsigned got = hifrostum_build_udp(source, s->source_len, destination, s->destination_len, s->source_port,
                                       s->destination_port, s->lifetime, body, s->body_len, buffer, room, answer);
    for (size_t i = 0; i < closed; i++)
        allow(lent[i], PROT_READ | PROT_WRITE);
    expect(got, verdict, "build: verdict");
    expect(*answer, length, "build: length");
    for (size_t i = 0; i < 5; i++)
        guards(lent[i]);
    unchanged(&first, s->source);
    unchanged(&second, s->destination);
    unchanged(&third, s->body);
    unchanged(&fourth, want);
}

/* Builds a packet in a buffer of so many bytes, and checks verdict, length and every byte. Leaves the buffer in p, and
 * answers the packet's length. */
static size_t build_status(const struct status *s, size_t room)
{
    static uint8_t was[SPACE], want[SPACE];
    unsigned verdict = ruled_status(s, room);
    for (size_t i = 0; i < room; i++)
        want[i] = was[i] = (uint8_t)(i * 29 + room);
    size_t length = verdict ? 0 : lay_status(want, s);
    for (int lay = 0; lay < LAYS; lay++)
        call_build(s, lay, was, want, room, verdict, length);
    if (room > 0)
        memcpy(p, fourth.lent, room);
    return length;
}

/* Looks at a packet in p that was built in a buffer of so many bytes: it is good, alone and before what is behind it,
 * mending changes nothing, and it says what it was built of. */
static void look_at(const struct status *s, size_t len, size_t room)
{
    size_t size = s->source_len, start = size == 4 ? 20 : 40;
    memcpy(q, p, room);
    expect(judge(p, len), 0, "judge what was built");
    expect(judge(p, room), 0, "and before a tail");
    expect(mend(p, room), 0, "mend what was built");
    check(memcmp(p, q, room) == 0, "mending changes nothing");
    expect(start_of(p), start, "no options and no headers between");
    expect(protocol_of(p), 17, "its protocol");
    expect(start + message_of(p), len, "its length");
    expect(word(p + start + 4), message_of(p), "its datagram's length");
    expect(p[size == 4 ? 8 : 7], s->lifetime, "its lifetime");
    check(memcmp(p + start - 2 * size, s->source, size) == 0, "its source");
    check(memcmp(p + start - size, s->destination, size) == 0, "its destination");
    expect(word(p + start), s->source_port, "its source port");
    expect(word(p + start + 2), s->destination_port, "its destination port");
    expect(len - body_of(p), s->body_len, "its body's length");
    check(s->body_len == 0 || memcmp(p + body_of(p), s->body, s->body_len) == 0, "its body");
    check(word(p + start + 6) != 0, "its sum isn't left out");
}

/* Builds a packet that is no refused one, and looks at it. */
static size_t good_status(const struct status *s, size_t room)
{
    size_t len = build_status(s, room);
    if (len > 0)
        look_at(s, len, room);
    return len;
}

/* A status from bytes that are made up, and the paper's. */
static uint8_t sides[2][40], report[65536];

static struct status any_status(int four, size_t body)
{
    size_t size = four ? 4 : 16;
    for (size_t i = 0; i < 40; i++) {
        sides[0][i] = (uint8_t)(i * 41 + body);
        sides[1][i] = (uint8_t)(i * 53 + 3 * body + 1);
    }
    for (size_t i = 0; i < body; i++)
        report[i] = (uint8_t)(i * i * 7 + body + 1);
    return (struct status){sides[0], sides[1], report, size, size, body, 0x1388, 0xFEDC, 64};
}

static struct status paper_status(const uint8_t *body, size_t body_len)
{
    return (struct status){udp + 12, udp + 16, body, 4, 4, body_len, 5000, 5001, 64};
}

/* The paper's addresses, ports and data, by their bytes: its header has the flag don't-fragment, and these don't. Then
 * its data whose sum comes to 0000, no data, and over IPv6 three bytes and such as come to 0000. */
static void paper_statuses(void)
{
    static const uint8_t zero_sum[2] = {0x56, 0xB0}, one[16] = {[15] = 1}, six_zero[5] = {0x48, 0x69, 0x90, 0x58, 0};
    static const uint8_t six[51] = {
        0x60, 0, 0, 0, 0, 11, 17, 64, [23] = 1, [39] = 1, 0x13, 0x88, 0x13, 0x89, 0, 11, 0x6F, 0x5C, 0x48, 0x69, 0x21,
    };
    struct status s = paper_status(udp + 28, 2);
    uint8_t want[30];
    memcpy(want, udp, 30);
    put(want + 6, 0);
    put(want + 10, 0xF8B6);
    expect(good_status(&s, 30), 30, "the paper's packet");
    check(memcmp(p, want, 30) == 0, "its bytes");
    s = paper_status(zero_sum, 2);
    expect(good_status(&s, 30), 30, "data 56 B0");
    expect(word(p + 26), 0xFFFF, "comes to 0000, and FFFF is written");
    s = paper_status(NULL, 0);
    expect(good_status(&s, 40), 28, "no data");
    expect(word(p + 26), 0x56B4, "its sum");
    s = (struct status){one, one, (const uint8_t *)"Hi!", 16, 16, 3, 5000, 5001, 64};
    expect(good_status(&s, 51), 51, "IPv6");
    check(memcmp(p, six, 51) == 0, "its bytes");
    s.body = six_zero;
    s.body_len = 5;
    expect(message_sum(six), 0xFFFF, "the bytes are right");
    expect(good_status(&s, 60), 53, "IPv6 with a sum that comes to 0000");
    expect(word(p + 46), 0xFFFF, "FFFF is written");
}

/* Bodies of each length up to 70, and around 1,400 and far past it, in buffers that fit, that lack bytes and that have
 * more. */
static void status_bodies(void)
{
    static const size_t longer[] = {255, 256, 257, 511, 512, 1023, 1024, 1397, 1398, 1399,
                                    1400, 1401, 1402, 1403, 1428, 1448, 2048, 32768, 65507, 65535};
    for (size_t i = 0; i < 2 * (71 + 20); i++) {
        size_t body = i / 2 <= 70 ? i / 2 : longer[i / 2 - 71], len = (i % 2 ? 28 : 48) + body;
        struct status s = any_status(i % 2, body);
        const size_t rooms[] = {len, len + 1, len + 2, len + 3, len + 100, len - 1, len - 2, len - 8, len / 2, 1, 0};
        for (size_t j = 0; j < sizeof rooms / sizeof *rooms; j++) {
            size_t built = ruled_status(&s, rooms[j]) ? build_status(&s, rooms[j]) : good_status(&s, rooms[j]);
            expect(built, body <= 1400 && rooms[j] >= len ? len : 0, "its length, or none");
        }
    }
    struct status s = any_status(1, HIFROSTUM_BODY_MOST);
    expect(good_status(&s, HIFROSTUM_PACKET_MOST - 20), 1428, "the longest over IPv4");
    s = any_status(0, HIFROSTUM_BODY_MOST);
    expect(good_status(&s, HIFROSTUM_PACKET_MOST), 1448, "the longest over IPv6");
    s.body_len = HIFROSTUM_BODY_MOST + 1;
    expect(build_status(&s, 2048), 0, "and a longer one");
}

/* Each two sizes of addresses, with each other fault and without. */
static void status_pairings(void)
{
    static const size_t sizes[] = {0, 1, 3, 4, 5, 8, 15, 16, 17, 20, 32};
    for (size_t i = 0; i < 11 * 11 * 2 * 2 * 3; i++) {
        size_t from = sizes[i % 11], to = sizes[i / 11 % 11], wide = i / 121 % 2, spent = i / 242 % 2, room = i / 484;
        struct status s = any_status(0, wide ? 1401 : 9);
        s.source_len = from;
        s.destination_len = to;
        s.lifetime = spent ? 0 : 1;
        size_t len = (from == 4 ? 28 : 48) + s.body_len;
        build_status(&s, room == 0 ? len : room == 1 ? len - 1 : 0);
    }
}

/* What can be wrong with a status, in the order of the refusals. Every set of these: the first decides. */
static void status_faults(void)
{
    enum { FROM = 1, TO = 2, OTHER_FAMILY = 4, WIDE = 8, LIFELESS = 16, SMALL = 32, ALL = 64 };
    for (unsigned faults = 0; faults < 2 * ALL; faults++) {
        int four = faults / ALL;
        struct status s = any_status(four, faults & WIDE ? 1401 : 1400);
        s.destination_len = faults & OTHER_FAMILY ? 20 - s.source_len : s.source_len;
        s.destination_len += faults & TO ? 1 : 0;
        s.source_len -= faults & FROM ? 1 : 0;
        s.lifetime = faults & LIFELESS ? 0 : 1;
        size_t room = (four ? 28 : 48) + s.body_len - (faults & SMALL ? 1 : 0);
        unsigned want = faults & (FROM | TO | OTHER_FAMILY | WIDE) ? 10
                        : faults & LIFELESS                        ? 11
                        : faults & SMALL                           ? 16
                                                                   : 0;
        expect(ruled_status(&s, room), want, "faults, and the first of them");
        build_status(&s, room);
    }
}

/* Every lifetime, and ports with each bit. */
static void status_numbers(void)
{
    for (size_t i = 0; i < 2 * 256; i++) {
        struct status s = any_status(i % 2, i / 2 % 5);
        s.lifetime = (uint8_t)(i / 2);
        s.source_port = (uint16_t)(i / 2 % 17 ? 1 << (i / 2 % 17 - 1) : 0);
        s.destination_port = (uint16_t)(65535 - s.source_port);
        expect(build_status(&s, 60), i / 2 ? (i % 2 ? 28 : 48) + i / 2 % 5 : 0, "a lifetime");
    }
}

/* Sums that come to 0000, by the last whole word of the body, or by a port where there is none; and a header's. */
static void status_zeros(void)
{
    for (size_t i = 0; i < 2 * 60; i++) {
        size_t body = i < 116 ? i / 2 : 1400 - i % 4 / 2;
        struct status s = any_status(i % 2, body);
        size_t last = body < 2 ? 0 : (body - 2) / 2 * 2;
        s.source_port = 0;
        if (body >= 2)
            put(report + last, 0);
        lay_status(q, &s);
        unsigned field = word(q + start_of(q) + 6);
        if (body >= 2)
            put(report + last, field);
        else
            s.source_port = (uint16_t)field;
        good_status(&s, 1500);
        expect(word(p + start_of(p) + 6), 0xFFFF, "a sum that comes to 0000");
    }
    for (size_t body = 0; body <= 1400; body += 100) {
        struct status s = any_status(1, body);
        put(sides[1] + 2, 0);
        lay_status(q, &s);
        put(sides[1] + 2, word(q + 10));
        good_status(&s, 28 + body);
        expect(word(p + 10), 0, "a header's field of 0000");
    }
}

/* What is behind the packet lies in memory that can't be touched, and what is only read may be one. */
static void status_places(void)
{
    for (size_t i = 0; i < 2 * 3 * 30; i++) {
        struct status s = any_status(i % 2, i / 6 < 29 ? i / 6 : 1400);
        size_t len = lay_status(q, &s), length = 77;
        uint8_t *at = first.map + SPACE - len;
        expect(hifrostum_build_udp(s.source, s.source_len, s.destination, s.destination_len, s.source_port,
                                   s.destination_port, s.lifetime, s.body, s.body_len, at, len + i / 2 % 3 * 1000,
                                   &length),
               0, "build before a wall");
        expect(length, len, "its length");
        check(memcmp(at, q, len) == 0, "its bytes");
        /* one address twice, and a body that begins with it */
        s.destination = s.source;
        s.body = s.source;
        s.body_len = s.source_len + i % 3;
        len = lay_status(q, &s);
        expect(hifrostum_build_udp(s.source, s.source_len, s.source, s.source_len, s.source_port, s.destination_port,
                                   s.lifetime, s.source, s.body_len, p, 100, &length),
               0, "build of bytes that overlap");
        expect(length, len, "its length");
        check(memcmp(p, q, len) == 0, "its bytes");
    }
}

/* What was built is a packet as any other: each call on it, and a capture of such. */
static void status_relayed(void)
{
    static const size_t bodies[] = {0, 1, 2, 33, 128, 1400};
    static uint8_t packets[SPACE], verdicts[16];
    size_t end = 5;
    memcpy(packets, glr, 5);
    for (size_t i = 0; i < 2 * 6; i++) {
        struct status s = any_status(i % 2, bodies[i / 2]);
        size_t len = good_status(&s, 1500);
        put(packets + end, len);
        memcpy(packets + end + 2, p, len);
        end += 2 + len;
        if (s.body_len <= sizeof new_bytes)
            each_call(len);
    }
    capture(packets, end, verdicts, 16, 0, 12);
    for (size_t i = 0; i < 12; i++)
        expect(verdicts[i], 0, "a record that was built");
}

static void captures(void)
{
    static uint8_t verdicts[9];
    capture(glr, 37, verdicts, 2, 0, 2);
    expect(word(verdicts), 0x0200, "the paper's capture");
    capture(glr, 37, verdicts, 9, 0, 2);
    capture(glr, 37, verdicts, 1, 16, 0);
    capture(glr, 37, verdicts, 0, 16, 0);
    capture(glr, 5, verdicts, 0, 0, 0);
    capture(NULL, 0, verdicts, 0, 13, 0);
    for (size_t len = 0; len < 37; len++)
        if (len < 5)
            capture(glr, len, verdicts, 0, len < 3 ? 13 : 14, 0);
        else if (len != 5 && len != 7)
            capture(glr, len, verdicts, 0, 15, 0);
    capture(glr, 7, verdicts, 3, 0, 1);
    memcpy(p, glr, 37);
    p[2] = 'S';
    capture(p, 37, verdicts, 2, 13, 0);
    p[2] = 'R';
    p[4] = 2;
    capture(p, 37, verdicts, 2, 14, 0);
    p[4] = 1;
    p[5] = 8;
    p[6] = 1;
    capture(p, 5 + 2 + 2049, verdicts, 2, 15, 0);
}

/* A thousand records of the longest length, every third cut. */
static void long_capture(void)
{
    static uint8_t verdicts[1200];
    size_t len = 5;
    memcpy(p, glr, 5);
    for (size_t i = 0; i < 1000; i++) {
        put(p + len, 2048);
        size_t n = packet_of(p + len + 2, 4, 17, 2028);
        put(p + len + 2 + 10, 65535 - fold(weigh(p + len + 2, 20)));
        put(p + len + 2 + 26, 0);
        if (i % 3 == 0)
            put(p + len + 2 + 2, 2049);
        len += 2 + n;
    }
    capture(p, len, verdicts, 1200, 0, 1000);
    for (size_t i = 0; i < 1000; i++)
        expect(verdicts[i], i % 3 == 0 ? 2 : 1, "a verdict for each record");
    capture(p, len, verdicts, 1000, 0, 1000);
    capture(p, len, verdicts, 999, 16, 0);
    capture(p, len - 1, verdicts, 0, 15, 0);
}

/* The largest packets that the formats allow, some with a tail inside, and some behind all headers that there may be,
 * each with a tail behind and without. */
static void largest(void)
{
    static const uint8_t new[16] = {0xFD, 7, [15] = 3};
    static uint8_t body[65536];
    for (size_t i = 0; i < sizeof body; i++)
        body[i] = (uint8_t)(i * 101 >> 2);
    static const struct {
        int family;
        unsigned protocol;
        size_t message, fixed, inside;
        const char *behind;
    } kinds[] = {{4, 1, 65515, 8, 0, NULL}, {4, 6, 65515, 20, 0, NULL}, {4, 17, 65515, 8, 0, NULL},
                 {4, 17, 65515, 8, 1, NULL}, {4, 17, 65515, 8, 65000, NULL}, {6, 6, 65535, 20, 0, NULL},
                 {6, 17, 65535, 8, 0, NULL}, {6, 17, 65535, 8, 1, NULL}, {6, 17, 65535, 8, 65000, NULL},
                 {6, 58, 65535, 4, 0, NULL}, {6, 6, 65535 - 16384, 20, 0, LONGEST "6"},
                 {6, 17, 65535 - 16384, 8, 0, LONGEST "17"}, {6, 17, 65535 - 16384, 8, 48000, LONGEST "17"},
                 {6, 58, 65535 - 16384, 4, 0, LONGEST "58"}, {6, 58, 65535 - 8, 4, 0, "60 58"}};
    for (size_t i = 0; i < 2 * sizeof kinds / sizeof *kinds; i++) {
        size_t message = kinds[i / 2].message, inside = kinds[i / 2].inside;
        size_t body_len = message - kinds[i / 2].fixed - inside;
        size_t len = packet_of(p, kinds[i / 2].family, kinds[i / 2].protocol, message);
        len = kinds[i / 2].behind ? lead(p, len, kinds[i / 2].behind) : len;
        size_t tail = i % 2 ? 100000 : 0, end = len - inside;
        int kept = 1;
        if (inside > 0)
            put(p + start_of(p) + 4, message - inside);
        memset(p + end, 0xEE, inside + tail);
        expect(mend(p, len + tail), 0, "mend the largest");
        expect(message_sum(p), 0xFFFF, "the largest sums right");
        expect(lower(p, len + tail), 0, "lower the largest");
        expect(call(ADDRESS, p, len + tail, 1, new, kinds[i / 2].family == 4 ? 4 : 16), 0, "a new destination");
        if (kinds[i / 2].family == 6)
            exchanged(len + tail, i % 2, outside);
        expect(call(STRETCH, p, len + tail, 1, body, body_len - 1), 0, "a whole new body but one byte");
        expect(call(STRETCH, p, len + tail, 1, body, body_len), 10, "one byte too many");
        check(memcmp(p + end - body_len + 1, body, body_len - 1) == 0, "in place");
        expect(message_sum(p), 0xFFFF, "it still sums right");
        expect(judge(p, len + tail), 0, "judge the largest");
        expect(judge(p, len - 1), 2, "one byte short");
        for (size_t at = end; at < len + tail; at++)
            kept &= p[at] == 0xEE;
        if (inside + tail > 0)
            check(kept, "the tails");
        p[end - 1] ^= 4;
        expect(judge(p, len + tail), 9, "its last byte damaged");
    }
}

int main(void)
{
    setvbuf(stdout, NULL, _IOLBF, 0);
    build(&first);
    build(&second);
    build(&third);
    build(&fourth);
    build(&fifth);
    fields();
    group("field");
    updates();
    example();
    group("update");
    chains();
    group("sum_chain");
    joins();
    cuts();
    in_place();
    group("join");
    judging();
    refusals();
    unseen();
    group("judge");
    mending();
    mending_each();
    mending_corners();
    group("mend");
    lifetime();
    group("lower_lifetime");
    fragments();
    unjudged();
    lengths();
    group("lower_lifetime of what others refuse");
    address();
    group("set_address");
    stretch();
    stretch_each();
    group("set_stretch");
    full_stretches();
    full_addresses();
    fields_at_ffff();
    group("fields at FFFF");
    tails();
    said_lengths();
    misreadings();
    untouched();
    tail_captures();
    group("datagrams before a tail");
    headers_between();
    datagrams_behind();
    stopped_walks();
    untouched_behind();
    misread_between();
    edits_behind();
    captures_behind();
    group("headers between");
    exchanges();
    fields_under_exchanges();
    unfit_prefixes();
    other_versions();
    faults_in_order();
    group("exchange_prefix");
    two_fragments();
    records_outside();
    counts();
    headings();
    shared();
    ends();
    filling();
    uneven();
    in_another();
    all_cuts();
    datagrams_in_fragments();
    headers_apart();
    misfits_in_order();
    group("judge_fragments");
    anyhow();
    group("judge_fragments of messages cut anywhere");
    paper_statuses();
    status_bodies();
    status_pairings();
    status_faults();
    status_numbers();
    status_zeros();
    status_places();
    status_relayed();
    group("build_udp");
    captures();
    long_capture();
    group("judge_capture");
    largest();
    group("largest packets");
    printf("host: %u checks, %u failed\n", checks, failed);
    return failed != 0;
}
