/* A relay: a capture of IP packets on standard input, the packets that pass on standard output.
 *
 * Each packet is judged, loses one of its lifetime, and gets a new destination address; a fragment
 * keeps the destination that it came with. Or the prefixes of IPv6 addresses are exchanged: inside
 * for outside on the way out, outside for inside on the way in. A packet that the library refuses is
 * dropped and counted: a damaged one is never repaired.
 *
 *     cc hut.c -I../../include libhifrostum.a -o hut
 *     ./hut 192.168.0.199 <in >out
 *     ./hut --prefix fd01:203:405::/48 2001:db8:1::/48 <in >out
 */
#include <arpa/inet.h>
#include <errno.h>
#include <stdio.h>
#include <string.h>

#include "hifrostum.h"

enum { SOURCE = 0, DESTINATION = 1 };
enum { LONGEST = 2048, PREFIX = 6, VERDICTS = HIFROSTUM_ROOM + 1 };

static const char *const names[VERDICTS] = {
    "good", "unsummed", "cut", "version", "shape", "header sum", "fragment", "uncovered", "missing",
    "message sum", "place", "spent", "blank", "mark", "edition", "record", "room",
};

static const char usage[] =
    "usage: hut ADDRESS <in >out\n"
    "       hut --prefix INSIDE OUTSIDE <in >out\n"
    "Relays a capture of IP packets: judges each, lowers its lifetime by one and sets its\n"
    "destination to ADDRESS (IPv4 or IPv6). A packet of the other family keeps its destination\n"
    "and only has its lifetime lowered. So does a fragment, of which the IP header alone is\n"
    "judged: whether the sum of its message is right shows where all fragments are, not here.\n"
    "With --prefix no destination is set. Where an IPv6 source begins with the prefix INSIDE it\n"
    "gets OUTSIDE instead, and where a destination begins with OUTSIDE it gets INSIDE, each with\n"
    "a subnet that keeps all sums right (RFC 6296). Prefixes have 48 bits: fd01:203:405::/48. A\n"
    "packet without them, IPv4 too, only has its lifetime lowered. One that has such a prefix and\n"
    "can't exchange it is dropped: a fragment (counted so), or one of subnet ffff (as place).\n"
    "A packet that is refused is dropped, and counted on standard error by the reason. Exit\n"
    "status: 0 relayed, 1 damaged input or a failed read or write, 2 wrong usage.\n";

/* What is done to addresses: a new destination of 4 bytes or 16 is set, or, if its length is 0, the
 * first six bytes of the other two are exchanged for each other. */
struct change {
    uint8_t to[16], inside[16], outside[16];
    size_t to_len;
};

/* What is counted besides of a packet that is sent on. */
struct notes {
    int fragment, exchanged;
};

/* Packets by what relay answered, and how many of those sent on were fragments, or had a prefix
 * exchanged. */
struct counts {
    unsigned long verdicts[VERDICTS], fragments, exchanged;
};

/* Reads an address as people write it. Answers 0 if it is none. */
static int read_address(const char *text, struct change *change)
{
    change->to_len = inet_pton(AF_INET, text, change->to) == 1 ? 4 : 16;
    return change->to_len == 4 || inet_pton(AF_INET6, text, change->to) == 1;
}

/* Reads a prefix as people write it, such as fd01:203:405::/48. Answers 0 if it is none, if it has
 * another length than 48 bits, or if a later bit is set. */
static int read_prefix(const char *text, uint8_t address[16])
{
    static const uint8_t zeros[16 - PREFIX];
    char before[INET6_ADDRSTRLEN];
    size_t len = strcspn(text, "/");
    if (len >= sizeof before || strcmp(text + len, "/48") != 0)
        return 0;
    memcpy(before, text, len);
    before[len] = '\0';
    return inet_pton(AF_INET6, before, address) == 1 &&
           memcmp(address + PREFIX, zeros, sizeof zeros) == 0;
}

/* Reads the prefixes inside and outside. Answers 0, and says which is none, unless both are. */
static int read_prefixes(char **texts, struct change *change)
{
    const char *wrong = !read_prefix(texts[0], change->inside)    ? texts[0]
                        : !read_prefix(texts[1], change->outside) ? texts[1]
                                                                  : NULL;
    if (wrong)
        fprintf(stderr, "hut: %s is no prefix of 48 bits, such as fd01:203:405::/48\n", wrong);
    return wrong == NULL;
}

/* Sets the new destination, if the packet is of its family. A fragment keeps its own: the field that
 * covers it stands in the first fragment alone. */
static uint8_t redirect(uint8_t *packet, size_t len, const struct change *change, int fragment)
{
    size_t address_len = packet[0] >> 4 == 4 ? 4 : 16;
    if (fragment || change->to_len != address_len)
        return HIFROSTUM_GOOD;
    return hifrostum_set_address(packet, len, DESTINATION, change->to, address_len);
}

/* Exchanges the prefix of one address of an IPv6 packet, if that is the old one. With another it is
 * left as it is. What has the old prefix and is refused, as a fragment or for the subnet FFFF, must
 * be dropped: it would carry the prefix to where that isn't to be seen. */
static uint8_t exchange(uint8_t *packet, size_t len, uint32_t side, const uint8_t *old,
                        const uint8_t *new, int *exchanged)
{
    if (memcmp(packet + 8 + 16 * side, old, PREFIX) != 0)
        return HIFROSTUM_GOOD;
    *exchanged = 1;
    return hifrostum_exchange_prefix(packet, len, side, old, PREFIX, new, PREFIX);
}

/* Exchanges the prefixes of an IPv6 packet: the source's on the way out, the destination's on the way
 * in, and both if it is sent from inside to an inside station by that one's outside address. */
static uint8_t exchange_both(uint8_t *packet, size_t len, const struct change *change, int *exchanged)
{
    if (packet[0] >> 4 != 6)
        return HIFROSTUM_GOOD;
    uint8_t verdict = exchange(packet, len, SOURCE, change->inside, change->outside, exchanged);
    if (verdict != HIFROSTUM_GOOD)
        return verdict;
    return exchange(packet, len, DESTINATION, change->outside, change->inside, exchanged);
}

/* Makes one packet ready to be sent on, in place: the verdict, a refusal where it is not to be sent.
 * Judge first. The edits update sums and don't look whether these were right. Of IPv4 the judge says
 * fragment once the header's sum has passed; IPv6 has no such sum. */
static uint8_t relay(uint8_t *packet, size_t len, const struct change *change, struct notes *notes)
{
    uint8_t verdict = hifrostum_judge(packet, len);
    notes->fragment = verdict == HIFROSTUM_FRAGMENT;
    notes->exchanged = 0;
    if (verdict > HIFROSTUM_UNSUMMED && !notes->fragment)
        return verdict;
    verdict = hifrostum_lower_lifetime(packet, len);
    if (verdict != HIFROSTUM_GOOD)
        return verdict;
    return change->to_len > 0 ? redirect(packet, len, change, notes->fragment)
                              : exchange_both(packet, len, change, &notes->exchanged);
}

/* Reads one record. Answers 0 at the end of input and at a failed read; otherwise *damage is null for
 * a whole record, and says in words what is wrong with any other. */
static int next_record(uint8_t *packet, size_t *len, const char **damage)
{
    uint8_t head[2];
    size_t had = fread(head, 1, 2, stdin);
    *damage = NULL;
    if (had == 0)
        return 0;
    *len = (size_t)head[0] << 8 | head[1];
    if (had < 2)
        *damage = "its length is cut";
    else if (*len > LONGEST)
        *damage = "it is longer than 2048 bytes";
    else if (fread(packet, 1, *len, stdin) < *len)
        *damage = "its packet is cut";
    return 1;
}

/* Writes bytes to standard output. Answers 0 if that failed. */
static int put(const uint8_t *bytes, size_t len)
{
    return fwrite(bytes, 1, len, stdout) == len;
}

/* Writes one record, and sees that it is out before the next is waited for. */
static int write_record(const uint8_t *packet, size_t len)
{
    uint8_t head[2] = {(uint8_t)(len >> 8), (uint8_t)len};
    return put(head, 2) && put(packet, len) && fflush(stdout) == 0;
}

/* Relays the records to the end of input, counting. Answers 0 if it stopped early. */
static int relay_records(const struct change *change, struct counts *counts)
{
    uint8_t packet[LONGEST];
    size_t len;
    const char *damage;
    struct notes notes;
    for (unsigned long record = 1; next_record(packet, &len, &damage); record++) {
        if (damage && !ferror(stdin))
            fprintf(stderr, "hut: damaged capture: record %lu: %s\n", record, damage);
        if (damage)
            return 0;
        uint8_t verdict = relay(packet, len, change, &notes);
        if (verdict == HIFROSTUM_GOOD && !write_record(packet, len))
            return 0;
        counts->verdicts[verdict]++;
        counts->fragments += verdict == HIFROSTUM_GOOD && notes.fragment;
        counts->exchanged += verdict == HIFROSTUM_GOOD && notes.exchanged;
    }
    return !ferror(stdin);
}

/* Relays the whole capture. Answers 0 if it stopped early. */
static int relay_capture(const struct change *change, struct counts *counts)
{
    static const uint8_t begin[5] = {'G', 'L', 'R', 0, 1};
    uint8_t head[5];
    size_t had = fread(head, 1, 5, stdin);
    if (ferror(stdin))
        return 0;
    if (had < 3 || memcmp(head, begin, 3) != 0)
        fprintf(stderr, "hut: damaged capture: it doesn't begin with the mark GLR\n");
    else if (had < 5 || memcmp(head, begin, 5) != 0)
        fprintf(stderr, "hut: damaged capture: its version is not 1\n");
    else
        return put(begin, 5) && fflush(stdout) == 0 && relay_records(change, counts);
    return 0;
}

/* Says on standard error what was done. */
static void report(const struct counts *counts)
{
    unsigned long relayed = counts->verdicts[HIFROSTUM_GOOD], dropped = 0;
    for (int verdict = 1; verdict < VERDICTS; verdict++) {
        if (counts->verdicts[verdict] > 0)
            fprintf(stderr, "hut: dropped %lu: %s\n", counts->verdicts[verdict], names[verdict]);
        dropped += counts->verdicts[verdict];
    }
    if (counts->fragments > 0)
        fprintf(stderr, "hut: relayed %lu: fragments, destination kept\n", counts->fragments);
    if (counts->exchanged > 0)
        fprintf(stderr, "hut: relayed %lu: prefix exchanged\n", counts->exchanged);
    fprintf(stderr, "hut: records %lu relayed %lu dropped %lu\n",
            relayed + dropped, relayed, dropped);
}

int main(int argc, char **argv)
{
    struct change change = {{0}, {0}, {0}, 0};
    if (argc == 2 && strcmp(argv[1], "--help") == 0)
        return fputs(usage, stdout) < 0 || fflush(stdout) != 0;
    if (argc == 4 && strcmp(argv[1], "--prefix") == 0) {
        if (!read_prefixes(argv + 2, &change))
            return 2;
    } else if (argc != 2 || !read_address(argv[1], &change)) {
        fputs(usage, stderr);
        return 2;
    }

    struct counts counts = {{0}, 0, 0};
    int done = relay_capture(&change, &counts);
    const char *reason = strerror(errno);
    if (ferror(stdin))
        fprintf(stderr, "hut: reading failed: %s\n", reason);
    if (ferror(stdout))
        fprintf(stderr, "hut: writing failed: %s\n", reason);
    report(&counts);
    return done ? 0 : 1;
}
