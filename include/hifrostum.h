/* Hifrostum: judges, mends and edits the checksums of IP packets, and builds UDP packets.
 *
 * Link with libhifrostum.a, an ELF archive for x86-64 Linux:  cc host.c libhifrostum.a
 * Its code may stand in a shared object too, and it needs no other library.
 *
 * Who owns what. Every buffer stays the caller's. It is lent for one call, which keeps no pointer,
 * allocates nothing and has no state, so calls on different buffers may run at once. Buffers lent to
 * one call must not overlap, the answers behind pointers among them; two that are only read may. A
 * pointer may be null where its length is 0. No other null pointer and no length past the buffer's
 * end is allowed: these the library can't see.
 *
 * Packets and tails. A packet begins at its IP header. Bytes past its declared end are a tail, which
 * is neither judged nor changed. So are bytes inside it that follow a UDP datagram: UDP's length says
 * where that ends, and sum, body and edits end there.
 *
 * Headers between. Over IPv6 up to eight headers may stand between the fixed header and the message:
 * hop-by-hop (0), directly behind the fixed header alone, and routing (43) and destination options
 * (60), in any order and repeated. In each, byte 0 names what comes next, and byte 1 is the length in
 * units of 8 bytes, beyond the first 8. The walk goes from one to the next. Where what comes next is
 * another number, that is the message's protocol, and what remains of the payload is the message. Each
 * header is tested as it is met, in this order: a fragment header (44) is 6, whatever else there is to
 * say of it; hop-by-hop that comes late, or a ninth header, is 7; one with fewer than 8 bytes left, or
 * that passes the declared payload's end, is 4; routing with segments left (its byte 3 not 0) is 7.
 *
 * No sum covers the headers between. Damage there goes unseen, but for what the walk refuses; where it
 * changes a length or what comes next, the message is looked for elsewhere, or taken for another, and
 * another sum is asked for. The pseudo-header has the addresses of the fixed header, also where there
 * is a routing header, the protocol at the walk's end, and the length of what remains (for UDP, of the
 * datagram).
 *
 * Refusals. Every verdict but good (0) and unsummed (1) is a refusal, and a refused call writes to
 * no buffer. Where several would apply, the first in the order given is the answer. Two lists have
 * names below, and look at no sum. "The outer refusals" are from the IP header and the declared
 * length alone, in this order: no bytes 2; version 3; under 20 (IPv4) or 40 (IPv6) bytes 2; IPv4
 * header length under 5 words 4; IPv4 total length below the header length 4; fewer bytes than
 * declared 2. "The shape's refusals" are the outer ones, and then: fragment 6, or over IPv6 what the
 * walk refuses first, 6, 7 or 4; protocol 7; message shorter than its fixed header 4; TCP's data offset
 * or UDP's length below that header or past the message 4.
 *
 * Fragments. A message's field stands in its first fragment and covers all of them, so none can be
 * judged by itself: judge says 6 of an IPv4 fragment once its header's sum has passed, and of an IPv6
 * packet where the walk meets a fragment header, first or behind others. Of the edits and the mender
 * only the lifetime edit takes them. Who has all fragments of an IPv4 packet has their message judged
 * by hifrostum_judge_fragments; IPv6's are judged by no call.
 */
#ifndef HIFROSTUM_H
#define HIFROSTUM_H

#include <stddef.h>
#include <stdint.h>

#ifdef __cplusplus
extern "C" {
#endif

/* The version of this surface. It goes up by one whenever a function, a constant, or what an answer
 * means is added, changed or taken away; CHANGELOG.md says what a host's author must do then. */
#define HIFROSTUM_SURFACE_VERSION 9

/* What a call answers. */
enum hifrostum_verdict {
    HIFROSTUM_GOOD = 0,        /* all sums in use pass, or the call was done */
    HIFROSTUM_UNSUMMED = 1,    /* the IPv4 header passes, the UDP field is 0000 */
    HIFROSTUM_CUT = 2,         /* no bytes, or fewer than a header has or than declared; no fragments */
    HIFROSTUM_VERSION = 3,     /* the version is not 4 or 6, or not the one that the call takes */
    HIFROSTUM_SHAPE = 4,       /* a length contradicts another; fragments that can't be of one packet */
    HIFROSTUM_HEADER_SUM = 5,  /* the IPv4 header doesn't pass */
    HIFROSTUM_FRAGMENT = 6,    /* a fragment, or a fragment header; fragments that fill no message */
    HIFROSTUM_UNCOVERED = 7,   /* a protocol not covered in this family, or headers not walked */
    HIFROSTUM_MISSING = 8,     /* UDP over IPv6 with the field 0000 */
    HIFROSTUM_MESSAGE_SUM = 9, /* the message doesn't pass */
    HIFROSTUM_PLACE = 10,      /* an unfit piece, length, stretch, side, address, prefix, list or body */
    HIFROSTUM_SPENT = 11,      /* the lifetime is 0 or 1; of a packet to be built, 0 */
    HIFROSTUM_BLANK = 12,      /* an ICMP message that is, or would be, all zeros */
    HIFROSTUM_MARK = 13,       /* a capture without the mark "GLR" */
    HIFROSTUM_EDITION = 14,    /* a capture of another version than 1 */
    HIFROSTUM_RECORD = 15,     /* a capture with a damaged record */
    HIFROSTUM_ROOM = 16        /* more records than places for verdicts, or packet than buffer */
};

/* The verdict on a packet: 0 or 1, or the first refusal. Changes nothing.
 * Refusals: the shape's, with a header sum (5) before fragment, then 8, 9. */
uint8_t hifrostum_judge(const uint8_t *packet, size_t len);

/* Where a fragment lies in a buffer: its IP header begins at the offset, and the length counts the
 * bytes from there on, a tail among them. Two size_t, and nothing between or behind them. */
struct hifrostum_fragment {
    size_t offset;
    size_t length;
};

/* The verdict on the message of one IPv4 packet that came in up to 64 fragments: that of the same
 * message in a packet that came whole. The fragments lie in one buffer, and a record of the list says
 * where each is; list_len counts records. They may come in any order, have other bytes between them
 * and overlap in the buffer: the message is put together by their fragment offsets. A packet that came
 * whole is a list of one. Buffer and list are read only, and no message is copied.
 * Lifetimes, options, service bytes and the two flags beside more-fragments may differ from fragment
 * to fragment. A fragment's tail is not looked at, nor what follows a UDP datagram in the message,
 * which may be in fragments of its own. A fragment that is there twice is an overlap (6): list one of
 * the two. To gather fragments until all are there, and to give up on them, is the caller's part.
 * Refusals: 2 for an empty list; 10 for more than 64 records, or one whose offset plus length passes
 * the buffer's end, and nothing wraps. Then record by record, in list order, the outer ones, where
 * every version but 4 is 3, so IPv6 too, and a header sum (5). Then 4 if they differ in source,
 * destination, protocol or identification, if one brings no byte of the message, or if one ends past
 * message byte 65,515 (8 times its fragment offset plus what it brings). Then 6 unless, sorted by
 * fragment offset, they fill the message from its first byte on with no gap and no overlap, all but the
 * last having more-fragments set and a length that divides by 8, and the last having it clear. Then of
 * the whole message: protocol 7, and what follows that in the shape's refusals; 9.
 * Where every packet passes what is tested up to 5, the order of the records doesn't change the
 * answer. */
uint8_t hifrostum_judge_fragments(const uint8_t *buffer, size_t len,
                                  const struct hifrostum_fragment *list, size_t list_len);

/* Sets the IPv4 header field and the message field to their fresh values, and answers 0. UDP over
 * IPv4 with the field 0000 keeps it; over IPv6 it is filled in. No other byte changes.
 * It makes any content look right: mend what you built, never what you received.
 * Refusals: the shape's. */
uint8_t hifrostum_mend(uint8_t *packet, size_t len);

/* Lowers the lifetime (time to live, hop limit) by one and updates the IPv4 header field. The message
 * and headers between are not looked at: a fragment, an unknown protocol, a message of a wrong shape
 * and a missing sum (8) don't stop it, and the verdict stays what it was for these too. So judge
 * first, and send on by the verdict.
 * A damaged packet stays damaged: an edit updates and never mends. In a good one each field that it
 * updates becomes the one that hifrostum_mend would write. This holds of every edit.
 * Refusals: the outer ones; 11 if the lifetime is 0 or 1. */
uint8_t hifrostum_lower_lifetime(uint8_t *packet, size_t len);

/* Writes a new source (side 0) or destination (side 1) address and updates the fields that cover
 * it: the IPv4 header's, and the message's unless it is ICMP over IPv4. A UDP field 0000 over IPv4
 * stays. The address is read only.
 * A fragment is refused (6), since the message's field, which covers the address, stands in the first
 * fragment alone. So a relay that changes addresses sends a fragment on with those that it came with,
 * its lifetime lowered, or drops it. An address in a routing header is neither read nor written.
 * Refusals: the shape's, then 8; 10 for another side, or unless the address has 4 bytes (IPv4) or
 * 16 (IPv6). */
uint8_t hifrostum_set_address(uint8_t *packet, size_t len, uint32_t side,
                              const uint8_t *address, size_t address_len);

/* Exchanges the first six bytes of the source (side 0) or destination (side 1) of an IPv6 packet for
 * a new prefix, and sets the word behind them, the subnet's, so that the address keeps its class
 * modulo 65535: of 0000 to FFFE exactly one value does. This is RFC 6296 for prefixes of 48 bits. No
 * sum field is written and none needs to be, whatever the protocol. The verdict stays what it was, a
 * fresh field stays fresh, and no other byte changes. Both prefixes are read only.
 * On the way out exchange the source's inside prefix for the outside one, on the way in the
 * destination's outside prefix for the inside one. Exchanging back restores the address to the byte,
 * so a relay keeps no table. A new prefix that equals the expected one answers 0 and changes
 * nothing.
 * 10 has several reasons. So first compare the six bytes at 8 (source) or 24 (destination) of a
 * packet that you judged. If they are another prefix, it isn't yours to exchange and goes on as it
 * is. If they are the expected one and the call refuses, drop it: it would carry the old prefix to
 * where that isn't to be seen. 10 means then that the subnet is FFFF, which would come back as 0000:
 * give no subnet that number.
 * A fragment is refused (6), as by hifrostum_set_address. An address in a routing header, or in the
 * packet that an ICMPv6 error brings back, is neither read nor written.
 * Refusals: the shape's, where every version but 6 is 3, so IPv4 too; then 8; 10 for another side, a
 * prefix not of six bytes, an address that doesn't begin with the expected one, or a word of FFFF
 * behind it. */
uint8_t hifrostum_exchange_prefix(uint8_t *packet, size_t len, uint32_t side,
                                  const uint8_t *expected, size_t expected_len,
                                  const uint8_t *new_prefix, size_t new_prefix_len);

/* Writes new bytes into the body from a place on, and updates the message field. The body is the
 * message after its fixed header (8 bytes for ICMP and UDP, 4 for ICMPv6), and for TCP after its
 * data offset; place 0 is its first byte, which is behind all headers between. UDP's ends with the
 * datagram. A UDP field 0000 over IPv4 stays. An empty stretch that fits answers 0 and writes
 * nothing. The new bytes are read only.
 * Refusals: the shape's, then 8; 10 unless place plus length is at most the body's length, and
 * nothing wraps; 12 for a nonempty stretch in an ICMP message that is all zeros, its field aside,
 * before or after. */
uint8_t hifrostum_set_stretch(uint8_t *packet, size_t len, size_t place,
                              const uint8_t *bytes, size_t bytes_len);

/* The longest body that hifrostum_build_udp takes, and the longest packet that it builds. So many bytes
 * of buffer are enough for any; over IPv4 1,428 are. */
#define HIFROSTUM_BODY_MOST 1400
#define HIFROSTUM_PACKET_MOST 1448

/* Builds a UDP packet in the buffer's first bytes, and hands back its length in *length. Addresses of
 * 4 bytes make it IPv4, 28 bytes longer than the body, and addresses of 16 make it IPv6, 48 longer.
 * What the buffer held doesn't matter, and its bytes behind the packet stay. Addresses and body are
 * read only: they may overlap one another, but not the buffer, where the body is copied to.
 * IPv4 gets a header without options, with service byte, identification, flags and fragment offset 0;
 * IPv6 has class and flow label 0 and no header between. Ports are numbers, as they are said: 5000,
 * not htons(5000). Any ports and any address bytes are taken, and any lifetime but 0: with 1 the
 * packet gets to the next station and no further. The sums are fresh. UDP's is never left out, and
 * FFFF is written where it comes to 0000, over IPv4 too. So hifrostum_judge says 0 of every packet
 * built, and hifrostum_mend leaves it as it is.
 * IPv4 packets all have the identification 0: if two are cut into fragments on their way, a station
 * may mix these up. Keep packets so short that no link on the way cuts them.
 * Refusals, with *length set to 0: 10 unless both addresses have 4 bytes or both have 16, and if the
 * body has more than 1,400; 11 if the lifetime is 0; 16 if the buffer is shorter than the packet. */
uint8_t hifrostum_build_udp(const uint8_t *source, size_t source_len,
                            const uint8_t *destination, size_t destination_len,
                            uint16_t source_port, uint16_t destination_port, uint8_t lifetime,
                            const uint8_t *body, size_t body_len,
                            uint8_t *buffer, size_t buffer_len, size_t *length);

/* Judges each record of a capture: "GLR", the 16-bit version 1, then records of a 16-bit length (0
 * to 2,048) and that many bytes. Writes one verdict number a record, in order, into verdicts, and
 * the number of records into *count; later bytes of verdicts stay. Answers 0 if the capture was
 * read, whatever the verdicts on its packets.
 * Refusals, with *count set to 0: 13, 14, 15, 16. */
uint8_t hifrostum_judge_capture(const uint8_t *capture, size_t len,
                                uint8_t *verdicts, size_t verdicts_len, size_t *count);

/* The partial sum of pieces of a buffer, joined in list order: its fold, and in *length how many
 * bytes were summed. The list holds offset, length, offset, length; pieces_len counts 32-bit numbers.
 * Pieces may be empty, overlap or repeat. Changes nothing but the two answers.
 * Refusals, with *fold and *length set to 0: 10 for a list of odd length, a piece whose offset plus
 * length passes the buffer's end, or lengths that together pass 64 bits. No byte is summed before all
 * of the list is tested. */
uint8_t hifrostum_sum_chain(const uint8_t *buffer, size_t len,
                            const uint32_t *pieces, size_t pieces_len,
                            uint16_t *fold, uint64_t *length);

/* The partial sum of A's bytes followed by B's, from the partial sums of both. Any folds and lengths
 * may be given. Changes nothing but the two answers.
 * Refusals, with *fold and *length set to A's: 10 if the lengths together pass 64 bits.
 *
 * Mind the order: *length doesn't tell that A and B were exchanged, and where both lengths are even
 * *fold doesn't either. length_a is the place of B's first byte in the whole. Join only where the two
 * are equal, and the sum is that of the first *length bytes, whatever came and in whatever order. */
uint8_t hifrostum_join(uint16_t fold_a, uint64_t length_a, uint16_t fold_b, uint64_t length_b,
                       uint16_t *fold, uint64_t *length);

/* The field (the complement of the fold) of a byte string, as a number: in a packet its high byte
 * comes first. Refuses nothing. */
uint16_t hifrostum_field(const uint8_t *bytes, size_t len);

/* The field after the words under it changed from one fold to another: equation 3 of RFC 1624, but
 * 0000 where that answers FFFF. If the sum was right, this is the field worked out anew, unless all
 * that it covers becomes 0. If it was wrong it stays so, unless all was 0, the field too.
 * Mind the kinds: the first is a field, the other two are folds. Refuses nothing.
 *
 * A fold is 65535 minus hifrostum_field of the bytes, or what hifrostum_sum_chain answers where they
 * lie in pieces. Each byte counts by its place in the covered block (the pseudo-header, whose length
 * is even, stands before a message), so the fold of a stretch that begins at an odd place has its
 * two bytes exchanged:
 *
 *     static uint16_t fold_at(size_t place, const uint8_t *bytes, size_t len)
 *     {
 *         uint16_t fold = (uint16_t)(65535 - hifrostum_field(bytes, len));
 *         return place % 2 == 0 ? fold : (uint16_t)(fold << 8 | fold >> 8);
 *     }
 *
 *     static uint16_t renewed(uint16_t field, size_t place, const uint8_t *before,
 *                             const uint8_t *after, size_t len)
 *     {
 *         return hifrostum_update(field, fold_at(place, before, len), fold_at(place, after, len));
 *     }
 *
 * A UDP field that comes to 0000 is sent as FFFF, and one that is 0000 stays: for a packet
 * hifrostum_set_stretch and the other edits see to all of this. */
uint16_t hifrostum_update(uint16_t field, uint16_t old_fold, uint16_t new_fold);

#ifdef __cplusplus
}
#endif

#endif
