//! Safe calls to `libhifrostum.a`, which judges, mends and edits the checksums of IP packets, and builds UDP packets.
//!
//! Each function is the C function of the same name with slices for pointers and lengths, and a
//! [`Verdict`] for its number. A slice is never too short, and what one call writes is borrowed by it
//! alone, so nothing of what `hifrostum.h` asks of a C caller is left to ask here. A packet begins at
//! its IP header. Bytes past its declared end are a tail, neither judged nor changed, and so are those
//! inside it that follow a UDP datagram. A refused call changes no byte.
//!
//! Over IPv6 up to eight headers between are walked to the message: hop-by-hop directly behind the fixed
//! header, routing and destination options. A fragment header is [`Fragment`](Verdict::Fragment) wherever
//! it is met; a ninth header, a late hop-by-hop and routing with segments left are
//! [`Uncovered`](Verdict::Uncovered); one that passes the payload's end is [`Shape`](Verdict::Shape). No
//! sum covers these headers, so damage there goes unseen, but for what the walk refuses.
//!
//! ```no_run
//! # let mut packet = [0u8; 20];
//! use hifrostum::{judge, lower_lifetime, Verdict};
//! match judge(&packet) {
//!     Verdict::Good | Verdict::Unsummed => println!("{}", lower_lifetime(&mut packet)),
//!     refused => println!("dropped: {refused}"),
//! }
//! ```
#![warn(missing_docs)]

use std::{error, fmt};

mod c {
    extern "C" {
        pub fn hifrostum_judge(packet: *const u8, len: usize) -> u8;
        pub fn hifrostum_judge_fragments(
            buffer: *const u8,
            len: usize,
            list: *const super::Fragment,
            list_len: usize,
        ) -> u8;
        pub fn hifrostum_mend(packet: *mut u8, len: usize) -> u8;
        pub fn hifrostum_lower_lifetime(packet: *mut u8, len: usize) -> u8;
        pub fn hifrostum_set_address(
            packet: *mut u8,
            len: usize,
            side: u32,
            address: *const u8,
            address_len: usize,
        ) -> u8;
        pub fn hifrostum_exchange_prefix(
            packet: *mut u8,
            len: usize,
            side: u32,
            expected: *const u8,
            expected_len: usize,
            new_prefix: *const u8,
            new_prefix_len: usize,
        ) -> u8;
        pub fn hifrostum_set_stretch(
            packet: *mut u8,
            len: usize,
            place: usize,
            bytes: *const u8,
            bytes_len: usize,
        ) -> u8;
        pub fn hifrostum_build_udp(
            source: *const u8,
            source_len: usize,
            destination: *const u8,
            destination_len: usize,
            source_port: u16,
            destination_port: u16,
            lifetime: u8,
            body: *const u8,
            body_len: usize,
            buffer: *mut u8,
            buffer_len: usize,
            length: *mut usize,
        ) -> u8;
        pub fn hifrostum_judge_capture(
            capture: *const u8,
            len: usize,
            verdicts: *mut u8,
            verdicts_len: usize,
            count: *mut usize,
        ) -> u8;
        pub fn hifrostum_sum_chain(
            buffer: *const u8,
            len: usize,
            pieces: *const u32,
            pieces_len: usize,
            fold: *mut u16,
            length: *mut u64,
        ) -> u8;
        pub fn hifrostum_join(
            fold_a: u16,
            length_a: u64,
            fold_b: u16,
            length_b: u64,
            fold: *mut u16,
            length: *mut u64,
        ) -> u8;
        pub fn hifrostum_field(bytes: *const u8, len: usize) -> u16;
        pub fn hifrostum_update(field: u16, old_fold: u16, new_fold: u16) -> u16;
    }
}

/// What a call answers. Every verdict but `Good` and `Unsummed` is a refusal.
#[must_use]
#[repr(u8)]
#[derive(Clone, Copy, Debug, PartialEq, Eq, Hash)]
pub enum Verdict {
    /// All sums in use pass, or the call was done.
    Good = 0,
    /// The IPv4 header passes, the UDP field is 0000.
    Unsummed = 1,
    /// No bytes, or fewer than a header has or than declared; for [`judge_fragments`], an empty list.
    Cut = 2,
    /// The version is not 4 or 6; for [`exchange_prefix`], not 6, and for [`judge_fragments`], not 4.
    Version = 3,
    /// A length contradicts another; for [`judge_fragments`], also fragments that can't be of one packet.
    Shape = 4,
    /// The IPv4 header doesn't pass.
    HeaderSum = 5,
    /// More fragments follow, or the fragment offset is not 0; over IPv6, a fragment header. For
    /// [`judge_fragments`], fragments that don't fill a message.
    Fragment = 6,
    /// A protocol that isn't covered in this family, or headers between that aren't walked.
    Uncovered = 7,
    /// UDP over IPv6 with the field 0000.
    Missing = 8,
    /// The message doesn't pass.
    MessageSum = 9,
    /// A piece, length, stretch, address, prefix, list of fragments or body doesn't fit.
    Place = 10,
    /// The lifetime is 0 or 1; for [`build_udp`], 0.
    Spent = 11,
    /// An ICMP message that is, or would be, all zeros.
    Blank = 12,
    /// A capture without the mark "GLR".
    Mark = 13,
    /// A capture of another version than 1.
    Edition = 14,
    /// A capture with a damaged record.
    Record = 15,
    /// More records than places for verdicts; for [`build_udp`], a buffer shorter than the packet.
    Room = 16,
}

/// Each verdict with its name, at its own number.
const VERDICTS: [(Verdict, &str); 17] = [
    (Verdict::Good, "good"),
    (Verdict::Unsummed, "unsummed"),
    (Verdict::Cut, "cut"),
    (Verdict::Version, "version"),
    (Verdict::Shape, "shape"),
    (Verdict::HeaderSum, "header sum"),
    (Verdict::Fragment, "fragment"),
    (Verdict::Uncovered, "uncovered"),
    (Verdict::Missing, "missing"),
    (Verdict::MessageSum, "message sum"),
    (Verdict::Place, "place"),
    (Verdict::Spent, "spent"),
    (Verdict::Blank, "blank"),
    (Verdict::Mark, "mark"),
    (Verdict::Edition, "edition"),
    (Verdict::Record, "record"),
    (Verdict::Room, "room"),
];

impl Verdict {
    /// The verdict of a number, if it is one: for what [`judge_capture`] wrote.
    pub fn from_number(number: u8) -> Option<Verdict> {
        VERDICTS.get(usize::from(number)).map(|entry| entry.0)
    }

    /// The number that C sees.
    pub fn number(self) -> u8 {
        self as u8
    }

    /// Whether the call was refused: every verdict but `Good` and `Unsummed`.
    pub fn is_refusal(self) -> bool {
        self.number() > Verdict::Unsummed.number()
    }

    /// What the library answered, which is always a verdict's number.
    fn answered(number: u8) -> Verdict {
        VERDICTS[usize::from(number)].0
    }
}

impl fmt::Display for Verdict {
    fn fmt(&self, to: &mut fmt::Formatter<'_>) -> fmt::Result {
        to.write_str(VERDICTS[usize::from(self.number())].1)
    }
}

impl error::Error for Verdict {}

/// Which address of a packet.
#[derive(Clone, Copy, Debug, PartialEq, Eq, Hash)]
pub enum Side {
    /// Where it comes from.
    Source = 0,
    /// Where it goes.
    Destination = 1,
}

/// A folded sum. Its complement is a [`Field`], and the two are never exchanged.
#[derive(Clone, Copy, Debug, PartialEq, Eq, Hash)]
pub struct Fold(pub u16);

/// A checksum field as a number: in a packet its high byte comes first.
#[derive(Clone, Copy, Debug, PartialEq, Eq, Hash)]
pub struct Field(pub u16);

/// The sum of a byte string, which knows the string's length.
#[derive(Clone, Copy, Debug, PartialEq, Eq, Hash)]
pub struct Partial {
    /// The folded sum.
    pub fold: Fold,
    /// The string's length in bytes.
    pub length: u64,
}

/// Where a fragment lies in a buffer, with the layout of C's `struct hifrostum_fragment`.
#[repr(C)]
#[derive(Clone, Copy, Debug, PartialEq, Eq, Hash)]
pub struct Fragment {
    /// Where its IP header begins.
    pub offset: usize,
    /// How many bytes there are from there on, a tail among them.
    pub length: usize,
}

/// The longest body that [`build_udp`] takes.
pub const BODY_MOST: usize = 1400;

/// The longest packet that [`build_udp`] builds: a buffer of so many bytes is enough for any. Over IPv4 1,428 are.
pub const PACKET_MOST: usize = 1448;

/// What [`build_udp`] builds a packet of. Each part has its name, so that no port or address is taken for another.
#[derive(Clone, Copy, Debug, PartialEq, Eq, Hash)]
pub struct Udp<'a> {
    /// Where it comes from: 4 bytes for IPv4, 16 for IPv6, as `octets` of the standard library's addresses gives.
    pub source: &'a [u8],
    /// Where it goes: as many bytes.
    pub destination: &'a [u8],
    /// The port where it comes from.
    pub source_port: u16,
    /// The port where it goes.
    pub destination_port: u16,
    /// The lifetime (time to live, hop limit), not 0.
    pub lifetime: u8,
    /// The data, up to [`BODY_MOST`] bytes.
    pub body: &'a [u8],
}

/// The verdict on a packet. Changes nothing.
pub fn judge(packet: &[u8]) -> Verdict {
    Verdict::answered(unsafe { c::hifrostum_judge(packet.as_ptr(), packet.len()) })
}

/// The verdict on the message of one IPv4 packet that came in up to 64 fragments: that of the same message in a
/// packet that came whole, which is a list of one. Changes nothing, and copies no message.
///
/// The fragments may lie anywhere in the buffer, and overlap there: the message is put together by their
/// fragment offsets. Lifetimes, options and service bytes may differ, and no tail is looked at. Refuses with
///
/// - `Cut` an empty list, and `Place` more than 64 records, or one that passes the buffer's end;
/// - `Cut`, `Version`, `Shape` and `HeaderSum`, record by record, what [`judge`] refuses so for its header and its
///   declared length, and IPv6 with `Version`;
/// - `Shape` fragments that differ in source, destination, protocol or identification, bring no byte of the
///   message, or end past its byte 65,515;
/// - `Fragment` fragments that don't fill the message from its first byte on, with no gap and no overlap, or of which
///   others than the last have more-fragments clear or a length that doesn't divide by 8, or the last has it set: one
///   that is there twice is an overlap;
/// - and as [`judge`] does what is wrong with the whole message.
///
/// Where every packet passes what is tested up to `HeaderSum`, the order of the records doesn't change the answer.
///
/// ```
/// use hifrostum::{judge_fragments, Fragment, Verdict};
/// let buffer = [
///     0x45, 0, 0, 28, 0, 0, 0x20, 0, 64, 17, 0xD8, 0xB8, 192, 168, 0, 1, 192, 168, 0, 199, //
///     0x13, 0x88, 0x13, 0x89, 0, 10, 0x0E, 0x47, // and the last two bytes of the message:
///     0x45, 0, 0, 22, 0, 0, 0, 1, 64, 17, 0xF8, 0xBD, 192, 168, 0, 1, 192, 168, 0, 199, 0x48, 0x69,
/// ];
/// let (first, last) = (Fragment { offset: 0, length: 28 }, Fragment { offset: 28, length: 22 });
/// assert_eq!(judge_fragments(&buffer, &[first, last]), Verdict::Good);
/// assert_eq!(judge_fragments(&buffer, &[last, first]), Verdict::Good);
/// assert_eq!(judge_fragments(&buffer, &[first]), Verdict::Fragment);
/// ```
pub fn judge_fragments(buffer: &[u8], list: &[Fragment]) -> Verdict {
    Verdict::answered(unsafe {
        c::hifrostum_judge_fragments(buffer.as_ptr(), buffer.len(), list.as_ptr(), list.len())
    })
}

/// Sets the IPv4 header field and the message field to their fresh values. It makes any content look
/// right: mend what you built, never what you received.
pub fn mend(packet: &mut [u8]) -> Verdict {
    Verdict::answered(unsafe { c::hifrostum_mend(packet.as_mut_ptr(), packet.len()) })
}

/// Lowers the lifetime by one and updates the IPv4 header field; `Spent` if it is 0 or 1. Otherwise it
/// refuses only for the IP header and the declared length, with `Cut`, `Version` and `Shape`: the message
/// and headers between are not looked at, and the verdict stays what it was. So [`judge`] first, and send
/// on by the verdict.
///
/// A damaged packet stays damaged: an edit updates and never mends. In a good packet each field that an
/// edit updates is the one that [`mend`] would write. Both hold of every edit.
///
/// Fragments get through. The verdict on one is `Fragment`: over IPv4 once the header's sum has passed, and
/// over IPv6 where a fragment header is met. Its message's sum is judged by [`judge_fragments`] alone, of all IPv4
/// fragments together.
///
/// ```
/// use hifrostum::{judge, lower_lifetime, Verdict};
/// let mut last = [
///     0x45, 0, 0, 24, 0, 9, 0, 1, 64, 17, 0x66, 0xC9, 10, 0, 0, 1, 10, 0, 0, 2, 0x48, 0x69, 0x21, 0x0A,
/// ];
/// assert_eq!(judge(&last), Verdict::Fragment);
/// assert_eq!(lower_lifetime(&mut last), Verdict::Good);
/// assert_eq!((last[8], judge(&last)), (63, Verdict::Fragment));
/// ```
pub fn lower_lifetime(packet: &mut [u8]) -> Verdict {
    Verdict::answered(unsafe { c::hifrostum_lower_lifetime(packet.as_mut_ptr(), packet.len()) })
}

/// Writes a new address and updates the fields that cover it; `Place` unless it has 4 bytes (IPv4) or
/// 16 (IPv6). A fragment is refused, since the message's field stands in the first one alone: a relay
/// sends it on with the addresses that it came with, its lifetime lowered, or drops it.
pub fn set_address(packet: &mut [u8], side: Side, address: &[u8]) -> Verdict {
    let (to, len) = (packet.as_mut_ptr(), packet.len());
    Verdict::answered(unsafe {
        c::hifrostum_set_address(to, len, side as u32, address.as_ptr(), address.len())
    })
}

/// Exchanges the first six bytes of an IPv6 address for a new prefix, and sets the word behind them so that
/// the address keeps its class modulo 65535: RFC 6296 for prefixes of 48 bits. No sum field is written and
/// none needs to be, the verdict stays what it was, and exchanging back restores the packet.
///
/// `Place` unless both prefixes have six bytes and the address begins with the expected one, or if the word
/// behind it is FFFF, which would come back as 0000. So compare the six bytes first: a packet with another
/// prefix goes on as it is, and one that has the expected prefix and is refused must be dropped. IPv4 is
/// `Version`, and a fragment is refused as by [`set_address`].
///
/// ```
/// use hifrostum::{exchange_prefix, judge, Side, Verdict};
/// let (inside, outside) = ([0xFD, 1, 2, 3, 4, 5], [0x20, 1, 0x0D, 0xB8, 0, 1]);
/// let mut packet = [
///     0x60, 0, 0, 0, 0, 8, 58, 64, // to ::1, from fd01:203:405:1::1234
///     0xFD, 1, 2, 3, 4, 5, 0, 1, 0, 0, 0, 0, 0, 0, 0x12, 0x34, //
///     0, 0, 0, 0, 0, 0, 0, 0, 0, 0, 0, 0, 0, 0, 0, 1, //
///     0x80, 0, 0x6A, 0x7B, 0, 1, 0, 1,
/// ];
/// assert_eq!(judge(&packet), Verdict::Good);
/// let verdict = exchange_prefix(&mut packet, Side::Source, &inside, &outside);
/// assert_eq!(verdict, Verdict::Good);
/// assert_eq!(packet[8..16], [0x20, 1, 0x0D, 0xB8, 0, 1, 0xD5, 0x50]);
/// assert_eq!(judge(&packet), Verdict::Good);
/// ```
pub fn exchange_prefix(packet: &mut [u8], side: Side, expected: &[u8], new: &[u8]) -> Verdict {
    Verdict::answered(unsafe {
        c::hifrostum_exchange_prefix(
            packet.as_mut_ptr(),
            packet.len(),
            side as u32,
            expected.as_ptr(),
            expected.len(),
            new.as_ptr(),
            new.len(),
        )
    })
}

/// Writes new bytes into the body from a place on and updates the message field; `Place` if they
/// don't fit, `Blank` for an ICMP message that is all zeros before or after. The place counts from the
/// body's first byte, which is behind all headers between. UDP's body ends with the datagram, as its length
/// says, and not always with the packet.
pub fn set_stretch(packet: &mut [u8], place: usize, bytes: &[u8]) -> Verdict {
    let (to, len) = (packet.as_mut_ptr(), packet.len());
    Verdict::answered(unsafe {
        c::hifrostum_set_stretch(to, len, place, bytes.as_ptr(), bytes.len())
    })
}

/// Builds a UDP packet in the buffer's first bytes, and answers it: the body and 28 bytes over IPv4, 48 over IPv6. The
/// buffer's bytes behind it stay.
///
/// The IPv4 header has no options, and its service byte, identification, flags and fragment offset are 0, as IPv6's class
/// and flow label are. The sums are fresh, and UDP's is never left out: FFFF is written where it comes to 0000. So [`judge`]
/// says `Good` of every packet built, and [`mend`] leaves it as it is. IPv4 packets all have the identification 0: keep them
/// so short that no link on the way cuts them, or a station may mix their fragments up.
///
/// Refuses, and changes no byte, with
///
/// - `Place` unless both addresses have 4 bytes or both have 16, and for a body of more than 1,400;
/// - then `Spent` a lifetime of 0, and
/// - then `Room` a buffer that is shorter than the packet.
///
/// ```
/// use hifrostum::{build_udp, judge, Udp, Verdict, PACKET_MOST};
/// use std::net::Ipv4Addr;
/// let (hut, station) = (Ipv4Addr::new(192, 168, 0, 1), Ipv4Addr::new(192, 168, 0, 199));
/// let mut status = Udp {
///     source: &hut.octets(),
///     destination: &station.octets(),
///     source_port: 5000,
///     destination_port: 5001,
///     lifetime: 64,
///     body: b"Hi",
/// };
/// let mut buffer = [0; PACKET_MOST];
/// let packet = build_udp(&status, &mut buffer)?;
/// assert_eq!(packet.len(), 30);
/// assert_eq!(packet[26..], [0x0E, 0x47, b'H', b'i']);
/// assert_eq!(judge(packet), Verdict::Good);
/// status.lifetime = 0;
/// assert_eq!(build_udp(&status, &mut buffer), Err(Verdict::Spent));
/// # Ok::<(), Verdict>(())
/// ```
pub fn build_udp<'b>(udp: &Udp<'_>, buffer: &'b mut [u8]) -> Result<&'b mut [u8], Verdict> {
    let mut length = 0;
    let number = unsafe {
        c::hifrostum_build_udp(
            udp.source.as_ptr(),
            udp.source.len(),
            udp.destination.as_ptr(),
            udp.destination.len(),
            udp.source_port,
            udp.destination_port,
            udp.lifetime,
            udp.body.as_ptr(),
            udp.body.len(),
            buffer.as_mut_ptr(),
            buffer.len(),
            &mut length,
        )
    };
    done(number, &mut buffer[..length])
}

/// Judges each record of a capture, writes one verdict number a record, in order, and answers the
/// number of records. Later bytes of `verdicts` stay. Refuses with `Mark`, `Edition`, `Record`, `Room`.
pub fn judge_capture(capture: &[u8], verdicts: &mut [u8]) -> Result<usize, Verdict> {
    let mut count = 0;
    let number = unsafe {
        c::hifrostum_judge_capture(
            capture.as_ptr(),
            capture.len(),
            verdicts.as_mut_ptr(),
            verdicts.len(),
            &mut count,
        )
    };
    done(number, count)
}

/// The partial sum of pieces of a buffer, joined in list order. The list holds offset, length, offset,
/// length; pieces may be empty, overlap or repeat. Refuses with `Place` a list of odd length, a piece
/// that passes the buffer's end, or lengths that together pass the 64-bit range.
pub fn sum_chain(buffer: &[u8], pieces: &[u32]) -> Result<Partial, Verdict> {
    let (mut fold, mut length) = (0, 0);
    let number = unsafe {
        c::hifrostum_sum_chain(
            buffer.as_ptr(),
            buffer.len(),
            pieces.as_ptr(),
            pieces.len(),
            &mut fold,
            &mut length,
        )
    };
    done(number, partial(fold, length))
}

/// The partial sum of a string whose first part has the sum `a` and whose rest has the sum `b`. Refuses
/// with `Place` lengths that together pass the 64-bit range; the caller still has the left sum, `a`.
///
/// Mind the order: 01 before 02 is 0102, and 02 before 01 is 0201. The joined length doesn't tell that
/// the two were exchanged, and where both lengths are even the fold doesn't either. `a.length` is the
/// place of `b`'s first byte in the whole. Join only where the two are equal, and the sum is that of the
/// first bytes, whatever came and in whatever order.
///
/// ```
/// use hifrostum::{join, sum_chain, Fold};
/// let bytes = [0x01, 0x02];
/// let (a, b) = (sum_chain(&bytes, &[0, 1])?, sum_chain(&bytes, &[1, 1])?);
/// assert_eq!(join(a, b), sum_chain(&bytes, &[0, 2]));
/// assert_eq!(join(a, b)?.fold, Fold(0x0102));
/// assert_eq!(join(b, a)?.fold, Fold(0x0201));
/// # Ok::<(), hifrostum::Verdict>(())
/// ```
pub fn join(a: Partial, b: Partial) -> Result<Partial, Verdict> {
    let (mut fold, mut length) = (0, 0);
    let number = unsafe {
        c::hifrostum_join(
            a.fold.0,
            a.length,
            b.fold.0,
            b.length,
            &mut fold,
            &mut length,
        )
    };
    done(number, partial(fold, length))
}

/// The field of a byte string.
pub fn field(bytes: &[u8]) -> Field {
    Field(unsafe { c::hifrostum_field(bytes.as_ptr(), bytes.len()) })
}

/// The field after what it covers changed from one fold to another, by equation 3 of RFC 1624, with 0000
/// where that answers FFFF.
///
/// A fold is 65535 minus the [`field`] of the bytes, or what [`sum_chain`] answers, with its two bytes
/// exchanged where the bytes begin at an odd place of what the field covers:
///
/// ```
/// use hifrostum::{field, update, Fold};
/// let (before, after) = ([0x12, 0x34, 0x56, 0x78], [0x12, 0xAB, 0xCD, 0x78]);
/// let fold_at_1 = |bytes| Fold((65535 - field(bytes).0).swap_bytes());
/// let (old, new) = (fold_at_1(&before[1..3]), fold_at_1(&after[1..3]));
/// assert_eq!(update(field(&before), old, new), field(&after));
/// ```
pub fn update(field: Field, old: Fold, new: Fold) -> Field {
    Field(unsafe { c::hifrostum_update(field.0, old.0, new.0) })
}

/// The partial sum that the library answered.
fn partial(fold: u16, length: u64) -> Partial {
    let fold = Fold(fold);
    Partial { fold, length }
}

/// An answer, unless the call was refused.
fn done<A>(number: u8, answer: A) -> Result<A, Verdict> {
    match Verdict::answered(number) {
        Verdict::Good => Ok(answer),
        refused => Err(refused),
    }
}
