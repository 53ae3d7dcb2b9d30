//! The rules paper's examples, and each refusal that the wrapper turns into an error, through the archive.
use hifrostum::*;

const UDP: [u8; 30] = [
    0x45, 0, 0, 0x1E, 0, 0, 0x40, 0, 0x40, 0x11, 0xB8, 0xB6, 0xC0, 0xA8, 0, 1, 0xC0, 0xA8, 0, 0xC7,
    0x13, 0x88, 0x13, 0x89, 0, 0x0A, 0x0E, 0x47, 0x48, 0x69,
];
const CAPTURE: [u8; 37] = [
    0x47, 0x4C, 0x52, 0, 1, 0, 0, 0, 0x1C, 0x45, 0, 0, 0x1C, 0, 0, 0, 0, 0x40, 1, 0x66, 0xDF, 0x0A,
    0, 0, 1, 0x0A, 0, 0, 2, 8, 0, 0xF7, 0xFD, 0, 1, 0, 1,
];

#[test]
fn verdicts_have_their_numbers_and_names() {
    for number in 0..=16 {
        let verdict = Verdict::from_number(number).unwrap();
        assert_eq!(verdict.number(), number);
        assert_eq!(verdict.is_refusal(), number > 1);
    }
    assert_eq!(Verdict::from_number(17), None);
    assert_eq!(Verdict::Good.to_string(), "good");
    assert_eq!(Verdict::MessageSum.to_string(), "message sum");
    assert_eq!(Verdict::Room.to_string(), "room");
}

fn partial(fold: u16, length: u64) -> Partial {
    let fold = Fold(fold);
    Partial { fold, length }
}

#[test]
fn sums() {
    assert_eq!(field(&[]), Field(0xFFFF));
    assert_eq!(field(&[0xFF, 0xFF]), Field(0));
    assert_eq!(field(&[0xAB]), Field(0x54FF));
    assert_eq!(update(Field(0xDD2F), Fold(0x5555), Fold(0x3285)), Field(0));
    let words = [0, 1, 0xF2, 3, 0xF4, 0xF5, 0xF6, 0xF7];
    assert_eq!(sum_chain(&words, &[0, 3, 3, 5]), Ok(partial(0xDDF2, 8)));
    assert_eq!(sum_chain(&words, &[0, 3]), Ok(partial(0xF201, 3)));
    assert_eq!(sum_chain(&words, &[3, 5]), Ok(partial(0xF0EB, 5)));
    assert_eq!(sum_chain(&[], &[]), Ok(partial(0, 0)));
    assert_eq!(sum_chain(&words, &[0, 3, 3]), Err(Verdict::Place));
    assert_eq!(sum_chain(&words, &[u32::MAX, 1]), Err(Verdict::Place));
}

#[test]
fn joins() {
    let (three, five) = (partial(0xF201, 3), partial(0xF0EB, 5));
    assert_eq!(join(three, five), Ok(partial(0xDDF2, 8)));
    assert_eq!(join(five, three), Ok(partial(0xF2DD, 8)));
    let (longest, empty, one) = (partial(0x1234, u64::MAX), partial(1, 0), partial(1, 1));
    assert_eq!(join(longest, empty), Ok(partial(0x1334, u64::MAX)));
    assert_eq!(join(empty, longest), Ok(partial(0x1235, u64::MAX)));
    assert_eq!(join(longest, one), Err(Verdict::Place));
    assert_eq!(join(one, longest), Err(Verdict::Place));
}

#[test]
fn judging_and_mending() {
    assert_eq!(judge(&[]), Verdict::Cut);
    assert_eq!(judge(&UDP), Verdict::Good);
    let mut packet = UDP;
    packet[29] ^= 1;
    assert_eq!(judge(&packet), Verdict::MessageSum);
    packet[8] -= 1;
    assert_eq!(judge(&packet), Verdict::HeaderSum);
    packet[29] ^= 1;
    packet[8] += 1;
    packet[10..12].fill(0);
    packet[26..28].fill(1);
    assert_eq!(mend(&mut packet), Verdict::Good);
    assert_eq!(packet, UDP);
    assert_eq!(mend(&mut packet[..29]), Verdict::Cut);
    assert_eq!(mend(&mut []), Verdict::Cut);
}

#[test]
fn edits() {
    let mut packet = UDP;
    assert_eq!(lower_lifetime(&mut packet), Verdict::Good);
    assert_eq!(packet[8], 0x3F);
    assert_eq!(packet[10..12], [0xB9, 0xB6]);
    assert_eq!(
        set_address(&mut packet, Side::Destination, &[10, 0, 0, 9]),
        Verdict::Good
    );
    assert_eq!(
        set_address(&mut packet, Side::Source, &[10, 0, 0, 8]),
        Verdict::Good
    );
    assert_eq!(packet[12..20], [10, 0, 0, 8, 10, 0, 0, 9]);
    assert_eq!(set_stretch(&mut packet, 1, b"o"), Verdict::Good);
    assert_eq!(packet[28..], *b"Ho");
    assert_eq!(judge(&packet), Verdict::Good);
    let was = packet;
    assert_eq!(
        set_address(&mut packet, Side::Source, &[0; 16]),
        Verdict::Place
    );
    assert_eq!(set_stretch(&mut packet, 2, b"x"), Verdict::Place);
    assert_eq!(set_stretch(&mut packet, usize::MAX, b"x"), Verdict::Place);
    assert_eq!(set_stretch(&mut packet, 2, b""), Verdict::Good);
    assert_eq!(packet, was);
    packet[8] = 1;
    assert_eq!(lower_lifetime(&mut packet), Verdict::Spent);
}

/// What the message is doesn't stop a lifetime, and the verdict stays; no other edit takes such packets.
#[test]
fn fragments_get_through() {
    let header = |packet: &mut [u8]| {
        packet[10..12].fill(0);
        let Field(fresh) = field(&packet[..20]);
        packet[10..12].copy_from_slice(&fresh.to_be_bytes());
    };
    let mut six = [0; 48];
    (six[0], six[5], six[6], six[7]) = (0x60, 8, 44, 64);
    let mut missing = six;
    (missing[6], missing[45]) = (17, 8);
    let mut packets = vec![
        (Verdict::Fragment, six.to_vec()),
        (Verdict::Missing, missing.to_vec()),
    ];
    for (at, value, verdict) in [
        (6, 0x20, Verdict::Fragment), // more follow
        (7, 2, Verdict::Fragment),    // at byte 16
        (9, 99, Verdict::Uncovered),
        (25, 7, Verdict::Shape),  // UDP's length, below its header's
        (25, 11, Verdict::Shape), // and past the message
    ] {
        let mut packet = UDP;
        packet[at] = value;
        header(&mut packet);
        packets.push((verdict, packet.to_vec()));
    }
    for (verdict, mut packet) in packets {
        assert_eq!(judge(&packet), verdict);
        let mut want = packet.clone();
        if want[0] == 0x45 {
            want[8] -= 1;
            header(&mut want);
        } else {
            want[7] -= 1;
        }
        assert_eq!(set_address(&mut packet, Side::Source, &[0; 4]), verdict);
        assert_eq!(set_stretch(&mut packet, 0, b""), verdict);
        assert_eq!(lower_lifetime(&mut packet), Verdict::Good);
        assert_eq!(packet, want);
        assert_eq!(judge(&packet), verdict);
    }
}

/// What is left to refuse a lifetime, in its order: the IP header, the declared length, a spent lifetime.
#[test]
fn refused_lifetimes() {
    let refused = |at: usize, value: u8, len: usize| {
        let mut packet = UDP;
        (packet[7], packet[8]) = (2, 1); // a fragment, spent
        packet[at] = value;
        let was = packet;
        let verdict = lower_lifetime(&mut packet[..len]);
        assert_eq!(packet, was);
        verdict
    };
    assert_eq!(refused(0, 0x45, 0), Verdict::Cut);
    assert_eq!(refused(0, 0x55, 1), Verdict::Version);
    assert_eq!(refused(0, 0x44, 19), Verdict::Cut);
    assert_eq!(refused(0, 0x65, 30), Verdict::Cut);
    assert_eq!(refused(0, 0x44, 29), Verdict::Shape);
    assert_eq!(refused(3, 19, 29), Verdict::Shape);
    assert_eq!(refused(3, 30, 29), Verdict::Cut);
    assert_eq!(refused(8, 1, 30), Verdict::Spent);
    assert_eq!(refused(8, 0, 30), Verdict::Spent);
}

/// UDP datagrams that end before their packets do: what follows is a tail, which no call sums or writes.
#[test]
fn trailing_areas() {
    let mut packet = UDP.to_vec();
    packet.extend([0xFF, 0x48, 0x69]);
    (packet[3], packet[11]) = (0x21, 0xB3); // three bytes more, and a header field of three less
    let good = packet.clone();
    assert_eq!(judge(&packet), Verdict::Good);
    packet[10..12].fill(1);
    packet[26..28].fill(1);
    assert_eq!(mend(&mut packet), Verdict::Good);
    assert_eq!(packet, good);
    assert_eq!(lower_lifetime(&mut packet), Verdict::Good);
    let to = [10, 0, 0, 9];
    assert_eq!(
        set_address(&mut packet, Side::Destination, &to),
        Verdict::Good
    );
    assert_eq!(packet[10..12], [0x71, 0x1A]);
    assert_eq!(packet[26..28], [0xC5, 0xAD]);
    assert_eq!(set_stretch(&mut packet, 1, b"op"), Verdict::Place);
    assert_eq!(set_stretch(&mut packet, 3, b""), Verdict::Place);
    assert_eq!(set_stretch(&mut packet, 1, b"o"), Verdict::Good);
    assert_eq!(packet[28..], [0x48, 0x6F, 0xFF, 0x48, 0x69]);
    assert_eq!(judge(&packet), Verdict::Good);
    for (length, verdict) in [
        (7, Verdict::Shape),
        (8, Verdict::MessageSum),
        (13, Verdict::MessageSum),
        (14, Verdict::Shape),
    ] {
        let mut packet = good.clone();
        packet[25] = length;
        assert_eq!(judge(&packet), verdict);
    }
    // over IPv6 an odd datagram of 9 bytes, and FF behind it
    let mut six = [0; 50];
    (six[0], six[5], six[6], six[7]) = (0x60, 10, 17, 64);
    (six[23], six[39]) = (1, 1);
    six[40..].copy_from_slice(&[0x13, 0x88, 0x13, 0x89, 0, 9, 0x90, 0xC9, 0x48, 0xFF]);
    assert_eq!(judge(&six), Verdict::Good);
    assert_eq!(set_stretch(&mut six, 0, b"I"), Verdict::Good);
    assert_eq!(six[46..], [0x8F, 0xC9, 0x49, 0xFF]);
    assert_eq!(set_stretch(&mut six, 1, b"I"), Verdict::Place);
}

/// UDP over IPv6 with the text "Hi!", behind these headers, each of which has its number and its other bytes.
fn behind(headers: &[(u8, &[u8])]) -> Vec<u8> {
    let mut packet = vec![0; 40];
    (packet[0], packet[7], packet[23], packet[39]) = (0x60, 64, 1, 1);
    let mut next = 6;
    for (number, rest) in headers {
        packet[next] = *number;
        next = packet.len();
        packet.push(0);
        packet.extend_from_slice(rest);
    }
    packet[next] = 17;
    packet.extend([0x13, 0x88, 0x13, 0x89, 0, 11, 0x6F, 0x5C, 0x48, 0x69, 0x21]);
    let payload = packet.len() as u16 - 40;
    packet[4..6].copy_from_slice(&payload.to_be_bytes());
    packet
}

const PADDING: [u8; 7] = [0, 1, 4, 0, 0, 0, 0];

/// Up to eight headers between: every call finds the message behind them, and changes none of their bytes.
#[test]
fn headers_between() {
    let long = [&[1, 4, 0][..], &[0xFF; 12]].concat();
    let hop = (0, &PADDING[..]);
    let (routing, options) = ((43, &long[..]), (60, &PADDING[..]));
    let eight = [
        hop, options, routing, options, options, routing, options, options,
    ];
    for headers in [
        &[][..],
        &[hop],
        &[options],
        &[routing],
        &[hop, routing],
        &eight,
    ] {
        let good = behind(headers);
        let start = good.len() - 11;
        let mut packet = good.clone();
        assert_eq!(judge(&packet), Verdict::Good);
        packet[start + 10] ^= 1;
        assert_eq!(judge(&packet), Verdict::MessageSum);
        packet[start + 10] ^= 1;
        packet[start + 6..start + 8].fill(1);
        assert_eq!(mend(&mut packet), Verdict::Good);
        assert_eq!(packet, good);
        assert_eq!(lower_lifetime(&mut packet), Verdict::Good);
        let to = [0x20, 1, 0x0D, 0xB8, 0, 0, 0, 0, 0, 0, 0, 0, 0, 0, 0, 9];
        assert_eq!(
            set_address(&mut packet, Side::Destination, &to),
            Verdict::Good
        );
        assert_eq!(set_stretch(&mut packet, 1, b"o."), Verdict::Good);
        assert_eq!(set_stretch(&mut packet, 2, b"o."), Verdict::Place);
        assert_eq!((packet[7], &packet[24..40]), (63, &to[..]));
        assert_eq!(packet[40..start + 6], good[40..start + 6]);
        assert_eq!(packet[start + 8..], *b"Ho.");
        assert_eq!(judge(&packet), Verdict::Good);
        let edited = packet.clone();
        assert_eq!(mend(&mut packet), Verdict::Good);
        assert_eq!(packet, edited);
    }
}

/// What the walk refuses, the first that it meets; and only the lifetime edit takes it.
#[test]
fn refused_headers_between() {
    let (hop, options) = ((0, &PADDING[..]), (60, &PADDING[..]));
    let fragment = (44, &[0, 0, 1, 0, 0, 0, 7][..]);
    let left = (43, &[0, 4, 1, 0, 0, 0, 0][..]);
    let (past, past_left) = (
        (60, &[2, 1, 4, 0, 0, 0, 0][..]),
        (43, &[2, 4, 1, 0, 0, 0, 0][..]),
    );
    let mut eight = vec![options; 8];
    let mut refused = vec![
        (Verdict::Fragment, behind(&[fragment])),
        (Verdict::Fragment, behind(&[hop, fragment])),
        (Verdict::Uncovered, behind(&[options, hop])),
        (Verdict::Uncovered, behind(&[left])),
        (Verdict::Uncovered, behind(&[left, fragment])),
        (Verdict::Shape, behind(&[hop, past])),
        (Verdict::Shape, behind(&[past_left])),
    ];
    for (ninth, verdict) in [
        (options, Verdict::Uncovered),
        (past, Verdict::Uncovered),
        (fragment, Verdict::Fragment),
    ] {
        eight.push(ninth);
        refused.push((verdict, behind(&eight)));
        eight.pop();
    }
    for (verdict, mut packet) in refused {
        let mut want = packet.clone();
        want[7] -= 1;
        assert_eq!(judge(&packet), verdict);
        assert_eq!(mend(&mut packet), verdict);
        assert_eq!(set_address(&mut packet, Side::Source, &[0; 16]), verdict);
        assert_eq!(set_stretch(&mut packet, 0, b""), verdict);
        assert_eq!(lower_lifetime(&mut packet), Verdict::Good);
        assert_eq!(packet, want);
        assert_eq!(judge(&packet), verdict);
    }
}

/// RFC 6296's prefixes, inside and outside, and its address on both sides.
const INSIDE: [u8; 6] = [0xFD, 1, 2, 3, 4, 5];
const OUTSIDE: [u8; 6] = [0x20, 1, 0x0D, 0xB8, 0, 1];
const ADDRESS: [u8; 16] = [0xFD, 1, 2, 3, 4, 5, 0, 1, 0, 0, 0, 0, 0, 0, 0x12, 0x34];

/// A good packet behind these headers, with the RFC's address as its source and as its destination.
fn inside(headers: &[(u8, &[u8])]) -> Vec<u8> {
    let mut packet = behind(headers);
    for side in [Side::Source, Side::Destination] {
        assert_eq!(set_address(&mut packet, side, &ADDRESS), Verdict::Good);
    }
    assert_eq!(judge(&packet), Verdict::Good);
    packet
}

/// The RFC's example on each side, behind headers too, good and damaged: eight bytes change, the verdict stays, and
/// exchanging back restores the packet.
#[test]
fn prefixes() {
    let (hop, word) = ((0, &PADDING[..]), [0xD5, 0x50]);
    for (headers, damage) in [(&[][..], 0), (&[][..], 4), (&[hop][..], 0), (&[hop][..], 4)] {
        let mut packet = inside(headers);
        *packet.last_mut().unwrap() ^= damage;
        let (was, verdict) = (packet.clone(), judge(&packet));
        assert_eq!(verdict == Verdict::Good, damage == 0);
        for (side, at) in [(Side::Source, 8), (Side::Destination, 24)] {
            let mut want = was.clone();
            want[at..at + 8].copy_from_slice(&[&OUTSIDE[..], &word].concat());
            let out = exchange_prefix(&mut packet, side, &INSIDE, &OUTSIDE);
            assert_eq!((out, &packet), (Verdict::Good, &want));
            assert_eq!(judge(&packet), verdict);
            let back = exchange_prefix(&mut packet, side, &OUTSIDE, &INSIDE);
            assert_eq!((back, &packet), (Verdict::Good, &was));
            let same = exchange_prefix(&mut packet, side, &INSIDE, &INSIDE);
            assert_eq!((same, &packet), (Verdict::Good, &was));
        }
    }
    // the word that becomes 0000, and not FFFF
    let mut packet = inside(&[]);
    packet[14..16].copy_from_slice(&[0x2A, 0xB0]);
    let verdict = exchange_prefix(&mut packet, Side::Source, &INSIDE, &OUTSIDE);
    assert_eq!((verdict, &packet[14..16]), (Verdict::Good, &[0, 0][..]));
    let verdict = exchange_prefix(&mut packet, Side::Source, &OUTSIDE, &INSIDE);
    assert_eq!(
        (verdict, &packet[14..16]),
        (Verdict::Good, &[0x2A, 0xB0][..])
    );
}

/// What refuses an exchange, in its order: the version, IPv4's too, comes before the length, and the prefixes last.
#[test]
fn refused_prefixes() {
    let fragment = (44, &[0, 0, 1, 0, 0, 0, 7][..]);
    let short = [&INSIDE[..5], &INSIDE[..0]];
    let long = [ADDRESS[..7].to_vec(), ADDRESS.to_vec()];
    let refused = |packet: &[u8], expected: &[u8], new: &[u8]| {
        let mut tried = packet.to_vec();
        let verdict = exchange_prefix(&mut tried, Side::Destination, expected, new);
        assert_eq!(tried, packet);
        verdict
    };
    let good = inside(&[]);
    for wrong in short.into_iter().chain(long.iter().map(|long| &long[..])) {
        assert_eq!(refused(&good, wrong, &OUTSIDE), Verdict::Place);
        assert_eq!(refused(&good, &INSIDE, wrong), Verdict::Place);
    }
    for bit in 0..48 {
        let mut other = INSIDE;
        other[bit / 8] ^= 0x80 >> (bit % 8);
        assert_eq!(refused(&good, &other, &OUTSIDE), Verdict::Place);
    }
    let spoiled = |at: usize, bytes: &[u8]| {
        let mut packet = good.clone();
        packet[at..at + bytes.len()].copy_from_slice(bytes);
        refused(&packet, &INSIDE, &OUTSIDE[..5])
    };
    assert_eq!(spoiled(0, &[0x45]), Verdict::Version);
    assert_eq!(spoiled(5, &[12]), Verdict::Cut);
    assert_eq!(spoiled(6, &[59]), Verdict::Uncovered);
    assert_eq!(spoiled(6, &[44]), Verdict::Fragment);
    assert_eq!(spoiled(45, &[12]), Verdict::Shape);
    assert_eq!(spoiled(46, &[0, 0]), Verdict::Missing);
    assert_eq!(spoiled(46, &[0, 1]), Verdict::Place);
    let mut full = good.clone();
    full[30..32].fill(0xFF);
    assert_eq!(refused(&full, &INSIDE, &OUTSIDE), Verdict::Place);
    let first = behind(&[fragment]);
    assert_eq!(refused(&first, &[0; 6], &OUTSIDE), Verdict::Fragment);
    assert_eq!(refused(&UDP, &INSIDE, &OUTSIDE), Verdict::Version);
    assert_eq!(refused(&UDP[..1], &INSIDE, &OUTSIDE), Verdict::Version);
    assert_eq!(refused(&good[..39], &INSIDE, &OUTSIDE), Verdict::Cut);
    assert_eq!(refused(&[], &INSIDE, &OUTSIDE), Verdict::Cut);
}

/// The fresh header field of an IPv4 packet without options.
fn head(packet: &mut [u8]) {
    packet[10..12].fill(0);
    let Field(fresh) = field(&packet[..20]);
    packet[10..12].copy_from_slice(&fresh.to_be_bytes());
}

/// A good IPv4 packet of a protocol with so many bytes of message.
fn whole(protocol: u8, message: usize) -> Vec<u8> {
    let mut packet: Vec<u8> = (0..20 + message).map(|i| (i * 37 + 11) as u8).collect();
    packet[0] = 0x45;
    packet[2..4].copy_from_slice(&(20 + message as u16).to_be_bytes());
    packet[6..8].fill(0);
    packet[9] = protocol;
    if protocol == 6 {
        packet[32] = 0x50;
    }
    if protocol == 17 {
        packet[24..26].copy_from_slice(&(message as u16).to_be_bytes());
    }
    assert_eq!(mend(&mut packet), Verdict::Good);
    packet
}

/// The fragments of a packet, of so many bytes of message each and the last of what is left, one behind the other, and
/// where they lie.
fn cut(packet: &[u8], size: usize) -> (Vec<u8>, Vec<Fragment>) {
    let (mut buffer, mut list) = (Vec::new(), Vec::new());
    let message = &packet[20..];
    for (i, piece) in message.chunks(size).enumerate() {
        let more = u16::from((i + 1) * size < message.len()) << 13;
        let mut fragment = [&packet[..20], piece].concat();
        fragment[2..4].copy_from_slice(&(20 + piece.len() as u16).to_be_bytes());
        fragment[6..8].copy_from_slice(&((i * size / 8) as u16 + more).to_be_bytes());
        fragment[8] = 64 - i as u8;
        head(&mut fragment);
        list.push(at(buffer.len(), fragment.len()));
        buffer.extend(fragment);
    }
    (buffer, list)
}

fn at(offset: usize, length: usize) -> Fragment {
    Fragment { offset, length }
}

/// A record is what C has: two words, the offset first.
#[test]
fn a_record_is_two_words() {
    use std::mem::{align_of, size_of};
    assert_eq!(size_of::<Fragment>(), 2 * size_of::<usize>());
    assert_eq!(align_of::<Fragment>(), align_of::<usize>());
    let (record, word) = (at(1, 2), size_of::<usize>());
    let base = &record as *const Fragment as usize;
    assert_eq!(&record.offset as *const usize as usize, base);
    assert_eq!(&record.length as *const usize as usize, base + word);
}

/// Messages of each protocol in pieces, in several orders; with a bit damaged, and with one left out, or twice, or of
/// another packet.
#[test]
fn fragments_judged_together() {
    for (protocol, size) in [(1, 8), (1, 16), (6, 8), (6, 24), (17, 8), (17, 40)] {
        let packet = whole(protocol, 99);
        let (buffer, list) = cut(&packet, size);
        let turned: Vec<Fragment> = list.iter().rev().copied().collect();
        let rotated = [&list[1..], &list[..1]].concat();
        for list in [&list, &turned, &rotated] {
            assert_eq!(judge_fragments(&buffer, list), Verdict::Good);
            for record in list {
                let mut damaged = buffer.clone();
                damaged[record.offset + record.length - 1] ^= 1;
                assert_eq!(judge_fragments(&damaged, list), Verdict::MessageSum);
                damaged[record.offset + 8] ^= 1;
                assert_eq!(judge_fragments(&damaged, list), Verdict::HeaderSum);
            }
            for i in 0..list.len() {
                let mut fewer = list.clone();
                fewer.remove(i);
                assert_eq!(judge_fragments(&buffer, &fewer), Verdict::Fragment);
                let mut more = list.clone();
                more.push(list[i]);
                assert_eq!(judge_fragments(&buffer, &more), Verdict::Fragment);
                let mut other = buffer.clone();
                let fragment = &mut other[list[i].offset..][..list[i].length];
                fragment[5] ^= 1;
                head(fragment);
                assert_eq!(judge_fragments(&other, list), Verdict::Shape);
            }
        }
    }
}

/// A list of one gets the judge's verdict, and each refusal comes in its order.
#[test]
fn refused_fragments() {
    let alone = |packet: &[u8]| judge_fragments(packet, &[at(0, packet.len())]);
    assert_eq!(alone(&UDP), Verdict::Good);
    assert_eq!(alone(&UDP[..29]), Verdict::Cut);
    assert_eq!(alone(&[]), Verdict::Cut);
    assert_eq!(judge_fragments(&[], &[]), Verdict::Cut);
    assert_eq!(judge_fragments(&UDP, &[]), Verdict::Cut);
    for (record, verdict) in [
        (at(0, 31), Verdict::Place),
        (at(31, 0), Verdict::Place),
        (at(1, usize::MAX), Verdict::Place),
        (at(usize::MAX, 1), Verdict::Place),
        (at(usize::MAX, usize::MAX), Verdict::Place),
        (at(30, 0), Verdict::Cut),
        (at(1, 29), Verdict::Version),
    ] {
        assert_eq!(judge_fragments(&UDP, &[record]), verdict);
    }
    // 64 records and 65, of a message in pieces and of nothing
    let (buffer, list) = cut(&whole(17, 520), 8);
    assert_eq!(judge_fragments(&buffer, &list), Verdict::Place);
    assert_eq!(judge_fragments(&buffer, &list[..64]), Verdict::Fragment);
    let (buffer, list) = cut(&whole(17, 512), 8);
    assert_eq!(judge_fragments(&buffer, &list), Verdict::Good);
    assert_eq!(judge_fragments(&[], &[at(0, 0); 64]), Verdict::Cut);
    assert_eq!(judge_fragments(&[], &[at(0, 0); 65]), Verdict::Place);
    // every header is tested before fragments are compared
    let (mut buffer, list) = cut(&whole(17, 40), 16);
    buffer[list[1].offset + 5] ^= 1;
    head(&mut buffer[list[1].offset..][..list[1].length]);
    assert_eq!(judge_fragments(&buffer, &list), Verdict::Shape);
    buffer[list[2].offset + 8] ^= 1;
    assert_eq!(judge_fragments(&buffer, &list), Verdict::HeaderSum);
    // two bytes of each of two fragments are others, with the headers' sums right
    let spoiled = |first: (usize, [u8; 2]), last: (usize, [u8; 2])| {
        let (mut buffer, list) = cut(&whole(17, 40), 24);
        for (record, (place, bytes)) in list.iter().zip([first, last]) {
            let fragment = &mut buffer[record.offset..][..record.length];
            fragment[place..place + 2].copy_from_slice(&bytes);
            head(fragment);
        }
        judge_fragments(&buffer, &list)
    };
    let right = (8, [9, 17]);
    assert_eq!(spoiled(right, right), Verdict::Good);
    assert_eq!(spoiled(right, (0, [0x65, 0])), Verdict::Version);
    assert_eq!(spoiled((0, [0x44, 0]), (0, [0x65, 0])), Verdict::Shape);
    assert_eq!(spoiled((2, [0, 20]), (0, [0x65, 0])), Verdict::Version);
    assert_eq!(spoiled((2, [0, 19]), (0, [0x65, 0])), Verdict::Shape);
    assert_eq!(spoiled((2, [0, 45]), (0, [0x65, 0])), Verdict::Cut);
    assert_eq!(spoiled(right, (2, [0, 20])), Verdict::Shape);
    assert_eq!(spoiled(right, (8, [9, 6])), Verdict::Shape);
    assert_eq!(spoiled((8, [9, 58]), (8, [9, 58])), Verdict::Uncovered);
    assert_eq!(spoiled(right, (6, [0x1F, 0xFF])), Verdict::Shape);
    assert_eq!(spoiled(right, (6, [0x20, 3])), Verdict::Fragment);
    assert_eq!(spoiled(right, (6, [0, 2])), Verdict::Fragment);
    assert_eq!(spoiled(right, (6, [0, 4])), Verdict::Fragment);
    assert_eq!(spoiled((6, [0, 0]), right), Verdict::Fragment);
    assert_eq!(spoiled((2, [0, 43]), right), Verdict::Fragment);
    assert_eq!(spoiled((24, [0, 7]), right), Verdict::Shape);
    assert_eq!(spoiled((24, [0, 41]), right), Verdict::Shape);
    assert_eq!(spoiled((26, [0, 0]), right), Verdict::Unsummed);
    assert_eq!(spoiled(right, (30, [1, 2])), Verdict::MessageSum);
}

/// A datagram that ends inside the first of two fragments, and an empty message.
#[test]
fn fragments_of_a_trailing_area() {
    let mut packet = whole(17, 40);
    packet[24..26].copy_from_slice(&[0, 13]);
    assert_eq!(mend(&mut packet), Verdict::Good);
    let (mut buffer, list) = cut(&packet, 24);
    assert_eq!(judge_fragments(&buffer, &list), Verdict::Good);
    *buffer.last_mut().unwrap() ^= 1;
    buffer[33] ^= 1;
    assert_eq!(judge_fragments(&buffer, &list), Verdict::Good);
    buffer[32] ^= 1;
    assert_eq!(judge_fragments(&buffer, &list), Verdict::MessageSum);
    let mut empty = UDP[..20].to_vec();
    empty[3] = 20;
    head(&mut empty);
    assert_eq!(judge_fragments(&empty, &[at(0, 20)]), Verdict::Shape);
}

const HUT: [u8; 16] = [0xFD, 1, 2, 3, 4, 5, 0, 1, 0, 0, 0, 0, 0, 0, 0x12, 0x34];
const STATION: [u8; 16] = [0x20, 1, 0x0D, 0xB8, 0, 9, 0, 0, 0, 0, 0, 0, 0, 0, 0, 9];

/// A status over IPv4 or IPv6: addresses of so many bytes.
fn status(size: usize, body: &[u8]) -> Udp<'_> {
    Udp {
        source: &HUT[..size],
        destination: &STATION[..size],
        source_port: 0x1388,
        destination_port: 0x1389,
        lifetime: 64,
        body,
    }
}

/// The packet as RFC 791 or 8200 and RFC 768 have it. Only its sums are the library's, by `field`.
fn laid(udp: &Udp<'_>) -> Vec<u8> {
    let length = (8 + udp.body.len() as u16).to_be_bytes();
    let ports = [udp.source_port, udp.destination_port].map(u16::to_be_bytes);
    let mut datagram = [&ports.concat()[..], &length, &[0, 0], udp.body].concat();
    let pseudo = [udp.source, udp.destination, &length, &[0, 17], &datagram].concat();
    let Field(sum) = field(&pseudo);
    datagram[6..8].copy_from_slice(&if sum == 0 { 0xFFFF } else { sum }.to_be_bytes());
    let (source, destination) = (udp.source, udp.destination);
    if source.len() == 16 {
        let fixed = [0x60, 0, 0, 0, length[0], length[1], 17, udp.lifetime];
        return [&fixed[..], source, destination, &datagram].concat();
    }
    let [high, low] = (20 + datagram.len() as u16).to_be_bytes();
    let fixed = [0x45, 0, high, low, 0, 0, 0, 0, udp.lifetime, 17, 0, 0];
    let mut packet = [&fixed[..], source, destination, &datagram].concat();
    head(&mut packet);
    packet
}

/// The rules' UDP packet, but for its flag, byte by byte; with the data whose sum comes to 0000; and over IPv6.
#[test]
fn packets_built() {
    let (mut want, mut buffer) = (UDP, [0xA5; 64]);
    (want[6], want[10]) = (0, 0xF8);
    let mut udp = Udp {
        source: &UDP[12..16],
        destination: &UDP[16..20],
        body: b"Hi",
        ..status(4, b"")
    };
    assert_eq!(build_udp(&udp, &mut buffer), Ok(&mut want[..]));
    assert_eq!(buffer[..30], want);
    assert_eq!(buffer[30..], [0xA5; 34]);
    udp.body = &[0x56, 0xB0];
    let packet = build_udp(&udp, &mut buffer).unwrap();
    assert_eq!(packet[26..], [0xFF, 0xFF, 0x56, 0xB0]);
    assert_eq!(judge(packet), Verdict::Good);
    let one = [0, 0, 0, 0, 0, 0, 0, 0, 0, 0, 0, 0, 0, 0, 0, 1];
    (udp.source, udp.destination, udp.body) = (&one, &one, b"Hi!");
    assert_eq!(build_udp(&udp, &mut buffer), Ok(&mut behind(&[])[..]));
    assert_eq!(buffer[51..], [0xA5; 13]);
    udp.body = &[0x48, 0x69, 0x90, 0x58, 0];
    let packet = build_udp(&udp, &mut buffer).unwrap();
    assert_eq!(packet[46..48], [0xFF, 0xFF]);
    assert_eq!(judge(packet), Verdict::Good);
}

/// Bodies of every length in both families: the packet is what the RFCs have it, judged good, left by the mender, and
/// taken by edits. Bytes behind it stay, and a buffer of one byte less is refused.
#[test]
fn bodies_of_every_length() {
    let text: Vec<u8> = (0..=BODY_MOST).map(|i| (i * 37 + 11) as u8).collect();
    for (size, most) in [(4, PACKET_MOST - 20), (16, PACKET_MOST)] {
        for len in 0..=BODY_MOST {
            let udp = status(size, &text[..len]);
            let (want, mut buffer) = (laid(&udp), [0xA5; PACKET_MOST + 3]);
            assert_eq!(want.len(), most - BODY_MOST + len);
            let packet = build_udp(&udp, &mut buffer[..want.len()]).unwrap();
            assert_eq!((judge(packet), &packet[..]), (Verdict::Good, &want[..]));
            assert_eq!(mend(packet), Verdict::Good);
            assert_eq!(packet, want);
            assert_eq!(packet[want.len() - len..], text[..len]);
            assert_eq!(lower_lifetime(packet), Verdict::Good);
            assert_eq!(set_stretch(packet, len, b""), Verdict::Good);
            assert_eq!(judge(packet), Verdict::Good);
            let was = buffer;
            let short = build_udp(&udp, &mut buffer[..want.len() - 1]);
            assert_eq!(short, Err(Verdict::Room));
            assert_eq!(buffer, was);
            assert_eq!(build_udp(&udp, &mut buffer).unwrap(), want);
            assert!(buffer[want.len()..].iter().all(|byte| *byte == 0xA5));
        }
        let mut buffer = [0xA5; 2 * PACKET_MOST];
        let refused = build_udp(&status(size, &text), &mut buffer);
        assert_eq!(refused, Err(Verdict::Place));
        assert_eq!(buffer, [0xA5; 2 * PACKET_MOST]);
    }
}

/// Addresses of each two sizes, a lifetime of 0 and of 1, a body that fits and one that doesn't, with room and without:
/// place, spent and room in this order.
#[test]
fn refused_builds() {
    let (bytes, text) = ([7; 32], [0x20; BODY_MOST + 1]);
    let sizes = [0, 1, 3, 4, 5, 15, 16, 17, 32];
    for (from, to) in sizes.iter().flat_map(|from| sizes.map(|to| (*from, to))) {
        for faults in 0..8 {
            let (wide, spent, small) = (faults & 1, faults >> 1 & 1, faults >> 2);
            let udp = Udp {
                source: &bytes[..from],
                destination: &bytes[..to],
                lifetime: 1 - spent as u8,
                ..status(4, &text[..BODY_MOST + wide])
            };
            let right = from == to && (from == 4 || from == 16) && wide == 0;
            let length = if from == 4 { 28 } else { 48 } + udp.body.len();
            let mut buffer = vec![0xA5; length - small];
            let want = match (right, spent, small) {
                (false, _, _) => Err(Verdict::Place),
                (true, 1, _) => Err(Verdict::Spent),
                (true, _, 1) => Err(Verdict::Room),
                _ => Ok(length),
            };
            let got = build_udp(&udp, &mut buffer).map(|packet| packet.len());
            assert_eq!(got, want);
            if got.is_err() {
                assert!(buffer.iter().all(|byte| *byte == 0xA5));
            } else {
                assert_eq!(judge(&buffer), Verdict::Good);
            }
        }
    }
    assert_eq!(build_udp(&status(4, b""), &mut []), Err(Verdict::Room));
    assert_eq!(build_udp(&status(0, b""), &mut []), Err(Verdict::Place));
}

/// Ports, addresses and the lifetime stand in their own places, and none in another's.
#[test]
fn a_packet_reads_back() {
    for (size, at, lifetime_at) in [(4, 12, 8), (16, 8, 7)] {
        for (from, to) in [(0, 0xFFFF), (1, 256), (0x1234, 0x5678), (0xFFFF, 0)] {
            for lifetime in [1, 2, 127, 128, 255] {
                let mut udp = status(size, b"altitude 1200 metres");
                (udp.source_port, udp.destination_port, udp.lifetime) = (from, to, lifetime);
                let mut buffer = [0; PACKET_MOST];
                let packet = build_udp(&udp, &mut buffer).unwrap();
                let message = &packet[at + 2 * size..];
                assert_eq!(packet[lifetime_at], lifetime);
                assert_eq!(packet[at..at + size], HUT[..size]);
                assert_eq!(packet[at + size..at + 2 * size], STATION[..size]);
                assert_eq!(message[..2], from.to_be_bytes());
                assert_eq!(message[2..4], to.to_be_bytes());
                assert_eq!(message[8..], *udp.body);
                assert_eq!(judge(packet), Verdict::Good);
            }
        }
    }
}

/// A field at FFFF where the fresh one is 0000: an edit leaves what the mender writes.
#[test]
fn no_negative_zero() {
    assert_eq!(update(Field(0xFFFF), Fold(0xFFFF), Fold(0)), Field(0));
    let mut packet = [
        0x45, 0, 0, 0x2A, 0, 0, 0x40, 0, 0x40, 6, 0xB8, 0xB5, 0xC0, 0xA8, 0, 1, 0xC0, 0xA8, 0,
        0xC7, 0x13, 0x88, 0x13, 0x89, 0, 0, 0, 1, 0, 0, 0, 0, 0x50, 0x10, 6, 0xA8, 0xFF, 0xFF, 0,
        0, 0xFF, 0xFF,
    ];
    assert_eq!(judge(&packet), Verdict::Good);
    assert_eq!(set_stretch(&mut packet, 0, &[0, 0]), Verdict::Good);
    assert_eq!(packet[36..], [0; 6]);
    assert_eq!(judge(&packet), Verdict::Good);
    let edited = packet;
    assert_eq!(mend(&mut packet), Verdict::Good);
    assert_eq!(packet, edited);
}

#[test]
fn captures() {
    let mut verdicts = [7; 3];
    assert_eq!(judge_capture(&CAPTURE, &mut verdicts), Ok(2));
    assert_eq!(verdicts, [2, 0, 7]);
    let mut verdicts = [7; 1];
    assert_eq!(judge_capture(&CAPTURE, &mut verdicts), Err(Verdict::Room));
    assert_eq!(
        judge_capture(&CAPTURE[..36], &mut verdicts),
        Err(Verdict::Record)
    );
    assert_eq!(
        judge_capture(&CAPTURE[..4], &mut verdicts),
        Err(Verdict::Edition)
    );
    assert_eq!(judge_capture(&[], &mut verdicts), Err(Verdict::Mark));
    assert_eq!(verdicts, [7]);
    assert_eq!(judge_capture(&CAPTURE[..5], &mut []), Ok(0));
}
