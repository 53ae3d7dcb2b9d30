// A UDP length from 8 up to the message's is the datagram's (RFC 768). What lies between the datagram and the declared
// end is a trailing area: nothing of it is summed or written.

use second::answer::{Case, ADDRESS, GIVEN, JUDGE, LIFETIME, MEND, STRETCH};
use second::cover::Cover;
use second::draft::{declare, faults_of, refresh, spoil, write_word, Fault, Shape};
use second::edit::{lower_lifetime, set_address, set_stretch};
use second::judge::judge;
use second::mend::{fresh_header_field, mend, write_field};
use second::mistakes::MISTAKES;
use second::packet::{View, HEADER_FIELD, UDP};
use second::prefix::{beginning, exchange_prefix};
use second::random::Random;

const KINDS: [(u8, u8); 2] = [(4, UDP), (6, UDP)];

/// The place behind the datagram, or behind the message where the UDP length doesn't fit.
fn datagram_end(packet: &[u8]) -> usize {
    let view = View::new(packet);
    view.message_start() + view.covered_length()
}

/// A packet with a trailing area, good or with a fault that leaves it.
fn any_trailing(random: &mut Random) -> Vec<u8> {
    let (kind, body, trailing) = (random.pick(&KINDS), random.between(0, 30), random.between(1, 40));
    let mut packet = Shape { trailing, ..Shape::any(kind, body, random) }.good(random);
    let beside = [Fault::Spent, Fault::Fragment, Fault::Zero, Fault::HeaderSum, Fault::MessageSum];
    let faults: Vec<Fault> = faults_of(kind).into_iter().filter(|fault| beside.contains(fault)).collect();
    if random.once_in(2) {
        let fault = random.pick(&faults);
        spoil(&mut packet, kind.0, &[fault], random);
    }
    packet
}

/// Any edit, done or refused: its verdict.
fn any_edit(packet: &mut [u8], random: &mut Random) -> u8 {
    let (address, body) = (View::new(packet).address_length(), View::new(packet).body_length());
    match random.between(0, 4) {
        0 => lower_lifetime(packet),
        1 => set_address(packet, random.between(0, 2) as u32, &random.contents(address)),
        2 => {
            let side = random.between(0, 1) as u32;
            exchange_prefix(packet, side, &beginning(packet, side, 6), &random.contents(6))
        }
        3 => {
            let length = random.between(0, body);
            set_stretch(packet, random.between(0, body - length) as u64, &random.contents(length))
        }
        _ => {
            let length = random.between(0, body + 4);
            set_stretch(packet, (body + random.between(0, 3)).saturating_sub(length) as u64, &random.contents(length))
        }
    }
}

/// Any call that may write: its verdict.
fn any_call(packet: &mut [u8], random: &mut Random) -> u8 {
    if random.once_in(5) {
        mend(packet)
    } else {
        any_edit(packet, random)
    }
}

/// The paper's example 11 with three bytes behind it: 0E47 and FFFF stay right. The total length is 21 hex, so that the
/// header's words add up to 474C.
#[test]
fn the_papers_datagram_with_a_trailing_area() {
    let mut packet = vec![0x45, 0, 0, 0x21, 0, 0, 0x40, 0, 0x40, 0x11, 0xB8, 0xB3];
    packet.extend([0xC0, 0xA8, 0, 1, 0xC0, 0xA8, 0, 0xC7]);
    packet.extend([0x13, 0x88, 0x13, 0x89, 0x00, 0x0A, 0x0E, 0x47, 0x48, 0x69, 0xDE, 0xAD, 0xFF]);
    assert_eq!(judge(&packet), 0);
    let good = packet.clone();
    assert_eq!(mend(&mut packet), 0);
    assert_eq!(packet, good);
    for (place, new, verdict) in [(2, &[0][..], 10), (1, &[0, 0], 10), (0, &[0; 5], 10), (3, &[], 10), (2, &[], 0)] {
        assert_eq!(set_stretch(&mut packet, place, new), verdict);
        assert_eq!(packet, good);
    }
    assert_eq!(set_stretch(&mut packet, 0, &[0x56, 0xB0]), 0);
    assert_eq!(packet[20..], [0x13, 0x88, 0x13, 0x89, 0x00, 0x0A, 0xFF, 0xFF, 0x56, 0xB0, 0xDE, 0xAD, 0xFF]);
    assert_eq!(judge(&packet), 0);
    (packet[26], packet[27]) = (0, 0);
    assert_eq!((judge(&packet), mend(&mut packet), judge(&packet)), (1, 0, 1));
    assert_eq!(packet[26..], [0, 0, 0x56, 0xB0, 0xDE, 0xAD, 0xFF]);
}

/// Nine bytes, the last of them 48: the words up to 4800 add up to F14D over IPv4 and to 6F36 over IPv6. With the FF
/// behind it for padding it would be FF more, and with the message's length 2 more.
#[test]
fn an_odd_datagram_before_ff() {
    let mut four = vec![0x45, 0, 0, 0x1F, 0, 0, 0x40, 0, 0x40, 0x11, 0xB8, 0xB5];
    four.extend([0xC0, 0xA8, 0, 1, 0xC0, 0xA8, 0, 0xC7]);
    let mut six = vec![0x60, 0, 0, 0, 0, 0x0B, 0x11, 0x40];
    six.extend([[0; 15].as_slice(), &[1], &[0; 15], &[1]].concat());
    for (header, right, padded, longer) in [(four, 0x0EB2, 0x0DB3, 0x0EB0), (six, 0x90C9, 0x8FCA, 0x90C7)] {
        let with = |field: u16| {
            let mut packet = header.clone();
            packet.extend([0x13, 0x88, 0x13, 0x89, 0x00, 0x09]);
            packet.extend(field.to_be_bytes());
            packet.extend([0x48, 0xFF, 0xFF]);
            packet
        };
        for (field, verdict) in [(right, 0), (padded, 9), (longer, 9)] {
            let mut packet = with(field);
            assert_eq!(judge(&packet), verdict);
            assert_eq!(mend(&mut packet), 0);
            assert_eq!(packet, with(right));
        }
    }
}

/// In messages of 8 to 40 bytes every UDP length from 0 to past the message, and the largest: the judge, the mender and
/// the edits take those from 8 up to the message's, and their bodies end with the datagram.
#[test]
fn from_8_up_to_the_message_length() {
    let mut random = Random(60);
    for (kind, message) in KINDS.into_iter().flat_map(|kind| (8..=40).map(move |message| (kind, message))) {
        let good = Shape::plain(kind, message - 8).good(&mut random);
        let (place, address) = (View::new(&good).message_start() + 4, vec![7; View::new(&good).address_length()]);
        for length in (0..=message + 3).chain([0x0800, 0x8000, 0xFFFF]) {
            let mut packet = good.clone();
            write_word(&mut packet, place, length as u16);
            refresh(&mut packet, kind.0);
            let fits = length >= 8 && length <= message;
            let shape = if fits { 0 } else { 4 };
            assert_eq!((judge(&packet), mend(&mut packet)), (shape, shape), "{length} of {message}");
            assert_eq!(set_address(&mut packet, 0, &address), shape);
            assert_eq!(set_stretch(&mut packet, 0, &vec![1; length.saturating_sub(8)]), shape);
            assert_eq!(set_stretch(&mut packet, 0, &vec![1; length.max(8) - 7]), if fits { 10 } else { 4 });
            assert_eq!((lower_lifetime(&mut packet), judge(&packet)), (0, shape));
        }
    }
}

/// A message under 8 bytes is 4, whatever stands where its length would be.
#[test]
fn a_message_under_8_bytes_has_no_datagram() {
    let mut random = Random(61);
    for (kind, message) in KINDS.into_iter().flat_map(|kind| (0..8).map(move |message| (kind, message))) {
        for length in 0..=9 {
            let mut packet = Shape::plain(kind, 4).good(&mut random);
            let place = View::new(&packet).message_start() + 4;
            write_word(&mut packet, place, length);
            declare(&mut packet, kind.0, message);
            refresh(&mut packet, kind.0);
            assert_eq!((judge(&packet), mend(&mut packet), set_stretch(&mut packet, 0, &[])), (4, 4, 4));
        }
    }
}

/// Nothing can be written into a datagram of 8 bytes, however long its message is.
#[test]
fn an_empty_body() {
    let mut random = Random(62);
    for (kind, trailing) in KINDS.into_iter().flat_map(|kind| [0, 1, 2, 40, 1400].map(|trailing| (kind, trailing))) {
        let mut packet = Shape { trailing, ..Shape::plain(kind, 0) }.good(&mut random);
        let before = packet.clone();
        assert_eq!((judge(&packet), set_stretch(&mut packet, 0, &[])), (0, 0));
        assert_eq!((set_stretch(&mut packet, 0, &[1]), set_stretch(&mut packet, 1, &[])), (10, 10));
        assert_eq!(packet, before);
    }
}

/// Packets that agree up to the datagram's end have the same verdict, and any call does the same to both up to there.
#[test]
fn what_lies_behind_the_datagram_decides_nothing() {
    let mut random = Random(63);
    let mut met = [[0; 10]; 2];
    for _ in 0..20_000 {
        let mut packet = any_trailing(&mut random);
        let (end, declared) = (datagram_end(&packet), View::new(&packet).end());
        let mut other = packet[..end].to_vec();
        let length = declared - end + random.between(0, 9);
        other.extend(random.contents(length));
        let verdict = judge(&packet);
        assert_eq!(judge(&other), verdict);
        met[usize::from(packet[0] >> 4 == 6)][usize::from(verdict)] += 1;
        for _ in 0..3 {
            let seed = random.any();
            let calls = [&mut packet, &mut other].map(|packet| any_call(packet, &mut Random(seed)));
            assert_eq!(calls[0], calls[1]);
            assert_eq!(packet[..end], other[..end]);
        }
    }
    for (family, verdicts) in [(0, &[0, 1, 5, 6, 9][..]), (1, &[0, 8, 9])] {
        assert!(verdicts.iter().all(|verdict| met[family][*verdict] > 500), "{met:?}");
    }
}

/// The mender and the edits leave every byte behind the datagram, and an edit leaves the verdict.
#[test]
fn nothing_behind_the_datagram_is_written() {
    let mut random = Random(64);
    let mut written = [[0; 2]; 2];
    for _ in 0..20_000 {
        let mut packet = any_trailing(&mut random);
        let (family, behind) = (usize::from(packet[0] >> 4 == 6), packet[datagram_end(&packet)..].to_vec());
        for _ in 0..5 {
            let (before, verdict, mending) = (packet.clone(), judge(&packet), random.once_in(5));
            let answer = if mending { mend(&mut packet) } else { any_edit(&mut packet, &mut random) };
            assert!(packet.ends_with(&behind) && (answer == 0 || packet == before));
            assert!(mending || judge(&packet) == verdict);
            written[family][usize::from(mending)] += u32::from(packet != before);
        }
    }
    assert!(written.iter().flatten().all(|count| *count > 1000), "{written:?}");
}

/// The datagram alone, with a declared length that ends there: the same verdict, and the same field from any call.
#[test]
fn the_datagram_alone_has_the_same_verdict() {
    let mut random = Random(65);
    for _ in 0..20_000 {
        let (kind, body, trailing) = (random.pick(&KINDS), random.between(0, 30), random.between(1, 40));
        let mut packet = Shape { trailing, ..Shape::any(kind, body, &mut random) }.good(&mut random);
        let (end, field) = (datagram_end(&packet), View::new(&packet).field_place());
        let word = random.pick(&[View::new(&packet).word(field), 0x0000, 0xFFFF, 0x1234]);
        write_word(&mut packet, field, word);
        let mut alone = packet[..end].to_vec();
        declare(&mut alone, kind.0, 8 + body);
        if kind.0 == 4 {
            let header_field = fresh_header_field(&View::new(&alone));
            write_field(&mut alone, HEADER_FIELD, header_field);
        }
        assert_eq!(judge(&packet), judge(&alone));
        for _ in 0..3 {
            let seed = random.any();
            let calls = [&mut packet, &mut alone].map(|packet| any_call(packet, &mut Random(seed)));
            assert_eq!(calls[0], calls[1]);
            assert_eq!(packet[field..end], alone[field..end]);
        }
    }
}

/// A sum that is right only by a mistake about the datagram's end is wrong, stays so, and is mended to the right one. A
/// right sum is right whatever the mistake makes of it.
#[test]
fn mistakes_about_the_datagrams_end() {
    let mut random = Random(66);
    let (mut spoiled, mut blessed) = ([[0; 5]; 2], [[0; 5]; 2]);
    for i in 0..10_000 {
        let (kind, body, trailing) = (KINDS[i % 2], random.between(1, 30), random.between(1, 40));
        let right = Shape { trailing, ..Shape::any(kind, body, &mut random) }.good(&mut random);
        let view = View::new(&right);
        assert_eq!(judge(&right), 0);
        for (number, mistake) in MISTAKES.iter().enumerate() {
            spoiled[i % 2][number] += u32::from(!mistake.passes(&view));
            let mut wrong = right.clone();
            write_field(&mut wrong, view.field_place(), mistake.field(&view));
            assert!(mistake.passes(&View::new(&wrong)));
            if wrong == right {
                continue;
            }
            blessed[i % 2][number] += 1;
            assert_eq!((judge(&wrong), set_stretch(&mut wrong, 0, &[7]), judge(&wrong)), (9, 0, 9));
            assert_eq!(set_stretch(&mut wrong, 0, &right[datagram_end(&right) - body..][..1]), 0);
            assert_eq!((mend(&mut wrong), &wrong), (0, &right));
        }
    }
    assert!(spoiled.iter().chain(&blessed).flatten().all(|count| *count > 1000), "{spoiled:?} {blessed:?}");
}

/// Bytes that are declared must be there, though the datagram ends before them.
#[test]
fn a_trailing_area_cut_short() {
    let mut random = Random(67);
    for kind in KINDS {
        let packet = Shape { trailing: 12, ..Shape::plain(kind, 5) }.good(&mut random);
        for cut in 1..=12 {
            let mut packet = packet[..packet.len() - cut].to_vec();
            let (before, address) = (packet.clone(), vec![1; View::new(&packet).address_length()]);
            assert_eq!((judge(&packet), mend(&mut packet), lower_lifetime(&mut packet)), (2, 2, 2));
            assert_eq!((set_address(&mut packet, 0, &address), set_stretch(&mut packet, 0, &[1])), (2, 2));
            assert_eq!(packet, before);
        }
    }
}

/// In a fragment there is no UDP length to be looked at.
#[test]
fn fragments_are_as_before() {
    let mut random = Random(68);
    for (flags, length) in [0x2000, 0x2001, 0x0001].into_iter().flat_map(|flags| (0..40).map(move |n| (flags, n))) {
        let mut packet = Shape::plain((4, UDP), 16).good(&mut random);
        write_word(&mut packet, 24, length);
        write_word(&mut packet, 6, flags);
        refresh(&mut packet, 4);
        let before = packet.clone();
        assert_eq!((judge(&packet), mend(&mut packet)), (6, 6));
        assert_eq!((set_address(&mut packet, 0, &[1; 4]), set_stretch(&mut packet, 0, &[])), (6, 6));
        assert_eq!(packet, before);
        assert_eq!((lower_lifetime(&mut packet), judge(&packet)), (0, 6));
        assert_eq!(packet[12..], before[12..]);
    }
}

/// What the generator's check says of one call with this outcome.
fn checked(operation: u8, number: u64, two: &[u8], before: &[u8], after: &[u8], verdict: u8) -> String {
    let case = Case { operation, source: GIVEN, number, one: before.to_vec(), two: two.to_vec() };
    let mut cover = Cover::default();
    cover.note(&case, before, after, &format!("{verdict} 0\n"));
    cover.check().unwrap_err()
}

/// The generator fails if a trailing area is refused, summed or written, or a length taken that doesn't fit.
#[test]
fn the_generator_refuses_wrong_outcomes() {
    let mut random = Random(69);
    for kind in KINDS {
        let good = Shape { trailing: 3, ..Shape::plain(kind, 5) }.good(&mut random);
        let (view, end) = (View::new(&good), good.len());
        let with = |place: usize, word: u16| {
            let mut packet = good.clone();
            write_word(&mut packet, place, word);
            packet
        };
        let impossible = |operation, number, two: &[u8], before: &[u8], after: &[u8], verdict| {
            checked(operation, number, two, before, after, verdict).starts_with("the paper makes this impossible: ")
        };
        let (address, written) = (vec![1; view.address_length()], with(end - 2, 0x1234));
        assert!(!impossible(JUDGE, 0, &[], &good, &good, 0));
        assert!(impossible(JUDGE, 0, &[], &good, &good, 4));
        assert!(impossible(JUDGE, 0, &[], &good, &good, 9));
        assert!(!impossible(MEND, 0, &[], &good, &good, 0));
        assert!(impossible(MEND, 0, &[], &good, &good, 4));
        assert!(impossible(MEND, 0, &[], &good, &written, 0));
        assert!(impossible(LIFETIME, 0, &[], &good, &written, 0));
        assert!(impossible(ADDRESS, 0, &address, &good, &good, 4));
        assert!(impossible(ADDRESS, 0, &address, &good, &written, 0));
        assert!(!impossible(STRETCH, 5, &[1], &good, &good, 10));
        assert!(impossible(STRETCH, 5, &[1], &good, &written, 0));
        assert!(impossible(STRETCH, 4, &[1], &good, &good, 10));
        assert!(!impossible(STRETCH, 5, &[], &good, &good, 0));
        assert!(impossible(STRETCH, 6, &[], &good, &good, 0));
        let wrong = with(view.field_place(), MISTAKES[0].field(&view).0);
        assert!(!impossible(JUDGE, 0, &[], &wrong, &wrong, 9));
        assert!(impossible(JUDGE, 0, &[], &wrong, &wrong, 0));
        assert!(!impossible(MEND, 0, &[], &wrong, &good, 0));
        assert!(impossible(MEND, 0, &[], &wrong, &wrong, 0));
        for length in [0, 7, 17, 0xFFFF] {
            let packet = with(view.message_start() + 4, length);
            assert!(!impossible(JUDGE, 0, &[], &packet, &packet, 4));
            assert!([0, 9].into_iter().all(|verdict| impossible(JUDGE, 0, &[], &packet, &packet, verdict)));
            assert!(impossible(MEND, 0, &[], &packet, &packet, 0));
            assert!(impossible(STRETCH, 0, &[], &packet, &packet, 0));
        }
    }
}
