// Fragments judged together: the paper's example 11 cut by hand, what is refused and in which order, and laws on random
// packets.

use second::answer::{list_payload, Case, FRAGMENTS, GIVEN};
use second::cases::fragments::{in_a_row, KINDS};
use second::cover::Cover;
use second::draft::{balance_message, faults_of, refresh, spoil, write_word, Fault, Shape};
use second::edit::lower_lifetime;
use second::fragments::{judge_fragments, Record, LONGEST, MOST};
use second::judge::judge;
use second::mistakes::fragments::FRAGMENT_MISTAKES;
use second::packet::{View, ICMP, TCP, UDP};
use second::pieces::*;
use second::random::Random;

/// Example 11's datagram, as a first fragment of 8 bytes and a last one of 2. Of the header with length 73 and flags
/// 4000 the field is B861, so the words add up to 479E; with 1C and 2000 to 2747, and with 16 and 0001 to 0742.
#[rustfmt::skip]
const FIRST: [u8; 28] = [
    0x45, 0, 0, 0x1C, 0, 0, 0x20, 0, 0x40, 0x11, 0xD8, 0xB8, 0xC0, 0xA8, 0, 1, 0xC0, 0xA8, 0, 0xC7,
    0x13, 0x88, 0x13, 0x89, 0, 0x0A, 0x0E, 0x47,
];
#[rustfmt::skip]
const LAST: [u8; 22] = [
    0x45, 0, 0, 0x16, 0, 0, 0, 1, 0x40, 0x11, 0xF8, 0xBD, 0xC0, 0xA8, 0, 1, 0xC0, 0xA8, 0, 0xC7,
    0x48, 0x69,
];

/// The verdict on pieces that lie one after the other, listed in that order.
fn verdict(pieces: &[Piece]) -> u8 {
    let (buffer, list) = in_a_row(pieces);
    judge_fragments(&buffer, &list)
}

fn example() -> Vec<Piece> {
    vec![FIRST.to_vec(), LAST.to_vec()]
}

/// The example with one byte of a fragment set, and the header's field made fresh.
fn with(fragment: usize, place: usize, byte: u8) -> Vec<Piece> {
    let mut pieces = example();
    pieces[fragment][place] = byte;
    refresh_header(&mut pieces[fragment]);
    pieces
}

fn record(offset: u64, length: u64) -> Record {
    Record { offset, length }
}

/// A good packet of any kind over IPv4, whose message isn't empty.
fn any_packet(random: &mut Random) -> Vec<u8> {
    let (kind, body) = (random.pick(&KINDS), random.between(0, 200));
    Shape::any_direct(kind, body, random).good(random)
}

/// A packet's pieces, cut anywhere, in any order.
fn any_pieces(packet: &[u8], random: &mut Random) -> Vec<Piece> {
    let most = random.pick(&[0, 1, 2, 5, 63]);
    let places = any_places(View::new(packet).message_length(), most, random);
    let mut pieces = cut(packet, &places, random);
    shuffle(&mut pieces, random);
    pieces
}

/// Pieces, often with flaws: of fragments together alone, or of any.
fn any_flawed(random: &mut Random, alone: bool) -> Vec<Piece> {
    let mut packet = any_packet(random);
    if random.once_in(3) {
        let faults = [Fault::Protocol, Fault::MessageLength, Fault::InnerLength, Fault::Zero, Fault::MessageSum];
        let faults: Vec<Fault> =
            faults_of(View::new(&packet).kind()).into_iter().filter(|fault| faults.contains(fault)).collect();
        let fault = random.pick(&faults);
        spoil(&mut packet, 4, &[fault], random);
    }
    let mut pieces = any_pieces(&packet, random);
    for _ in 0..random.between(0, 2) {
        let flaw = random.pick(&[&MISFITS[..], &UNFILLED, &UNFILLED].concat());
        spoil_pieces(&mut pieces, flaw, random);
    }
    if alone && random.once_in(2) {
        let (at, flaw) = (random.between(0, pieces.len() - 1), random.pick(&ALONE));
        spoil_piece(&mut pieces[at], &[flaw], random);
    }
    pieces.truncate(MOST);
    pieces
}

#[test]
fn example_11_in_two_fragments() {
    assert_eq!((judge(&FIRST), judge(&LAST)), (6, 6));
    assert_eq!(verdict(&example()), 0);
    assert_eq!(verdict(&[LAST.to_vec(), FIRST.to_vec()]), 0);
    let buffer = [&[0xEE][..], &LAST, &[0x60; 3], &FIRST, &[7; 9]].concat();
    assert_eq!(judge_fragments(&buffer, &[record(26, 28), record(1, 22)]), 0);
    assert_eq!(judge_fragments(&buffer, &[record(1, 25), record(26, 37)]), 0);
}

/// By hand, one thing after the other.
#[test]
fn example_11_refused() {
    assert_eq!(verdict(&[FIRST.to_vec()]), 6);
    assert_eq!(verdict(&[LAST.to_vec()]), 6);
    assert_eq!(verdict(&[FIRST.to_vec(), FIRST.to_vec()]), 6);
    assert_eq!(verdict(&[FIRST.to_vec(), LAST.to_vec(), LAST.to_vec()]), 6);
    assert_eq!(verdict(&with(0, 6, 0x00)), 6);
    assert_eq!(verdict(&with(1, 6, 0x20)), 6);
    assert_eq!(verdict(&with(1, 7, 0)), 6);
    assert_eq!(verdict(&with(1, 7, 2)), 6);
    assert_eq!(verdict(&with(0, 3, 0x1B)), 6);
    assert_eq!(verdict(&with(0, 6, 0xE0)), 0);
    assert_eq!(verdict(&with(1, 6, 0xC0)), 0);
    assert_eq!(verdict(&with(1, 8, 0)), 0);
    assert_eq!(verdict(&with(1, 1, 0xFF)), 0);
    for place in [4, 5, 9, 12, 13, 14, 15, 16, 17, 18, 19] {
        assert_eq!((verdict(&with(0, place, 0x42)), verdict(&with(1, place, 0x42))), (4, 4), "{place}");
    }
    assert_eq!(verdict(&with(1, 3, 20)), 4);
    assert_eq!(verdict(&with(0, 25, 0x0B)), 4);
    assert_eq!(verdict(&with(0, 25, 0x07)), 4);
    assert_eq!(verdict(&with(0, 25, 0x09)), 9);
    assert_eq!(verdict(&with(0, 27, 0x48)), 9);
    assert_eq!(verdict(&with(1, 21, 0x68)), 9);
    let mut unsummed = with(0, 26, 0);
    unsummed[0][27] = 0;
    assert_eq!(verdict(&unsummed), 1);
    let mut uncovered = example();
    for piece in &mut uncovered {
        piece[9] = 58;
        refresh_header(piece);
    }
    assert_eq!(verdict(&uncovered), 7);
}

/// With data 56 B0 the computed field is 0000: FFFF is sent, and 0000 is no sum.
#[test]
fn example_11_with_a_computed_zero() {
    let mut pieces = example();
    pieces[1][20..].copy_from_slice(&[0x56, 0xB0]);
    assert_eq!(verdict(&pieces), 9);
    pieces[0][26..].copy_from_slice(&[0xFF, 0xFF]);
    assert_eq!(verdict(&pieces), 0);
    pieces[0][26..].copy_from_slice(&[0, 0]);
    assert_eq!(verdict(&pieces), 1);
}

/// What comes first where a fragment is refused by itself. A wrong header sum in the last record comes before a bad
/// shape of all, and behind a bad shape of the first one's header.
#[test]
fn refusals_in_list_order() {
    let mut wrong_sum = LAST.to_vec();
    wrong_sum[10] ^= 1;
    let wrong_last = |first: &[u8]| verdict(&[first.to_vec(), wrong_sum.clone()]);
    let other_source = with(0, 15, 9).remove(0);
    let empty = with(0, 3, 20).remove(0);
    let past = with(0, 7, 0xFF).into_iter().map(|mut piece| {
        piece[6] |= 0x1F;
        refresh_header(&mut piece);
        piece
    });
    assert_eq!((wrong_last(&FIRST), wrong_last(&other_source), wrong_last(&empty)), (5, 5, 5));
    assert_eq!(wrong_last(&past.collect::<Vec<_>>()[0]), 5);
    let mut four_words = FIRST.to_vec();
    four_words[0] = 0x44;
    assert_eq!((wrong_last(&four_words), verdict(&[wrong_sum.clone(), four_words])), (4, 5));
    let six = vec![0x60];
    assert_eq!((wrong_last(&six), verdict(&[wrong_sum.clone(), six.clone()])), (3, 5));
    assert_eq!((wrong_last(&[]), verdict(&[wrong_sum, vec![]])), (2, 5));
    assert_eq!((verdict(&[six.clone(), vec![]]), verdict(&[vec![], six.clone()])), (3, 2));
    assert_eq!(
        (verdict(&[six]), verdict(&[vec![0x45]]), verdict(&[vec![0x45; 19]]), verdict(&[vec![0x55; 19]])),
        (3, 2, 2, 3)
    );
    assert_eq!(verdict(&[FIRST.to_vec(), LAST.to_vec(), vec![]]), 2);
}

/// Numbers at the list's limits, on the example's 50 bytes.
#[test]
fn lists() {
    let (buffer, good) = in_a_row(&example());
    let answer = |list: &[Record]| judge_fragments(&buffer, list);
    assert_eq!((answer(&[]), judge_fragments(&[], &[]), answer(&good)), (2, 2, 0));
    assert_eq!((answer(&[record(50, 0)]), answer(&[record(51, 0)]), answer(&[record(0, 51)])), (2, 10, 10));
    assert_eq!((answer(&[record(28, 22)]), answer(&[record(28, 23)]), answer(&[record(29, 22)])), (6, 10, 10));
    for (offset, length) in [(u64::MAX, 1), (u64::MAX, 29), (28, u64::MAX), (u64::MAX, u64::MAX), (1 << 63, 1 << 63)] {
        assert_eq!(answer(&[record(offset, length)]), 10);
        assert_eq!(answer(&[good[0], good[1], record(offset, length)]), 10);
        assert_eq!(answer(&[record(50, 0), record(offset, length)]), 10);
    }
    assert_eq!((answer(&[good[0]; 64]), answer(&[good[0]; 65]), answer(&[record(0, 0); 64])), (6, 10, 2));
    assert_eq!((answer(&[record(0, 0); 65]), answer(&[record(51, 0); 65])), (10, 10));
}

/// 64 fragments of 8 bytes are judged; one more is too many.
#[test]
fn many_fragments() {
    let mut random = Random(1);
    for (count, answer) in [(63, 0), (64, 0), (65, 10), (66, 10)] {
        for kind in KINDS {
            let mut packet = Shape::plain(kind, 0);
            packet.body = 8 * count - (packet.headers() - 20);
            let packet = packet.good(&mut random);
            let mut pieces = cut(&packet, &every(8, 8 * count), &mut random);
            shuffle(&mut pieces, &mut random);
            assert_eq!((pieces.len(), verdict(&pieces)), (count, answer));
        }
    }
}

/// A message ends at 65,515, wherever it is cut and however long the headers are.
#[test]
fn the_longest_message() {
    let mut random = Random(2);
    let packet = Shape::plain((4, UDP), LONGEST - 8).good(&mut random);
    assert_eq!(judge(&packet), 0);
    for place in [8, 32_000, 65_472, 65_512] {
        let pieces = cut(&packet, &[place], &mut random);
        assert_eq!(verdict(&pieces), 0);
        for over in [1, 8, 20] {
            let mut longer = pieces.clone();
            let room = 65_535 - View::new(&longer[1]).header_length();
            set_length(&mut longer[1], (LONGEST - place + over).min(room));
            assert_eq!(verdict(&longer), 4);
        }
    }
    for offset in 0x1FFE..=0x1FFF {
        let mut pieces = cut(&packet, &[32_000], &mut random);
        set_flags(&mut pieces[1], offset);
        assert_eq!(verdict(&pieces), 4);
    }
}

/// Whatever is cut, in whatever order, is judged as the packet was.
#[test]
fn cut_packets_are_judged_as_they_were() {
    let (mut random, mut met) = (Random(3), [0; 10]);
    for _ in 0..20_000 {
        let mut packet = any_packet(&mut random);
        if random.once_in(2) {
            let fault = random.pick(&faults_of(View::new(&packet).kind()));
            if [Fault::Protocol, Fault::InnerLength, Fault::Zero, Fault::MessageSum].contains(&fault) {
                spoil(&mut packet, 4, &[fault], &mut random);
            }
        }
        let judged = judge(&packet);
        let pieces = any_pieces(&packet, &mut random);
        assert_eq!(verdict(&pieces), judged);
        met[usize::from(judged)] += 1;
    }
    assert!([0, 1, 4, 7, 9].iter().all(|v| met[*v] > 100), "{met:?}");
}

/// A packet alone gets the judge's verdict, if it is IPv4 and its message isn't empty; where that is 6, it may be 4.
#[test]
fn one_packet_is_judged_as_by_the_judge() {
    let (mut random, mut met) = (Random(4), [0; 10]);
    for _ in 0..40_000 {
        let mut packet = any_packet(&mut random);
        let faults = faults_of(View::new(&packet).kind());
        let faults: Vec<Fault> = (0..random.between(0, 2)).map(|_| random.pick(&faults)).collect();
        spoil(&mut packet, 4, &faults, &mut random);
        let (judged, answer) = (judge(&packet), verdict(&[packet.clone()]));
        let view = View::read_as(&packet, 4);
        match judged {
            6 => assert!([4, 6].contains(&answer)),
            4 | 7 if view.message_length() == 0 => assert_eq!(answer, 4),
            _ => assert_eq!(answer, judged),
        }
        met[usize::from(judged)] += 1;
    }
    assert!([0, 1, 2, 3, 4, 5, 6, 7, 9].iter().all(|v| met[*v] > 100), "{met:?}");
}

/// Where each fragment passes by itself, the order of the list changes nothing.
#[test]
fn order_changes_nothing() {
    let (mut random, mut met) = (Random(5), [0; 10]);
    for _ in 0..20_000 {
        let mut pieces = any_flawed(&mut random, false);
        let answer = verdict(&pieces);
        for _ in 0..3 {
            shuffle(&mut pieces, &mut random);
            assert_eq!(verdict(&pieces), answer);
        }
        met[usize::from(answer)] += 1;
    }
    assert!([0, 1, 4, 6, 7, 9].iter().all(|v| met[*v] > 100), "{met:?}");
}

/// Fragments sorted by their offsets and looked at one after the other, as the request's words go. No byte is counted.
fn by_sorting(pieces: &[Piece]) -> u8 {
    let words = |piece: &Piece| View::new(piece).word(6);
    let range = |piece: &Piece| 20_usize.max(View::new(piece).header_length())..View::new(piece).end();
    let shared = |piece: &Piece| [&piece[4..6], &piece[9..10], &piece[12..20]].concat();
    let mut sorted: Vec<&Piece> = pieces.iter().collect();
    sorted.sort_by_key(|piece| words(piece) & 0x1FFF);
    let start = |piece: &Piece| 8 * usize::from(words(piece) & 0x1FFF);
    let four = |piece: &&&Piece| {
        shared(piece) != shared(sorted[0]) || range(piece).is_empty() || start(piece) + range(piece).len() > 65_515
    };
    if sorted.iter().any(|piece| four(&piece)) {
        return 4;
    }
    let mut message = Vec::new();
    for (i, piece) in sorted.iter().enumerate() {
        let (last, more) = (i + 1 == sorted.len(), words(piece) & 0x2000 != 0);
        if start(piece) != message.len() || more == last || !last && range(piece).len() % 8 != 0 {
            return 6;
        }
        message.extend(&piece[range(piece)]);
    }
    let mut packet = [&[0x45, 0, 0, 0, 0, 0, 0, 0, 64, sorted[0][9], 0, 0], &sorted[0][12..20], &message].concat();
    let total = packet.len() as u16;
    write_word(&mut packet, 2, total);
    refresh_header(&mut packet);
    judge(&packet)
}

#[test]
fn counted_bytes_and_sorted_fragments_agree() {
    let (mut random, mut met) = (Random(6), [0; 10]);
    for _ in 0..30_000 {
        let pieces = any_flawed(&mut random, false);
        let answer = verdict(&pieces);
        assert_eq!(by_sorting(&pieces), answer);
        met[usize::from(answer)] += 1;
    }
    assert!([0, 1, 4, 6, 7, 9].iter().all(|v| met[*v] > 100), "{met:?}");
}

/// A fragment's length that is no multiple of 8, before the last, always leaves a gap or an overlap.
#[test]
fn uneven_lengths_before_the_end_are_six() {
    let mut random = Random(7);
    for _ in 0..5000 {
        let body = random.between(17, 90);
        let packet = Shape::any_direct((4, UDP), body, &mut random).good(&mut random);
        let mut pieces = any_pieces(&packet, &mut random);
        if pieces.len() > 1 {
            spoil_pieces(&mut pieces, Flaw::Uneven, &mut random);
            assert_eq!(verdict(&pieces), 6);
        }
    }
}

/// Left out, listed twice, or of another packet.
#[test]
fn other_sets_of_fragments_are_refused() {
    let mut random = Random(8);
    for _ in 0..5000 {
        let packet = any_packet(&mut random);
        let pieces = any_pieces(&packet, &mut random);
        let at = random.between(0, pieces.len() - 1);
        let (mut fewer, mut more) = (pieces.clone(), pieces.clone());
        fewer.remove(at);
        assert_eq!(verdict(&fewer), if fewer.is_empty() { 2 } else { 6 });
        more.push(pieces[at].clone());
        assert_eq!(verdict(&more), if more.len() > 64 { 10 } else { 6 });
        let mut other = pieces.clone();
        other[at][5] ^= 1;
        refresh_header(&mut other[at]);
        assert_eq!(verdict(&other), if other.len() == 1 { judge(&packet) } else { 4 });
    }
}

/// One bit turned in any fragment: its header is refused or the message is, but for bits that nothing covers.
#[test]
fn one_bit_is_never_unseen() {
    let mut random = Random(9);
    for _ in 0..3000 {
        let body = random.between(20, 60);
        let packet = Shape::plain(random.pick(&KINDS), body).good(&mut random);
        let mut pieces = any_pieces(&packet, &mut random);
        let at = random.between(0, pieces.len() - 1);
        let (place, end) = (random.between(0, pieces[at].len() - 1), View::new(&pieces[at]).header_length());
        pieces[at][place] ^= 1 << random.between(0, 7);
        let answer = verdict(&pieces);
        assert!(answer > 1, "byte {place} of {at}: {answer}");
        assert!(place >= end || [2, 3, 4, 5].contains(&answer), "byte {place} of {at}: {answer}");
    }
}

/// Tails, options, lifetimes, service bytes and the two other flags make no difference.
#[test]
fn what_fragments_need_not_share() {
    let mut random = Random(10);
    for _ in 0..5000 {
        let mut pieces = any_flawed(&mut random, false);
        let answer = verdict(&pieces);
        for piece in &mut pieces {
            let (tail, word) = (random.between(0, 9), View::new(piece).word(6));
            piece.extend(random.bytes(tail));
            (piece[1], piece[8]) = (random.any() as u8, random.any() as u8);
            set_flags(piece, word & 0x3FFF | random.pick(&[0, 0x4000, 0x8000, 0xC000]));
        }
        assert_eq!(verdict(&pieces), answer);
    }
}

/// Where fragments lie in the buffer makes no difference, and neither do records that share bytes.
#[test]
fn places_in_the_buffer_make_no_difference() {
    let mut random = Random(11);
    for _ in 0..5000 {
        let pieces = any_flawed(&mut random, true);
        let (row, list) = in_a_row(&pieces);
        let answer = judge_fragments(&row, &list);
        let before = random.between(0, 20);
        let buffer = [random.bytes(before), row, random.bytes(5)].concat();
        let moved: Vec<Record> = list.iter().map(|r| record(r.offset + before as u64, r.length)).collect();
        assert_eq!(judge_fragments(&buffer, &moved), answer);
        if pieces.iter().all(|piece| piece.len() >= 20 && piece.len() >= View::read_as(piece, 4).end()) {
            let longer: Vec<Record> = moved.iter().map(|r| record(r.offset, buffer.len() as u64 - r.offset)).collect();
            assert_eq!(judge_fragments(&buffer, &longer), answer);
        }
    }
}

/// A lowered lifetime of a fragment leaves the answer.
#[test]
fn lifetimes_lowered_leave_the_answer() {
    let (mut random, mut lowered) = (Random(12), 0);
    for _ in 0..5000 {
        let mut pieces = any_flawed(&mut random, true);
        let answer = verdict(&pieces);
        for piece in &mut pieces {
            lowered += u32::from(lower_lifetime(piece) == 0);
        }
        assert_eq!(verdict(&pieces), answer);
    }
    assert!(lowered > 10_000, "{lowered}");
}

/// ICMP of odd length, of zeros alone, and with fields at 0000 and FFFF; TCP whose field and data offset lie apart.
#[test]
fn corners_of_the_sum() {
    let mut random = Random(13);
    for (kind, length) in [(ICMP, 40), (ICMP, 41), (TCP, 40), (TCP, 47), (UDP, 40), (UDP, 43)] {
        let shape = Shape::plain((4, kind), 0);
        let shape = Shape { body: length - (shape.headers() - 20), ..shape };
        let mut packet = shape.good(&mut random);
        let field = View::new(&packet).field_place();
        balance_message(&mut packet, 4, 20 + 32);
        for (word, wanted) in [(0x0000, if kind == UDP { 1 } else { 0 }), (0xFFFF, 0), (0x0001, 9)] {
            write_word(&mut packet, field, word);
            let pieces = cut(&packet, &[8, 16, 32], &mut random);
            assert_eq!((judge(&packet), verdict(&pieces)), (wanted, wanted));
        }
        packet[20..].fill(0);
        for (word, icmp) in [(0x0000, 9), (0xFFFF, 0)] {
            write_word(&mut packet, field, word);
            let wanted = if kind == ICMP { icmp } else { 4 };
            assert_eq!(verdict(&cut(&packet, &[8, 32], &mut random)), wanted);
        }
    }
}

/// A datagram that ends in each place of each fragment; what is behind it may be anything.
#[test]
fn trailing_areas_over_fragments() {
    let mut random = Random(14);
    for (datagram, trailing) in (8..60).flat_map(|datagram| [1, 2, 9, 40].map(|trailing| (datagram, trailing))) {
        let mut packet = Shape { trailing, ..Shape::plain((4, UDP), datagram - 8) }.good(&mut random);
        for _ in 0..4 {
            let pieces = any_pieces(&packet, &mut random);
            assert_eq!(verdict(&pieces), 0);
            let place = random.between(20 + datagram, packet.len() - 1);
            packet[place] ^= random.between(1, 255) as u8;
        }
        packet[20 + datagram - 1] ^= 1;
        assert_eq!(verdict(&any_pieces(&packet, &mut random)), 9);
        refresh(&mut packet, 4);
        assert_eq!(verdict(&any_pieces(&packet, &mut random)), 0);
    }
}

/// Each mistake answers otherwise somewhere, and the check of the cases asks for that.
#[test]
fn each_mistake_is_one() {
    let mut random = Random(15);
    let told = |name: &str, buffer: &[u8], list: &[Record]| {
        let right = judge_fragments(buffer, list);
        FRAGMENT_MISTAKES.iter().any(|mistake| mistake.name == name && (mistake.verdict)(buffer, list, right) != right)
    };
    let (buffer, list) = in_a_row(&example());
    assert!(told("only in order", &buffer, &[list[1], list[0]]));
    assert!(told("put together in list order", &buffer, &[list[1], list[0]]));
    assert!(told("the first fragment for the message", &buffer, &list));
    assert!(told("an empty list is 10", &buffer, &[]));
    assert!(told("outside to be cut", &buffer, &[record(0, 51)]));
    assert!(told("a record outside in its turn", &buffer, &[record(0, 0), record(0, 51)]));
    assert!(told("ends that wrap", &buffer, &[list[0], record(u64::MAX, 23)]));
    assert!(told("messages that begin late", &buffer, &[list[1]]));
    assert!(told("refused records not counted", &buffer, &[&[list[0]; 64][..], &[record(0, 0)]].concat()));
    let mut wrong_sum = example();
    wrong_sum[1][10] ^= 1;
    let (wrong, both) = in_a_row(&wrong_sum);
    assert!(told("the first header's sum alone", &wrong, &both));
    assert!(!told("the first header's sum alone", &wrong, &[both[1], both[0]]));
    assert!(!FRAGMENT_MISTAKES.iter().any(|mistake| (mistake.verdict)(&buffer, &list, 0) == 10));
    for _ in 0..200 {
        let packet = any_packet(&mut random);
        let (buffer, list) = in_a_row(&[packet]);
        let right = judge_fragments(&buffer, &list);
        assert!(
            ["only in order", "6 before 4", "all tests fragment by fragment"]
                .iter()
                .all(|name| !told(name, &buffer, &list)),
            "{right}"
        );
    }
}

/// The check of the cases finds a verdict that no rule allows.
#[test]
fn a_wrong_answer_is_found() {
    let (buffer, list) = in_a_row(&example());
    let case = Case { operation: FRAGMENTS, source: GIVEN, number: 0, one: buffer, two: list_payload(&list) };
    let mut cover = Cover::default();
    cover.note(&case, &case.one, &case.one, "0\n");
    assert!(cover.check().unwrap_err().contains("aren't reached"));
    cover.note(&case, &case.one, &case.one, "6\n");
    let wrong = cover.check().unwrap_err();
    assert!(wrong.contains("impossible") && wrong.contains("judge fragments, nothing refused: 6"), "{wrong}");
}
