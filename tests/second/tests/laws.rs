// The paper's facts tried on random bytes and packets: joining, mending, kept verdicts, and the corners.

use second::draft::{balance_message, faults_of, refresh, spoil, write_word, Fault, Shape, KINDS};
use second::edit::{lower_lifetime, set_address, set_stretch};
use second::judge::judge;
use second::mend::mend;
use second::packet::{View, ICMP, TCP, UDP};
use second::prefix::{beginning, exchange_prefix};
use second::random::Random;
use second::sums::*;

/// A random packet, good or with up to two faults.
fn any_packet(random: &mut Random) -> ((u8, u8), Vec<u8>) {
    let kind = random.pick(&KINDS);
    let body = random.between(0, 40);
    let mut packet = Shape::any(kind, body, random).good(random);
    let faults: Vec<Fault> = (0..random.between(0, 2)).map(|_| random.pick(&faults_of(kind))).collect();
    spoil(&mut packet, kind.0, &faults, random);
    (kind, packet)
}

/// A random edit; answers its verdict.
fn any_edit(packet: &mut [u8], family: u8, random: &mut Random) -> u8 {
    match random.between(0, 3) {
        0 => lower_lifetime(packet),
        1 => {
            let length = if family == 4 { 4 } else { 16 };
            set_address(packet, random.between(0, 2) as u32, &random.contents(length))
        }
        2 => {
            let side = random.between(0, 2) as u32;
            exchange_prefix(packet, side, &beginning(packet, side, 6), &random.contents(6))
        }
        _ => {
            let (place, length) = (random.between(0, 20), random.between(0, 20));
            set_stretch(packet, place as u64, &random.contents(length))
        }
    }
}

/// Random places that cut a string, in order.
fn any_cuts(length: usize, random: &mut Random) -> Vec<usize> {
    let mut cuts: Vec<usize> = (0..random.between(0, 5)).map(|_| random.between(0, length)).collect();
    cuts.extend([0, length]);
    cuts.sort_unstable();
    cuts
}

#[test]
fn joined_partial_sums_are_those_of_the_joined_string() {
    let mut random = Random(1);
    for length in 0..500 {
        let bytes = random.contents(length);
        let (mut joined, mut list) = (NOTHING, Vec::new());
        for cut in any_cuts(length, &mut random).windows(2) {
            let so_far = partial(&bytes[..cut[1]]);
            assert_eq!(join(joined, partial(&bytes[cut[0]..cut[1]])), (0, so_far));
            joined = so_far;
            list.extend([cut[0] as u32, (cut[1] - cut[0]) as u32]);
        }
        assert_eq!(chain(&bytes, &list), (0, partial(&bytes)));
    }
}

#[test]
fn a_chain_has_the_sum_of_its_pieces_written_one_after_the_other() {
    let mut random = Random(10);
    for _ in 0..500 {
        let bytes = random.contents(60);
        let (mut list, mut written) = (Vec::new(), Vec::new());
        for _ in 0..random.between(0, 9) {
            let offset = random.between(0, 60);
            let length = random.between(0, 60 - offset);
            list.extend([offset as u32, length as u32]);
            written.extend_from_slice(&bytes[offset..offset + length]);
        }
        let times = random.pick(&[1, 2, 3, 300]);
        assert_eq!(chain(&bytes, &list.repeat(times)), (0, partial(&written.repeat(times))));
    }
}

#[test]
fn chains_are_refused_whole() {
    let bytes = [1, 2, 3];
    assert_eq!(chain(&bytes, &[]), (0, NOTHING));
    assert_eq!(chain(&bytes, &[3, 0]), (0, NOTHING));
    for list in [&[0][..], &[4, 0], &[0, 4], &[u32::MAX, 1], &[u32::MAX, 2], &[1, u32::MAX], &[0, 3, 4, 0]] {
        assert_eq!(chain(&bytes, list), (10, NOTHING));
    }
}

/// No list in a file is long enough to pass the range, so the rule for chains and joins is tried on numbers alone.
#[test]
fn joined_lengths_stay_within_64_bits() {
    let (largest, half) = (u64::MAX, 1 << 63);
    for lengths in [&[][..], &[3, 5], &[largest], &[largest, 0], &[0, largest], &[half, half - 1], &[largest - 2, 1, 1]]
    {
        assert_eq!(joined_length(lengths.iter().copied()), Some(lengths.iter().sum()));
    }
    for lengths in [&[largest, 1][..], &[1, largest], &[half, half], &[largest - 1, 1, 1], &[largest, 0, 1], &[half; 4]]
    {
        assert_eq!(joined_length(lengths.iter().copied()), None);
    }
}

const FOLDS: [u16; 10] = [0, 1, 2, 0xFF, 0x100, 0x1234, 0x7FFF, 0xFF00, 0xFFFE, 0xFFFF];

#[rustfmt::skip]
const LENGTHS: [u64; 12] = [
    0, 1, 2, 3, (1 << 32) - 1, 1 << 32, (1 << 63) - 1, 1 << 63, (1 << 63) + 1, u64::MAX - 2, u64::MAX - 1, u64::MAX,
];

/// Sums of these lengths with each two folds.
fn each_two(length_a: u64, length_b: u64) -> impl Iterator<Item = (Partial, Partial)> {
    let sum = |fold, length| Partial { fold: Fold(fold), length };
    FOLDS.into_iter().flat_map(move |a| FOLDS.into_iter().map(move |b| (sum(a, length_a), sum(b, length_b))))
}

#[test]
fn joining_adds_lengths_or_hands_back_the_left_sum() {
    for (length_a, length_b) in LENGTHS.into_iter().flat_map(|a| LENGTHS.map(|b| (a, b))) {
        for (a, b) in each_two(length_a, length_b) {
            match length_a.checked_add(length_b) {
                Some(length) => assert_eq!((join(a, b).0, join(a, b).1.length), (0, length)),
                None => assert_eq!(join(a, b), (10, a)),
            }
        }
    }
}

/// The lengths can't tell the order, and the folds can unless both lengths are even.
#[test]
fn both_orders_agree_exactly_where_both_lengths_are_even() {
    let (one, two) = (partial(&[1]), partial(&[2]));
    assert_eq!(join(one, two), (0, Partial { fold: Fold(0x0102), length: 2 }));
    assert_eq!(join(two, one), (0, Partial { fold: Fold(0x0201), length: 2 }));
    for (length_a, length_b) in LENGTHS.into_iter().flat_map(|a| LENGTHS.map(|b| (a, b))) {
        let all = |law: fn((u8, Partial), (u8, Partial)) -> bool| {
            each_two(length_a, length_b).all(|(a, b)| law(join(a, b), join(b, a)))
        };
        assert!(all(|one, other| one.0 == other.0));
        if length_a.checked_add(length_b).is_some() {
            assert!(all(|one, other| one.1.length == other.1.length));
            assert_eq!(all(|one, other| one == other), length_a % 2 == 0 && length_b % 2 == 0);
        }
    }
}

/// 65535 is 255 times 257: the folds can't tell the order where 257 divides what the other order exchanges.
#[test]
fn both_orders_agree_where_257_divides_what_is_exchanged() {
    let mut random = Random(12);
    let mut agreed = [[0; 2]; 2];
    for _ in 0..100_000 {
        let [a, b] = [(); 2].map(|()| Partial { fold: Fold(random.any() as u16), length: random.any() >> 1 });
        let (odd_a, odd_b) = (a.length as usize % 2, b.length as usize % 2);
        let exchanged = odd_a as i32 * i32::from(b.fold.0) - odd_b as i32 * i32::from(a.fold.0);
        assert_eq!(join(a, b) == join(b, a), exchanged % 257 == 0);
        agreed[odd_a][odd_b] += usize::from(exchanged % 257 == 0);
    }
    assert!(agreed[0][0] > 20_000 && agreed[0][1] > 50 && agreed[1][0] > 50 && agreed[1][1] > 50, "{agreed:?}");
}

/// Three sums come to the same in either grouping, or the range is passed in both.
#[test]
fn joining_is_associative() {
    let mut random = Random(11);
    let mut passed = 0;
    for _ in 0..100_000 {
        let [a, b, c] = [(); 3].map(|()| Partial { fold: Fold(random.pick(&FOLDS)), length: random.pick(&LENGTHS) });
        let (left, right) = (join(a, b), join(b, c));
        if joined_length([a.length, b.length, c.length]).is_some() {
            assert_eq!((left.0, right.0), (0, 0));
            assert_eq!(join(left.1, c), join(a, right.1));
            assert_eq!(join(left.1, c).0, 0);
        } else {
            passed += 1;
            assert!(left.0 == 10 || join(left.1, c).0 == 10);
            assert!(right.0 == 10 || join(a, right.1).0 == 10);
        }
    }
    assert!((1000..99_000).contains(&passed));
}

#[test]
fn good_shapes_are_good() {
    let mut random = Random(2);
    for _ in 0..5000 {
        let (kind, body) = (random.pick(&KINDS), random.between(0, 40));
        let packet = Shape::any(kind, body, &mut random).good(&mut random);
        assert_eq!(judge(&packet), 0);
    }
}

#[test]
fn mending_twice_is_mending_once_and_the_judge_agrees() {
    let mut random = Random(3);
    for _ in 0..20_000 {
        let (_, mut packet) = any_packet(&mut random);
        let before = packet.clone();
        if mend(&mut packet) == 0 {
            assert!(judge(&packet) <= 1);
            let once = packet.clone();
            assert_eq!(mend(&mut packet), 0);
            assert_eq!(packet, once);
        } else {
            assert_eq!(packet, before);
        }
    }
}

#[test]
fn an_edit_keeps_the_verdict_and_a_refused_one_keeps_the_packet() {
    let mut random = Random(4);
    for _ in 0..20_000 {
        let (kind, mut packet) = any_packet(&mut random);
        let verdict = judge(&packet);
        for _ in 0..10 {
            let before = packet.clone();
            if any_edit(&mut packet, kind.0, &mut random) != 0 {
                assert_eq!(packet, before);
            }
            assert_eq!(judge(&packet), verdict);
        }
    }
}

/// A field at FFFF where 0000 is fresh passes; the same bytes again bring it to 0000, and so does the loss of all ones.
#[test]
fn the_corners_of_the_update() {
    let mut random = Random(5);
    for kind in KINDS {
        let shape = Shape::plain(kind, 8);
        let body = shape.headers();
        let mut packet = shape.good(&mut random);
        packet[body + 2..body + 6].copy_from_slice(&[0x80, 0x00, 0x7F, 0xFF]);
        balance_message(&mut packet, kind.0, body);
        let field = View::new(&packet).field_place();
        let zero = if kind.1 == UDP { [0xFF, 0xFF] } else { [0, 0] };
        assert_eq!(packet[field..field + 2], zero);
        write_word(&mut packet, field, 0xFFFF);
        assert_eq!(judge(&packet), 0);
        let mut same = packet.clone();
        assert_eq!(set_stretch(&mut same, 2, &[0x80, 0x00, 0x7F, 0xFF]), 0);
        assert_eq!(same[field..field + 2], zero);
        assert_eq!(set_stretch(&mut packet, 2, &[0, 0, 0, 0]), 0);
        assert_eq!(packet[field..field + 2], zero);
        assert_eq!(judge(&packet), 0);
        assert_eq!(mend(&mut packet), 0);
        assert_eq!(packet[field..field + 2], zero);
    }
}

#[test]
fn udp_zero_is_kept_in_ipv4_and_missing_in_ipv6() {
    let mut random = Random(6);
    for family in [4, 6] {
        let mut packet = Shape::plain((family, UDP), 5).good(&mut random);
        let field = View::new(&packet).field_place();
        write_word(&mut packet, field, 0);
        let (verdict, edited) = if family == 4 { (1, 0) } else { (8, 8) };
        assert_eq!(judge(&packet), verdict);
        assert_eq!(set_stretch(&mut packet, 1, &[1, 2, 3]), edited);
        assert_eq!(lower_lifetime(&mut packet), 0);
        assert_eq!(judge(&packet), verdict);
        assert_eq!(mend(&mut packet), 0);
        assert_eq!(judge(&packet), if family == 4 { 1 } else { 0 });
    }
}

#[test]
fn blank_icmp() {
    let mut random = Random(7);
    let mut packet = Shape { tail: 3, ..Shape::plain((4, ICMP), 4) }.good(&mut random);
    packet[20..32].fill(0);
    assert_eq!(judge(&packet), 9);
    assert_eq!(mend(&mut packet), 0);
    assert_eq!((judge(&packet), &packet[22..24]), (0, &[0xFF, 0xFF][..]));
    assert_eq!(set_stretch(&mut packet, 0, &[1]), 12);
    assert_eq!(set_stretch(&mut packet, 3, &[1, 2]), 10);
    assert_eq!(set_stretch(&mut packet, 4, &[]), 0);
    assert_eq!(set_stretch(&mut packet, 5, &[]), 10);
    packet[30] = 7;
    refresh(&mut packet, 4);
    assert_eq!(set_stretch(&mut packet, 2, &[0]), 12);
    assert_eq!(set_stretch(&mut packet, 1, &[0, 0, 1]), 0);
    assert_eq!(judge(&packet), 0);
}

#[test]
fn a_header_longer_than_the_total_length_is_shape_before_cut() {
    let mut packet = vec![0; 30];
    (packet[0], packet[3]) = (0x4F, 40);
    assert_eq!(judge(&packet), 4);
    assert_eq!(mend(&mut packet), 4);
}

#[test]
fn tails_are_neither_judged_nor_changed() {
    let mut random = Random(8);
    for kind in KINDS {
        let shape = Shape { tail: 9, ..Shape::plain(kind, 7) };
        let mut packet = shape.good(&mut random);
        let end = packet.len() - 9;
        let tail = random.bytes(9);
        packet[end..].copy_from_slice(&tail);
        assert_eq!(judge(&packet), 0);
        assert_eq!(set_stretch(&mut packet, 6, &[9]), 0);
        assert_eq!(set_stretch(&mut packet, 6, &[9, 9]), 10);
        assert_eq!((judge(&packet), &packet[end..]), (0, &tail[..]));
    }
}

#[test]
fn the_data_offset_may_equal_the_message_length() {
    let mut random = Random(9);
    let mut packet = Shape { offset: 15, ..Shape::plain((6, TCP), 0) }.good(&mut random);
    assert_eq!(judge(&packet), 0);
    assert_eq!(set_stretch(&mut packet, 0, &[]), 0);
    assert_eq!(set_stretch(&mut packet, 0, &[1]), 10);
}
