// The lifetime edit looks at the IP header and the declared length alone: fragments, protocols that aren't covered and
// messages of any shape go through it, and their verdict stays.

use second::answer::{Case, ADDRESS, GIVEN, JUDGE, LIFETIME};
use second::cover::Cover;
use second::draft::{declare, faults_of, spoil, write_word, Fault, Shape, KINDS, PASSED_OVER, UNCOVERED_KINDS};
use second::edit::{lower_lifetime, set_address, set_stretch};
use second::judge::judge;
use second::mend::{fresh_header_field, mend};
use second::packet::{View, HEADER_FIELD, TCP, UDP};
use second::random::Random;

/// A packet with one to three faults that are passed over, or none that fits, and perhaps a wrong sum.
fn any_passed_over(random: &mut Random) -> Vec<u8> {
    let kind = random.pick(&KINDS);
    let body = random.between(0, 30);
    let mut packet = Shape::any(kind, body, random).good(random);
    let fitting: Vec<Fault> = faults_of(kind).into_iter().filter(|fault| PASSED_OVER.contains(fault)).collect();
    let mut faults: Vec<Fault> = (0..random.between(1, 3)).map(|_| random.pick(&fitting)).collect();
    if random.once_in(4) {
        faults.push(if kind.0 == 4 { Fault::HeaderSum } else { Fault::MessageSum });
    }
    let place = View::new(&packet).lifetime_place();
    packet[place] = random.pick(&[0, 1, 2, 3, 64, 255]);
    spoil(&mut packet, kind.0, &faults, random);
    packet
}

/// The last fragment of a UDP datagram, by hand: but for its field the header adds up to 6E19, and to 6D19 with a
/// lifetime of 1.
#[test]
fn a_fragment_written_out() {
    let mut packet = vec![0x45, 0, 0, 0x18, 0x12, 0x34, 0, 0xB9, 2, 0x11, 0x91, 0xE6, 10, 0, 0, 1, 10, 0, 0, 2];
    packet.extend([0xDE, 0xAD, 0xBE, 0xEF]);
    let mut lowered = packet.clone();
    (lowered[8], lowered[10]) = (1, 0x92);
    assert_eq!(judge(&packet), 6);
    assert_eq!(lower_lifetime(&mut packet), 0);
    assert_eq!(packet, lowered);
    assert_eq!(judge(&packet), 6);
    assert_eq!(lower_lifetime(&mut packet), 11);
    assert_eq!(packet, lowered);
}

/// A header between, a fragment header among them: nothing but the hop limit changes, whatever the judge says.
#[test]
fn ipv6_is_not_walked() {
    let mut random = Random(50);
    for (_, next) in UNCOVERED_KINDS.into_iter().filter(|kind| kind.0 == 6) {
        let mut packet = Shape::plain((6, UDP), 20).good(&mut random);
        (packet[6], packet[7]) = (next, 2);
        // whatever the header between says of itself
        packet[40..48].copy_from_slice(&random.bytes(8));
        let (mut lowered, verdict) = (packet.clone(), judge(&packet));
        lowered[7] = 1;
        match next {
            44 => assert_eq!(verdict, 6),
            0 | 43 | 60 => assert!([4, 7].contains(&verdict)),
            _ => assert_eq!(verdict, 7),
        }
        assert_eq!((lower_lifetime(&mut packet), judge(&packet)), (0, verdict));
        assert_eq!(packet, lowered);
        assert_eq!(lower_lifetime(&mut packet), 11);
        assert_eq!(packet, lowered);
    }
}

/// What is left of the refusals, in order, whatever the lifetime is; and then the lifetime.
#[test]
fn only_header_and_declared_length_refuse() {
    let mut four = Shape { words: 6, ..Shape::plain((4, UDP), 4) }.good(&mut Random(51));
    write_word(&mut four, 6, 0x2001);
    let six = [&[0x60, 0, 0, 0, 0, 3, 44, 0][..], &[0xFF; 35]].concat();
    let with = |packet: &[u8], changes: &[(usize, u8)], length: usize| {
        let mut packet = packet[..length].to_vec();
        changes.iter().for_each(|(place, byte)| packet[*place] = *byte);
        packet
    };
    let refused = [
        (with(&four, &[], 0), 2),
        (with(&four, &[(0, 0x56)], 1), 3),
        (with(&four, &[(0, 0x06)], 36), 3),
        (with(&four, &[], 1), 2),
        (with(&four, &[(0, 0x40)], 19), 2),
        (with(&four, &[(0, 0x44)], 20), 4),
        (with(&four, &[(3, 23)], 20), 4),
        (with(&four, &[(0, 0x4F), (3, 40)], 30), 4),
        (with(&four, &[(0, 0x4F), (3, 60)], 36), 2),
        (with(&four, &[], 35), 2),
        (with(&six, &[], 39), 2),
        (with(&six, &[], 42), 2),
    ];
    for (packet, verdict) in refused {
        for lifetime in [0, 1, 2, 255] {
            let (mut packet, place) = (packet.clone(), View::new(&packet).lifetime_place());
            if let Some(byte) = packet.get_mut(place) {
                *byte = lifetime;
            }
            let before = packet.clone();
            assert_eq!(lower_lifetime(&mut packet), verdict, "{packet:02X?}");
            assert_eq!(packet, before);
        }
    }
    for (packet, place) in [(four, 8), (six, 7)] {
        for (lifetime, verdict) in [(0, 11), (1, 11), (2, 0), (255, 0)] {
            let mut packet = with(&packet, &[(place, lifetime)], packet.len());
            assert_eq!(lower_lifetime(&mut packet), verdict);
            assert_eq!(packet[place], if verdict == 0 { lifetime - 1 } else { lifetime });
        }
    }
}

/// Header length, declared length and lifetime decide: every other byte may be another, and the answer is the same.
#[test]
fn no_other_byte_decides() {
    let mut random = Random(52);
    let mut answers = [0; 12];
    for _ in 0..20_000 {
        let mut packet = any_passed_over(&mut random);
        let other = random.between(0, packet.len());
        packet.truncate(if random.once_in(8) { other } else { packet.len() });
        let deciding: &[usize] = if View::new(&packet).family == 6 { &[0, 4, 5, 7] } else { &[0, 2, 3, 8] };
        let mut another = packet.clone();
        (0..packet.len()).filter(|i| !deciding.contains(i)).for_each(|i| another[i] = random.any() as u8);
        let answer = lower_lifetime(&mut packet);
        assert_eq!(lower_lifetime(&mut another), answer);
        answers[usize::from(answer)] += 1;
    }
    assert!(answers[0] > 1000 && answers[2] > 1000 && answers[11] > 1000, "{answers:?}");
    assert_eq!(answers[3..11], [0; 8]);
}

/// The verdict stays, and each byte but the lifetime and the IPv4 header field. A fresh header field stays fresh.
#[test]
fn the_verdict_stays_and_all_other_bytes() {
    let mut random = Random(53);
    let (mut met, mut fresh) = ([[0; 10]; 2], 0);
    for _ in 0..20_000 {
        let mut packet = any_passed_over(&mut random);
        let (before, view) = (packet.clone(), View::new(&packet));
        let (four, place, verdict) = (view.family == 4, view.lifetime_place(), judge(&packet));
        let was_fresh = four && view.word(HEADER_FIELD) == fresh_header_field(&view).0;
        if lower_lifetime(&mut packet) != 0 {
            assert!(before[place] <= 1 && packet == before);
            continue;
        }
        assert_eq!(judge(&packet), verdict);
        met[usize::from(!four)][usize::from(verdict)] += 1;
        assert_eq!(packet[place], before[place] - 1);
        for i in (0..packet.len()).filter(|i| *i != place && !(four && (10..12).contains(i))) {
            assert_eq!(packet[i], before[i]);
        }
        if was_fresh {
            let view = View::new(&packet);
            assert_eq!(view.word(HEADER_FIELD), fresh_header_field(&view).0);
            fresh += 1;
        }
    }
    for (family, verdicts) in [(0, &[1, 4, 5, 6, 7][..]), (1, &[4, 7, 8])] {
        assert!(verdicts.iter().all(|verdict| met[family][*verdict] > 100), "{met:?}");
    }
    assert!(fresh > 1000);
}

/// The same packets: the other edits and the mender answer what the judge says, sums aside, and change nothing.
#[test]
fn the_other_edits_still_refuse() {
    let mut random = Random(54);
    let mut refused = [0; 9];
    for _ in 0..20_000 {
        let mut packet = any_passed_over(&mut random);
        let address = random.bytes(View::new(&packet).address_length());
        for _ in 0..3 {
            let before = packet.clone();
            let (verdict, by_mender) = (set_address(&mut packet, 0, &address), mend(&mut before.clone()));
            if verdict == 0 {
                break;
            }
            let judged = judge(&before);
            assert!(judged == verdict || judged == 5, "{judged} {verdict}");
            assert_eq!(set_stretch(&mut packet, 0, &[1]), verdict);
            assert_eq!(by_mender, if verdict == 8 { 0 } else { verdict });
            assert_eq!(packet, before);
            refused[usize::from(verdict)] += 1;
            lower_lifetime(&mut packet);
        }
    }
    assert!([4, 6, 7, 8].into_iter().all(|verdict: usize| refused[verdict] > 1000), "{refused:?}");
}

/// From 255 down to 1 in each kind of fragment: the field is the fresh one at each step, and the judge says 6.
#[test]
fn a_fragment_goes_down_to_one() {
    let mut random = Random(55);
    for flags in [0x2000, 0x2001, 0x1FFF, 0xC001] {
        for (protocol, length) in [(TCP, 24), (UDP, 7), (47, 1), (UDP, 0)] {
            let mut packet = Shape::plain((4, protocol), 24).good(&mut random);
            declare(&mut packet, 4, length);
            (packet[8], packet[10], packet[11]) = (255, 0, 0);
            write_word(&mut packet, 6, flags);
            let field = fresh_header_field(&View::new(&packet)).0;
            write_word(&mut packet, HEADER_FIELD, field);
            for lifetime in (1..255).rev() {
                assert_eq!((lower_lifetime(&mut packet), packet[8], judge(&packet)), (0, lifetime, 6));
                assert_eq!(View::new(&packet).word(HEADER_FIELD), fresh_header_field(&View::new(&packet)).0);
            }
            let spent = packet.clone();
            assert_eq!((lower_lifetime(&mut packet), lower_lifetime(&mut packet)), (11, 11));
            assert_eq!(packet, spent);
        }
    }
}

/// What the generator's check says of one lifetime edit with this outcome.
fn checked(operation: u8, before: &[u8], after: &[u8], verdict: u8) -> String {
    let case = Case { operation, source: GIVEN, number: 0, one: before.to_vec(), two: vec![0; 4] };
    let mut cover = Cover::default();
    cover.note(&case, before, after, &format!("{verdict} 0\n"));
    cover.check().unwrap_err()
}

/// The generator fails if a lifetime edit refuses what it must take, takes what it must refuse, or changes too much.
#[test]
fn the_generator_refuses_wrong_outcomes() {
    let mut random = Random(56);
    let good = Shape::plain((4, UDP), 4).good(&mut random);
    let mut fragment = good.clone();
    spoil(&mut fragment, 4, &[Fault::Fragment], &mut random);
    let mut lowered = fragment.clone();
    assert_eq!(lower_lifetime(&mut lowered), 0);
    let with = |place: usize, packet: &[u8]| {
        let mut packet = packet.to_vec();
        packet[place] ^= 1;
        packet
    };
    let impossible = |operation, before: &[u8], after: &[u8], verdict| {
        checked(operation, before, after, verdict).starts_with("the paper makes this impossible: ")
    };
    assert!(!impossible(LIFETIME, &fragment, &lowered, 0));
    assert!(impossible(LIFETIME, &fragment, &fragment, 6));
    assert!(impossible(LIFETIME, &fragment, &fragment, 4));
    assert!(impossible(LIFETIME, &fragment, &fragment, 11));
    assert!(impossible(LIFETIME, &fragment, &fragment, 0));
    assert!(impossible(LIFETIME, &fragment, &with(26, &lowered), 0));
    assert!(impossible(LIFETIME, &fragment, &with(11, &lowered), 0));
    assert!(impossible(LIFETIME, &fragment, &with(8, &lowered), 0));
    assert!(impossible(LIFETIME, &fragment[..27], &lowered[..27], 0));
    assert!(impossible(ADDRESS, &good, &with(12, &good), 0));
    assert!(impossible(ADDRESS, &fragment, &lowered, 6));
    assert!(!impossible(ADDRESS, &fragment, &fragment, 6));
    assert!(!impossible(JUDGE, &fragment, &fragment, 6));
}
