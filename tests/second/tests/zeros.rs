// No negative zero: the update's one new answer, and fields that an edit of a good packet leaves fresh.

use second::answer::{Case, Desk, ADDRESS, GIVEN, LIFETIME, STRETCH};
use second::draft::{balance_header, balance_message, write_word, Shape, KINDS};
use second::edit::{lower_lifetime, set_address, set_stretch};
use second::judge::judge;
use second::mend::mend;
use second::packet::{View, HEADER_FIELD, ICMP, UDP};
use second::random::Random;
use second::sums::*;
use second::updates::{corner_triples, updated_fields, write_records, CORNER_WORDS};

/// The one triple where equation 3 answers FFFF.
const FULL: [u16; 3] = [0xFFFF, 0xFFFF, 0x0000];

fn equation([field, old, new]: [u16; 3]) -> u16 {
    equation_3(Field(field), Fold(old), Fold(new)).0
}

fn updated([field, old, new]: [u16; 3]) -> u16 {
    update(Field(field), Fold(old), Fold(new)).0
}

#[test]
fn the_update_is_equation_3_but_for_one_triple() {
    assert_eq!((equation(FULL), updated(FULL)), (0xFFFF, 0x0000));
    assert_eq!(corner_triples().count(), 216);
    for triple in corner_triples().filter(|triple| *triple != FULL) {
        assert_eq!(updated(triple), equation(triple));
        assert_ne!(updated(triple), 0xFFFF);
    }
}

/// Two words of the corner set, and every word for the third.
#[test]
fn no_update_answers_ffff() {
    for (a, b) in CORNER_WORDS.into_iter().flat_map(|a| CORNER_WORDS.map(|b| (a, b))) {
        for any in 0..=0xFFFF {
            for triple in [[any, a, b], [a, any, b], [a, b, any]] {
                let wanted = if triple == FULL { 0 } else { equation(triple) };
                assert_eq!(updated(triple), wanted);
                assert_ne!(updated(triple), 0xFFFF);
            }
        }
    }
}

/// Two words in turn or both at once: the same field. Equation 3 alone would tell them apart, at FFFF and 8000 7FFF.
#[test]
fn one_update_is_the_updates_of_its_parts() {
    let mut random = Random(45);
    let both = |a: u16, b: u16| fold(u128::from(a) + u128::from(b)).0;
    for _ in 0..200_000 {
        let [field, old, new, old_too, new_too] = [(); 5].map(|()| match random.between(0, 2) {
            0 => random.any() as u16,
            _ => random.pick(&CORNER_WORDS),
        });
        let in_turn = updated([updated([field, old, new]), old_too, new_too]);
        assert_eq!(updated([field, both(old, old_too), both(new, new_too)]), in_turn);
    }
    assert_eq!(equation([equation([0xFFFF, 0x8000, 0]), 0x7FFF, 0]), 0x0000);
    assert_eq!(equation([0xFFFF, both(0x8000, 0x7FFF), 0]), 0xFFFF);
}

#[test]
fn records_hold_the_corner_triples_then_random_ones() {
    let (mut bytes, mut again) = (Vec::new(), Vec::new());
    write_records(7, 50_000, &mut bytes).unwrap();
    write_records(7, 50_000, &mut again).unwrap();
    assert!(bytes == again && bytes.len() == 8 * 50_216);
    let words: Vec<u16> = bytes.chunks(2).map(|word| u16::from_be_bytes([word[0], word[1]])).collect();
    let records: Vec<([u16; 3], u16)> = words.chunks(4).map(|r| ([r[0], r[1], r[2]], r[3])).collect();
    assert!(records.iter().map(|record| record.0).take(216).eq(corner_triples()));
    assert!(records.iter().all(|(triple, answer)| updated(*triple) == *answer));
    assert!(records[216..].iter().any(|(triple, _)| *triple == FULL));
}

/// The packet that annoyed the neighbour: TCP over IPv4, its field at FFFF where 0000 is fresh.
#[test]
fn the_neighbours_packet() {
    let mut packet = vec![0x45, 0, 0, 0x2A, 0, 0, 0x40, 0, 0x40, 6, 0xB8, 0xB5, 0xC0, 0xA8, 0, 1, 0xC0, 0xA8, 0, 0xC7];
    packet.extend([0x13, 0x88, 0x13, 0x89, 0, 0, 0, 1, 0, 0, 0, 0, 0x50, 0x10, 0x06, 0xA8, 0xFF, 0xFF, 0, 0]);
    packet.extend([0xFF, 0xFF]);
    assert_eq!(judge(&packet), 0);
    assert_eq!(set_stretch(&mut packet, 0, &[0, 0]), 0);
    assert_eq!(packet[36..], [0, 0, 0, 0, 0, 0]);
    assert_eq!(judge(&packet), 0);
    let edited = packet.clone();
    assert_eq!(mend(&mut packet), 0);
    assert_eq!(packet, edited);
}

/// A good packet whose fresh fields are 0000 (UDP's FFFF) with FF FF in its body, and perhaps FFFF in its fields.
fn any_balanced(kind: (u8, u8), random: &mut Random) -> Vec<u8> {
    let shape = Shape::any(kind, random.between(4, 24), random);
    let mut packet = shape.good(random);
    let message = View::new(&packet).message_start();
    let (side, place) = (random.between(0, 1), shape.headers() + random.between(0, shape.body - 2));
    let (address, length) = (View::new(&packet).address_place(side), View::new(&packet).address_length());
    packet[address..address + length].fill(0xFF);
    packet[place..place + 2].fill(0xFF);
    balance_message(&mut packet, kind.0, message);
    if kind.0 == 4 {
        balance_header(&mut packet);
        write_word(&mut packet, HEADER_FIELD, random.pick(&[0x0000, 0xFFFF]));
    }
    let field = View::new(&packet).field_place();
    if kind.1 != UDP {
        write_word(&mut packet, field, random.pick(&[0x0000, 0xFFFF]));
    }
    packet
}

/// An edit that a good packet may be given, as a case: half of the new bytes are zeros, half anything.
fn any_edit(packet: &[u8], random: &mut Random) -> Case {
    let view = View::new(packet);
    let operation = random.pick(&[LIFETIME, ADDRESS, ADDRESS, STRETCH, STRETCH, STRETCH]);
    let (number, length) = match operation {
        LIFETIME => (0, 0),
        ADDRESS => (random.between(0, 1), view.address_length()),
        _ => {
            let length = random.between(1, view.body_length());
            (random.between(0, view.body_length() - length), length)
        }
    };
    let two = if random.once_in(2) { vec![0; length] } else { random.contents(length) };
    Case { operation, source: GIVEN, number: number as u64, one: packet.to_vec(), two }
}

/// Demand 3: after an accepted edit of a good packet, each field that it updates is what the mender writes.
#[test]
fn an_edit_of_a_good_packet_leaves_each_updated_field_fresh() {
    let mut random = Random(40);
    // how many updates started from FFFF, and how many of them where equation 3 answers FFFF: header, then message
    let (mut from_full, mut full) = ([[0; 2]; 6], [[0; 2]; 6]);
    for i in 0..60_000 {
        let mut packet = any_balanced(KINDS[i % 6], &mut random);
        assert_eq!(judge(&packet), 0);
        for _ in 0..4 {
            let case = any_edit(&packet, &mut random);
            let mut desk = Desk::default();
            desk.lay(&case);
            let answer = desk.answer(&case);
            if !answer.starts_with("0 ") {
                assert!(answer.starts_with(if case.operation == LIFETIME { "11 " } else { "12 " }));
                assert_eq!(desk.buffer, packet);
                continue;
            }
            let mut mended = desk.buffer.clone();
            assert_eq!((judge(&mended), mend(&mut mended)), (0, 0));
            for updated in updated_fields(&case, &View::new(&packet)) {
                let field = updated.place..updated.place + 2;
                assert_eq!(desk.buffer[field.clone()], mended[field], "{case:?}");
                from_full[i % 6][usize::from(!updated.header)] += usize::from(updated.field == Field(0xFFFF));
                full[i % 6][usize::from(!updated.header)] += usize::from(updated.from_full_to_zeros());
            }
            packet = desk.buffer;
        }
    }
    for (i, (family, _)) in KINDS.into_iter().enumerate() {
        assert!(from_full[i][1] > 1000 && full[i][1] > 100, "{from_full:?} {full:?}");
        assert!(family == 6 || from_full[i][0] > 1000 && full[i][0] > 100, "{from_full:?} {full:?}");
    }
}

/// UDP's field ends at FFFF in the same corner, and its 0000 in IPv4 stays while the header's FFFF becomes 0000.
#[test]
fn udp_in_the_corner() {
    let mut random = Random(41);
    for family in [4, 6] {
        let length = if family == 4 { 4 } else { 16 };
        for zero in [false, true] {
            let mut packet = Shape::plain((family, UDP), 6).good(&mut random);
            let (message, end) = (View::new(&packet).message_start(), packet.len());
            packet[end - 2..].fill(0xFF);
            packet[message - length..message].fill(0xFF);
            balance_message(&mut packet, family, message);
            let field = View::new(&packet).field_place();
            assert_eq!(packet[field..field + 2], [0xFF, 0xFF]);
            if family == 4 {
                balance_header(&mut packet);
                write_word(&mut packet, HEADER_FIELD, 0xFFFF);
            }
            if zero {
                write_word(&mut packet, field, 0);
            }
            let kept = packet[field..field + 2].to_vec();
            let (verdict, answer) = if !zero { (0, 0) } else { (if family == 4 { 1 } else { 8 }, family / 6 * 8) };
            assert_eq!(judge(&packet), verdict);
            assert_eq!(set_stretch(&mut packet, 4, &[0, 0]), answer);
            assert_eq!(set_address(&mut packet, 1, &[0; 16][..length]), answer);
            assert_eq!(packet[field..field + 2], kept);
            assert!(family == 6 || packet[HEADER_FIELD..HEADER_FIELD + 2] == [0, 0]);
            assert_eq!(judge(&packet), verdict);
        }
    }
}

/// An edit never mends: where the sums were wrong before they are wrong afterwards, in this corner too.
#[test]
fn a_damaged_packet_in_the_corner_stays_damaged() {
    let mut random = Random(42);
    for (family, protocol) in KINDS {
        for header in [false, true] {
            let mut packet = Shape::plain((family, protocol), 5).good(&mut random);
            let (message, end) = (View::new(&packet).message_start(), packet.len());
            packet[end - 3..].copy_from_slice(&[0x80, 0xFF, 0x7F]);
            balance_message(&mut packet, family, message);
            let field = View::new(&packet).field_place();
            write_word(&mut packet, field, 0xFFFF);
            packet[if header { 1 } else { message }] ^= 4;
            let verdict = if !header {
                9
            } else if family == 4 {
                5
            } else {
                0
            };
            assert_eq!(judge(&packet), verdict);
            assert_eq!(set_stretch(&mut packet, 2, &[0, 0, 0]), 0);
            assert_eq!(packet[field..field + 2], if protocol == UDP { [0xFF, 0xFF] } else { [0, 0] });
            assert_eq!(judge(&packet), verdict);
        }
    }
}

/// The mender is no update: a blank message's fresh field is FFFF, and no edit takes it away.
#[test]
fn a_blank_icmp_messages_ffff_stays() {
    let mut random = Random(43);
    let mut packet = Shape::plain((4, ICMP), 4).good(&mut random);
    packet[20..].fill(0);
    packet[12..16].fill(0xFF);
    balance_header(&mut packet);
    write_word(&mut packet, HEADER_FIELD, 0xFFFF);
    assert_eq!((judge(&packet), &packet[22..24]), (0, &[0xFF, 0xFF][..]));
    assert_eq!(set_address(&mut packet, 0, &[0; 4]), 0);
    assert_eq!((&packet[10..12], &packet[22..24]), (&[0, 0][..], &[0xFF, 0xFF][..]));
    assert_eq!(lower_lifetime(&mut packet), 0);
    assert_eq!(set_stretch(&mut packet, 0, &[0, 0]), 12);
    let edited = packet.clone();
    assert_eq!((judge(&packet), mend(&mut packet)), (0, 0));
    assert_eq!(packet, edited);
}

/// ICMP whose one word besides its field is FFFF can't lose it, and keeps its field.
#[test]
fn the_last_word_of_an_icmp_message_is_no_update() {
    let mut random = Random(44);
    let mut packet = Shape::plain((4, ICMP), 2).good(&mut random);
    packet[20..28].fill(0);
    packet[28..].fill(0xFF);
    write_word(&mut packet, 22, 0xFFFF);
    let before = packet.clone();
    assert_eq!(judge(&packet), 0);
    assert_eq!(set_stretch(&mut packet, 0, &[0, 0]), 12);
    assert_eq!(packet, before);
    assert_eq!(set_stretch(&mut packet, 0, &[0xFF, 0xFF]), 0);
    assert_eq!(packet[22..24], [0, 0]);
}
