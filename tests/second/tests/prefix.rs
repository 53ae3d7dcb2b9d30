// The prefix exchange: RFC 6296's example by hand, what is refused, and laws on random packets.

use second::answer::{exchange_payload, Case, GIVEN, PREFIX};
use second::between::{put_between, Link};
use second::cover::Cover;
use second::draft::{balance_message, faults_of, refresh, spoil, write_word, Shape, KINDS};
use second::edit::{lower_lifetime, set_address, set_stretch};
use second::judge::judge;
use second::mend::{fresh_message_field, mend};
use second::mistakes::prefix::{ones_complement, Asked, PREFIX_MISTAKES};
use second::packet::{View, ICMPV6, TCP, UDP};
use second::prefix::{address_place, beginning, class, exchange_prefix, exchanged, fitting_words};
use second::random::Random;
use second::sums::{equation_3, field, fold, total, Field, Fold};

const SIX: [(u8, u8); 3] = [(6, TCP), (6, UDP), (6, ICMPV6)];

/// RFC 6296's printed example: prefixes and a host's address, inside and outside.
const INSIDE: [u8; 6] = [0xFD, 0x01, 0x02, 0x03, 0x04, 0x05];
const OUTSIDE: [u8; 6] = [0x20, 0x01, 0x0D, 0xB8, 0x00, 0x01];
const HOST_INSIDE: [u16; 8] = [0xFD01, 0x0203, 0x0405, 0x0001, 0, 0, 0, 0x1234];
const HOST_OUTSIDE: [u16; 8] = [0x2001, 0x0DB8, 0x0001, 0xD550, 0, 0, 0, 0x1234];

const SOMEBODY: [u16; 8] = [0x2001, 0x0DB8, 0x0002, 0, 0, 0, 0, 1];

/// UDP with "Hi", between the host and somebody.
const DATAGRAM: [u8; 10] = [0x13, 0x88, 0x13, 0x89, 0, 0x0A, 0x4D, 0x65, 0x48, 0x69];

fn address(words: [u16; 8]) -> Vec<u8> {
    words.iter().flat_map(|word| word.to_be_bytes()).collect()
}

/// An IPv6 packet with a lifetime of 64.
fn packet(source: [u16; 8], destination: [u16; 8], next: u8, message: &[u8]) -> Vec<u8> {
    let head = [0x60, 0, 0, 0, 0, message.len() as u8, next, 64];
    [&head[..], &address(source), &address(destination), message].concat()
}

/// The host's datagram to somebody, as it is inside.
fn from_inside() -> Vec<u8> {
    packet(HOST_INSIDE, SOMEBODY, 17, &DATAGRAM)
}

fn prefix(packet: &[u8], side: u32) -> Vec<u8> {
    beginning(packet, side, 6)
}

/// The word behind a prefix.
fn word(packet: &[u8], side: u32) -> u16 {
    View::new(packet).word(address_place(side) + 6)
}

fn fold_of(bytes: &[u8]) -> u16 {
    fold(total(bytes)).0
}

/// What a call answers; if it is refused, it changes nothing.
fn answer(packet: &[u8], side: u32, expected: &[u8], new: &[u8]) -> u8 {
    let mut after = packet.to_vec();
    let answer = exchange_prefix(&mut after, side, expected, new);
    assert!(answer == 0 || after == packet);
    answer
}

/// A packet, mostly of IPv6, with prefixes and words often at a corner; now and then with a field of FFFF where 0000
/// would be fresh, and else every third time with a fault.
fn any_packet(random: &mut Random) -> Vec<u8> {
    let kind = if random.once_in(10) { random.pick(&KINDS) } else { random.pick(&SIX) };
    let body = random.between(0, 20);
    let shape = Shape::any(kind, body, random);
    let mut packet = shape.good(random);
    for side in [0, 1].into_iter().filter(|_| kind.0 == 6) {
        packet[address_place(side)..][..6].copy_from_slice(&random.contents(6));
        let corner = random.pick(&[0, 1, 0x7FFF, 0x8000, 0xFFFE, 0xFFFF]);
        if random.once_in(3) {
            write_word(&mut packet, address_place(side) + 6, corner);
        }
    }
    refresh(&mut packet, kind.0);
    if body > 1 && random.once_in(8) {
        balance_message(&mut packet, kind.0, shape.headers());
        let field = View::new(&packet).field_place();
        write_word(&mut packet, field, 0xFFFF);
    } else if random.once_in(3) {
        let fault = random.pick(&faults_of(kind));
        spoil(&mut packet, kind.0, &[fault], random);
    }
    packet
}

/// Exchanges that are done in random packets: the packet before, the side, the new prefix, and the packet afterwards.
fn done(seed: u64, count: usize, mut law: impl FnMut(&[u8], u32, &[u8], &[u8])) {
    let mut random = Random(seed);
    let mut left = count;
    while left > 0 {
        let (before, side, new) = (any_packet(&mut random), random.between(0, 1) as u32, random.contents(6));
        let mut after = before.clone();
        if exchange_prefix(&mut after, side, &prefix(&before, side), &new) == 0 {
            law(&before, side, &new, &after);
            left -= 1;
        }
    }
}

/// The RFC's work: the checksums of the prefixes are FCF5 and D245, and D245 less FCF5 is D54F, which the word 0001 is
/// increased by; for the way back it is 2AB0.
#[test]
fn rfc_6296_printed_example() {
    let checksum = |prefix: &[u8]| field(fold(total(prefix))).0;
    let less = |a: u16, b: u16| fold(u128::from(a) + u128::from(65535 - b));
    assert_eq!((checksum(&INSIDE), checksum(&OUTSIDE)), (0xFCF5, 0xD245));
    assert_eq!((less(0xD245, 0xFCF5), less(0xFCF5, 0xD245)), (Fold(0xD54F), Fold(0x2AB0)));
    assert_eq!((fold(0x0001 + 0xD54F), fold(0xD550 + 0x2AB0)), (Fold(0xD550), Fold(0x0001)));
    assert_eq!(exchanged(&address(HOST_INSIDE), &OUTSIDE), address(HOST_OUTSIDE));
    assert_eq!(exchanged(&address(HOST_OUTSIDE), &INSIDE), address(HOST_INSIDE));
}

/// The words of either address of the host add up to 1153E, those of the other to 2DBC, the rest of the pseudo-header
/// to 1B, and the datagram's without its field to 6F84: 1B299, so the field is 4D65 inside and outside.
#[test]
fn the_example_as_a_datagram() {
    assert_eq!((total(&address(HOST_INSIDE)), total(&address(HOST_OUTSIDE))), (0x1153E, 0x1153E));
    assert_eq!(field(fold(0x1153E + 0x2DBC + 0x1B + 0x6F84)), Field(0x4D65));
    let (inside, outside) = (from_inside(), packet(HOST_OUTSIDE, SOMEBODY, 17, &DATAGRAM));
    assert_eq!((judge(&inside), judge(&outside)), (0, 0));
    let mut sent = inside.clone();
    assert_eq!((exchange_prefix(&mut sent, 0, &INSIDE, &OUTSIDE), &sent), (0, &outside));
    assert_eq!((exchange_prefix(&mut sent, 0, &OUTSIDE, &INSIDE), &sent), (0, &inside));
    let mut received = packet(SOMEBODY, HOST_OUTSIDE, 17, &DATAGRAM);
    let there = packet(SOMEBODY, HOST_INSIDE, 17, &DATAGRAM);
    assert_eq!((exchange_prefix(&mut received, 1, &OUTSIDE, &INSIDE), received), (0, there));
}

/// By hand. 0001 and FFFE add up to FFFF, whose class is 0: behind zeros that is the word 0000, where one's complement
/// has FFFF. Zeros and ones have one class, and so have words in another order: the word stays.
#[test]
fn words_by_hand() {
    let exchange = |prefix: [u16; 3], word: u16, new: [u16; 3]| {
        let [a, b, c] = prefix;
        let new: Vec<u8> = new.iter().flat_map(|word| word.to_be_bytes()).collect();
        let after = exchanged(&address([a, b, c, word, 0, 0, 0, 0]), &new);
        assert!(after[..6] == new && after[8..] == [0; 8]);
        u16::from_be_bytes([after[6], after[7]])
    };
    assert_eq!(exchange([0, 0, 1], 0xFFFE, [0, 0, 0]), 0x0000);
    assert_eq!(exchange([0, 0, 0], 0x0000, [0, 0, 1]), 0xFFFE);
    assert_eq!(exchange([0, 0, 0], 0x0000, [0xFFFF; 3]), 0x0000);
    assert_eq!(exchange([0xFFFF; 3], 0x0000, [0, 0, 0]), 0x0000);
    assert_eq!(exchange([0xFFFF; 3], 0xFFFE, [0, 0, 0]), 0xFFFE);
    assert_eq!(exchange([1, 2, 3], 0x0000, [3, 1, 2]), 0x0000);
    assert_eq!(exchange([0x8000, 0x7FFF, 5], 0x0001, [0, 0, 5]), 0x0001);
    assert_eq!(exchange([0, 0, 0], 0x0001, [0, 0, 2]), 0xFFFE);
    assert_eq!(exchange([0, 0, 0], 0x0001, [0, 0, 1]), 0x0000);
    assert_eq!(exchange([0, 0, 2], 0xFFFE, [0, 0, 0]), 0x0001);
    assert_eq!(exchange([0xFFFE, 0, 0], 0x0002, [0, 0, 0]), 0x0001);
    assert_eq!(exchange([0, 0, 0], 0x1234, [0x1234, 0, 0]), 0x0000);
    assert_eq!(exchange([0, 0, 0], 0x1234, [0x1235, 0, 0]), 0xFFFE);
}

/// Of the values 0000 to FFFE just one keeps the class; FFFF does so besides where that one is 0000.
#[test]
fn exactly_one_of_65535_values() {
    let mut random = Random(121);
    let mut zeros = 0;
    for _ in 0..1_000 {
        let (mut before, new) = (random.contents(16), random.contents(6));
        if random.once_in(4) {
            before[8..].fill(0);
        }
        let after = exchanged(&before, &new);
        let fitting: Vec<u16> = fitting_words(&after, class(&before)).collect();
        assert_eq!(fitting, [u16::from_be_bytes([after[6], after[7]])]);
        let full = [&after[..6], &[0xFF; 2], &after[8..]].concat();
        assert_eq!(class(&full) == class(&before), fitting == [0]);
        zeros += u32::from(fitting == [0]);
    }
    assert!(zeros > 20, "{zeros}");
}

/// For every word but FFFF: the one that fits is the remainder of a whole number, the one that RFC 6296 works out, 0000
/// for FFFF, and what equation 3 makes of the word as if it were a field.
#[test]
fn the_fitting_word_worked_out() {
    let mut random = Random(122);
    for _ in 0..200 {
        let [old, new] = [(); 2].map(|()| random.contents(6));
        let (m, n) = (fold_of(&old), fold_of(&new));
        for word in 0..=0xFFFE {
            let by_rfc = ones_complement(word, m, n) % 0xFFFF;
            let whole = (u32::from(word) + 65535 + u32::from(m) - u32::from(n)) % 65535;
            assert_eq!((by_rfc, u32::from(by_rfc)), (equation_3(Field(word), Fold(m), Fold(n)).0, whole));
        }
        let before = [&old[..], &random.contents(10)].concat();
        let word = u16::from_be_bytes([before[6], before[7]]);
        let by_rfc = (ones_complement(word, m, n) % 0xFFFF).to_be_bytes();
        assert_eq!(exchanged(&before, &new)[6..8], by_rfc);
    }
}

/// Prefixes that aren't, each bit of the expected one off, sides that there aren't, and a word of FFFF.
#[test]
fn what_is_refused_with_10() {
    let inside = from_inside();
    let whole = address(HOST_INSIDE);
    for (expected, new) in (0..=16).flat_map(|expected| (0..=16).map(move |new| (expected, new))) {
        let verdict = if (expected, new) == (6, 6) { 0 } else { 10 };
        assert_eq!(answer(&inside, 0, &whole[..expected], &whole[..new]), verdict);
    }
    for bit in 0..48 {
        let mut off = INSIDE;
        off[bit / 8] ^= 1 << (bit % 8);
        assert_eq!(answer(&inside, 0, &off, &OUTSIDE), 10);
    }
    assert_eq!((answer(&inside, 1, &INSIDE, &OUTSIDE), answer(&inside, 1, &prefix(&inside, 1), &OUTSIDE)), (10, 0));
    for side in [2, 3, 256, 65_536, 1 << 31, u32::MAX] {
        assert!([&INSIDE, &OUTSIDE].into_iter().all(|expected| answer(&inside, side, expected, &OUTSIDE) == 10));
    }
    assert_eq!(answer(&inside, 2, &inside[40..46], &OUTSIDE), 10);
    for (word, verdict) in [(0x0000, 0), (0x00FF, 0), (0xFF00, 0), (0xFFFE, 0), (0xFFFF, 10)] {
        let mut other = inside.clone();
        write_word(&mut other, 14, word);
        let answers = [&OUTSIDE, &INSIDE].map(|new| answer(&other, 0, &INSIDE, new));
        assert_eq!((answers, answer(&other, 1, &prefix(&other, 1), &INSIDE)), ([verdict; 2], 0));
    }
}

/// Packets and what is answered: where all that is given is right, where nothing is, and with a word of FFFF.
#[test]
fn what_is_refused_first() {
    let inside = from_inside();
    let with = |changes: &[(usize, u8)]| {
        let mut packet = inside.clone();
        changes.iter().for_each(|(place, byte)| packet[*place] = *byte);
        packet
    };
    let mut nine = inside.clone();
    put_between(&mut nine, &vec![Link { number: 60, bytes: vec![0; 8] }; 9]);
    let refused = [
        (vec![], 2),
        (with(&[(0, 0x40)]), 3),
        (with(&[(0, 0x50)])[..1].to_vec(), 3),
        (with(&[(0, 0x45)])[..20].to_vec(), 3),
        (inside[..1].to_vec(), 2),
        (inside[..39].to_vec(), 2),
        (with(&[(6, 44)])[..39].to_vec(), 2),
        (inside[..49].to_vec(), 2),
        (with(&[(5, 11)]), 2),
        (with(&[(4, 1), (6, 44)]), 2),
        (with(&[(6, 44)]), 6),
        (with(&[(6, 44), (5, 0)]), 6),
        (nine, 7),
        (with(&[(6, 43), (41, 0), (43, 1)]), 7),
        (with(&[(6, 43), (41, 1), (43, 1)]), 4),
        (with(&[(6, 60), (41, 1)]), 4),
        (with(&[(6, 1)]), 7),
        (with(&[(6, 59), (5, 0)]), 7),
        (with(&[(5, 7)]), 4),
        (with(&[(5, 0)]), 4),
        (with(&[(45, 7), (46, 0), (47, 0)]), 4),
        (with(&[(45, 11)]), 4),
        (with(&[(46, 0), (47, 0)]), 8),
    ];
    for (packet, verdict) in refused {
        assert_eq!(answer(&packet, 0, &INSIDE, &OUTSIDE), verdict, "{packet:02X?}");
        assert_eq!(answer(&packet, 2, &OUTSIDE, &[]), verdict);
        let mut full = packet.clone();
        full.iter_mut().skip(14).take(2).for_each(|byte| *byte = 0xFF);
        assert_eq!(answer(&full, 0, &INSIDE, &OUTSIDE), verdict);
    }
    // a lifetime of 0, a wrong sum, a tail and a trailing area are nothing to it
    for packet in [with(&[(7, 0)]), with(&[(46, 1)]), [&inside[..], &[0xFF; 3]].concat(), with(&[(45, 8)])] {
        let mut after = packet.clone();
        assert_eq!(exchange_prefix(&mut after, 0, &INSIDE, &OUTSIDE), 0);
        assert_eq!((judge(&after), &after[40..]), (judge(&packet), &packet[40..]));
    }
}

/// What the address edit refuses first in IPv6 is refused alike, and other versions are 3, IPv4 among them.
#[test]
fn refused_as_by_the_address_edit() {
    let mut random = Random(123);
    let mut met = [0; 12];
    for _ in 0..20_000 {
        let packet = any_packet(&mut random);
        let (side, mut addressed) = (random.between(0, 2) as u32, packet.clone());
        let by_address = set_address(&mut addressed, side, &[7; 16]);
        let verdict = answer(&packet, side, &prefix(&packet, side), &OUTSIDE);
        match View::new(&packet).version() {
            6 if ![0, 10].contains(&by_address) => assert_eq!(verdict, by_address),
            6 => assert!(verdict == 0 && by_address == 0 || verdict == 10),
            _ => assert_eq!(verdict, if packet.is_empty() { 2 } else { 3 }),
        }
        met[usize::from(verdict)] += 1;
    }
    assert!([0, 2, 3, 4, 6, 7, 8, 10].into_iter().all(|verdict: usize| met[verdict] > 20), "{met:?}");
}

/// Six bytes are the new prefix, two may change, and no others do: no field and nothing behind.
#[test]
fn eight_bytes_change_and_the_class_is_kept() {
    let mut changed = [0; 3];
    done(124, 5_000, |before, side, new, after| {
        let place = address_place(side);
        assert_eq!(
            (prefix(after, side), &after[..place], &after[place + 8..]),
            (new.to_vec(), &before[..place], &before[place + 8..])
        );
        let [was, is] = [before, after].map(|packet| class(&packet[place..place + 16]));
        assert!(was == is && word(after, side) != 0xFFFF);
        let same_class = class(&prefix(before, side)) == class(new);
        assert_eq!(word(before, side) == word(after, side), same_class);
        changed[if before == after { 0 } else { 1 + usize::from(!same_class) }] += 1;
    });
    assert!(changed.iter().all(|count| *count > 100), "{changed:?}");
}

#[test]
fn the_verdict_is_kept_and_a_fresh_field_stays_fresh() {
    let mut met = [[0; 2]; 10];
    done(125, 5_000, |before, _, _, after| {
        assert_eq!(judge(before), judge(after));
        let [was, is] = [before, after].map(|packet| fresh_message_field(&View::new(packet)));
        assert_eq!(was, is);
        let fresh = Field(View::new(after).word(View::new(after).field_place())) == is;
        met[usize::from(judge(after))][usize::from(fresh)] += 1;
    });
    assert!(met[0][1] > 3_000 && met[0][0] > 100 && met[9][0] > 100, "{met:?}");
}

/// Back to the byte, by way of another prefix too, which makes no difference.
#[test]
fn exchanging_back_restores() {
    let mut random = Random(126);
    done(127, 3_000, |before, side, new, after| {
        let (old, other) = (prefix(before, side), random.contents(6));
        let mut back = after.to_vec();
        assert_eq!((exchange_prefix(&mut back, side, new, &old), &back[..]), (0, before));
        let mut by_way = before.to_vec();
        assert_eq!(exchange_prefix(&mut by_way, side, &old, &other), 0);
        assert_eq!((exchange_prefix(&mut by_way, side, &other, new), &by_way[..]), (0, after));
        let mut same = after.to_vec();
        assert_eq!((exchange_prefix(&mut same, side, new, new), &same[..]), (0, after));
    });
}

/// A call that may write.
type Call<'a> = &'a dyn Fn(&mut [u8]) -> u8;

/// An exchange can come before another edit or behind it, on the other side too, and before the mender or behind it.
#[test]
fn exchanges_and_other_calls_in_any_order() {
    let mut random = Random(128);
    done(129, 2_000, |before, side, new, after| {
        let (bytes, other) = (random.contents(16), 1 - side);
        let place = random.between(0, 9) as u64;
        let calls: [Call; 5] = [
            &mend,
            &lower_lifetime,
            &|packet| set_address(packet, other, &bytes),
            &|packet| set_stretch(packet, place, &bytes[..3]),
            &|packet| exchange_prefix(packet, other, &prefix(packet, other), &bytes[..6]),
        ];
        for call in calls {
            let (mut one, mut two) = (before.to_vec(), after.to_vec());
            assert_eq!(call(&mut one), call(&mut two));
            assert_eq!(exchange_prefix(&mut one, side, &prefix(before, side), new), 0);
            assert_eq!(one, two);
        }
    });
}

/// The address edit with the new address does the same, but that it makes 0000 of a field of FFFF, UDP's aside.
#[test]
fn the_address_edit_with_the_new_address() {
    let mut met = [0; 2];
    done(130, 5_000, |before, side, _, after| {
        let mut edited = before.to_vec();
        assert_eq!(set_address(&mut edited, side, &after[address_place(side)..][..16]), 0);
        let field = View::new(before).field_place();
        let full = View::new(before).word(field) == 0xFFFF && View::new(before).protocol() != UDP;
        let mut wanted = after.to_vec();
        if full {
            write_word(&mut wanted, field, 0);
        }
        met[usize::from(full)] += 1;
        assert_eq!(edited, wanted);
    });
    assert!(met.iter().all(|count| *count > 100), "{met:?}");
}

/// A word of FFFF in place of 0000 would keep the verdict as well, but nothing could be exchanged back.
#[test]
fn ffff_could_not_be_exchanged_back() {
    let mut sent = packet([0, 0, 1, 0xFFFE, 0, 0, 0, 0], SOMEBODY, 17, &DATAGRAM);
    refresh(&mut sent, 6);
    let before = sent.clone();
    assert_eq!((exchange_prefix(&mut sent, 0, &[0, 0, 0, 0, 0, 1], &INSIDE), judge(&sent)), (0, 0));
    assert_eq!((exchange_prefix(&mut sent, 0, &INSIDE, &[0; 6]), judge(&sent), word(&sent, 0)), (0, 0, 0x0000));
    let mut full = sent.clone();
    write_word(&mut full, 14, 0xFFFF);
    assert_eq!((judge(&full), answer(&full, 0, &[0; 6], &INSIDE)), (0, 10));
    assert_eq!((exchange_prefix(&mut sent, 0, &[0; 6], &[0, 0, 0, 0, 0, 1]), sent), (0, before));
}

/// A random exchange, done or refused: what is asked of a packet.
fn any_asked(random: &mut Random) -> (Vec<u8>, u32, Vec<u8>, Vec<u8>) {
    let (packet, side) = (any_packet(random), random.pick(&[0, 0, 1, 1, 2]));
    let (mut expected, mut new) = (prefix(&packet, side.min(1)), random.contents(6));
    let length = random.between(0, 16);
    match random.between(0, 9) {
        0 => expected = beginning(&packet, side, length),
        1 => expected[random.between(0, 5)] ^= 1,
        2 => new = random.contents(length),
        // the word comes to 0000, or a mistake makes FFFF of it
        3 => {
            let missing = (u32::from(word(&packet, side.min(1))) + class(&expected)) % 65535;
            new = [&[0; 4][..], &(missing as u16).to_be_bytes()].concat();
        }
        _ => {}
    }
    (packet, side, expected, new)
}

/// What the generator's check says of an exchange with this outcome.
fn impossible(number: u64, two: &[u8], before: &[u8], (verdict, after): &(u8, Vec<u8>)) -> bool {
    let case = Case { operation: PREFIX, source: GIVEN, number, one: before.to_vec(), two: two.to_vec() };
    let mut cover = Cover::default();
    cover.note(&case, before, after, &format!("{verdict} 0\n"));
    cover.check().unwrap_err().starts_with("the paper makes this impossible: ")
}

/// Each mistake leads to another outcome now and then, which the generator refuses, as it doesn't the right one.
#[test]
fn mistakes_are_told_from_the_exchange() {
    let mut random = Random(131);
    let mut told = [0; PREFIX_MISTAKES.len()];
    for _ in 0..6_000 {
        let (before, side, expected, new) = any_asked(&mut random);
        let mut after = before.clone();
        let right = (exchange_prefix(&mut after, side, &expected, &new), after);
        let asked = Asked { before: View::new(&before), side, expected: &expected, new: &new, right };
        let (number, two) = exchange_payload(side, &expected, &new);
        for (count, mistake) in told.iter_mut().zip(&PREFIX_MISTAKES) {
            let outcome = (mistake.outcome)(&asked);
            if outcome == asked.right {
                continue;
            }
            *count += 1;
            if *count <= 5 {
                assert!(impossible(number, &two, &before, &outcome), "{}", mistake.name);
                assert!(!impossible(number, &two, &before, &asked.right));
            }
        }
    }
    assert!(told.iter().all(|count| *count >= 20), "{told:?}");
}
