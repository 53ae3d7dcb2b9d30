// Packets that are built: the paper's example 11 and its like over IPv6 by hand, what is refused and in which order, and
// laws on random parts, with the headers read back as RFC 791, 8200 and 768 draw them.

use second::answer::{build_payload, Case, BUILD, GIVEN};
use second::build::{build_udp, Parts, MOST};
use second::capture::printed;
use second::cases::build::{Status, CORNER_SUMS, LIFETIMES, PORTS, SIZES};
use second::cover::Cover;
use second::edit::{lower_lifetime, set_address, set_stretch};
use second::fragments::{judge_fragments, Record};
use second::judge::judge;
use second::mend::mend;
use second::mistakes::build::{Asked, Outcome, BUILD_MISTAKES};
use second::prefix::{beginning, exchange_prefix};
use second::random::Random;
use second::sums::Field;
use std::collections::BTreeMap;

/// Example 11: the words of the header add up to 0749, those of the pseudo-header and the datagram to F1B8.
#[rustfmt::skip]
const EXAMPLE: [u8; 30] = [
    0x45, 0, 0, 0x1E, 0, 0, 0, 0, 0x40, 0x11, 0xF8, 0xB6, 0xC0, 0xA8, 0, 1, 0xC0, 0xA8, 0, 0xC7,
    0x13, 0x88, 0x13, 0x89, 0, 0x0A, 0x0E, 0x47, 0x48, 0x69,
];

const INSIDE: [u8; 16] = [0x20, 1, 0x0D, 0xB8, 0, 0, 0, 0, 0, 0, 0, 0, 0, 0, 0, 1];
const OUTSIDE: [u8; 16] = [0x20, 1, 0x0D, 0xB8, 0, 0, 0, 0, 0, 0, 0, 0, 0, 0, 0, 2];

/// The example's parts, over IPv4.
fn over_4(body: &[u8]) -> Parts<'_> {
    Parts {
        source: &EXAMPLE[12..16],
        destination: &EXAMPLE[16..20],
        source_port: 0x1388,
        destination_port: 0x1389,
        lifetime: 64,
        body,
    }
}

/// The same over IPv6, between two other hosts.
fn over_6(body: &[u8]) -> Parts<'_> {
    Parts { source: &INSIDE, destination: &OUTSIDE, ..over_4(body) }
}

/// The outcome of a build in a buffer.
fn outcome(parts: &Parts, before: &[u8]) -> Outcome {
    let mut buffer = before.to_vec();
    let (verdict, length) = build_udp(parts, &mut buffer);
    (verdict, length, buffer)
}

/// The verdict where the packet is refused, which changes nothing and tells no length.
fn refused(parts: &Parts, room: usize) -> u8 {
    let before: Vec<u8> = (1..=255).cycle().take(room).collect();
    let (verdict, length, after) = outcome(parts, &before);
    assert!(verdict != 0 && length == 0 && after == before, "{verdict} {length}");
    verdict
}

/// The packet that is built where there is more room than it takes.
fn built(parts: &Parts) -> Vec<u8> {
    let before: Vec<u8> = (1..=255).cycle().take(1_500).collect();
    let (verdict, length, mut after) = outcome(parts, &before);
    assert_eq!((verdict, &after[length..]), (0, &before[length..]));
    after.truncate(length);
    after
}

/// Any parts that are taken: a sum, or a header's, is often at a corner.
fn any_taken(random: &mut Random) -> Status {
    let (size, any) = (random.pick(&[4, 16]), random.between(0, MOST));
    let short = random.between(0, 30);
    let length = random.pick(&[0, 1, 2, short, short, short, any, MOST - 1, MOST]);
    let mut status = Status::any(size, length, random);
    if random.once_in(4) {
        (status.source_port, status.destination_port) = (random.pick(&PORTS), random.pick(&PORTS));
    }
    match random.between(0, 5) {
        0 if size == 4 => status.balance_header(random.pick(&CORNER_SUMS)),
        1 | 2 if length > 1 => status.balance(random.between(0, length / 2 - 1) * 2, random.pick(&CORNER_SUMS)),
        3 => status.balance_port(random.pick(&CORNER_SUMS)),
        _ => {}
    }
    status
}

/// Any parts and any buffer, with faults now and then.
fn any_asked(random: &mut Random) -> (Status, Vec<u8>) {
    let mut status = any_taken(random);
    let size = random.pick(&[0, 3, 4, 4, 5, 16, 16, 17, 260, 272]);
    match random.between(0, 11) {
        0 => status.source = random.contents(size),
        1 => status.destination = random.contents(size),
        2 => (status.source, status.destination) = (random.contents(size), random.contents(size)),
        3 => status.body = random.contents(MOST + 1),
        _ => {}
    }
    if random.once_in(4) {
        status.lifetime = random.pick(&LIFETIMES);
    }
    let (needed, less) = (status.parts().length(), random.between(1, 45));
    let room =
        random.pick(&[needed, needed, needed + 1, needed + 7, needed + 7, needed - 1, needed - less.min(needed)]);
    let buffer = random.bytes(room);
    (status, buffer)
}

#[test]
fn example_11_built() {
    assert_eq!(built(&over_4(&[0x48, 0x69])), EXAMPLE);
    assert_eq!(outcome(&over_4(&[0x48, 0x69]), &[0xEE; 30]), (0, 30, EXAMPLE.to_vec()));
    let full = built(&over_4(&[0x56, 0xB0]));
    assert_eq!(over_4(&[0x56, 0xB0]).computed_sum(), Field(0x0000));
    assert_eq!((&full[..26], &full[26..]), (&EXAMPLE[..26], &[0xFF, 0xFF, 0x56, 0xB0][..]));
    assert_eq!((judge(&EXAMPLE), judge(&full)), (0, 0));
}

/// The words of the two addresses add up to 5B75, the rest of the pseudo-header to 1B, and the datagram's, its field
/// and its body aside, to 271B: 82AB. With 4869 it is CB14, so the field is 34EB; with 7D54 it is FFFF.
#[test]
fn the_example_over_ipv6() {
    let head = [0x60, 0, 0, 0, 0, 0x0A, 17, 64];
    for (body, field) in [([0x48, 0x69], [0x34, 0xEB]), ([0x7D, 0x54], [0xFF, 0xFF])] {
        let ports = [0x13, 0x88, 0x13, 0x89, 0, 0x0A];
        let by_hand = [&head[..], &INSIDE, &OUTSIDE, &ports, &field, &body].concat();
        assert_eq!((built(&over_6(&body)), by_hand.len(), judge(&by_hand)), (by_hand.clone(), 50, 0));
    }
    assert_eq!(over_6(&[0x7D, 0x54]).computed_sum(), Field(0x0000));
}

/// Nothing but headers: a datagram of 8 bytes.
#[test]
fn an_empty_body() {
    let four = built(&over_4(&[]));
    assert_eq!((&four[..4], &four[24..26], four.len(), judge(&four)), (&[0x45, 0, 0, 28][..], &[0, 8][..], 28, 0));
    let six = built(&over_6(&[]));
    assert_eq!((&six[4..6], &six[44..46], six.len(), judge(&six)), (&[0, 8][..], &[0, 8][..], 48, 0));
}

/// Every pairing of 0, 4, 5, 16 and 17 bytes, and of others: two of 4 and two of 16 are taken.
#[test]
fn sizes_of_addresses() {
    let many = [0; 300];
    for (source, destination) in SIZES.into_iter().flat_map(|source| SIZES.map(|destination| (source, destination))) {
        let parts = Parts { source: &many[..source], destination: &many[..destination], ..over_4(&[1, 2, 3]) };
        match (source, destination) {
            (4, 4) => assert_eq!(built(&parts).len(), 31),
            (16, 16) => assert_eq!(built(&parts).len(), 51),
            _ => {
                for (lifetime, room) in [(1, 1_500), (0, 1_500), (1, 3), (0, 0)] {
                    assert_eq!(refused(&Parts { lifetime, ..parts }, room), 10, "{source} {destination}");
                }
            }
        }
    }
    let mut taken = Vec::new();
    for (source, destination) in (0..300).flat_map(|size| [(size, size), (size, 4), (16, size), (4, size), (size, 16)])
    {
        let parts = Parts { source: &many[..source], destination: &many[..destination], ..over_4(&[]) };
        let (verdict, length, _) = outcome(&parts, &[0; 60]);
        assert_eq!(verdict == 0, length > 0);
        taken.extend((verdict == 0).then_some((source, destination, length)));
    }
    taken.sort_unstable();
    taken.dedup();
    assert_eq!(taken, [(4, 4, 28), (16, 16, 48)]);
}

#[test]
fn lengths_of_the_body() {
    let many = vec![0x5A; 70_000];
    for length in [0, 1, 2, MOST - 1, MOST] {
        assert_eq!(built(&over_4(&many[..length])).len(), 28 + length);
        assert_eq!(built(&over_6(&many[..length])).len(), 48 + length);
    }
    for length in [MOST + 1, MOST + 2, 1_472, 65_507, 65_508, 65_527, 65_536, 65_540, 70_000] {
        for parts in [over_4(&many[..length]), over_6(&many[..length])] {
            assert_eq!((refused(&parts, 70_100), refused(&parts, 0)), (10, 10));
            assert_eq!(refused(&Parts { lifetime: 0, ..parts }, 70_100), 10);
        }
    }
}

/// A buffer of every length: a byte less than the packet is too small, and no byte behind it is written.
#[test]
fn room() {
    for (parts, needed) in [(over_4(&[7; 5]), 33), (over_6(&[7; 5]), 53), (over_4(&[7; 6]), 34), (over_6(&[7; 6]), 54)]
    {
        for room in 0..needed {
            assert_eq!(refused(&parts, room), 16);
        }
        let packet = built(&parts);
        for (room, fill) in (needed..needed + 9).flat_map(|room| [(room, 0), (room, 0xFF), (room, 0x5A)]) {
            let behind = vec![fill; room - needed];
            assert_eq!(outcome(&parts, &vec![fill; room]), (0, needed, [&packet[..], &behind].concat()));
        }
    }
}

/// A lifetime of 0 is 11 whatever room there is, and 10 where anything is 10; a lifetime of 1 is one.
#[test]
fn a_lifetime_of_0_beside_each_other_fault() {
    let long = [0; MOST + 1];
    for parts in [over_4(&[9]), over_6(&[9])] {
        let spent = Parts { lifetime: 0, ..parts };
        assert_eq!((refused(&spent, 1_500), refused(&spent, parts.length())), (11, 11));
        assert_eq!((refused(&spent, parts.length() - 1), refused(&spent, 0)), (11, 11));
        for room in [0, parts.length() - 1, 1_500] {
            assert_eq!(refused(&Parts { source: &long[..5], ..spent }, room), 10);
            assert_eq!(refused(&Parts { destination: &long[..0], ..spent }, room), 10);
            assert_eq!(refused(&Parts { destination: &long[..20 - parts.source.len()], ..spent }, room), 10);
            assert_eq!(refused(&Parts { body: &long, ..spent }, room), 10);
        }
        let last = built(&Parts { lifetime: 1, ..parts });
        assert_eq!((judge(&last), lower_lifetime(&mut last.clone())), (0, 11));
    }
}

/// The first that applies of four tests, written down once more.
#[test]
fn the_first_refusal_decides() {
    let (mut random, mut met) = (Random(131), BTreeMap::new());
    for _ in 0..20_000 {
        let (status, buffer) = any_asked(&mut random);
        let (source, destination) = (status.source.len(), status.destination.len());
        let four = source == 4 && destination == 4;
        let verdict = if !(four || source == 16 && destination == 16) || status.body.len() > 1_400 {
            10
        } else if status.lifetime == 0 {
            11
        } else if buffer.len() < if four { 28 } else { 48 } + status.body.len() {
            16
        } else {
            0
        };
        let (answer, length, after) = outcome(&status.parts(), &buffer);
        assert_eq!(answer, verdict);
        assert!(answer == 0 || length == 0 && after == buffer);
        *met.entry((verdict, source == 4)).or_insert(0) += 1;
    }
    assert!(met.len() == 8 && met.values().all(|count| *count > 100), "{met:?}");
}

/// A big-endian word.
fn word(bytes: &[u8], place: usize) -> u16 {
    u16::from_be_bytes([bytes[place], bytes[place + 1]])
}

/// 16-bit addition with end-around carry, word by word, an odd last byte with a zero behind it.
fn ones_complement_sum(bytes: &[u8]) -> u16 {
    bytes.chunks(2).fold(0_u16, |sum, pair| {
        let (sum, carry) = sum.overflowing_add(u16::from_be_bytes([pair[0], pair.get(1).copied().unwrap_or(0)]));
        sum + u16::from(carry)
    })
}

/// The fields of each header, at the bits where the RFCs draw them; and both sums as a receiver tests them: all ones.
#[test]
fn read_back_by_the_rfcs() {
    let mut random = Random(132);
    for _ in 0..5_000 {
        let status = any_taken(&mut random);
        let packet = built(&status.parts());
        let start = if status.source.len() == 4 { 20 } else { 40 };
        let (header, datagram) = packet.split_at(start);
        let length = 8 + status.body.len();
        let mut block = [&status.source[..], &status.destination].concat();
        if start == 20 {
            assert_eq!((header[0] >> 4, header[0] & 15, header[1]), (4, 5, 0));
            assert_eq!((usize::from(word(header, 2)), word(header, 4), word(header, 6)), (20 + length, 0, 0));
            assert_eq!((header[8], header[9]), (status.lifetime, 17));
            assert_eq!((&header[12..16], &header[16..20]), (&status.source[..], &status.destination[..]));
            assert_eq!(ones_complement_sum(header), 0xFFFF);
            block.extend([0, 17]);
            block.extend((length as u16).to_be_bytes());
        } else {
            assert_eq!((header[0] >> 4, word(header, 0) & 0x0FFF, word(header, 2)), (6, 0, 0));
            assert_eq!((usize::from(word(header, 4)), header[6], header[7]), (length, 17, status.lifetime));
            assert_eq!((&header[8..24], &header[24..40]), (&status.source[..], &status.destination[..]));
            block.extend((length as u32).to_be_bytes());
            block.extend([0, 0, 0, 17]);
        }
        assert_eq!((word(datagram, 0), word(datagram, 2)), (status.source_port, status.destination_port));
        assert_eq!((usize::from(word(datagram, 4)), &datagram[8..]), (length, &status.body[..]));
        assert_ne!(word(datagram, 6), 0);
        block.extend(datagram);
        assert_eq!(ones_complement_sum(&block), 0xFFFF);
    }
}

/// Good for the judge, with anything behind it; left as it is by the mender, whose fields are the fresh ones; as the
/// only record of a capture, and over IPv4 as the only fragment, good too.
#[test]
fn good_and_fresh() {
    let (mut random, mut corners) = (Random(133), [0; 3]);
    for _ in 0..5_000 {
        let status = any_taken(&mut random);
        let packet = built(&status.parts());
        let more = random.between(0, 9);
        let mut with_tail = [packet.clone(), random.bytes(more)].concat();
        let before = with_tail.clone();
        assert_eq!((judge(&packet), judge(&with_tail)), (0, 0));
        assert_eq!((mend(&mut with_tail), with_tail), (0, before));
        let record = [b"GLR\x00\x01", &(packet.len() as u16).to_be_bytes()[..], &packet].concat();
        assert_eq!(printed(&record), "record 1 verdict 0\nrecords 1 good 1 unsummed 0 refused 0\n");
        let four = status.source.len() == 4;
        let list = [Record { offset: 0, length: packet.len() as u64 }];
        assert_eq!(judge_fragments(&packet, &list), if four { 0 } else { 3 });
        corners[0] += u32::from(four && status.parts().computed_sum() == Field(0));
        corners[1] += u32::from(!four && status.parts().computed_sum() == Field(0));
        corners[2] += u32::from(four && status.parts().header_sum() == Field(0));
    }
    assert!(corners.iter().all(|count| *count > 20), "{corners:?}");
}

/// What stood in the buffer has no part in the packet, and a packet built over another leaves what the other had behind.
#[test]
fn whatever_stood_there() {
    let mut random = Random(134);
    for _ in 0..3_000 {
        let (one, other) = (any_taken(&mut random), any_taken(&mut random));
        let (mut buffer, room) = (random.contents(1_448), 1_448);
        let before = buffer.clone();
        let (first, second) = (built(&one.parts()), built(&other.parts()));
        assert_eq!(build_udp(&one.parts(), &mut buffer), (0, first.len()));
        assert_eq!(buffer, [&first[..], &before[first.len()..]].concat());
        assert_eq!(build_udp(&other.parts(), &mut buffer), (0, second.len()));
        let rest = [&first[..], &before[first.len()..]].concat();
        assert_eq!(buffer, [&second[..], &rest[second.len()..room]].concat());
    }
}

/// An edit of a packet that was built makes the packet that is built from the edited parts, to the byte.
#[test]
fn edited_is_built_otherwise() {
    let (mut random, mut done) = (Random(135), [0; 4]);
    for _ in 0..4_000 {
        let status = any_taken(&mut random);
        let (packet, size) = (built(&status.parts()), status.source.len());
        let edited = |edit: &dyn Fn(&mut [u8]) -> u8, parts: &Parts| {
            let mut after = packet.clone();
            assert_eq!((edit(&mut after), after), (0, built(parts)));
        };
        if status.lifetime > 1 {
            edited(&lower_lifetime, &Parts { lifetime: status.lifetime - 1, ..status.parts() });
            done[0] += 1;
        }
        let (new, side) = (random.contents(size), random.between(0, 1));
        let [source, destination] = [&status.source, &status.destination].map(|address| &address[..]);
        let (source, destination) = if side == 0 { (&new[..], destination) } else { (source, &new[..]) };
        edited(&|packet| set_address(packet, side as u32, &new), &Parts { source, destination, ..status.parts() });
        done[1] += 1;
        let place = random.between(0, status.body.len());
        let bytes = random.between(0, status.body.len() - place);
        let (bytes, mut body) = (random.contents(bytes), status.body.clone());
        body[place..place + bytes.len()].copy_from_slice(&bytes);
        edited(&|packet| set_stretch(packet, place as u64, &bytes), &Parts { body: &body, ..status.parts() });
        done[2] += u32::from(!bytes.is_empty());
        let (prefix, mut exchanged) = (random.contents(6), packet.clone());
        if exchange_prefix(&mut exchanged, 0, &beginning(&packet, 0, 6), &prefix) == 0 {
            assert_eq!(exchanged, built(&Parts { source: &exchanged[8..24], ..status.parts() }));
            done[3] += 1;
        }
    }
    assert!(done.iter().all(|count| *count > 1_000), "{done:?}");
}

/// Every word of a body once: the field is never 0000, and FFFF just where it computes to 0000; 0000 and FFFF in the
/// body alone have one field.
#[test]
fn every_field_but_0000() {
    for parts in [over_4(&[0; 4]), over_6(&[0; 4]), over_4(&[0; 3]), over_6(&[0; 3])] {
        let (mut fields, mut body) = (vec![0; 65_536], parts.body.to_vec());
        for word in 0..=0xFFFF_u16 {
            body[..2].copy_from_slice(&word.to_be_bytes());
            let parts = Parts { body: &body, ..parts };
            let packet = parts.packet();
            let place = packet.len() - body.len() - 2;
            let field = u16::from_be_bytes([packet[place], packet[place + 1]]);
            assert_eq!(field == 0xFFFF, parts.computed_sum() == Field(0));
            fields[usize::from(field)] += 1;
            if field == 0xFFFF || word % 97 == 0 {
                assert_eq!(judge(&packet), 0);
            }
        }
        let often = fields.iter().filter(|count| **count == 2).count();
        assert_eq!((fields[0], often, fields.iter().sum::<u32>()), (0, 1, 65_536));
        assert!(fields[1..].iter().all(|count| [1, 2].contains(count)));
    }
}

/// What the generator's check says of a build with this outcome.
fn impossible(status: &Status, before: &[u8], (verdict, length, after): &Outcome) -> bool {
    let (number, two) = build_payload(&status.parts());
    let case = Case { operation: BUILD, source: GIVEN, number, one: before.to_vec(), two };
    let mut cover = Cover::default();
    cover.note(&case, before, after, &format!("{verdict} {length} 0\n"));
    cover.check().unwrap_err().starts_with("the paper makes this impossible: ")
}

/// Each mistake leads to another outcome now and then, in each family that it shows in; the generator refuses it, as it
/// doesn't the right one.
#[test]
fn mistakes_are_told_from_the_build() {
    let (mut random, mut told) = (Random(136), BTreeMap::new());
    for _ in 0..20_000 {
        let (status, before) = any_asked(&mut random);
        let right = outcome(&status.parts(), &before);
        let asked = Asked { parts: status.parts(), before: &before, right };
        for (i, mistake) in BUILD_MISTAKES.iter().enumerate() {
            let wrong = (mistake.outcome)(&asked);
            if wrong == asked.right {
                continue;
            }
            let count = told.entry((i, asked.parts.family())).or_insert(0);
            *count += 1;
            if *count <= 3 {
                assert!(mistake.shows.contains(&asked.parts.family()), "{}: {:?}", mistake.name, asked.parts);
                assert!(impossible(&status, &before, &wrong), "{}: {:?}", mistake.name, asked.parts);
                assert!(!impossible(&status, &before, &asked.right));
            }
        }
    }
    for (i, mistake) in BUILD_MISTAKES.iter().enumerate() {
        for family in mistake.shows {
            assert!(told.get(&(i, *family)) >= Some(&3), "{}, {family:?}: {:?}", mistake.name, told.get(&(i, *family)));
        }
    }
}
