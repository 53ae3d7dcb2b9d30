// IPv6's headers between: hop-by-hop, routing and destination options are walked, and the message is what remains.

use second::answer::{Case, ADDRESS, GIVEN, JUDGE, LIFETIME, MEND, STRETCH};
use second::between::{put_between, Link};
use second::cover::Cover;
use second::draft::{faults_of, refresh, spoil, write_word, Fault, Shape};
use second::edit::{lower_lifetime, set_address, set_stretch};
use second::judge::judge;
use second::mend::{mend, write_field};
use second::mistakes::{looks_like_a_message, BETWEEN_MISTAKES};
use second::packet::{View, ICMPV6, TCP, UDP};
use second::prefix::{beginning, exchange_prefix};
use second::random::Random;

const SIX: [(u8, u8); 3] = [(6, TCP), (6, UDP), (6, ICMPV6)];

/// An IPv6 packet from ::1 to ::1 with a lifetime of 64, this next header, and the payload that is declared.
fn packet(next: u8, payload: &[&[u8]]) -> Vec<u8> {
    let payload = payload.concat();
    let loops = [[0; 15].as_slice(), &[1], &[0; 15], &[1]].concat();
    [&[0x60, 0, 0, 0, 0, payload.len() as u8, next, 64][..], &loops, &payload].concat()
}

/// A header of 8 bytes before another.
fn eight(next: u8) -> [u8; 8] {
    [next, 0, 0, 0, 0, 0, 0, 0]
}

/// The prefix of an address exchanged for another.
fn exchange(packet: &mut [u8], side: u32, new: &[u8]) -> u8 {
    exchange_prefix(packet, side, &beginning(packet, side, 6), new)
}

/// Five calls' answers, with a stretch that is empty; a sixth, the prefix exchange, answers what the address edit does.
/// A refused call changes nothing.
fn answers(packet: &[u8]) -> [u8; 5] {
    let calls: [fn(&mut [u8]) -> u8; 6] = [
        |packet| judge(packet),
        mend,
        |packet| set_address(packet, 0, &[7; 16]),
        |packet| set_stretch(packet, 0, &[]),
        lower_lifetime,
        |packet| exchange(packet, 1, &[7; 6]),
    ];
    let [judged, mended, addressed, stretched, lowered, exchanged] = calls.map(|call| {
        let mut after = packet.to_vec();
        let answer = call(&mut after);
        assert!(answer == 0 || after == packet);
        answer
    });
    assert_eq!(exchanged, addressed);
    [judged, mended, addressed, stretched, lowered]
}

/// A packet with one to eight headers between, good or with a fault behind them; it may be stopped there.
fn any_behind(random: &mut Random) -> Vec<u8> {
    let (kind, body) = (random.pick(&SIX), random.between(0, 20));
    let mut packet = Shape::any_behind(kind, body, random).good(random);
    if random.once_in(2) {
        let fault = random.pick(&faults_of(kind));
        spoil(&mut packet, 6, &[fault], random);
    }
    packet
}

/// A payload of bytes that the walk might go over, every third time far, and a tail.
fn any_payload(random: &mut Random) -> Vec<u8> {
    let (length, tail, far) = (random.between(0, 120), random.pick(&[0, 0, 8, 30]), random.once_in(3));
    let mut packet = Shape::plain((6, UDP), 0).good(random);
    packet.resize(40, 0);
    for place in 40..40 + length + tail {
        let byte = match place % 8 {
            0 if far => random.pick(&[43, 60, 60, 60, 60, 60, 60, 60, 60, 60, 60, 17, 0, 44]),
            1 | 3 if far => random.pick(&[0, 0, 0, 0, 0, 0, 0, 0, 0, 0, 0, 1]),
            0 => random.pick(&[0, 43, 43, 44, 60, 60, 60, 6, 17, 17, 58, 58, 59, 1]),
            1 => random.pick(&[0, 0, 0, 0, 1, 2, 255]),
            3 => random.pick(&[0, 0, 0, 1]),
            _ => random.any() as u8,
        };
        packet.push(byte);
    }
    packet[6] = random.pick(&[0, 0, 43, 43, 60, 60, 60, 44, 17]);
    write_word(&mut packet, 4, length as u16);
    packet
}

/// Any call that may write: its verdict.
fn any_call(packet: &mut [u8], random: &mut Random) -> u8 {
    let body = View::new(packet).body_length();
    match random.between(0, 5) {
        0 => mend(packet),
        1 => lower_lifetime(packet),
        2 => set_address(packet, random.between(0, 2) as u32, &random.contents(16)),
        3 => exchange(packet, random.between(0, 1) as u32, &random.contents(6)),
        _ => {
            let length = random.between(0, body.min(9));
            set_stretch(packet, random.between(0, body + 1 - length) as u64, &random.contents(length))
        }
    }
}

/// The datagram's words and those of the pseudo-header (0001 0001 000A 0011) add up to 6FA1. With the first next header,
/// 0, it would be 11 less, with the payload length, 12, it would be 8 more, and with the header between 1204 more.
#[test]
fn udp_behind_hop_by_hop_written_out() {
    let padding = [17, 0, 1, 4, 0, 0, 0, 0];
    let with = |field: [u8; 2]| packet(0, &[&padding, &[0x13, 0x88, 0x13, 0x89, 0, 0x0A], &field, &[0x48, 0x69]]);
    let right = with([0x90, 0x5E]);
    assert_eq!((right[5], judge(&right)), (18, 0));
    for field in [[0x90, 0x6F], [0x90, 0x56], [0x7E, 0x5A], [0x7E, 0x52], [0x90, 0x67], [0xFF, 0xFF]] {
        let mut wrong = with(field);
        assert_eq!((judge(&wrong), mend(&mut wrong)), (9, 0));
        assert_eq!(wrong, right);
    }
    let mut missing = with([0, 0]);
    assert_eq!(
        (judge(&missing), set_stretch(&mut missing, 0, &[1]), set_address(&mut missing, 0, &[1; 16])),
        (8, 8, 8)
    );
    assert_eq!((lower_lifetime(&mut missing), mend(&mut missing)), (0, 0));
    assert_eq!((missing[7], &missing[54..56]), (63, &[0x90, 0x5E][..]));
    // the same datagram behind the fixed header has the same field
    let alone = packet(17, &[&right[48..]]);
    assert_eq!((judge(&alone), judge(&alone[..49])), (0, 2));
}

/// D8C7 is what the rest of the sum, 2738, lacks: the field comes to 0000, which UDP writes as FFFF. The body ends with the
/// datagram, and the header between is no part of it.
#[test]
fn edits_behind_hop_by_hop_written_out() {
    let padding = [17, 0, 1, 4, 0, 0, 0, 0];
    let mut edited = packet(0, &[&padding, &[0x13, 0x88, 0x13, 0x89, 0, 0x0A, 0x90, 0x5E, 0x48, 0x69]]);
    assert_eq!(set_stretch(&mut edited, 0, &[0xD8, 0xC7]), 0);
    assert_eq!(edited[40..], [&padding[..], &[0x13, 0x88, 0x13, 0x89, 0, 0x0A, 0xFF, 0xFF, 0xD8, 0xC7]].concat());
    assert_eq!((set_stretch(&mut edited, 1, &[0, 0]), set_stretch(&mut edited, 2, &[]), judge(&edited)), (10, 0, 0));
    let two = [[0; 15].as_slice(), &[2]].concat();
    assert_eq!((set_address(&mut edited, 1, &two), &edited[54..56]), (0, &[0xFF, 0xFE][..]));
    assert_eq!((set_address(&mut edited, 0, &two), &edited[54..56]), (0, &[0xFF, 0xFD][..]));
    assert_eq!((lower_lifetime(&mut edited), edited[7], judge(&edited)), (0, 63, 0));
}

/// TCP behind a routing header of type 0 and behind options: its words and the pseudo-header's (0001 0001 0014 0006) add up
/// to 7DE6. The routing header's last address is 2001:DB8::7, which would add 2DBF. ICMPv6 behind a router alert: 8F44.
#[test]
fn tcp_and_icmpv6_written_out() {
    let hops = [[0x20, 1, 0xD, 0xB8].as_slice(), &[0; 11], &[5], &[0x20, 1, 0xD, 0xB8], &[0; 11], &[7]].concat();
    let segment = [0x13, 0x88, 0x13, 0x89, 0, 0, 0, 1, 0, 0, 0, 0, 0x50, 0x10, 6, 0xA8];
    let with = |field: [u8; 2]| {
        packet(43, &[&[60, 4, 0, 0, 0, 0, 0, 0], &hops, &[6, 0, 1, 4, 0, 0, 0, 0], &segment, &field, &[0, 0]])
    };
    let right = with([0x82, 0x19]);
    assert_eq!((right.len(), judge(&right)), (108, 0));
    for field in [[0x54, 0x5A], [0x81, 0xF4], [0x81, 0xE9]] {
        let mut wrong = with(field);
        assert_eq!((judge(&wrong), mend(&mut wrong)), (9, 0));
        assert_eq!(wrong, right);
    }
    let alert = [58, 0, 5, 2, 0, 0, 1, 0];
    let report = packet(0, &[&alert, &[143, 0, 0x70, 0xBB, 0, 0, 0, 0]]);
    assert_eq!(answers(&report), [0; 5]);
}

/// Each packet by its payload, and what every call but the lifetime edit answers.
#[test]
fn what_stops_the_walk_written_out() {
    let (udp, left) = ([0x13, 0x88, 0x13, 0x89, 0, 8, 0x12, 0x34], [59, 0, 0, 1, 0, 0, 0, 0]);
    let options = |count: usize, next: u8| {
        let mut bytes = eight(60).repeat(count);
        bytes[8 * count - 8] = next;
        bytes
    };
    let longer = |next: u8, units: u8, left: u8| [next, units, 0, left, 0, 0, 0, 0];
    let stopped: [(u8, Vec<u8>, u8); 56] = [
        // a fragment header, whatever is left of the payload, as the ninth too
        (44, vec![], 6),
        (44, vec![17], 6),
        (44, vec![17; 7], 6),
        (44, [&eight(17)[..], &udp].concat(), 6),
        (44, [&longer(17, 255, 1)[..], &udp].concat(), 6),
        (0, eight(44).to_vec(), 6),
        (43, [&eight(44)[..], &[0; 7]].concat(), 6),
        (60, options(8, 44), 6),
        (60, [&options(8, 44)[..], &eight(17), &udp].concat(), 6),
        (44, [&eight(43)[..], &left].concat(), 6),
        (44, [&eight(0)[..], &eight(17)].concat(), 6),
        (44, eight(60).to_vec(), 6),
        (44, eight(59).to_vec(), 6),
        // hop-by-hop behind another header, whole or not
        (0, [&eight(0)[..], &eight(17), &udp].concat(), 7),
        (60, [&eight(0)[..], &eight(17), &udp].concat(), 7),
        (43, eight(0).to_vec(), 7),
        (60, [&eight(0)[..], &[17]].concat(), 7),
        (60, [&eight(0)[..], &longer(17, 255, 0)].concat(), 7),
        (0, [&eight(0)[..], &eight(44)].concat(), 7),
        (0, [&eight(0)[..], &eight(60)].concat(), 7),
        // a ninth header, whole or not, with segments left or not
        (60, [&options(9, 17)[..], &udp].concat(), 7),
        (0, [&options(9, 17)[..], &udp].concat(), 7),
        (60, options(8, 60), 7),
        (60, [&options(8, 60)[..], &[17, 0]].concat(), 7),
        (60, [&options(8, 43)[..], &left].concat(), 7),
        (60, [&options(8, 43)[..], &longer(17, 9, 1)].concat(), 7),
        (60, [&options(8, 0)[..], &eight(17), &udp].concat(), 7),
        (60, options(8, 0), 7),
        (60, options(9, 44), 7),
        // past the payload: fewer than 8 bytes left, or fewer than the length says, with segments left or not
        (0, vec![], 4),
        (43, vec![], 4),
        (60, vec![], 4),
        (0, vec![17], 4),
        (43, vec![17, 0, 0, 1, 0, 0, 0], 4),
        (60, vec![17, 0, 0, 0, 0, 0, 0], 4),
        (0, longer(17, 1, 0).to_vec(), 4),
        (60, [&longer(17, 1, 0)[..], &[0; 7]].concat(), 4),
        (43, [&longer(17, 1, 0)[..], &[0; 7]].concat(), 4),
        (43, longer(17, 1, 1).to_vec(), 4),
        (43, [&longer(17, 255, 9)[..], &udp].concat(), 4),
        (60, longer(44, 1, 0).to_vec(), 4),
        (60, longer(59, 1, 0).to_vec(), 4),
        (60, longer(0, 1, 0).to_vec(), 4),
        (60, eight(43).to_vec(), 4),
        (0, [&eight(60)[..], &longer(17, 2, 0), &udp].concat(), 4),
        (60, options(7, 60), 4),
        // segments left
        (43, [&longer(17, 0, 1)[..], &udp].concat(), 7),
        (43, [&longer(17, 1, 255)[..], &udp].concat(), 7),
        (43, longer(44, 0, 1).to_vec(), 7),
        (43, longer(60, 0, 128).to_vec(), 7),
        (0, [&eight(43)[..], &left].concat(), 7),
        // nothing stops it: then the protocol, and the message's length
        (60, eight(59).to_vec(), 7),
        (60, options(8, 1), 7),
        (60, options(8, 17), 4),
        (0, [&eight(6)[..], &[0; 19]].concat(), 4),
        (43, [&eight(58)[..], &[0; 3]].concat(), 4),
    ];
    for (next, payload, verdict) in stopped {
        let packet = packet(next, &[&payload]);
        assert_eq!(answers(&packet), [verdict, verdict, verdict, verdict, 0], "{next} {payload:02X?}");
        // what follows the payload isn't looked at
        for tail in [&eight(17)[..], &[0xFF; 9], &eight(44)] {
            assert_eq!(answers(&[&packet[..], tail].concat()), [verdict, verdict, verdict, verdict, 0]);
        }
        assert_eq!(answers(&packet[..packet.len() - 1]), [2; 5]);
    }
}

/// Every number behind a header and behind none: 44 is 6, hop-by-hop late, and what isn't walked and isn't in the table 7.
/// Over IPv4 none of them is walked.
#[test]
fn other_numbers_end_the_walk() {
    let datagram = [0x13, 0x88, 0x13, 0x89, 0, 8, 0x12, 0x34];
    for number in (0..=255).filter(|number| ![6, 17, 43, 58, 60].contains(number)) {
        let verdict = if number == 44 { 6 } else { 7 };
        let wanted = [verdict, verdict, verdict, verdict, 0];
        assert_eq!(answers(&packet(60, &[&eight(number), &eight(17), &datagram])), wanted);
        if number != 0 {
            assert_eq!(answers(&packet(number, &[&eight(17), &datagram])), wanted);
        }
    }
    for number in [0, 43, 44, 60] {
        let mut four = vec![0x45, 0, 0, 36, 0, 0, 0, 0, 64, number, 0, 0, 10, 0, 0, 1, 10, 0, 0, 2];
        four.extend([eight(17), datagram].concat());
        refresh(&mut four, 4);
        assert_eq!((judge(&four), mend(&mut four), set_address(&mut four, 0, &[1; 4])), (7, 7, 7));
        assert_eq!((set_stretch(&mut four, 0, &[]), lower_lifetime(&mut four), judge(&four)), (7, 0, 7));
    }
}

/// The walk in the ticket's order, and nothing looked at behind what stops it: the protocol and its place, or a verdict.
fn strictly(packet: &[u8]) -> Result<(u8, usize), u8> {
    let (mut next, mut place) = (packet[6], 40);
    let end = 40 + usize::from(u16::from_be_bytes([packet[4], packet[5]]));
    for walked in 0.. {
        match next {
            44 => return Err(6),
            0 if walked > 0 => return Err(7),
            0 | 43 | 60 if walked == 8 => return Err(7),
            0 | 43 | 60 => {}
            _ => break,
        }
        if end - place < 8 || end - place < 8 + 8 * usize::from(packet[place + 1]) {
            return Err(4);
        }
        if next == 43 && packet[place + 3] != 0 {
            return Err(7);
        }
        (next, place) = (packet[place], place + 8 + 8 * usize::from(packet[place + 1]));
    }
    Ok((next, place))
}

#[test]
fn the_walk_is_the_strict_one() {
    let mut random = Random(90);
    let (mut stopped, mut walked) = ([0; 8], [0; 9]);
    for _ in 0..200_000 {
        let packet = any_payload(&mut random);
        let view = View::new(&packet);
        match strictly(&packet) {
            Err(verdict) => {
                assert_eq!(view.walk.stop().map(|stop| stop.number()), Some(verdict));
                assert_eq!(answers(&packet)[..4], [verdict; 4], "{packet:02X?}");
                stopped[usize::from(verdict)] += 1;
            }
            Ok((protocol, place)) => {
                assert_eq!((view.walk.stop(), view.protocol(), view.walk.start), (None, protocol, place));
                assert!(view.row().is_none() || view.message_start() == place);
                walked[view.walk.headers.len()] += 1;
            }
        }
    }
    assert!([4, 6, 7].into_iter().all(|verdict: usize| stopped[verdict] > 10_000), "{stopped:?}");
    assert!(walked.iter().all(|count| *count > 20), "{walked:?}");
}

/// Headers put before the message change no verdict, and every call does the same to the message and to the fixed header.
#[test]
fn headers_between_are_transparent() {
    let mut random = Random(91);
    let mut met = [0; 10];
    for _ in 0..20_000 {
        let (kind, body) = (random.pick(&SIX), random.between(0, 30));
        let mut direct = Shape::any_direct(kind, body, &mut random).good(&mut random);
        let faults =
            [Fault::Spent, Fault::InnerLength, Fault::MessageLength, Fault::Zero, Fault::MessageSum, Fault::Blank];
        let fits: Vec<Fault> = faults_of(kind).into_iter().filter(|fault| faults.contains(fault)).collect();
        if random.once_in(2) {
            let fault = random.pick(&fits);
            spoil(&mut direct, 6, &[fault], &mut random);
        }
        let numbers: Vec<u8> = (0..random.between(1, 8)).map(|_| random.pick(&[43, 60])).collect();
        let mut links: Vec<Link> =
            numbers.iter().map(|number| Link::of(*number, random.pick(&[0, 1, 4]), &mut random)).collect();
        if random.once_in(2) {
            links[0] = Link::of(0, 1, &mut random);
        }
        let mut behind = direct.clone();
        put_between(&mut behind, &links);
        let between = behind.len() - direct.len();
        for _ in 0..4 {
            let verdict = judge(&direct);
            assert_eq!(judge(&behind), verdict);
            met[usize::from(verdict)] += 1;
            let seed = random.any();
            let calls = [&mut direct, &mut behind].map(|packet| any_call(packet, &mut Random(seed)));
            assert_eq!(calls[0], calls[1]);
            assert_eq!((&direct[7..40], &direct[40..]), (&behind[7..40], &behind[40 + between..]));
            assert!(links
                .iter()
                .all(|link| behind.windows(link.bytes.len()).any(|bytes| bytes[1..] == link.bytes[1..])));
        }
    }
    assert!([0, 4, 8, 9].into_iter().all(|verdict: usize| met[verdict] > 1000), "{met:?}");
}

/// Packets that agree up to the declared end are answered alike, whatever a header past it would go on with.
#[test]
fn nothing_behind_the_payload_decides() {
    let mut random = Random(92);
    let mut met = [0; 10];
    for i in 0..40_000 {
        let mut packet = if i % 2 == 0 { any_behind(&mut random) } else { any_payload(&mut random) };
        if packet.len() < 40 || packet[0] >> 4 != 6 {
            continue;
        }
        if random.once_in(2) {
            let length = random.between(0, (packet.len() - 40).min(60));
            write_word(&mut packet, 4, length as u16);
        }
        let end = View::new(&packet).end().min(packet.len());
        let mut other = packet[..end].to_vec();
        let tail = random.between(0, 40);
        other.extend(random.contents(tail));
        if packet.len() < View::new(&packet).end() {
            other.truncate(end);
        }
        assert_eq!(judge(&other), judge(&packet));
        met[usize::from(judge(&packet))] += 1;
        let seed = random.any();
        let calls = [&mut packet, &mut other].map(|packet| any_call(packet, &mut Random(seed)));
        assert_eq!((calls[0], &packet[..end]), (calls[1], &other[..end]));
    }
    assert!([0, 4, 6, 7, 8, 9].into_iter().all(|verdict: usize| met[verdict] > 100), "{met:?}");
}

/// Any sequence of edits leaves the verdict and every header between; what is refused leaves all.
#[test]
fn no_edit_changes_what_the_walk_reads() {
    let mut random = Random(93);
    let mut written = [0; 10];
    for i in 0..20_000 {
        let mut packet = if i % 2 == 0 { any_behind(&mut random) } else { any_payload(&mut random) };
        let verdict = judge(&packet);
        for _ in 0..5 {
            let before = packet.clone();
            let answer = match random.between(0, 3) {
                0 => lower_lifetime(&mut packet),
                1 => set_address(&mut packet, random.between(0, 1) as u32, &random.contents(16)),
                2 => exchange(&mut packet, random.between(0, 1) as u32, &random.contents(6)),
                _ => {
                    let body = View::new(&packet).body_length();
                    let length = random.between(0, body.min(9));
                    set_stretch(&mut packet, random.between(0, body - length) as u64, &random.contents(length))
                }
            };
            assert!(answer == 0 || packet == before);
            assert_eq!(judge(&packet), verdict);
            written[usize::from(verdict)] += u32::from(packet != before);
            let start = View::new(&before).message_start().clamp(packet.len().min(40), packet.len());
            assert_eq!(packet[packet.len().min(40)..start], before[before.len().min(40)..start]);
        }
    }
    assert!([0, 4, 6, 7, 8, 9].into_iter().all(|verdict: usize| written[verdict] > 200), "{written:?}");
}

/// Eight headers of any kind and length are walked, a ninth isn't; the longest have 2,048 bytes each.
#[test]
fn eight_headers_and_nine() {
    let mut random = Random(94);
    for (kind, units) in SIX.into_iter().flat_map(|kind| [0, 1, 7, 255].map(|units| (kind, units))) {
        for first in [0, 43, 60] {
            let mut links: Vec<Link> = (0..9).map(|i| Link::of([43, 60][i % 2], units, &mut random)).collect();
            links[0] = Link::of(first, units, &mut random);
            for count in 1..=9 {
                let mut packet = Shape::plain(kind, 5).good(&mut random);
                put_between(&mut packet, &links[..count]);
                let verdict = if count == 9 { 7 } else { 0 };
                assert_eq!(answers(&packet), [verdict, verdict, verdict, verdict, 0]);
                assert_eq!(View::new(&packet).walk.start, 40 + count * (8 + 8 * usize::from(units)));
            }
        }
    }
}

/// A routing header's type says nothing, and byte 3 of options neither.
#[test]
fn only_segments_left_of_a_routing_header_count() {
    let mut random = Random(95);
    for (byte, left) in (0..=255).flat_map(|byte| [0, 1, 255].map(|left| (byte, left))) {
        for (number, verdict) in [(0, 0), (60, 0), (43, if left == 0 { 0 } else { 7 })] {
            let mut link = Link::of(number, 2, &mut random);
            (link.bytes[2], link.bytes[3]) = (byte, left);
            let mut packet = Shape::plain((6, UDP), 3).good(&mut random);
            put_between(&mut packet, &[link]);
            assert_eq!(answers(&packet), [verdict, verdict, verdict, verdict, 0]);
        }
    }
}

/// A sum that is right only by a mistake about the headers between is wrong, stays so, and is mended to the right one. A
/// right sum is right whatever the mistake makes of it.
#[test]
fn mistakes_about_the_headers_between() {
    let mut random = Random(96);
    let (mut spoiled, mut blessed) = ([[0; 6]; 3], [[0; 6]; 3]);
    for i in 0..9_000 {
        let (kind, count, body) = (SIX[i % 3], random.between(1, 3), random.between(1, 20));
        let links: Vec<Link> = (0..count).map(|_| Link::of(random.pick(&[43, 60]), 4, &mut random)).collect();
        let mut right = Shape::any_direct(kind, body, &mut random).good(&mut random);
        put_between(&mut right, &links);
        let (view, place) = (View::new(&right), View::new(&right).field_place());
        assert_eq!(judge(&right), 0);
        let mut wrongs = Vec::new();
        for (number, mistake) in BETWEEN_MISTAKES.iter().enumerate() {
            spoiled[i % 3][number] += u32::from(!mistake.passes(&view));
            let mut wrong = right.clone();
            write_field(&mut wrong, place, mistake.field(&view));
            assert!(mistake.passes(&View::new(&wrong)));
            wrongs.push((number, right.clone(), wrong));
        }
        let mut at_40 = right.clone();
        at_40[place] ^= 1;
        looks_like_a_message(&mut at_40);
        let mut mended = at_40.clone();
        mended[place..place + 2].copy_from_slice(&right[place..place + 2]);
        wrongs.push((5, mended, at_40));
        for (number, right, mut wrong) in wrongs.into_iter().filter(|(_, right, wrong)| right != wrong) {
            blessed[i % 3][number] += 1;
            let start = View::new(&right).message_start() + View::new(&right).body_offset();
            assert_eq!((judge(&wrong), set_stretch(&mut wrong, 0, &[7]), judge(&wrong)), (9, 0, 9));
            assert_eq!(set_stretch(&mut wrong, 0, &right[start..start + 1]), 0);
            assert_eq!((mend(&mut wrong), wrong), (0, right));
        }
    }
    assert!(spoiled.iter().flat_map(|counts| &counts[..5]).all(|count| *count > 500), "{spoiled:?}");
    assert!(blessed.iter().flatten().all(|count| *count > 500), "{blessed:?}");
}

/// What the generator's check says of one call with this outcome.
fn impossible(operation: u8, number: u64, two: &[u8], before: &[u8], after: &[u8], verdict: u8) -> bool {
    let case = Case { operation, source: GIVEN, number, one: before.to_vec(), two: two.to_vec() };
    let mut cover = Cover::default();
    cover.note(&case, before, after, &format!("{verdict} 0\n"));
    cover.check().unwrap_err().starts_with("the paper makes this impossible: ")
}

/// The generator fails if the walk is answered otherwise, a sum judged or mended by a mistake, or a header written.
#[test]
fn the_generator_refuses_wrong_outcomes() {
    let mut random = Random(97);
    let link = |number, random: &mut Random| Link::of(number, 4, random);
    let mut good = Shape::plain((6, UDP), 5).good(&mut random);
    put_between(&mut good, &[link(0, &mut random), link(43, &mut random)]);
    let mut written = good.clone();
    written[50] ^= 1;
    for (operation, two) in [(JUDGE, &[][..]), (MEND, &[]), (LIFETIME, &[]), (ADDRESS, &good[8..24]), (STRETCH, &[])] {
        assert!((4..8).all(|verdict| impossible(operation, 0, two, &good, &good, verdict)));
        assert!(operation == LIFETIME || !impossible(operation, 0, two, &good, &good, 0));
        assert!(impossible(operation, 0, two, &good, &written, 0));
    }
    for mistake in BETWEEN_MISTAKES {
        let (mut wrong, view) = (good.clone(), View::new(&good));
        write_field(&mut wrong, view.field_place(), mistake.field(&view));
        assert!(!impossible(JUDGE, 0, &[], &wrong, &wrong, 9) && impossible(JUDGE, 0, &[], &wrong, &wrong, 0));
        assert!(!impossible(MEND, 0, &[], &wrong, &good, 0) && impossible(MEND, 0, &[], &wrong, &wrong, 0));
    }
    let stopped = [
        (packet(44, &[]), 6),
        (packet(60, &[&eight(0), &eight(17)]), 7),
        (packet(60, &[&eight(60).repeat(9)]), 7),
        (packet(43, &[&[17, 1, 0, 1, 0, 0, 0, 0]]), 4),
        (packet(43, &[&[17, 0, 0, 1, 0, 0, 0, 0]]), 7),
    ];
    for (packet, verdict) in stopped {
        for (operation, answer) in
            [JUDGE, MEND, ADDRESS, STRETCH].into_iter().flat_map(|op| (0..10).map(move |v| (op, v)))
        {
            assert_eq!(impossible(operation, 0, &[], &packet, &packet, answer), answer != verdict);
        }
        let mut lowered = packet.clone();
        lowered[7] -= 1;
        assert!(!impossible(LIFETIME, 0, &[], &packet, &lowered, 0));
        assert!((2..=9).all(|answer| impossible(LIFETIME, 0, &[], &packet, &packet, answer)));
    }
}
