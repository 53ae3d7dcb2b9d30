// Cases of the lifetime edit on packets that the other edits refuse: fragments, protocols that aren't covered, messages
// of a wrong shape, and UDP over IPv6 without a sum. Their message is data: no place of it is a field or a length.

use super::Maker;
use crate::answer::*;
use crate::draft::{
    balance_header, declare, faults_of, spoil, write_word, Fault, Shape, KINDS, PASSED_OVER, UNCOVERED_KINDS,
};
use crate::mend::{fresh_header_field, write_field};
use crate::packet::{View, HEADER_FIELD, ICMP, ICMPV6, TABLE, TCP, UDP};

const LIFETIMES: [u8; 4] = [0, 1, 2, 255];

/// Flags and offsets of a first, a middle and a last fragment, with the other two flags set and not.
const PARTS: [&[u16]; 3] =
    [&[0x2000, 0x6000, 0xA000], &[0x2001, 0x20B9, 0x3FFF, 0x7000, 0xE001], &[0x0001, 0x00B9, 0x1FFF, 0x4001, 0xD000]];

/// The table's protocols, one of them of the other family, and one that isn't in it.
const IN_FRAGMENTS: [u8; 5] = [ICMP, TCP, UDP, ICMPV6, 47];

/// A packet with a given lifetime, its header field fresh.
fn aged(packet: &[u8], lifetime: u8) -> Vec<u8> {
    let mut packet = packet.to_vec();
    let place = View::new(&packet).lifetime_place();
    packet[place] = lifetime;
    if View::new(&packet).family == 4 {
        let field = fresh_header_field(&View::new(&packet));
        write_field(&mut packet, HEADER_FIELD, field);
    }
    packet
}

impl Maker {
    pub fn lifetimes_of_any(&mut self) {
        self.fragments();
        self.fields_place_in_fragments();
        self.header_too_long();
        for packet in self.uncovered().into_iter().chain(self.shape_faults()) {
            self.lowered(&packet);
            self.in_turn(&packet);
        }
        self.wrong_sums();
        self.refused_first();
        self.header_field_corners();
        self.down_to_one();
    }

    /// A lifetime edit of a packet with each of four lifetimes.
    pub fn lowered(&mut self, packet: &[u8]) {
        for lifetime in LIFETIMES {
            let packet = aged(packet, lifetime);
            self.given(LIFETIME, 0, &packet, &[]);
            self.left(JUDGE, 0, &[]);
        }
    }

    /// Two lifetime edits down to 1 and one that is refused there, with calls between that refuse the packet; the
    /// mender takes it if it has no other fault than 0000 in UDP over IPv6.
    pub fn in_turn(&mut self, packet: &[u8]) {
        let (packet, length) = (aged(packet, 3), View::new(packet).address_length());
        let (address, new) = (self.random.contents(length), self.random.contents(1));
        self.given(JUDGE, 0, &packet, &[]);
        for operation in [LIFETIME, ADDRESS, STRETCH, LIFETIME, JUDGE, LIFETIME, ADDRESS] {
            self.with(operation, &address, &new);
        }
        self.again(LIFETIME, 0, &[]);
        for operation in [STRETCH, JUDGE, ADDRESS, LIFETIME, STRETCH, LIFETIME, JUDGE] {
            self.with(operation, &address, &new);
        }
        self.again(LIFETIME, 0, &[]);
        for operation in [MEND, LIFETIME, MEND, JUDGE, LIFETIME] {
            self.with(operation, &address, &new);
        }
    }

    /// One more call on what is left, with an address and new bytes that fit.
    fn with(&mut self, operation: u8, address: &[u8], new: &[u8]) {
        match operation {
            ADDRESS => self.left(ADDRESS, 1, address),
            STRETCH => self.left(STRETCH, 0, new),
            _ => self.left(operation, 0, &[]),
        }
    }

    /// Each part of a message of each protocol: no message, one under the fixed header, and more; with options and
    /// without; some with a tail.
    fn fragments(&mut self) {
        for (protocol, parts) in IN_FRAGMENTS.into_iter().flat_map(|protocol| PARTS.map(|parts| (protocol, parts))) {
            let fixed = TABLE.iter().find(|row| row.protocol == protocol).map_or(0, |row| row.fixed);
            for (words, length) in [(5, 0), (5, fixed.max(2) - 1), (5, 24), (6, 0), (15, fixed.max(2) - 1), (9, 24)] {
                let tail = if self.random.once_in(4) { 5 } else { 0 };
                let shape = Shape { words, tail, ..Shape::plain((4, protocol), 24) };
                let flags = self.random.pick(parts);
                let packet = self.fragment(shape, length, flags);
                self.lowered(&packet);
                if (words, length) == (5, 24) {
                    self.in_turn(&packet);
                }
            }
        }
    }

    /// A fragment whose message has so many bytes.
    fn fragment(&mut self, shape: Shape, length: usize, flags: u16) -> Vec<u8> {
        let mut packet = shape.good(&mut self.random);
        declare(&mut packet, 4, length);
        packet.truncate(4 * shape.words + length + shape.tail);
        write_word(&mut packet, 6, flags);
        packet
    }

    /// 0000, FFFF and another word at the place where the field of a whole packet stands.
    fn fields_place_in_fragments(&mut self) {
        for protocol in [ICMP, TCP, UDP, ICMPV6] {
            for (word, parts) in [0x0000, 0xFFFF, 0x1234].into_iter().zip(PARTS) {
                let flags = self.random.pick(parts);
                let mut packet = self.fragment(Shape::plain((4, protocol), 24), 24, flags);
                let place = View::new(&packet).field_place();
                write_word(&mut packet, place, word);
                self.lowered(&packet);
            }
        }
    }

    /// Fragments whose header is longer than their bytes, than their total length, or than both.
    fn header_too_long(&mut self) {
        for (protocol, parts) in [ICMP, TCP, UDP].into_iter().zip(PARTS) {
            let whole = self.fragment(Shape { words: 15, ..Shape::plain((4, protocol), 24) }, 24, parts[0]);
            for (bytes, total) in [(40, 84), (59, 60), (40, 59), (20, 20), (84, 59), (60, 40), (84, 20)] {
                let mut packet = whole[..bytes].to_vec();
                write_word(&mut packet, 2, total);
                self.lowered(&packet);
            }
        }
    }

    /// Protocols that aren't in the table for a family, before a message that could be UDP.
    fn uncovered(&mut self) -> Vec<Vec<u8>> {
        let packet = |(family, protocol)| {
            let mut packet = self.any_good((family, UDP));
            let place = View::new(&packet).protocol_place();
            packet[place] = protocol;
            packet
        };
        UNCOVERED_KINDS.into_iter().map(packet).collect()
    }

    /// Messages under their fixed header, TCP offsets below 5 words and just past the message, UDP lengths that are one
    /// off (one less leaves a trailing area and a wrong sum), and UDP over IPv6 without a sum.
    fn shape_faults(&mut self) -> Vec<Vec<u8>> {
        let mut packets = Vec::new();
        for row in TABLE {
            for family in row.families {
                let good = self.any_good((*family, row.protocol));
                let whole = Shape::plain((*family, row.protocol), 7).good(&mut self.random);
                let (message, length) = (View::new(&whole).message_start(), View::new(&whole).message_length());
                for short in [0, 1, row.fixed - 1] {
                    let mut packet = good.clone();
                    declare(&mut packet, *family, short);
                    packets.push(packet);
                }
                let mut with = |place: usize, word: u16| {
                    let mut packet = whole.clone();
                    write_word(&mut packet, message + place, word);
                    packets.push(packet);
                };
                match row.protocol {
                    TCP => [0x0018, 0x1018, 0x2018, 0x3018, 0x4018, 0x7018].into_iter().for_each(|word| with(12, word)),
                    UDP => [length - 1, length + 1].into_iter().for_each(|length| with(4, length as u16)),
                    _ => {}
                }
                if (*family, row.protocol) == (6, UDP) {
                    with(6, 0);
                }
            }
        }
        packets
    }

    /// Packets whose sums are wrong, and header sums that are wrong beside each fault of another kind.
    fn wrong_sums(&mut self) {
        for kind in KINDS {
            for fault in faults_of(kind) {
                match fault {
                    Fault::HeaderSum | Fault::MessageSum => self.lowered_with(kind, &[fault]),
                    _ if kind.0 == 4 && PASSED_OVER.contains(&fault) => {
                        self.lowered_with(kind, &[Fault::HeaderSum, fault]);
                    }
                    _ => {}
                }
            }
        }
    }

    /// A lifetime edit with each of four lifetimes beside faults. The lifetime is set before the fields are made fresh.
    fn lowered_with(&mut self, kind: (u8, u8), faults: &[Fault]) {
        for lifetime in LIFETIMES {
            let good = self.any_good(kind);
            let mut packet = aged(&good, lifetime);
            spoil(&mut packet, kind.0, faults, &mut self.random);
            self.given(LIFETIME, 0, &packet, &[]);
            self.left(JUDGE, 0, &[]);
        }
    }

    /// What the lifetime edit still refuses before it looks at the lifetime, alone and beside what it passes over.
    fn refused_first(&mut self) {
        use Fault::*;
        for kind in [(4, UDP), (6, UDP)] {
            let refused = [HeaderLength, TotalLength, Declared, Under, Version];
            for fault in refused.into_iter().filter(|fault| faults_of(kind).contains(fault)) {
                self.lowered_with(kind, &[fault]);
                for beside in faults_of(kind).into_iter().filter(|fault| PASSED_OVER.contains(fault)) {
                    self.lowered_with(kind, &[fault, beside]);
                }
            }
        }
    }

    /// Fragments whose header field comes to 0000, or stands at FFFF where 0000 is fresh.
    fn header_field_corners(&mut self) {
        for (protocol, parts) in IN_FRAGMENTS.into_iter().zip(PARTS.into_iter().cycle()) {
            let packet = self.fragment(Shape::plain((4, protocol), 24), 24, parts[0]);
            for (balanced, lifetime) in [(63, 64), (64, 64)] {
                let mut packet = aged(&packet, balanced);
                balance_header(&mut packet);
                let mut packet = aged(&packet, lifetime);
                if balanced == lifetime {
                    write_word(&mut packet, HEADER_FIELD, 0xFFFF);
                }
                self.given(JUDGE, 0, &packet, &[]);
                self.left(LIFETIME, 0, &[]);
                self.left(JUDGE, 0, &[]);
            }
        }
    }

    /// A fragment, a header between, and UDP over IPv6 without a sum: from 255 down to 1, and refused there.
    fn down_to_one(&mut self) {
        let fragment = self.fragment(Shape::plain((4, UDP), 24), 24, 0x2000);
        let mut between = Shape::plain((6, TCP), 8).good(&mut self.random);
        between[6] = 44;
        let mut missing = Shape::plain((6, UDP), 8).good(&mut self.random);
        write_word(&mut missing, 46, 0);
        for packet in [fragment, between, missing] {
            let packet = aged(&packet, 255);
            let address = self.random.contents(View::new(&packet).address_length());
            self.given(JUDGE, 0, &packet, &[]);
            for lifetime in (0..256).rev() {
                self.left(LIFETIME, 0, &[]);
                match lifetime % 48 {
                    7 => self.left(ADDRESS, 0, &address),
                    23 => self.left(STRETCH, 0, &address),
                    39 => self.left(JUDGE, 0, &[]),
                    _ => {}
                }
            }
            self.left(JUDGE, 0, &[]);
        }
    }

    /// Any packet with a fault that only the lifetime edit passes over, perhaps with others too: lifetime edits, and
    /// any others between.
    pub fn any_lifetimes(&mut self) {
        let fault = self.random.pick(&PASSED_OVER);
        let kinds: Vec<(u8, u8)> = KINDS.into_iter().filter(|kind| faults_of(*kind).contains(&fault)).collect();
        let kind = self.random.pick(&kinds);
        let mut faults = vec![fault];
        while self.random.once_in(3) {
            faults.push(self.random.pick(&faults_of(kind)));
        }
        let good = self.any_good(kind);
        let lifetime = self.random.pick(&[0, 1, 2, 2, 3, 3, 4, 9, 64, 255]);
        let mut packet = aged(&good, lifetime);
        spoil(&mut packet, kind.0, &faults, &mut self.random);
        let body = View::new(&packet).body_length();
        self.given(JUDGE, 0, &packet, &[]);
        for _ in 0..self.random.between(4, 16) {
            if self.random.once_in(2) {
                self.left(LIFETIME, 0, &[]);
            } else {
                self.step(body, kind.0);
            }
            if self.random.once_in(4) {
                self.left(JUDGE, 0, &[]);
            }
        }
        self.left(JUDGE, 0, &[]);
        self.left(MEND, 0, &[]);
    }
}
