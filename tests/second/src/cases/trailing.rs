// Cases on UDP datagrams that end before their message does. What lies between is a trailing area: it is a tail, and
// nothing of it is summed, edited or mended.

use super::captures::capture;
use super::{Calls, Maker};
use crate::answer::*;
use crate::draft::{balance_message, declare, faults_of, refresh, spoil, write_word, Fault, Shape};
use crate::mend::write_field;
use crate::mistakes::MISTAKES;
use crate::packet::{View, UDP};

const KINDS: [(u8, u8); 2] = [(4, UDP), (6, UDP)];

/// Faults that a packet with a trailing area can have and still have it, missing bytes aside.
const BESIDE: [Fault; 5] = [Fault::Spent, Fault::Fragment, Fault::Zero, Fault::HeaderSum, Fault::MessageSum];

/// Bodies, trailing areas and tails. The fixed header is even, so that a datagram is odd if its body is.
const AREAS: [(usize, usize, usize); 8] =
    [(4, 1, 0), (6, 5, 3), (2, 6, 4), (8, 2, 0), (5, 1, 0), (7, 3, 2), (3, 2, 3), (9, 40, 0)];

impl Maker {
    pub fn trailing_areas(&mut self) {
        for kind in KINDS {
            self.each_trailing_length(kind);
            self.udp_lengths(kind);
            self.length_before_field(kind);
            self.short_messages(kind);
            self.stretches_behind(kind);
            self.mistaken_sums(kind);
            self.without_sum(kind);
            self.fields_of_ones(kind);
            self.faults_beside(kind);
            self.empty_bodies(kind);
            self.trailing_in_turn(kind);
            self.long_trailing(kind);
        }
        self.lengths_in_fragments();
        self.options_before();
        self.trailing_records();
    }

    /// Any shape with a trailing area.
    fn any_trailing_shape(&mut self, kind: (u8, u8)) -> Shape {
        let (body, trailing) = (self.random.between(0, 24), self.random.between(1, 40));
        Shape { trailing, ..self.any_shape(kind, body) }
    }

    /// An address of the right length, and a byte to write.
    fn new_bytes(&mut self, family: u8) -> (Vec<u8>, Vec<u8>) {
        let length = View::read_as(&[], family).address_length();
        (self.random.contents(length), self.random.bytes(1))
    }

    /// Trailing areas of 1 to 40 bytes behind even and odd datagrams, with a tail and without: mended, and given a
    /// stretch that ends with the datagram and one that goes a byte further.
    fn each_trailing_length(&mut self, kind: (u8, u8)) {
        for (trailing, odd) in (1..=40).flat_map(|trailing| [(trailing, 0), (trailing, 1)]) {
            for tail in [0, self.random.between(1, 9)] {
                let body = 2 * self.random.between(1, 6) + odd;
                let mut packet = Shape { trailing, tail, ..Shape::plain(kind, body) }.good(&mut self.random);
                let (field, length) = (View::new(&packet).field_place(), self.random.between(2, body));
                packet[field] ^= 1 << self.random.between(0, 7);
                let new = self.random.contents(length);
                self.given(MEND, 0, &packet, &[]);
                self.left(JUDGE, 0, &[]);
                self.left(STRETCH, (body - length) as u64, &new);
                self.left(STRETCH, (body - length + 1) as u64, &new);
                self.left(JUDGE, 0, &[]);
            }
        }
    }

    /// A packet with a message of this length, perhaps a tail, and any UDP length; its field is fresh.
    fn with_udp_length(&mut self, kind: (u8, u8), (message, tail): (usize, usize), length: usize) -> Vec<u8> {
        let mut packet = Shape { tail, ..Shape::plain(kind, message - 8) }.good(&mut self.random);
        let place = View::new(&packet).message_start() + 4;
        write_word(&mut packet, place, length as u16);
        refresh(&mut packet, kind.0);
        packet
    }

    /// UDP lengths below 8, from there to the message's, and above, where a tail may have the bytes; and some of which
    /// one byte alone would fit.
    fn udp_lengths(&mut self, kind: (u8, u8)) {
        for (message, tail) in [(8, 0), (9, 4), (31, 0)] {
            for length in [0, 3, 7, 8, message, message + 1, message + 2, 0xFFFF] {
                let packet = self.with_udp_length(kind, (message, tail), length);
                self.every_operation(&packet, kind.0);
            }
        }
        let each = (0..=23).map(|length| (21, length));
        let by_bytes = [(300, 0x0007), (300, 0x0100), (300, 0x0108), (300, 0x2C01), (300, 0x002C), (300, 0x0800)];
        for (message, length) in each.chain(by_bytes) {
            let packet = self.with_udp_length(kind, (message, 3), length);
            self.given(JUDGE, 0, &packet, &[]);
            self.again(MEND, 0, &[]);
            let new = self.random.bytes(2);
            self.again(STRETCH, length.saturating_sub(10) as u64, &new);
        }
    }

    /// A UDP length that doesn't fit, and no sum or a wrong one besides.
    fn length_before_field(&mut self, kind: (u8, u8)) {
        for (length, field) in [0, 7, 21, 0xFFFF].into_iter().flat_map(|length| [(length, 0), (length, 0x1234)]) {
            let mut packet = self.with_udp_length(kind, (20, 0), length);
            let (place, (address, new)) = (View::new(&packet).field_place(), self.new_bytes(kind.0));
            write_word(&mut packet, place, field);
            self.given(JUDGE, 0, &packet, &[]);
            self.left(ADDRESS, 0, &address);
            self.left(STRETCH, 0, &new);
            self.left(MEND, 0, &[]);
        }
    }

    /// Messages under 8 bytes, with a UDP header that goes on behind the declared end.
    fn short_messages(&mut self, kind: (u8, u8)) {
        for message in [0, 1, 4, 5, 6, 7] {
            for length in [message, 8] {
                let mut packet = self.with_udp_length(kind, (12, 0), length);
                declare(&mut packet, kind.0, message);
                refresh(&mut packet, kind.0);
                self.given(JUDGE, 0, &packet, &[]);
                self.again(MEND, 0, &[]);
                self.again(STRETCH, 0, &[]);
            }
        }
    }

    /// Every place and length about a small body, its trailing area and the tail.
    fn stretches_behind(&mut self, kind: (u8, u8)) {
        for body in [3, 4] {
            let packet = Shape { trailing: 3, tail: 1, ..Shape::plain(kind, body) }.good(&mut self.random);
            self.given(JUDGE, 0, &packet, &[]);
            for (place, length) in (0..=8).flat_map(|place| (0..=8).map(move |length| (place, length))) {
                let new = self.random.contents(length);
                self.again(STRETCH, place, &new);
            }
        }
    }

    /// Right sums that a mistake would find wrong, and wrong ones that it would find right: an edit keeps them wrong,
    /// and the mender doesn't make the mistake. Odd trailing areas are FF.
    fn mistaken_sums(&mut self, kind: (u8, u8)) {
        for (body, trailing, tail) in AREAS {
            let mut packet = Shape { trailing, tail, ..Shape::plain(kind, body) }.good(&mut self.random);
            let behind = packet.len() - trailing - tail;
            let bytes = self.random.bytes(trailing + tail);
            packet[behind..].copy_from_slice(&bytes);
            if trailing % 2 == 1 {
                packet[behind..].fill(0xFF);
            }
            self.given(JUDGE, 0, &packet, &[]);
            for mistake in MISTAKES {
                let (right, mut wrong) = (View::new(&packet), packet.clone());
                write_field(&mut wrong, right.field_place(), mistake.field(&right));
                if wrong != packet {
                    self.edited_then_mended(&wrong);
                }
            }
        }
    }

    /// A packet judged, edited in each way and refused once, judged again, and mended.
    pub fn edited_then_mended(&mut self, packet: &[u8]) {
        let (address, new) = self.new_bytes(View::new(packet).family);
        self.given(JUDGE, 0, packet, &[]);
        self.left(ADDRESS, 0, &address);
        self.left(STRETCH, 1, &new);
        self.left(LIFETIME, 0, &[]);
        self.left(STRETCH, View::new(packet).body_length() as u64, &new);
        if self.calls != Calls::Older {
            self.any_exchange();
        }
        self.left(JUDGE, 0, &[]);
        self.left(MEND, 0, &[]);
        self.left(JUDGE, 0, &[]);
    }

    /// Datagrams whose field is 0000, edited, mended, and edited again.
    fn without_sum(&mut self, kind: (u8, u8)) {
        for (body, trailing, tail) in AREAS {
            let mut packet = Shape { trailing, tail, ..Shape::plain(kind, body) }.good(&mut self.random);
            let field = View::new(&packet).field_place();
            write_word(&mut packet, field, 0);
            let (address, new) = self.new_bytes(kind.0);
            self.given(JUDGE, 0, &packet, &[]);
            for operation in [LIFETIME, MEND] {
                self.left(operation, 0, &[]);
                self.left(ADDRESS, 1, &address);
                self.left(STRETCH, body as u64 - 1, &new);
                self.left(STRETCH, body as u64, &new);
                self.left(JUDGE, 0, &[]);
            }
        }
    }

    /// Fields that stand at FFFF or come to it, by edits and by the mender.
    fn fields_of_ones(&mut self, kind: (u8, u8)) {
        let body = if kind.0 == 4 { 13 } else { 12 };
        let shape = Shape { trailing: 7, ..Shape::plain(kind, body) };
        self.corner_of(shape);
        let mut packet = shape.good(&mut self.random);
        balance_message(&mut packet, kind.0, shape.headers());
        let field = View::new(&packet).field_place();
        write_word(&mut packet, field, 0x1234);
        self.given(MEND, 0, &packet, &[]);
        self.left(JUDGE, 0, &[]);
        self.left(STRETCH, 0, &[!packet[shape.headers()]]);
        self.left(JUDGE, 0, &[]);
    }

    /// Each fault alone, and those that leave the trailing area by twos, and where it is cut short.
    fn faults_beside(&mut self, kind: (u8, u8)) {
        for fault in faults_of(kind) {
            let packet = self.trailing_with(kind, &[fault]);
            self.every_operation(&packet, kind.0);
        }
        let beside: Vec<Fault> = faults_of(kind).into_iter().filter(|fault| BESIDE.contains(fault)).collect();
        for (i, one) in beside.iter().enumerate() {
            for other in &beside[i + 1..] {
                let packet = self.trailing_with(kind, &[*one, *other]);
                self.every_operation(&packet, kind.0);
            }
            let mut packet = self.trailing_with(kind, &[*one]);
            let cut = self.random.between(1, View::new(&packet).trailing_length());
            packet.truncate(View::new(&packet).end() - cut);
            self.every_operation(&packet, kind.0);
        }
    }

    /// A packet with a trailing area and faults.
    fn trailing_with(&mut self, kind: (u8, u8), faults: &[Fault]) -> Vec<u8> {
        let mut packet = self.any_trailing_shape(kind).good(&mut self.random);
        spoil(&mut packet, kind.0, faults, &mut self.random);
        packet
    }

    /// A UDP length of 8: nothing can be written. A message of just 8 bytes, and longer ones.
    fn empty_bodies(&mut self, kind: (u8, u8)) {
        for (trailing, tail) in [(0, 0), (0, 2), (1, 0), (2, 2), (39, 0), (40, 1), (1400, 0)] {
            let packet = Shape { trailing, tail, ..Shape::plain(kind, 0) }.good(&mut self.random);
            let (address, new) = self.new_bytes(kind.0);
            self.given(JUDGE, 0, &packet, &[]);
            self.again(STRETCH, 0, &[]);
            self.again(STRETCH, 0, &new);
            self.again(STRETCH, 1, &[]);
            self.again(ADDRESS, 1, &address);
            self.left(LIFETIME, 0, &[]);
            self.left(STRETCH, 0, &new);
            self.left(JUDGE, 0, &[]);
            self.left(MEND, 0, &[]);
        }
    }

    /// Calls one after the other, and random ones.
    fn trailing_in_turn(&mut self, kind: (u8, u8)) {
        let packet = Shape { trailing: 9, ..Shape::plain(kind, 5) }.good(&mut self.random);
        self.every_two_calls(&packet, &[Fault::Zero, Fault::MessageSum]);
        for faults in [&[][..], &[Fault::Zero], &[Fault::MessageSum]].repeat(3) {
            let packet = self.trailing_with(kind, faults);
            self.edits_in_turn(&packet);
        }
    }

    /// Every two calls one after the other, and each call where the packet has one of some faults.
    pub fn every_two_calls(&mut self, packet: &[u8], faults: &[Fault]) {
        let (family, body) = (View::new(packet).family, View::new(packet).body_length() as u64);
        let (address, new) = self.new_bytes(family);
        let calls: [(u8, u64, &[u8]); 6] = [
            (LIFETIME, 0, &[]),
            (ADDRESS, 0, &address),
            (ADDRESS, 2, &address),
            (STRETCH, body - 1, &new),
            (STRETCH, body, &new),
            (MEND, 0, &[]),
        ];
        for (one, other) in calls.into_iter().flat_map(|one| calls.map(|other| (one, other))) {
            self.given(JUDGE, 0, packet, &[]);
            self.left(one.0, one.1, one.2);
            self.left(other.0, other.1, other.2);
            self.left(JUDGE, 0, &[]);
        }
        for fault in faults {
            let mut packet = packet.to_vec();
            spoil(&mut packet, family, &[*fault], &mut self.random);
            self.given(JUDGE, 0, &packet, &[]);
            for (operation, number, two) in calls {
                self.left(operation, number, two);
                self.left(JUDGE, 0, &[]);
            }
        }
    }

    /// The longest packets: over IPv4 a long trailing area behind a short datagram, over IPv6 one byte behind a long one.
    fn long_trailing(&mut self, kind: (u8, u8)) {
        let (shape, longest) = (Shape::plain(kind, 0), if kind.0 == 4 { 65_535 } else { 65_575 });
        let room = longest - shape.headers();
        let body = if kind.0 == 4 { 1_023 } else { room - 1 };
        let packet = Shape { body, trailing: room - body, ..shape }.good(&mut self.random);
        let (address, new) = self.new_bytes(kind.0);
        self.given(JUDGE, 0, &packet, &[]);
        self.left(STRETCH, body as u64 - 1, &new);
        self.left(STRETCH, body as u64, &new);
        self.left(ADDRESS, 0, &address);
        self.left(JUDGE, 0, &[]);
        self.left(MEND, 0, &[]);
    }

    /// A fragment's UDP length isn't looked at: the datagram goes on in the other fragments.
    fn lengths_in_fragments(&mut self) {
        for flags in [0x2000, 0x2003, 0x0003] {
            for length in [0, 3, 7, 8, 23, 24, 25, 1_400, 0xFFFF] {
                let mut packet = self.with_udp_length((4, UDP), (24, 0), length);
                write_word(&mut packet, 6, flags);
                refresh(&mut packet, 4);
                let (address, new) = self.new_bytes(4);
                self.given(JUDGE, 0, &packet, &[]);
                self.left(ADDRESS, 0, &address);
                self.left(STRETCH, 0, &new);
                self.left(MEND, 0, &[]);
                self.left(LIFETIME, 0, &[]);
                self.left(JUDGE, 0, &[]);
            }
        }
    }

    /// IPv4 headers of every length before a datagram with a trailing area.
    fn options_before(&mut self) {
        for words in 5..16 {
            let shape = Shape { words, trailing: words, ..Shape::plain((4, UDP), words + 4) };
            let packet = shape.good(&mut self.random);
            self.every_operation(&packet, 4);
        }
    }

    /// Captures whose records have trailing areas.
    fn trailing_records(&mut self) {
        let mut records = Vec::new();
        for kind in KINDS {
            records.push(self.trailing_with(kind, &[]));
            for fault in faults_of(kind).into_iter().filter(|fault| BESIDE.contains(fault)) {
                records.push(self.trailing_with(kind, &[fault]));
            }
        }
        self.rooms(&capture(&records));
    }

    /// Any packet with a trailing area, its sum right or one that a mistake leads to: stretches about the datagram's end,
    /// and a cut behind it.
    pub fn any_trailing(&mut self) {
        let kind = self.random.pick(&KINDS);
        let mut packet = self.any_trailing_shape(kind).good(&mut self.random);
        let (view, mistake) = (View::new(&packet), &MISTAKES[self.random.between(0, MISTAKES.len() - 1)]);
        let (place, field, body) = (view.field_place(), mistake.field(&view), view.body_length());
        if self.random.once_in(2) {
            write_field(&mut packet, place, field);
        }
        self.edited_then_mended(&packet);
        for _ in 0..self.random.between(2, 8) {
            let length = self.random.between(0, body + 2);
            let place = body.saturating_sub(length) + self.random.between(0, 2);
            let new = self.random.contents(length);
            self.left(STRETCH, place as u64, &new);
        }
        self.left(JUDGE, 0, &[]);
        let cut = self.random.between(1, View::new(&packet).trailing_length());
        self.given(JUDGE, 0, &packet[..View::new(&packet).end() - cut], &[]);
    }
}
