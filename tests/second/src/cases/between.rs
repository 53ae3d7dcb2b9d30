// Cases on messages behind IPv6's headers between: what may stand there, and sums that a mistake about it leads to.

use super::{Calls, Maker};
use crate::answer::*;
use crate::between::{length_of, lists_of_numbers, put_between, Link};
use crate::draft::{balance_message, between, declare, faults_of, refresh, spoil, write_word, Fault, Shape};
use crate::mend::write_field;
use crate::mistakes::{looks_like_a_message, BETWEEN_MISTAKES};
use crate::packet::{View, ICMP, ICMPV6, TABLE, TCP, UDP};
use crate::walk::{HOP_BY_HOP, MOST, OPTIONS, ROUTING};

pub const KINDS: [(u8, u8); 3] = [(6, TCP), (6, UDP), (6, ICMPV6)];

/// Numbers that end the walk and aren't in the table for IPv6, and those that it looks at.
pub const NEXT: [u8; 14] = [0, 1, 4, 41, 43, 44, 50, 51, 59, 60, 135, 139, 140, 255];

/// Lengths of a header in 8-byte units beyond the first 8 bytes.
pub const UNITS: [u8; 16] = [0, 1, 2, 3, 4, 5, 6, 7, 8, 31, 32, 63, 127, 128, 254, 255];

impl Maker {
    pub fn headers_between(&mut self) {
        self.examples_between();
        for kind in KINDS {
            self.one_to_nine(kind);
            self.orders(kind);
            self.messages_behind(kind);
            self.mistaken_walks(kind);
            self.faults_behind(kind);
            self.in_turn_behind(kind);
        }
        self.lengths_between();
        self.long_between();
        self.payloads_of_each_length();
        self.each_next_header();
        self.routing_headers();
        self.datagrams_behind();
        self.cut_behind();
        self.ipv4_is_not_walked();
    }

    /// One header of any bytes, mostly short; the first may be hop-by-hop.
    fn any_link(&mut self, at: usize) -> Link {
        let numbers: &[u8] = if at == 0 { &[HOP_BY_HOP, ROUTING, OPTIONS] } else { &[ROUTING, OPTIONS] };
        let (number, units) = (self.random.pick(numbers), self.random.pick(&[0, 0, 0, 1, 2]));
        Link::of(number, units, &mut self.random)
    }

    pub fn any_links(&mut self, count: usize) -> Vec<Link> {
        (0..count).map(|at| self.any_link(at)).collect()
    }

    /// A small good packet, perhaps with a tail, behind these headers.
    pub fn behind(&mut self, kind: (u8, u8), links: &[Link]) -> Vec<u8> {
        let (body, tail) = (self.random.between(2, 9), self.random.pick(&[0, 0, 3]));
        let mut packet = Shape { tail, ..Shape::plain(kind, body) }.good(&mut self.random);
        put_between(&mut packet, links);
        packet
    }

    pub fn behind_any(&mut self, kind: (u8, u8), count: usize) -> Vec<u8> {
        let links = self.any_links(count);
        self.behind(kind, &links)
    }

    /// A packet judged, mended and edited in each way, with what would fit a message, as far as these calls are made
    /// now.
    pub fn each_call(&mut self, packet: &[u8]) {
        if self.calls == Calls::Prefix {
            self.given(JUDGE, 0, packet, &[]);
        } else {
            self.each_older_call(packet);
        }
        if self.calls != Calls::Older {
            self.exchange_of_one(packet);
        }
    }

    /// All but the prefix exchange.
    fn each_older_call(&mut self, packet: &[u8]) {
        let (address, new) = (self.random.contents(16), self.random.contents(2));
        let place = View::new(packet).body_length().saturating_sub(2) as u64;
        self.given(JUDGE, 0, packet, &[]);
        self.again(MEND, 0, &[]);
        self.again(LIFETIME, 0, &[]);
        self.again(ADDRESS, self.count % 2, &address);
        self.again(STRETCH, place, &new);
    }

    /// UDP behind hop-by-hop padding, TCP behind a routing header of type 0 with two addresses and behind options, and
    /// ICMPv6 behind a router alert; the sums of the last two are left to the mender.
    fn examples_between(&mut self) {
        let loops = [[0; 15].as_slice(), &[1], &[0; 15], &[1]].concat();
        let packet = |length: u8, next: u8, rest: &[&[u8]]| {
            [&[0x60, 0, 0, 0, 0, length, next, 64][..], &loops, &rest.concat()].concat()
        };
        let (padding, routing) = ([17, 0, 1, 4, 0, 0, 0, 0], [60, 4, 0, 0, 0, 0, 0, 0]);
        let (options, alert) = ([6, 0, 1, 4, 0, 0, 0, 0], [58, 0, 5, 2, 0, 0, 1, 0]);
        let datagram = [0x13, 0x88, 0x13, 0x89, 0, 0x0A, 0x90, 0x5E, 0x48, 0x69];
        let segment = [0x13, 0x88, 0x13, 0x89, 0, 0, 0, 1, 0, 0, 0, 0, 0x50, 0x10, 6, 0xA8, 0, 0, 0, 0];
        for packet in [
            packet(18, HOP_BY_HOP, &[&padding, &datagram]),
            packet(68, ROUTING, &[&routing, &loops, &options, &segment]),
            packet(16, HOP_BY_HOP, &[&alert, &[143, 0, 0, 0, 0, 0, 0, 0]]),
        ] {
            self.every_operation(&packet, 6);
            self.again(MEND, 0, &[]);
            self.left(JUDGE, 0, &[]);
        }
    }

    /// One to nine headers before a message whose sum is right, or wrong, or UDP's without one.
    fn one_to_nine(&mut self, kind: (u8, u8)) {
        for count in 1..=MOST + 1 {
            let packet = self.behind_any(kind, count);
            self.each_call(&packet);
            let mut wrong = self.behind_any(kind, count);
            let field = View::new(&wrong).field_place();
            wrong[field] ^= 1 << self.random.between(0, 7);
            self.edited_then_mended(&wrong);
            if kind.1 == UDP {
                write_word(&mut wrong, field, 0);
                self.each_call(&wrong);
                self.left(MEND, 0, &[]);
                self.left(JUDGE, 0, &[]);
            }
        }
    }

    /// Every list of one to three numbers that is walked; the sum is right, and then wrong and mended.
    fn orders(&mut self, kind: (u8, u8)) {
        for numbers in lists_of_numbers() {
            let links: Vec<Link> = numbers
                .iter()
                .map(|number| Link::of(*number, self.random.pick(&[0, 1, 2]), &mut self.random))
                .collect();
            let mut packet = self.behind(kind, &links);
            self.given(JUDGE, 0, &packet, &[]);
            let field = View::new(&packet).field_place();
            packet[field + 1] ^= 1;
            self.given(MEND, 0, &packet, &[]);
            self.left(JUDGE, 0, &[]);
        }
    }

    /// Messages about their fixed header's length, every TCP data offset, and fields that stand at 0000 and FFFF or come
    /// to it.
    fn messages_behind(&mut self, kind: (u8, u8)) {
        let fixed = TABLE.iter().find(|row| row.protocol == kind.1).map_or(0, |row| row.fixed);
        for length in [0, 1, fixed - 1, fixed] {
            let count = self.random.between(1, MOST);
            let mut packet = self.behind_any(kind, count);
            let message = View::new(&packet).message_start();
            if kind.1 == UDP {
                write_word(&mut packet, message + 4, length as u16);
            }
            declare(&mut packet, 6, length);
            refresh(&mut packet, 6);
            self.each_call(&packet);
            self.again(STRETCH, 0, &[]);
        }
        if kind.1 == TCP {
            for offset in 0..16 {
                let mut packet = self.behind_any(kind, 2);
                let place = View::new(&packet).message_start() + 12;
                packet[place] = offset << 4;
                refresh(&mut packet, 6);
                self.given(JUDGE, 0, &packet, &[]);
                self.again(STRETCH, 0, &[1]);
            }
        }
        let between = between(&[(HOP_BY_HOP, 0), (ROUTING, 2), (OPTIONS, 1)]);
        let shape = Shape { between, tail: 3, ..Shape::plain(kind, 13) };
        self.corner_of(shape);
        let mut packet = shape.good(&mut self.random);
        balance_message(&mut packet, 6, shape.headers());
        let field = View::new(&packet).field_place();
        write_word(&mut packet, field, 0x1234);
        self.given(MEND, 0, &packet, &[]);
        self.left(JUDGE, 0, &[]);
    }

    /// Right sums that a mistake about the walk would find wrong, and wrong ones that it would find right: an edit keeps
    /// them wrong, and the mender doesn't make the mistake.
    fn mistaken_walks(&mut self, kind: (u8, u8)) {
        for numbers in [&[HOP_BY_HOP][..], &[ROUTING], &[OPTIONS, ROUTING, ROUTING], &[HOP_BY_HOP, OPTIONS, ROUTING]] {
            let links: Vec<Link> = numbers.iter().map(|number| Link::of(*number, 4, &mut self.random)).collect();
            let packet = self.behind(kind, &links);
            self.given(JUDGE, 0, &packet, &[]);
            for mistake in BETWEEN_MISTAKES {
                let (right, mut wrong) = (View::new(&packet), packet.clone());
                write_field(&mut wrong, right.field_place(), mistake.field(&right));
                if wrong != packet {
                    self.edited_then_mended(&wrong);
                }
            }
            let (mut at_40, field) = (packet.clone(), View::new(&packet).field_place());
            at_40[field] ^= 0x10;
            looks_like_a_message(&mut at_40);
            self.edited_then_mended(&at_40);
        }
    }

    /// Each fault behind headers.
    fn faults_behind(&mut self, kind: (u8, u8)) {
        for fault in faults_of(kind) {
            let mut packet = Shape::any_behind(kind, 7, &mut self.random).good(&mut self.random);
            spoil(&mut packet, 6, &[fault], &mut self.random);
            self.every_operation(&packet, 6);
        }
    }

    /// Calls one after the other on packets that are good, and that have a wrong sum or none.
    fn in_turn_behind(&mut self, kind: (u8, u8)) {
        if kind.1 == UDP {
            let packet = self.behind_any(kind, 2);
            self.every_two_calls(&packet, &[Fault::Zero, Fault::MessageSum]);
        }
        for faults in [&[][..], &[Fault::MessageSum], &[Fault::Zero]] {
            let mut packet = Shape::any_behind(kind, 12, &mut self.random).good(&mut self.random);
            let faults: Vec<Fault> = faults_of(kind).into_iter().filter(|fault| faults.contains(fault)).collect();
            spoil(&mut packet, 6, &faults, &mut self.random);
            self.edits_in_turn(&packet);
        }
    }

    /// A header of each number and of many lengths, among them the longest, before and behind another.
    fn lengths_between(&mut self) {
        for (number, units) in [HOP_BY_HOP, ROUTING, OPTIONS].into_iter().flat_map(|n| UNITS.map(|units| (n, units))) {
            let kind = self.random.pick(&KINDS);
            let link = Link::of(number, units, &mut self.random);
            let other = Link::of(OPTIONS, 0, &mut self.random);
            let packet = match (number, self.random.once_in(2)) {
                (ROUTING | OPTIONS, true) => self.behind(kind, &[other, link]),
                _ => self.behind(kind, &[link, other]),
            };
            self.given(JUDGE, 0, &packet, &[]);
            self.again(STRETCH, 0, &[1]);
            self.left(JUDGE, 0, &[]);
        }
    }

    /// Eight headers of the longest length, and packets of 65,575 bytes; in one of these a ninth header.
    fn long_between(&mut self) {
        let links: Vec<Link> =
            [ROUTING, OPTIONS].repeat(4).iter().map(|n| Link::of(*n, 255, &mut self.random)).collect();
        let packet = self.behind((6, UDP), &links);
        self.each_call(&packet);
        for (kind, links) in [((6, TCP), &links[..4]), ((6, UDP), &[&links[..], &links[..1]].concat())] {
            let room = 65_535 - length_of(links);
            let body = room - (Shape::plain(kind, 0).headers() - 40);
            let mut packet = Shape::plain(kind, body).good(&mut self.random);
            put_between(&mut packet, links);
            self.each_call(&packet);
        }
    }

    /// Three headers and a message, of which less and less is declared; the rest is a tail, or isn't there.
    fn payloads_of_each_length(&mut self) {
        for kind in [(6, UDP), (6, ICMPV6)] {
            let links = [(HOP_BY_HOP, 0), (ROUTING, 1), (OPTIONS, 0)].map(|(n, u)| Link::of(n, u, &mut self.random));
            let packet = self.behind(kind, &links);
            for length in 0..=View::new(&packet).end() - 40 {
                let mut packet = packet.clone();
                write_word(&mut packet, 4, length as u16);
                if View::new(&packet).walk.stop().is_none() {
                    refresh(&mut packet, 6);
                }
                self.given(JUDGE, 0, &packet, &[]);
                self.again(MEND, 0, &[]);
                self.given(JUDGE, 0, &packet[..40 + length], &[]);
            }
        }
    }

    /// Every number behind a header, before bytes that could be UDP with a right sum; some of them with every call.
    fn each_next_header(&mut self) {
        for next in 0..=255 {
            let mut packet = self.behind_any((6, UDP), 1);
            packet[40] = next;
            if View::new(&packet).walk.stop().is_none() {
                refresh(&mut packet, 6);
            }
            if NEXT.contains(&next) {
                self.each_call(&packet);
            } else {
                self.given(JUDGE, 0, &packet, &[]);
            }
        }
    }

    /// Routing headers of every type; numbers of segments left; and the same byte in options, where it says nothing.
    fn routing_headers(&mut self) {
        for kind_of_routing in 0..=255 {
            let mut link = Link::of(ROUTING, 0, &mut self.random);
            link.bytes[2] = kind_of_routing;
            let packet = self.behind((6, UDP), &[link]);
            self.given(JUDGE, 0, &packet, &[]);
        }
        for (number, left) in
            [ROUTING, OPTIONS, HOP_BY_HOP].into_iter().flat_map(|n| [1, 2, 127, 128, 255].map(|l| (n, l)))
        {
            let mut link = Link::of(number, 2, &mut self.random);
            link.bytes[3] = left;
            let kind = self.random.pick(&KINDS);
            let packet = self.behind(kind, &[link]);
            self.each_call(&packet);
        }
    }

    /// UDP lengths and trailing areas behind headers, and stretches about the datagram's end.
    fn datagrams_behind(&mut self) {
        for length in [0, 3, 7, 8, 12, 20, 21, 24, 0xFFFF] {
            let mut packet = Shape { tail: 5, ..Shape::plain((6, UDP), 12) }.good(&mut self.random);
            write_word(&mut packet, 44, length);
            refresh(&mut packet, 6);
            let links = self.any_links(2);
            put_between(&mut packet, &links);
            self.each_call(&packet);
        }
        for (body, trailing, tail) in [(4, 1, 0), (6, 5, 3), (5, 1, 0), (7, 3, 2), (3, 8, 3), (0, 16, 0)] {
            let between = between(&[(HOP_BY_HOP, 0), (ROUTING, 2)]);
            let shape = Shape { between, trailing, tail, ..Shape::plain((6, UDP), body) };
            let mut packet = shape.good(&mut self.random);
            self.edited_then_mended(&packet);
            let field = View::new(&packet).field_place();
            for word in [0, 0x1234] {
                write_word(&mut packet, field, word);
                self.edited_then_mended(&packet);
            }
        }
        let between = between(&[(OPTIONS, 1)]);
        let packet = Shape { between, trailing: 3, tail: 1, ..Shape::plain((6, UDP), 3) }.good(&mut self.random);
        self.given(JUDGE, 0, &packet, &[]);
        for (place, length) in (0..=7).flat_map(|place| (0..=7).map(move |length| (place, length))) {
            let new = self.random.contents(length);
            self.again(STRETCH, place, &new);
        }
    }

    /// A packet with headers between cut at every byte.
    fn cut_behind(&mut self) {
        let links = [HOP_BY_HOP, ROUTING, OPTIONS].map(|number| Link::of(number, 0, &mut self.random));
        let packet = self.behind((6, TCP), &links);
        for length in 0..=packet.len() {
            self.given(JUDGE, 0, &packet[..length], &[]);
            let operation = self.random.pick(&[MEND, LIFETIME]);
            self.again(operation, 0, &[]);
        }
    }

    /// IPv4 with the same numbers, before bytes that would be a header and a datagram in IPv6.
    fn ipv4_is_not_walked(&mut self) {
        for (protocol, number) in [ICMP, TCP, UDP].into_iter().flat_map(|p| [0, 43, 44, 60].map(|n| (p, n))) {
            let mut packet = Shape::plain((4, protocol), 6).good(&mut self.random);
            let link = [&[protocol, 0, 0, 0][..], &self.random.bytes(4)].concat();
            packet.splice(20..20, link);
            let total = packet.len() as u16;
            write_word(&mut packet, 2, total);
            packet[9] = number;
            refresh(&mut packet, 4);
            self.every_operation(&packet, 4);
        }
    }

    /// Any packet with headers between, which may be stopped, cut, or wrong behind them.
    pub fn any_between(&mut self) {
        use Fault::*;
        let (kind, body) = (self.random.pick(&KINDS), self.random.between(0, 20));
        let mut base = Shape::any_direct(kind, body, &mut self.random).good(&mut self.random);
        if self.random.once_in(3) {
            let behind = [Spent, InnerLength, MessageLength, Protocol, Zero, MessageSum, Blank];
            let fits: Vec<Fault> = faults_of(kind).into_iter().filter(|fault| behind.contains(fault)).collect();
            let fault = self.random.pick(&fits);
            spoil(&mut base, 6, &[fault], &mut self.random);
        }
        let packet = match self.random.between(0, 5) {
            0 | 1 => {
                let count = self.random.between(1, MOST);
                let links = self.any_links(count);
                put_between(&mut base, &links);
                base
            }
            2 => self.any_mistaken(&base),
            _ => self.any_stopped(&base),
        };
        let packet = self.perhaps_declared_otherwise(packet);
        if self.random.once_in(2) {
            self.every_operation(&packet, 6);
        } else {
            self.edits_in_turn(&packet);
        }
    }

    /// A sum that a mistake about the walk leads to.
    fn any_mistaken(&mut self, base: &[u8]) -> Vec<u8> {
        let (mut packet, count) = (base.to_vec(), self.random.between(1, 3));
        let links: Vec<Link> = (0..count).map(|_| Link::of(ROUTING, 2, &mut self.random)).collect();
        put_between(&mut packet, &links);
        let (view, i) = (View::new(&packet), self.random.between(0, BETWEEN_MISTAKES.len()));
        if view.walk.stop().is_none() && view.message().len() >= 20 && view.row().is_some() {
            match BETWEEN_MISTAKES.get(i) {
                Some(mistake) => {
                    let (place, field) = (view.field_place(), mistake.field(&view));
                    write_field(&mut packet, place, field);
                }
                None => {
                    let field = view.field_place();
                    packet[field] ^= 1 << self.random.between(0, 7);
                    looks_like_a_message(&mut packet);
                }
            }
        }
        packet
    }

    /// Now and then a payload length that ends anywhere, or bytes that do.
    fn perhaps_declared_otherwise(&mut self, mut packet: Vec<u8>) -> Vec<u8> {
        match self.random.between(0, 9) {
            0 | 1 => {
                let length = self.random.between(0, packet.len() - 40);
                write_word(&mut packet, 4, length as u16);
            }
            2 => {
                let cut = self.random.between(0, packet.len());
                packet.truncate(cut);
            }
            _ => {}
        }
        packet
    }
}
