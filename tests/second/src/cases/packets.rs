// Cases on packets: faults alone and together, all lengths, options, stretches, addresses, lifetimes, sequences
// of edits, long packets and rubbish.

use super::sums::big_endian;
use super::{Calls, Maker};
use crate::answer::*;
use crate::draft::{declare, faults_of, refresh, spoil, Fault, Shape, KINDS, PASSED_OVER};
use crate::fragments::Record;
use crate::packet::{View, ICMP, ICMPV6, TCP, UDP};

/// Faults that no edit refuses, but for 0000 in UDP over IPv6.
const HARMLESS: [Fault; 4] = [Fault::Zero, Fault::HeaderSum, Fault::MessageSum, Fault::Blank];

impl Maker {
    pub fn packets(&mut self) {
        self.packet_examples();
        self.every_operation(&[], 4);
        self.every_operation(&[], 6);
        for kind in KINDS {
            self.pairs_of_faults(kind);
            self.bare_headers(kind);
            self.lengths(kind);
            self.cuts(kind);
            self.stretches(kind);
            self.addresses(kind);
            self.lifetimes(kind);
        }
        for _ in 0..100 {
            self.any_faults();
        }
        for _ in 0..60 {
            self.sequence(&HARMLESS);
        }
        self.protocols();
        self.header_lengths();
        self.data_offsets();
        for length in 0..=64 {
            for _ in 0..3 {
                self.rubbish(length);
            }
        }
        self.long_packets();
    }

    /// The paper's examples 10 to 12, and a header longer than its total length with bytes missing besides.
    fn packet_examples(&mut self) {
        let header = [0x45, 0, 0, 0x1E, 0, 0, 0x40, 0, 0x40, 0x11, 0, 0, 0xC0, 0xA8, 0, 1, 0xC0, 0xA8, 0, 0xC7];
        for data in [[0x48, 0x69], [0x56, 0xB0]] {
            let mut packet = header.to_vec();
            packet.extend([0x13, 0x88, 0x13, 0x89, 0, 0x0A, 0xFF, 0xFF]);
            packet.extend(data);
            self.every_operation(&packet, 4);
        }
        for lifetime in [0x40, 0x3F] {
            let mut alone = header;
            (alone[3], alone[8]) = (0x73, lifetime);
            self.given(FIELD, 0, &alone, &[]);
        }
        let mut packet = vec![0x60, 0, 0, 0, 0, 8, 58, 64];
        packet.extend([[0; 15].as_slice(), &[1], &[0; 15], &[1], &[0x80, 0, 0, 0, 0, 1, 0, 1]].concat());
        self.every_operation(&packet, 6);
        let mut longer = vec![0; 30];
        (longer[0], longer[3]) = (0x4F, 40);
        self.every_operation(&longer, 4);
    }

    fn address(&mut self, length: usize) -> Vec<u8> {
        self.random.contents(length)
    }

    /// New bytes, at least one, and their place in a body, where they fit unless it is empty.
    fn stretch(&mut self, body: usize) -> (u64, Vec<u8>) {
        let length = self.random.between(1, body.clamp(1, 12));
        let place = self.random.between(0, body.saturating_sub(length));
        (place as u64, self.random.contents(length))
    }

    /// A packet judged, mended, and edited in every way that is done or refused, as far as these calls are made now.
    pub fn every_operation(&mut self, packet: &[u8], family: u8) {
        self.given(JUDGE, 0, packet, &[]);
        if self.calls != Calls::Prefix {
            self.every_older_operation(packet, family);
        }
        match self.calls {
            Calls::Older => {}
            Calls::All if family == 4 => self.exchange_of_one(packet),
            _ => self.exchanges(packet),
        }
    }

    /// All but the prefix exchange. Stretches go to the message's end, so that some reach into a trailing area.
    fn every_older_operation(&mut self, packet: &[u8], family: u8) {
        let view = View::read_as(packet, family);
        let body = view.body_length() + view.trailing_length();
        let (right, wrong) = if family == 4 { (4, 16) } else { (16, 4) };
        self.again(MEND, 0, &[]);
        self.again(LIFETIME, 0, &[]);
        for (side, length) in [(0, right), (1, right), (2, right), (1, wrong)] {
            let address = self.address(length);
            self.again(ADDRESS, side, &address);
        }
        let (place, new) = self.stretch(body);
        self.again(STRETCH, place, &new);
        self.again(STRETCH, (body + 1).saturating_sub(new.len()) as u64, &new);
        self.again(STRETCH, body as u64, &[]);
    }

    fn spoiled(&mut self, kind: (u8, u8), faults: &[Fault]) -> Vec<u8> {
        let mut packet = self.any_good(kind);
        spoil(&mut packet, kind.0, faults, &mut self.random);
        packet
    }

    /// Every fault alone and every two faults at once.
    fn pairs_of_faults(&mut self, kind: (u8, u8)) {
        let faults = faults_of(kind);
        for (i, one) in faults.iter().enumerate() {
            for other in &faults[i..] {
                for _ in 0..3 {
                    let packet = self.spoiled(kind, &[*one, *other]);
                    self.every_operation(&packet, kind.0);
                }
            }
        }
    }

    /// Up to four faults at once.
    pub fn any_faults(&mut self) {
        let kind = self.any_kind();
        let all = faults_of(kind);
        let faults: Vec<Fault> = (0..self.random.between(0, 4)).map(|_| self.random.pick(&all)).collect();
        let packet = self.spoiled(kind, &faults);
        self.every_operation(&packet, kind.0);
    }

    /// Bodies of every length to 100 and some longer.
    fn lengths(&mut self, kind: (u8, u8)) {
        for body in (0..=100).chain([127, 255, 256, 511, 1024]) {
            let packet = self.any_shape(kind, body).good(&mut self.random);
            self.given(JUDGE, 0, &packet, &[]);
            self.again(MEND, 0, &[]);
            for _ in 0..2 {
                self.step(body, kind.0);
            }
            self.left(JUDGE, 0, &[]);
        }
    }

    /// A packet of 100 bytes cut at every byte.
    fn cuts(&mut self, kind: (u8, u8)) {
        let mut shape = Shape::plain(kind, 0);
        shape.body = 100 - shape.headers();
        let packet = shape.good(&mut self.random);
        for length in 0..=100 {
            self.given(JUDGE, 0, &packet[..length], &[]);
            let operation = self.random.pick(&[MEND, LIFETIME]);
            self.again(operation, 0, &[]);
        }
    }

    /// Every place and length about a small body, the same bytes again, and places near the largest numbers.
    fn stretches(&mut self, kind: (u8, u8)) {
        let body = 9;
        let packet = Shape { tail: 3, ..Shape::plain(kind, body) }.good(&mut self.random);
        let start = packet.len() - 3 - body;
        self.given(JUDGE, 0, &packet, &[]);
        for place in 0..=body + 1 {
            for length in 0..=body + 1 {
                let new = self.random.contents(length);
                self.again(STRETCH, place as u64, &new);
            }
            let same = packet[start + place.min(body)..start + body].to_vec();
            self.again(STRETCH, place as u64, &same);
            self.left(JUDGE, 0, &[]);
        }
        for place in [1 << 16, 1 << 32, (1 << 32) + 1, 1 << 63, u64::MAX - 9, u64::MAX - 8, u64::MAX - 1, u64::MAX] {
            for length in [0, 1, 2, 9, 10] {
                let new = self.random.bytes(length);
                self.again(STRETCH, place, &new);
            }
        }
    }

    /// Every length of address, other sides, and the same address again.
    fn addresses(&mut self, kind: (u8, u8)) {
        let packet = self.any_good(kind);
        self.given(JUDGE, 0, &packet, &[]);
        for side in [0, 1] {
            for length in 0..=20 {
                let address = self.random.bytes(length);
                self.again(ADDRESS, side, &address);
            }
            let view = View::new(&packet);
            let place = view.address_place(side as usize);
            self.again(ADDRESS, side, &packet[place..place + view.address_length()]);
            self.left(JUDGE, 0, &[]);
        }
        for side in [2, 3, 256, 257, 65_536, 65_537, 0x8000_0000, u64::from(u32::MAX)] {
            for length in [4, 16] {
                let address = self.random.bytes(length);
                self.again(ADDRESS, side, &address);
            }
        }
    }

    /// A lifetime lowered from 255 until it is refused, and of each value once in a packet whose sums are wrong.
    fn lifetimes(&mut self, kind: (u8, u8)) {
        let mut packet = self.any_good(kind);
        let place = View::new(&packet).lifetime_place();
        packet[place] = 255;
        refresh(&mut packet, kind.0);
        self.given(JUDGE, 0, &packet, &[]);
        for lifetime in 0..256 {
            self.left(LIFETIME, 0, &[]);
            if lifetime % 16 == 14 {
                self.left(JUDGE, 0, &[]);
            }
        }
        for lifetime in [0, 1, 2, 3, 127, 128, 129] {
            packet[place] = lifetime;
            self.given(LIFETIME, 0, &packet, &[]);
            self.left(JUDGE, 0, &[]);
        }
    }

    /// One more call on what is left, done or refused.
    pub fn step(&mut self, body: usize, family: u8) {
        let (right, wrong) = if family == 4 { (4, 16) } else { (16, 4) };
        let most = if self.calls == Calls::Older { 11 } else { 13 };
        match self.random.between(0, most) {
            0 | 1 => self.left(LIFETIME, 0, &[]),
            2..=4 => {
                let (side, length) = self.random.pick(&[(0, right), (0, right), (1, right), (2, right), (0, wrong)]);
                let address = self.address(length);
                self.left(ADDRESS, side, &address);
            }
            5 => {
                let past = self.random.between(0, 1);
                self.left(STRETCH, (body + past) as u64, &[]);
            }
            6 => {
                let (_, new) = self.stretch(body);
                self.left(STRETCH, (body + 1).saturating_sub(new.len()) as u64, &new);
            }
            7 if self.random.once_in(3) => self.left(MEND, 0, &[]),
            12 | 13 => self.any_exchange(),
            _ => {
                let (place, new) = self.stretch(body);
                self.left(STRETCH, place, &new);
            }
        }
    }

    /// Edits on a packet of any kind, every third time perhaps one that the lifetime edit alone takes.
    pub fn any_sequence(&mut self) {
        let faults = if self.random.once_in(3) { &PASSED_OVER[..] } else { &HARMLESS };
        self.sequence(faults);
    }

    /// Edits one after the other on a packet that may have a fault.
    fn sequence(&mut self, faults: &[Fault]) {
        let kind = self.any_kind();
        let faults: Vec<Fault> = faults_of(kind).into_iter().filter(|fault| faults.contains(fault)).collect();
        let packet = match faults.len() {
            n if n > 0 && self.random.once_in(2) => {
                let fault = self.random.pick(&faults);
                self.spoiled(kind, &[fault])
            }
            _ => self.any_good(kind),
        };
        self.edits_in_turn(&packet);
    }

    /// Edits one after the other, some refused; in the end the packet is mended twice.
    pub fn edits_in_turn(&mut self, packet: &[u8]) {
        let (family, body) = (View::new(packet).family, View::new(packet).body_length());
        self.given(JUDGE, 0, packet, &[]);
        for _ in 0..self.random.between(5, 30) {
            self.step(body, family);
            if self.random.once_in(3) {
                self.left(JUDGE, 0, &[]);
            }
        }
        for operation in [JUDGE, MEND, JUDGE, MEND, JUDGE] {
            self.left(operation, 0, &[]);
        }
    }

    /// Nothing but a header, with each fault that a header can have.
    fn bare_headers(&mut self, kind: (u8, u8)) {
        use Fault::*;
        let of_headers = [Spent, Protocol, Fragment, TotalLength, HeaderLength, Version, HeaderSum];
        for fault in faults_of(kind).into_iter().filter(|fault| of_headers.contains(fault)) {
            let mut packet = Shape::plain(kind, 0).good(&mut self.random);
            declare(&mut packet, kind.0, 0);
            packet.truncate(View::new(&packet).header_length());
            spoil(&mut packet, kind.0, &[fault], &mut self.random);
            self.every_operation(&packet, kind.0);
        }
    }

    /// Every protocol number, with a message shorter than any fixed header.
    fn protocols(&mut self) {
        for kind in [(4, ICMP), (6, ICMPV6)] {
            let mut packet = self.any_good(kind);
            let view = View::new(&packet);
            let (place, end) = (view.protocol_place(), view.header_length() + 3);
            declare(&mut packet, kind.0, 3);
            packet.truncate(end);
            for protocol in 0..=255 {
                packet[place] = protocol;
                refresh(&mut packet, kind.0);
                self.given(JUDGE, 0, &packet, &[]);
                self.again(MEND, 0, &[]);
                self.again(LIFETIME, 0, &[]);
                let address = self.address(if kind.0 == 4 { 4 } else { 16 });
                self.again(ADDRESS, 0, &address);
                self.again(STRETCH, 0, &[]);
            }
        }
    }

    /// IPv4 header lengths of 0 to 15 words.
    fn header_lengths(&mut self) {
        for protocol in [ICMP, TCP, UDP] {
            for words in 0..16 {
                let shape = Shape { words: words.max(5), ..Shape::plain((4, protocol), 5) };
                let mut packet = shape.good(&mut self.random);
                packet[0] = 0x40 | words as u8;
                refresh(&mut packet, 4);
                self.every_operation(&packet, 4);
            }
        }
    }

    /// Every TCP data offset in messages of several lengths.
    fn data_offsets(&mut self) {
        for family in [4, 6] {
            for length in [20, 23, 24, 41, 59, 60, 61] {
                let shape = Shape::plain((family, TCP), length - 20);
                let mut packet = shape.good(&mut self.random);
                let place = packet.len() - length + 12;
                for offset in 0..16 {
                    packet[place] = offset << 4 | self.random.between(0, 15) as u8;
                    refresh(&mut packet, family);
                    self.given(JUDGE, 0, &packet, &[]);
                    let (at, new) = self.stretch(length.saturating_sub(4 * usize::from(offset)));
                    self.again(STRETCH, at, &new);
                }
            }
        }
    }

    /// Random bytes, or a good packet with bytes of it changed.
    fn rubbish(&mut self, length: usize) {
        let family = self.random.pick(&[4, 6]);
        let mut packet = self.random.contents(length);
        if self.random.once_in(2) {
            let kind = self.any_kind();
            packet = self.any_good(kind);
            for _ in 0..self.random.between(1, 3) {
                let place = self.random.between(0, packet.len() - 1);
                packet[place] = self.random.any() as u8;
            }
            packet.resize(length, 0);
        }
        if length > 0 && self.random.once_in(2) {
            packet[0] = if family == 4 { 0x45 } else { 0x60 };
        }
        self.given(JUDGE, 0, &packet, &[]);
        self.again(MEND, 0, &[]);
        self.again(LIFETIME, 0, &[]);
        let address = self.address(if family == 4 { 4 } else { 16 });
        self.again(ADDRESS, 0, &address);
        let (place, new) = self.stretch(4);
        self.again(STRETCH, place, &new);
        if self.calls != Calls::Older {
            self.exchanges(&packet);
        }
    }

    pub fn any_rubbish(&mut self) {
        let length = self.random.between(0, 100);
        self.rubbish(length);
    }

    /// The longest packets of each family, and tails longer than any packet.
    fn long_packets(&mut self) {
        for (kind, fill) in [((4, UDP), 0xFF), ((4, TCP), 0x5A), ((6, UDP), 0xFF), ((6, ICMPV6), 0x5A)] {
            let shape = Shape::plain(kind, 0);
            let longest = if kind.0 == 4 { 65_535 } else { 65_575 };
            let packet = self.filled(Shape { body: longest - shape.headers(), ..shape }, fill);
            self.long(&packet, kind.0);
            let pieces = [0, 65_535, 1, 65_534, 0, 65_535, 65_535, 0, 7, 65_001, 0, 65_535];
            self.again(CHAIN, 0, &big_endian(&pieces));
            self.again(FRAGMENTS, 0, &list_payload(&[Record { offset: 0, length: packet.len() as u64 }]));
        }
        for kind in [(4, ICMP), (6, TCP)] {
            let packet = self.filled(Shape { tail: 65_600, ..Shape::plain(kind, 21) }, 0xFF);
            self.long(&packet, kind.0);
        }
        for (kind, body) in [((4, ICMP), 20_001), ((6, UDP), 1_499), ((4, TCP), 4_096), ((6, TCP), 9_000)] {
            let packet = self.any_shape(kind, body).good(&mut self.random);
            let new = self.random.bytes(body);
            self.given(JUDGE, 0, &packet, &[]);
            self.again(STRETCH, 0, &new);
            self.left(JUDGE, 0, &[]);
        }
    }

    /// A packet whose body is one byte many times over, but for a few bytes.
    fn filled(&mut self, shape: Shape, fill: u8) -> Vec<u8> {
        let mut packet = shape.good(&mut self.random);
        packet[shape.headers()..].fill(fill);
        for _ in 0..20 {
            let place = self.random.between(shape.headers(), packet.len() - 1);
            packet[place] = self.random.any() as u8;
        }
        refresh(&mut packet, shape.family);
        packet
    }

    fn long(&mut self, packet: &[u8], family: u8) {
        self.every_operation(packet, family);
        let body = View::new(packet).body_length();
        for place in [body / 2, body / 2 + 1, body - 7] {
            let new = self.random.contents(7);
            self.again(STRETCH, place as u64, &new);
            self.left(JUDGE, 0, &[]);
        }
        for (operation, number) in [(PARTIAL, 0), (FOLD_AT, 0), (FOLD_AT, 1), (FIELD, 0)] {
            self.again(operation, number, &[]);
        }
    }

    /// A packet of any length, the longest included, with a long stretch; long ones are rare.
    pub fn any_long(&mut self) {
        let kind = self.any_kind();
        let mut shape = self.any_shape(kind, 0);
        let most = if kind.0 == 4 { 65_535 } else { 65_575 } - shape.headers() - shape.trailing;
        let longest = self.random.pick(&[300, 300, 2000, 2000, 2000, 9000, most]);
        shape.body = if self.random.once_in(4) { longest } else { self.random.between(1, longest) };
        let packet = shape.good(&mut self.random);
        self.every_operation(&packet, kind.0);
        let length = self.random.between(1, shape.body);
        let place = self.random.between(0, shape.body - length);
        let new = self.random.contents(length);
        self.again(STRETCH, place as u64, &new);
        self.left(JUDGE, 0, &[]);
        let cut = self.random.between(0, packet.len());
        self.given(JUDGE, 0, &packet[..cut], &[]);
    }
}
