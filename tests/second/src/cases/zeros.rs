// Cases where equation 3 alone answers FFFF: the field stands at FFFF, and bytes whose fold is FFFF become zeros. The
// update answers 0000, and UDP turns that into FFFF.

use super::Maker;
use crate::answer::*;
use crate::draft::{write_word, Shape, KINDS};
use crate::packet::{View, ICMP, UDP};
use crate::random::Random;
use crate::sums::{fold, total_at, Fold};

/// A good packet of TCP over IPv4. Its field stands at FFFF where the fresh one is 0000, and its body is FF FF.
#[rustfmt::skip]
const NEIGHBOUR: [u8; 42] = [
    0x45, 0x00, 0x00, 0x2A, 0x00, 0x00, 0x40, 0x00, 0x40, 0x06, 0xB8, 0xB5, 0xC0, 0xA8, 0x00, 0x01, 0xC0, 0xA8, 0x00,
    0xC7, 0x13, 0x88, 0x13, 0x89, 0x00, 0x00, 0x00, 0x01, 0x00, 0x00, 0x00, 0x00, 0x50, 0x10, 0x06, 0xA8, 0xFF, 0xFF,
    0x00, 0x00, 0xFF, 0xFF,
];

/// Bytes whose fold is FFFF, at even and at odd places alike.
const FULL: [&[u8]; 8] = [
    &[0xFF, 0xFF],
    &[0x80, 0xFF, 0x7F],
    &[0x80, 0x00, 0x7F, 0xFF],
    &[0x00, 0x00, 0xFF, 0xFF],
    &[0x12, 0x34, 0xED, 0xCB, 0x00],
    &[0xFF; 6],
    &[0x7F, 0xFF, 0x00, 0x00, 0x00, 0x00, 0x80],
    &[0xFF; 16],
];

/// Addresses whose fold is FFFF, by their first and last two bytes; all between is zeros.
const FULL_ADDRESSES: [[u8; 4]; 6] = [
    [0xFF, 0xFF, 0xFF, 0xFF],
    [0x80, 0x00, 0x7F, 0xFF],
    [0x00, 0x00, 0xFF, 0xFF],
    [0xFF, 0xFF, 0x00, 0x00],
    [0xFE, 0x80, 0x01, 0x7F],
    [0x0A, 0x00, 0xF5, 0xFF],
];

const ZEROS: [u8; 20] = [0; 20];

/// What may be wrong with a packet whose fields stand at FFFF.
#[derive(Clone, Copy, PartialEq)]
enum Damage {
    Nothing,
    Message,
    Header,
    Unsummed,
}

/// What may be wrong with a packet of this kind. Edits refuse none of it but 0000 in UDP over IPv6.
fn damages((family, protocol): (u8, u8)) -> Vec<Damage> {
    let fits = |damage: &Damage| match damage {
        Damage::Header => family == 4,
        Damage::Unsummed => protocol == UDP,
        _ => true,
    };
    [Damage::Nothing, Damage::Message, Damage::Header, Damage::Unsummed].into_iter().filter(fits).collect()
}

impl Maker {
    pub fn zeros(&mut self) {
        self.neighbour();
        for kind in KINDS {
            self.full_stretches(kind);
            self.full_addresses(kind);
            self.full_twice(kind);
            self.full_shapes(kind);
        }
        self.full_and_blank();
    }

    /// The update once kept the neighbour's FFFF. The mender has nothing to do afterwards.
    fn neighbour(&mut self) {
        self.given(JUDGE, 0, &NEIGHBOUR, &[]);
        self.left(STRETCH, 0, &[0, 0]);
        self.left(JUDGE, 0, &[]);
        self.left(MEND, 0, &[]);
        self.left(JUDGE, 0, &[]);
    }

    /// A packet of a fixed content with given bytes at a place; its fields stand at FFFF and are 0000 when fresh.
    fn full(&mut self, shape: Shape, place: usize, bytes: &[u8], damage: Damage) -> Vec<u8> {
        let packet = shape.good(&mut Random(4));
        self.filled_up(&packet, place, bytes, damage)
    }

    /// The same with the content of a given packet. Source port, or type and code, balance the message.
    fn filled_up(&mut self, packet: &[u8], place: usize, bytes: &[u8], damage: Damage) -> Vec<u8> {
        let message = View::new(packet).message_start();
        let mut packet = self.with_all_ones(packet, place, bytes, message);
        let field = View::new(&packet).field_place();
        match damage {
            Damage::Nothing => {}
            Damage::Message => packet[message + 1] ^= 0x10,
            Damage::Header => packet[1] ^= 0x10,
            Damage::Unsummed => write_word(&mut packet, field, 0),
        }
        packet
    }

    /// Bytes become zeros at even and odd places, and come back; the mender is tried in between.
    fn full_stretches(&mut self, kind: (u8, u8)) {
        let shape = Shape::plain(kind, 20);
        for damage in damages(kind) {
            let places: &[usize] = if damage == Damage::Nothing { &[0, 1, 4, 3] } else { &[0, 1] };
            for (old, place) in FULL.into_iter().flat_map(|old| places.iter().map(move |place| (old, *place))) {
                let packet = self.full(shape, shape.headers() + place, old, damage);
                self.given(JUDGE, 0, &packet, &[]);
                self.left(STRETCH, place as u64, &ZEROS[..old.len()]);
                self.left(JUDGE, 0, &[]);
                self.left(STRETCH, place as u64, old);
                self.left(JUDGE, 0, &[]);
                self.again(STRETCH, place as u64, &ZEROS[..old.len()]);
                self.left(MEND, 0, &[]);
            }
        }
    }

    /// Addresses become zeros, and come back; the mender is tried in between.
    fn full_addresses(&mut self, kind: (u8, u8)) {
        let shape = Shape::plain(kind, 5);
        for damage in damages(kind) {
            for (ends, side) in FULL_ADDRESSES.into_iter().flat_map(|ends| [(ends, 0), (ends, 1)]) {
                let mut old = vec![0; if kind.0 == 4 { 4 } else { 16 }];
                let last = old.len() - 2;
                old[..2].copy_from_slice(&ends[..2]);
                old[last..].copy_from_slice(&ends[2..]);
                let place = View::read_as(&[], kind.0).address_place(side as usize);
                let packet = self.full(shape, place, &old, damage);
                self.given(JUDGE, 0, &packet, &[]);
                self.left(ADDRESS, side, &ZEROS[..old.len()]);
                self.left(JUDGE, 0, &[]);
                self.left(ADDRESS, side, &old);
                self.left(JUDGE, 0, &[]);
                self.again(ADDRESS, side, &ZEROS[..old.len()]);
                self.left(MEND, 0, &[]);
            }
        }
    }

    /// Edits in turn, with refused ones between: an address, two stretches of the body and the lifetime.
    fn full_twice(&mut self, kind: (u8, u8)) {
        let shape = Shape::plain(kind, 9);
        let (address, other) = if kind.0 == 4 { (4, 16) } else { (16, 4) };
        for damage in damages(kind) {
            let mut packet = shape.good(&mut Random(5));
            let source = View::new(&packet).address_place(0);
            packet[source..source + address].fill(0xFF);
            packet[shape.headers() + 5..shape.headers() + 8].copy_from_slice(FULL[1]);
            let packet = self.filled_up(&packet, shape.headers(), FULL[0], damage);
            self.given(JUDGE, 0, &packet, &[]);
            for turn in [[0, 1, 2, 3], [2, 0, 3, 1], [3, 2, 1, 0]] {
                self.again(STRETCH, 8, &ZEROS[..2]);
                for edit in turn {
                    match edit {
                        0 => self.left(STRETCH, 0, &ZEROS[..2]),
                        1 => self.left(STRETCH, 5, &ZEROS[..3]),
                        2 => self.left(ADDRESS, 0, &ZEROS[..address]),
                        _ => self.left(LIFETIME, 0, &[]),
                    }
                    self.left(JUDGE, 0, &[]);
                    self.left(STRETCH, 9, &ZEROS[..1]);
                    self.left(ADDRESS, 2, &ZEROS[..address]);
                    self.left(ADDRESS, 0, &ZEROS[..other]);
                }
                self.left(MEND, 0, &[]);
                self.left(JUDGE, 0, &[]);
            }
        }
    }

    /// Options before the body, a tail behind it, and a body that is one stretch.
    fn full_shapes(&mut self, kind: (u8, u8)) {
        for (words, offset, tail) in [(6, 5, 0), (5, 6, 3), (15, 15, 0), (15, 5, 9)] {
            for body in [2, 3, 20] {
                let shape = Shape { words, offset, tail, ..Shape::plain(kind, body) };
                let old = [FULL[body % 2], &ZEROS[..body - 2 - body % 2]].concat();
                let packet = self.full(shape, shape.headers(), &old, Damage::Nothing);
                self.given(JUDGE, 0, &packet, &[]);
                self.left(STRETCH, 0, &ZEROS[..body]);
                self.left(JUDGE, 0, &[]);
                self.left(MEND, 0, &[]);
            }
        }
    }

    /// ICMP whose one word besides its field is FFFF: without it the message would be blank, which is refused. A
    /// blank message's FFFF is fresh: it stays, while the header's becomes 0000.
    fn full_and_blank(&mut self) {
        let shape = Shape::plain((4, ICMP), 4);
        for word in [0xFFFF, 0x0000] {
            let mut packet = shape.good(&mut Random(6));
            packet[20..].fill(0);
            write_word(&mut packet, shape.headers(), word);
            let mut packet = self.with_all_ones(&packet, 12, FULL[2], 20);
            write_word(&mut packet, 20, 0);
            self.given(JUDGE, 0, &packet, &[]);
            for (place, length) in [(0, 2), (0, 4), (1, 1), (2, 2), (4, 0), (3, 2)] {
                self.again(STRETCH, place, &ZEROS[..length]);
                self.left(JUDGE, 0, &[]);
            }
            self.again(LIFETIME, 0, &[]);
            self.left(JUDGE, 0, &[]);
            self.again(ADDRESS, 0, &ZEROS[..4]);
            self.left(JUDGE, 0, &[]);
            self.left(MEND, 0, &[]);
            self.left(JUDGE, 0, &[]);
        }
    }

    /// Any packet whose fields stand at FFFF, with any bytes whose fold is FFFF at any place.
    pub fn any_zeros(&mut self) {
        for _ in 0..4 {
            let kind = self.any_kind();
            let body = self.random.between(2, 40);
            let packet = self.any_shape(kind, body).good(&mut self.random);
            let damage = self.random.pick(&damages(kind));
            let damage = if self.random.once_in(3) { damage } else { Damage::Nothing };
            let length = self.random.between(2, body);
            let place = self.random.between(0, body - length);
            let old = self.any_full(place, length);
            let start = View::new(&packet).message_start() + View::new(&packet).body_offset();
            let full = self.filled_up(&packet, start + place, &old, damage);
            self.given(JUDGE, 0, &full, &[]);
            self.left(STRETCH, place as u64, &vec![0; length]);
            self.left(JUDGE, 0, &[]);
            self.left(MEND, 0, &[]);
            let (side, length) = (self.random.between(0, 1), View::new(&packet).address_length());
            let old = self.any_full(0, length);
            let full = self.filled_up(&packet, View::new(&packet).address_place(side), &old, damage);
            self.given(JUDGE, 0, &full, &[]);
            self.left(ADDRESS, side as u64, &vec![0; length]);
            self.left(JUDGE, 0, &[]);
            self.left(MEND, 0, &[]);
        }
    }

    /// Random bytes, two of them such that the fold is FFFF.
    fn any_full(&mut self, position: usize, length: usize) -> Vec<u8> {
        let mut bytes = self.random.contents(length);
        let at = self.random.between(0, length - 2);
        bytes[at..at + 2].fill(0);
        let Fold(sum) = fold(total_at(position as u128, &bytes));
        let missing = (65535 - sum).to_be_bytes();
        bytes[at + (position + at) % 2] = missing[0];
        bytes[at + 1 - (position + at) % 2] = missing[1];
        bytes
    }
}
