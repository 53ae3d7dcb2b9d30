// Cases at the corners of the update: fields that stand at or come to 0000 or FFFF, and blank ICMP messages.

use super::Maker;
use crate::answer::*;
use crate::draft::{balance_header, balance_message, refresh, write_word, Shape, KINDS};
use crate::packet::{View, HEADER_FIELD, ICMP, UDP};

/// Stretches of a body that are changed and changed back: place and length.
const STRETCHES: [(usize, usize); 8] = [(2, 1), (2, 2), (3, 1), (3, 2), (3, 3), (2, 4), (5, 4), (2, 9)];

/// Bytes whose fold is FFFF.
const ALL_ONES: [&[u8]; 4] = [&[0xFF, 0xFF], &[0x80, 0x00, 0x7F, 0xFF], &[0xFF, 0xFF, 0, 0], &[0xFF; 6]];

impl Maker {
    pub fn corners(&mut self) {
        for kind in KINDS {
            for _ in 0..3 {
                self.corner(kind);
            }
        }
        for length in 8..=17 {
            self.blank_messages(4, ICMP, length - 8);
        }
        for kind in KINDS {
            self.blank_messages(kind.0, kind.1, 4);
            self.blank_messages(kind.0, kind.1, 5);
            self.nearly_blank(kind);
        }
        self.blank_too_early();
    }

    pub fn any_corner(&mut self) {
        let kind = self.any_kind();
        self.corner(kind);
    }

    pub fn any_blank(&mut self) {
        let (family, protocol) = self.any_kind();
        let body = self.random.between(0, 20);
        self.blank_messages(family, protocol, body);
        self.nearly_blank((family, protocol));
    }

    fn balance(&mut self, packet: &mut [u8], family: u8, place: usize) {
        balance_message(packet, family, place);
        if family == 4 {
            balance_header(packet);
        }
    }

    fn corner(&mut self, kind: (u8, u8)) {
        let body = self.random.between(12, 17);
        let shape = self.any_shape(kind, body);
        self.corner_of(shape);
    }

    /// A packet whose fresh fields are 0000 (UDP's FFFF), with a body of 12 bytes or more.
    pub fn corner_of(&mut self, shape: Shape) {
        let (kind, body) = ((shape.family, shape.protocol), shape.headers());
        let mut packet = shape.good(&mut self.random);
        self.balance(&mut packet, kind.0, body);
        self.every_operation(&packet, kind.0);
        self.stored_corners(&packet, kind);
        self.back_to_zero(&packet, body, kind.0);
        self.leaves_all_ones(&packet, body);
    }

    /// The same packet with 0000 and with FFFF in each field.
    fn stored_corners(&mut self, packet: &[u8], kind: (u8, u8)) {
        let field = View::new(packet).field_place();
        for word in [0x0000, 0xFFFF] {
            let mut packet = packet.to_vec();
            write_word(&mut packet, field, word);
            self.every_operation(&packet, kind.0);
            if kind.0 == 4 {
                write_word(&mut packet, HEADER_FIELD, word);
                self.every_operation(&packet, kind.0);
            }
            if kind.1 == UDP {
                packet[field - 1 - 5] ^= 0x10;
                self.every_operation(&packet, kind.0);
            }
        }
    }

    /// Something covered is changed and the fields made fresh; the edit back brings them to 0000.
    fn back_to_zero(&mut self, packet: &[u8], body: usize, family: u8) {
        for (place, length) in STRETCHES {
            let start = body + place;
            let mut other = packet.to_vec();
            other[start..start + length].copy_from_slice(&self.random.bytes(length));
            refresh(&mut other, family);
            self.given(JUDGE, 0, &other, &[]);
            self.left(STRETCH, place as u64, &packet[start..start + length]);
            self.left(JUDGE, 0, &[]);
        }
        let view = View::new(packet);
        for side in [0, 1] {
            let (start, length) = (view.address_place(side as usize), view.address_length());
            let mut other = packet.to_vec();
            other[start..start + length].copy_from_slice(&self.random.bytes(length));
            refresh(&mut other, family);
            self.given(JUDGE, 0, &other, &[]);
            self.left(ADDRESS, side, &packet[start..start + length]);
            self.left(JUDGE, 0, &[]);
        }
        let mut older = packet.to_vec();
        older[view.lifetime_place()] = older[view.lifetime_place()].saturating_add(1);
        refresh(&mut older, family);
        self.given(JUDGE, 0, &older, &[]);
        self.left(LIFETIME, 0, &[]);
        self.left(JUDGE, 0, &[]);
    }

    /// Fields at FFFF where 0000 is fresh: bytes that fold to FFFF are written again, or become zeros. Both bring a
    /// field to 0000, UDP's to FFFF.
    fn leaves_all_ones(&mut self, packet: &[u8], body: usize) {
        let (view, zeros) = (View::new(packet), [0; 16]);
        for old in ALL_ONES {
            for place in [2, 3] {
                let start = body + place;
                let all_ones = self.with_all_ones(packet, start, old, body + 10);
                self.given(JUDGE, 0, &all_ones, &[]);
                self.left(STRETCH, place as u64, old);
                self.left(JUDGE, 0, &[]);
                self.again(STRETCH, place as u64, &zeros[..old.len()]);
                self.left(JUDGE, 0, &[]);
                self.left(MEND, 0, &[]);
                self.left(JUDGE, 0, &[]);
            }
            for side in [0, 1] {
                let (start, length) = (view.address_place(side as usize), view.address_length());
                let mut address = zeros[..length].to_vec();
                address[..old.len().min(length)].copy_from_slice(&old[..old.len().min(length)]);
                let all_ones = self.with_all_ones(packet, start, &address, body + 10);
                self.given(JUDGE, 0, &all_ones, &[]);
                self.left(ADDRESS, side, &address);
                self.left(JUDGE, 0, &[]);
                self.again(ADDRESS, side, &zeros[..length]);
                self.left(JUDGE, 0, &[]);
                self.again(LIFETIME, 0, &[]);
                self.left(JUDGE, 0, &[]);
            }
        }
    }

    /// The packet with given bytes at a place, balanced again elsewhere, and its fields set to FFFF.
    pub fn with_all_ones(&mut self, packet: &[u8], start: usize, bytes: &[u8], elsewhere: usize) -> Vec<u8> {
        let family = View::new(packet).family;
        let mut packet = packet.to_vec();
        packet[start..start + bytes.len()].copy_from_slice(bytes);
        self.balance(&mut packet, family, elsewhere);
        let field = View::new(&packet).field_place();
        write_word(&mut packet, field, 0xFFFF);
        if family == 4 {
            write_word(&mut packet, HEADER_FIELD, 0xFFFF);
        }
        packet
    }

    /// A packet whose message is zeros where it may be, with several fields and tails.
    fn blank_messages(&mut self, family: u8, protocol: u8, body: usize) {
        for tail in [0, 3] {
            let shape = Shape { tail, ..self.any_shape((family, protocol), body) };
            let mut packet = shape.good(&mut self.random);
            let end = View::new(&packet).end();
            packet[shape.headers()..end].fill(0);
            if protocol == ICMP {
                packet[shape.headers() - 8..end].fill(0);
            }
            refresh(&mut packet, family);
            let field = View::new(&packet).field_place();
            self.every_operation(&packet, family);
            for word in [0x0000, 0xFFFF, 0x0100] {
                write_word(&mut packet, field, word);
                self.given(JUDGE, 0, &packet, &[]);
                for new in [vec![0; body], vec![1; body], vec![0; body + 1], vec![]] {
                    self.again(STRETCH, 0, &new);
                }
                self.again(MEND, 0, &[]);
                self.left(JUDGE, 0, &[]);
                self.left(STRETCH, 0, &vec![2; body]);
                self.left(JUDGE, 0, &[]);
            }
        }
    }

    /// A message of zeros but for one byte, each in turn, and stretches that make it blank or just don't.
    fn nearly_blank(&mut self, kind: (u8, u8)) {
        let shape = Shape::plain(kind, 5);
        let mut packet = shape.good(&mut self.random);
        let end = View::new(&packet).end();
        packet[shape.headers()..end].fill(0);
        let first = if kind.1 == ICMP { shape.headers() - 8 } else { shape.headers() };
        packet[first..end].fill(0);
        for place in first..end {
            let mut packet = packet.clone();
            packet[place] = self.random.pick(&[1, 0x80, 0xFF]);
            refresh(&mut packet, kind.0);
            self.given(JUDGE, 0, &packet, &[]);
            for (at, length) in [(0, 5), (0, 2), (2, 1), (1, 4), (4, 1)] {
                self.again(STRETCH, at, &vec![0; length]);
                self.left(JUDGE, 0, &[]);
            }
            self.again(STRETCH, 3, &[7]);
        }
    }

    /// A header length below 5 words, and nothing but zeros from there on.
    fn blank_too_early(&mut self) {
        for words in [3, 4] {
            let mut packet = Shape::plain((4, ICMP), 4).good(&mut self.random);
            packet[0] = 0x40 | words as u8;
            packet[4 * words..].fill(0);
            refresh(&mut packet, 4);
            self.every_operation(&packet, 4);
        }
    }
}
