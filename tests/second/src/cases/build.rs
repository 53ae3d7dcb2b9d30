// Cases of builds: addresses, bodies, lifetimes and rooms at their limits, all that is refused, alone and beside other
// faults, ports and sums at the corners, buffers in which anything stood before, and calls one after the other.

use super::Maker;
use crate::answer::*;
use crate::build::{Parts, MOST};
use crate::draft::{write_word, Shape};
use crate::fragments::Record;
use crate::packet::{ICMPV6, TCP, UDP};
use crate::random::Random;
use crate::sums::Field;
use std::collections::BTreeSet;

/// Sizes of addresses: those of the two families, one more, and nothing.
pub const SIZES: [usize; 5] = [0, 4, 5, 16, 17];

/// Two sizes that are those of a family in their last 8 bits, at least one of them.
const OVER_256: [(usize, usize); 7] = [(260, 260), (272, 272), (4, 260), (260, 4), (16, 272), (272, 16), (256, 256)];

/// Lengths of a body about the longest one.
pub const LONG_BODIES: [usize; 3] = [MOST - 1, MOST, MOST + 1];

/// Lengths of a body beside borders of a byte in some length of the packet, and others.
pub const MIDDLE_BODIES: [usize; 14] = [63, 64, 65, 215, 216, 227, 228, 247, 248, 255, 256, 484, 504, 1000];

/// Short bodies have every length up to this.
pub const SHORT: usize = 40;

/// The body that is tried in every room.
pub const IN_EVERY_ROOM: usize = 3;

pub const LIFETIMES: [u8; 11] = [0, 1, 2, 3, 63, 64, 127, 128, 129, 254, 255];

pub const PORTS: [u16; 8] = [0x0000, 0x0001, 0x00FF, 0x0100, 0x7FFF, 0x8000, 0xFF00, 0xFFFF];

/// Words at which a sum goes wrong. No sum is computed as FFFF.
pub const CORNER_SUMS: [u16; 8] = [0x0000, 0x0001, 0x00FF, 0x0100, 0x7FFF, 0x8000, 0xFF00, 0xFFFE];

/// Source and destination of the paper's example 11, and of its like over IPv6.
const EXAMPLE_4: &[u8] = &[0xC0, 0xA8, 0, 1, 0xC0, 0xA8, 0, 0xC7];
#[rustfmt::skip]
const EXAMPLE_6: &[u8] = &[
    0x20, 1, 0x0D, 0xB8, 0, 0, 0, 0, 0, 0, 0, 0, 0, 0, 0, 1, 0x20, 1, 0x0D, 0xB8, 0, 0, 0, 0, 0, 0, 0, 0, 0, 0, 0, 2,
];

/// Every two sizes of addresses that are tried.
pub fn two_sizes() -> BTreeSet<(usize, usize)> {
    let pairings = SIZES.into_iter().flat_map(|source| SIZES.map(|destination| (source, destination)));
    let beside = (0..=20).flat_map(|size| [(size, 4), (4, size), (size, 16), (16, size), (size, size)]);
    pairings.chain(beside).chain(OVER_256).collect()
}

/// The parts of a status packet.
#[derive(Clone, Debug)]
pub struct Status {
    pub source: Vec<u8>,
    pub destination: Vec<u8>,
    pub source_port: u16,
    pub destination_port: u16,
    pub lifetime: u8,
    pub body: Vec<u8>,
}

impl Status {
    /// Any parts with addresses of this size and a body of this length; the lifetime isn't 0.
    pub fn any(size: usize, body: usize, random: &mut Random) -> Self {
        let [source_port, destination_port] = [(); 2].map(|()| random.any() as u16);
        Status {
            source: random.contents(size),
            destination: random.contents(size),
            source_port,
            destination_port,
            lifetime: random.between(1, 255) as u8,
            body: random.contents(body),
        }
    }

    pub fn parts(&self) -> Parts<'_> {
        Parts {
            source: &self.source,
            destination: &self.destination,
            source_port: self.source_port,
            destination_port: self.destination_port,
            lifetime: self.lifetime,
            body: &self.body,
        }
    }

    /// Makes UDP's sum compute to a word by means of the body's word at an even place.
    pub fn balance(&mut self, place: usize, sum: u16) {
        write_word(&mut self.body, place, 0);
        let Field(without) = self.parts().computed_sum();
        write_word(&mut self.body, place, missing(without, sum));
    }

    /// The same by means of a port.
    pub fn balance_port(&mut self, sum: u16) {
        self.source_port = 0;
        let Field(without) = self.parts().computed_sum();
        self.source_port = missing(without, sum);
    }

    /// Makes IPv4's header sum compute to a word by means of the destination's last word.
    pub fn balance_header(&mut self, sum: u16) {
        write_word(&mut self.destination, 2, 0);
        let Field(without) = self.parts().header_sum();
        write_word(&mut self.destination, 2, missing(without, sum));
    }
}

/// The word that turns one sum into another where it stands for 0000.
fn missing(without: u16, sum: u16) -> u16 {
    ((u32::from(without) + 65535 - u32::from(sum)) % 65535) as u16
}

impl Maker {
    pub fn builds(&mut self) {
        self.example_built();
        for size in [4, 16] {
            self.bodies_built(size);
            self.every_room(size);
            self.lifetimes_built(size);
            self.ports_built(size);
            self.sums_built(size);
            self.built_over(size);
            self.built_and_called(size);
        }
        self.header_sums_built();
        self.address_sizes();
        self.refusals_beside_a_long_body();
        for _ in 0..150 {
            self.any_build();
        }
    }

    /// A build in a buffer of its own.
    fn build_in(&mut self, buffer: &[u8], status: &Status) {
        let (number, two) = build_payload(&status.parts());
        self.given(BUILD, number, buffer, &two);
    }

    /// A build in the last buffer given, or in what the case before left.
    fn build(&mut self, source: u8, status: &Status) {
        let (number, two) = build_payload(&status.parts());
        self.add(Case { operation: BUILD, source, number, one: Vec::new(), two });
    }

    /// Bytes that aren't zero.
    fn filling(&mut self, length: usize) -> Vec<u8> {
        (0..length).map(|_| self.random.between(1, 255) as u8).collect()
    }

    /// A build in a buffer that has so many bytes more than the packet.
    fn build_with_room(&mut self, more: usize, status: &Status) {
        let buffer = self.filling(status.parts().length() + more);
        self.build_in(&buffer, status);
    }

    /// A build in a buffer that is a byte too short.
    fn build_without_room(&mut self, status: &Status) {
        let buffer = self.filling(status.parts().length() - 1);
        self.build_in(&buffer, status);
    }

    /// The paper's example 11 as packets, and its like over IPv6: with a body, and with one whose sum computes to 0000.
    fn example_built(&mut self) {
        let four = (EXAMPLE_4, [[0x48, 0x69], [0x56, 0xB0]]);
        let six = (EXAMPLE_6, [[0x48, 0x69], [0x7D, 0x54]]);
        for ((addresses, bodies), i) in [four, six].into_iter().flat_map(|example| [(example, 0), (example, 1)]) {
            let (source, destination) = addresses.split_at(addresses.len() / 2);
            let status = Status {
                source: source.to_vec(),
                destination: destination.to_vec(),
                source_port: 0x1388,
                destination_port: 0x1389,
                lifetime: 64,
                body: bodies[i].to_vec(),
            };
            self.build_with_room(0, &status);
            self.left(JUDGE, 0, &[]);
            self.left(MEND, 0, &[]);
            self.build_with_room(5, &status);
            self.left(JUDGE, 0, &[]);
            self.build_without_room(&status);
        }
    }

    /// Bodies of every short length, some longer ones, and those about the longest: in exact room, in a byte more, and
    /// in a byte less.
    fn bodies_built(&mut self, size: usize) {
        for length in (0..=SHORT).chain(LONG_BODIES) {
            let status = Status::any(size, length, &mut self.random);
            self.build_with_room(0, &status);
            self.build_without_room(&status);
            self.build_with_room(1, &status);
            self.left(JUDGE, 0, &[]);
        }
        for length in MIDDLE_BODIES {
            let status = Status::any(size, length, &mut self.random);
            self.build_with_room(length % 3, &status);
            self.left(JUDGE, 0, &[]);
        }
    }

    /// A body in every room from none to more than enough.
    fn every_room(&mut self, size: usize) {
        let status = Status::any(size, IN_EVERY_ROOM, &mut self.random);
        for room in 0..status.parts().length() + 4 {
            let buffer = self.filling(room);
            self.build_in(&buffer, &status);
        }
    }

    /// Lifetimes at the limits, in exact room and in a byte less.
    fn lifetimes_built(&mut self, size: usize) {
        for lifetime in LIFETIMES {
            let body = self.random.between(0, 5);
            let status = Status { lifetime, ..Status::any(size, body, &mut self.random) };
            self.build_with_room(0, &status);
            self.left(LIFETIME, 0, &[]);
            self.build_without_room(&status);
        }
    }

    /// Every two ports of the corners.
    fn ports_built(&mut self, size: usize) {
        let status = Status::any(size, 2, &mut self.random);
        self.build_with_room(3, &status);
        for (source_port, destination_port) in PORTS.into_iter().flat_map(|one| PORTS.map(|other| (one, other))) {
            let body = self.random.contents(2);
            self.build(AGAIN, &Status { source_port, destination_port, body, ..status.clone() });
        }
    }

    /// UDP sums that compute to the corners, 0000 among them: even bodies and odd ones, by a word of the body or by a
    /// port, behind bodies of zeros and of ones, behind none, and behind the longest; judged, mended and edited.
    fn sums_built(&mut self, size: usize) {
        for (sum, length) in CORNER_SUMS.into_iter().flat_map(|sum| [6, 7].map(|length| (sum, length))) {
            let mut status = Status::any(size, length, &mut self.random);
            status.balance(2 + 2 * (length % 2), sum);
            self.build_with_room(length % 2, &status);
            self.left(JUDGE, 0, &[]);
            self.left(MEND, 0, &[]);
            self.left(STRETCH, 1, &[0xFF, 0]);
            self.left(JUDGE, 0, &[]);
        }
        for (fill, length) in [0, 0xFF].into_iter().flat_map(|fill| [0, 1, 2, 9].map(|length| (fill, length))) {
            let mut status = Status { body: vec![fill; length], ..Status::any(size, 0, &mut self.random) };
            status.balance_port(0);
            self.build_with_room(2, &status);
            self.left(JUDGE, 0, &[]);
        }
        for length in [MOST - 1, MOST] {
            let mut status = Status::any(size, length, &mut self.random);
            status.balance(700, 0);
            self.build_with_room(1, &status);
            self.left(JUDGE, 0, &[]);
        }
    }

    /// IPv4 header sums that compute to the corners, with a UDP sum that computes to 0000 and with another.
    fn header_sums_built(&mut self) {
        for (sum, balanced) in CORNER_SUMS.into_iter().flat_map(|sum| [(sum, false), (sum, true)]) {
            let mut status = Status { lifetime: 64, ..Status::any(4, 4, &mut self.random) };
            status.balance_header(sum);
            if balanced {
                status.balance(2, 0);
            }
            self.build_with_room(3, &status);
            self.left(JUDGE, 0, &[]);
            self.left(MEND, 0, &[]);
            self.left(LIFETIME, 0, &[]);
            self.left(JUDGE, 0, &[]);
        }
    }

    /// Over zeros, ones and any bytes; over good packets that are longer, of each protocol; and over packets that were
    /// built, of either family, longer and shorter ones.
    fn built_over(&mut self, size: usize) {
        let mut buffers = vec![vec![0; 90], vec![0xFF; 90], self.random.bytes(90)];
        for kind in [(4, TCP), (4, UDP), (6, TCP), (6, UDP), (6, ICMPV6)] {
            buffers.push(Shape { tail: 3, ..Shape::plain(kind, 60) }.good(&mut self.random));
        }
        for (i, buffer) in buffers.iter().enumerate() {
            self.given(JUDGE, 0, buffer, &[]);
            for length in [4, 5, i] {
                let status = Status::any(size, length, &mut self.random);
                self.build(LEFT, &status);
                self.left(JUDGE, 0, &[]);
            }
            let other = Status::any(20 - size, 6, &mut self.random);
            let again = Status::any(size, 10, &mut self.random);
            self.build(LEFT, &other);
            self.build(LEFT, &again);
            self.left(JUDGE, 0, &[]);
            self.build(AGAIN, &again);
        }
    }

    /// What is refused in a buffer of 70 bytes: for the addresses, the lifetime, or the room.
    fn refused_builds(&mut self, status: &Status) -> [Status; 3] {
        let longer = self.random.contents(70);
        [
            Status { source: vec![7; 5], ..status.clone() },
            Status { lifetime: 0, ..status.clone() },
            Status { body: longer, ..status.clone() },
        ]
    }

    /// Each call on a packet that was built, done and refused, and a build behind it, which is done or refused.
    fn built_and_called(&mut self, size: usize) {
        let (address, prefix) = (self.random.bytes(size), self.random.bytes(6));
        for lifetime in [1, 64] {
            let status = Status { lifetime, ..Status::any(size, 5, &mut self.random) };
            let length = status.parts().length() as u64;
            let (there, to) = exchange_payload(0, &status.source[..size.min(6)], &prefix);
            let (no_side, to_no_side) = exchange_payload(2, &status.source[..size.min(6)], &prefix);
            let record = list_payload(&[Record { offset: 0, length }]);
            let calls: [(u8, u64, &[u8]); 10] = [
                (JUDGE, 0, &[]),
                (MEND, 0, &[]),
                (LIFETIME, 0, &[]),
                (ADDRESS, 1, &address),
                (ADDRESS, 2, &address),
                (STRETCH, 1, &[7, 8, 9]),
                (STRETCH, 3, &[7, 8, 9]),
                (PREFIX, there, &to),
                (PREFIX, no_side, &to_no_side),
                (FRAGMENTS, 0, &record),
            ];
            let (buffer, refused) = (self.filling(70), self.refused_builds(&status));
            self.build_in(&buffer, &status);
            for (operation, number, two) in calls {
                self.build(AGAIN, &status);
                self.left(operation, number, two);
                self.build(LEFT, &status);
                self.left(JUDGE, 0, &[]);
                for other in &refused {
                    self.build(AGAIN, &status);
                    self.build(LEFT, other);
                    self.left(operation, number, two);
                    self.build(LEFT, other);
                }
            }
            self.build_refused_in_turn(&status, &refused);
        }
    }

    /// Every two builds of one that is done and three that are refused, one behind the other.
    fn build_refused_in_turn(&mut self, status: &Status, refused: &[Status; 3]) {
        let all = [&[status.clone()][..], refused].concat();
        for (one, other) in all.iter().flat_map(|one| all.iter().map(move |other| (one, other))) {
            self.build(AGAIN, one);
            self.build(LEFT, other);
        }
    }

    /// Addresses of every two sizes, each pairing of the two families', one more and none beside each other fault.
    fn address_sizes(&mut self) {
        let sizes = two_sizes();
        for (room, lifetime) in [(60, 1), (60, 0), (10, 1), (10, 0)] {
            let buffer = self.filling(room);
            self.given(JUDGE, 0, &buffer, &[]);
            for (source, destination) in &sizes {
                if (room, lifetime) == (60, 1) || SIZES.contains(source) && SIZES.contains(destination) {
                    let destination = self.random.contents(*destination);
                    let status = Status { destination, lifetime, ..Status::any(*source, 3, &mut self.random) };
                    self.build(AGAIN, &status);
                }
            }
        }
    }

    /// A body that is too long beside each other refusal, every two and all of them.
    fn refusals_beside_a_long_body(&mut self) {
        for room in [1_449, 20] {
            let buffer = self.filling(room);
            self.given(JUDGE, 0, &buffer, &[]);
            for (size, lifetime) in [4, 16, 5].into_iter().flat_map(|size| [(size, 0), (size, 64)]) {
                let status = Status { lifetime, ..Status::any(size, MOST + 1, &mut self.random) };
                self.build(AGAIN, &status);
            }
        }
        let status = Status { destination: vec![9; 16], ..Status::any(4, MOST + 1, &mut self.random) };
        self.build(AGAIN, &Status { lifetime: 0, ..status });
    }

    /// Any parts: mostly such as are taken, with a sum often at a corner.
    fn any_status(&mut self) -> Status {
        let (size, near, far) = (self.random.pick(&[4, 16]), self.random.between(0, 20), self.random.pick(&[260, 272]));
        let other = if self.random.once_in(8) { far } else { near };
        let any = self.random.between(0, SHORT);
        let length = self.random.pick(&[0, 1, 2, 3, any, any, any]);
        let mut status = Status::any(size, length, &mut self.random);
        if self.random.once_in(3) {
            status.source_port = self.random.pick(&PORTS);
            status.destination_port = self.random.pick(&PORTS);
        }
        if self.random.once_in(3) {
            status.lifetime = self.random.pick(&LIFETIMES);
        }
        let sum = if self.random.once_in(2) { 0 } else { self.random.pick(&CORNER_SUMS) };
        match self.random.between(0, 9) {
            0 => status.source = self.random.contents(other),
            1 => status.destination = self.random.contents(other),
            2 => (status.source, status.destination) = (self.random.contents(other), self.random.contents(other)),
            3 if size == 4 => status.balance_header(sum),
            4..=6 if length > 1 => status.balance(self.random.between(0, length / 2 - 1) * 2, sum),
            7 => status.balance_port(sum),
            _ => {}
        }
        status
    }

    /// A buffer for a packet: exact, longer, shorter, or of any length; with any contents, which are zeros now and then.
    fn any_room(&mut self, needed: usize) -> Vec<u8> {
        let (more, any) = (self.random.between(1, 9), self.random.between(0, needed + 20));
        let room = self.random.pick(&[needed, needed, needed + 1, needed + more, needed + more, needed - 1, any]);
        if self.random.once_in(4) {
            self.random.contents(room)
        } else {
            self.filling(room)
        }
    }

    /// A build in any buffer; and behind it other builds, and calls on what was built.
    pub fn any_build(&mut self) {
        let status = self.any_status();
        let buffer = self.any_room(status.parts().length());
        self.build_in(&buffer, &status);
        self.left(JUDGE, 0, &[]);
        for _ in 0..self.random.between(0, 5) {
            if self.random.once_in(2) {
                let other = self.any_status();
                self.build(LEFT, &other);
            } else {
                self.step(status.body.len(), if status.source.len() == 4 { 4 } else { 6 });
            }
        }
    }

    /// Bodies about the longest, and much longer ones.
    pub fn any_long_build(&mut self) {
        let (any, about) = (self.random.between(0, 3_000), self.random.between(MOST - 10, MOST + 3));
        let far = 65_536 + self.random.between(0, 20);
        let length = if self.random.once_in(20) { far } else { self.random.pick(&[any, about, about, about]) };
        let (size, taken) = (self.random.pick(&[4, 16]), length <= MOST);
        let mut status = Status::any(size, length, &mut self.random);
        if length > 1 && self.random.once_in(3) {
            status.balance(self.random.between(0, length / 2 - 1) * 2, 0);
        }
        status.lifetime = self.random.pick(&LIFETIMES);
        let room = if taken { status.parts().length() } else { self.random.between(0, 1_500) };
        let buffer = self.any_room(room.max(1));
        self.build_in(&buffer, &status);
        self.left(JUDGE, 0, &[]);
        self.build(AGAIN, &Status { lifetime: 1, ..status });
    }
}
