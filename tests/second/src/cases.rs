// The generator: the stored cases, whose coverage is checked, and fresh random ones without end.

pub mod between;
pub mod build;
mod captures;
mod corners;
pub mod fragments;
mod lifetimes;
mod packets;
pub mod prefixes;
pub mod stops;
mod sums;
mod trailing;
mod zeros;

use crate::answer::*;
use crate::cover::Cover;
use crate::draft::{Shape, KINDS};
use crate::random::Random;
use std::io::{self, Write};

/// Which calls are made of a packet that is tried with each.
#[derive(Clone, Copy, PartialEq)]
enum Calls {
    /// All but the prefix exchange: those of older stored cases, which stay the same bytes.
    Older,
    /// The prefix exchange alone, on a packet that is judged.
    Prefix,
    All,
}

/// Makes cases one after the other, from one run of random numbers.
struct Maker {
    random: Random,
    bytes: Vec<u8>,
    count: u64,
    desk: Desk,
    cover: Option<Cover>,
    /// What shapes are drawn. Those of older stored cases have no trailing area, or nothing between: they stay the same
    /// bytes.
    shapes: fn((u8, u8), usize, &mut Random) -> Shape,
    calls: Calls,
}

impl Maker {
    fn new(seed: u64, cover: Option<Cover>) -> Self {
        let (random, desk) = (Random(seed), Desk::default());
        Maker { random, bytes: Vec::new(), count: 0, desk, cover, shapes: Shape::any, calls: Calls::All }
    }

    fn add(&mut self, case: Case) {
        self.bytes.extend(case.to_bytes());
        self.count += 1;
        self.desk.lay(&case);
        let before = self.desk.buffer.clone();
        let answer = self.desk.answer(&case);
        if let Some(cover) = &mut self.cover {
            cover.note(&case, &before, &self.desk.buffer, &answer);
        }
    }

    /// A case that gives its buffer.
    fn given(&mut self, operation: u8, number: u64, one: &[u8], two: &[u8]) {
        self.add(Case { operation, source: GIVEN, number, one: one.to_vec(), two: two.to_vec() });
    }

    /// A case on the buffer that was last given.
    fn again(&mut self, operation: u8, number: u64, two: &[u8]) {
        self.add(Case { operation, source: AGAIN, number, one: Vec::new(), two: two.to_vec() });
    }

    /// A case on what the case before left.
    fn left(&mut self, operation: u8, number: u64, two: &[u8]) {
        self.add(Case { operation, source: LEFT, number, one: Vec::new(), two: two.to_vec() });
    }

    /// A prefix exchange on the last buffer given, or on what the case before left.
    fn exchange(&mut self, source: u8, side: u32, expected: &[u8], new: &[u8]) {
        let (number, two) = exchange_payload(side, expected, new);
        self.add(Case { operation: PREFIX, source, number, one: Vec::new(), two });
    }

    fn any_kind(&mut self) -> (u8, u8) {
        self.random.pick(&KINDS)
    }

    /// A good packet, mostly small.
    fn any_good(&mut self, kind: (u8, u8)) -> Vec<u8> {
        let longest = self.random.pick(&[8, 24, 24, 24, 60]);
        let body = self.random.between(0, longest);
        self.any_shape(kind, body).good(&mut self.random)
    }

    fn any_shape(&mut self, kind: (u8, u8), body: usize) -> Shape {
        (self.shapes)(kind, body, &mut self.random)
    }
}

/// The stored cases and their number; an error if they don't reach what they must.
pub fn stored(seed: u64) -> Result<(Vec<u8>, u64), String> {
    let mut maker = Maker::new(seed, Some(Cover::default()));
    (maker.shapes, maker.calls) = (Shape::any_whole, Calls::Older);
    maker.sums();
    maker.packets();
    maker.corners();
    maker.captures();
    maker.joins();
    maker.long_chains();
    maker.zeros();
    maker.lifetimes_of_any();
    maker.shapes = Shape::any_direct;
    maker.trailing_areas();
    maker.headers_between();
    maker.stopped_walks();
    (maker.shapes, maker.calls) = (Shape::any, Calls::Prefix);
    maker.prefixes();
    maker.fragment_lists();
    maker.calls = Calls::All;
    maker.builds();
    if let Some(cover) = &maker.cover {
        cover.check()?;
    }
    Ok((maker.bytes, maker.count))
}

/// About `count` fresh random cases, never fewer.
pub fn fuzz(seed: u64, count: u64, out: &mut impl Write) -> io::Result<()> {
    let mut maker = Maker::new(seed, None);
    while maker.count < count {
        match maker.random.between(1, 121) {
            1 => maker.any_corner(),
            2 => maker.any_blank(),
            3..=7 => maker.any_sums(),
            8 if maker.random.once_in(10) => maker.any_long_chain(),
            8..=12 => maker.any_chain(),
            13..=17 => maker.any_capture(),
            18..=22 => maker.any_rubbish(),
            23..=26 => maker.any_long(),
            27..=36 => maker.any_sequence(),
            37..=38 => maker.any_zeros(),
            39..=46 => maker.any_lifetimes(),
            47..=54 => maker.any_trailing(),
            55..=66 => maker.any_between(),
            67..=80 => maker.any_prefixes(),
            81..=93 => (0..5).for_each(|_| maker.any_fragments()),
            94..=95 => maker.any_long_fragments(),
            96..=107 => (0..8).for_each(|_| maker.any_build()),
            108..=109 => (0..2).for_each(|_| maker.any_long_build()),
            _ => maker.any_faults(),
        }
        out.write_all(&maker.bytes)?;
        maker.bytes.clear();
    }
    out.flush()
}
