// The case format (CASES.md) and the answer to each case.

use crate::build::{build_udp, Parts};
use crate::capture::{judge_capture, printed};
use crate::edit::{lower_lifetime, set_address, set_stretch};
use crate::fragments::{judge_fragments, Record};
use crate::judge::judge;
use crate::mend::mend;
use crate::prefix::exchange_prefix;
use crate::sums::{self, field, fold, partial, total, total_at, Field, Fold, Partial};
use crate::verdict::Verdict;
use std::io::{self, Read};

pub const JUDGE: u8 = 0;
pub const MEND: u8 = 1;
pub const LIFETIME: u8 = 2;
pub const ADDRESS: u8 = 3;
pub const STRETCH: u8 = 4;
pub const CAPTURE: u8 = 5;
pub const CHAIN: u8 = 6;
pub const PARTIAL: u8 = 7;
pub const FOLD_AT: u8 = 8;
pub const FIELD: u8 = 9;
pub const UPDATE: u8 = 10;
pub const JOIN: u8 = 11;
pub const PRINTED: u8 = 12;
pub const PREFIX: u8 = 13;
pub const FRAGMENTS: u8 = 14;
pub const BUILD: u8 = 15;

/// The operations' names, by number.
#[rustfmt::skip]
pub const OPERATIONS: [&str; 16] = [
    "judge", "mend", "lower lifetime", "set address", "set stretch", "judge capture", "chain", "partial sum",
    "fold at a position", "field", "update", "join", "printed lines", "exchange prefix",
    "judge fragments", "build",
];

/// Payload one is the buffer.
pub const GIVEN: u8 = 0;
/// The buffer is what the case before left.
pub const LEFT: u8 = 1;
/// The buffer is the last one given, as it was given.
pub const AGAIN: u8 = 2;

pub const LARGEST: usize = 131_072;
pub const HEAD: usize = 18;
/// The size of a number in a chain's list.
pub const NUMBER: usize = 4;
/// The size of a partial sum in the payload of a join: fold and length.
pub const SUM: usize = 10;
/// The size of a record in the payload of fragments: offset and length.
pub const LISTED: usize = 16;
/// The largest size of an address in a build: sizes have 12 bits.
pub const LARGEST_ADDRESS: u64 = 4_095;
pub const FILL: u8 = 0xA5;
pub const BAD_CASE: &str = "bad case\n";

#[derive(Debug)]
pub struct Case {
    pub operation: u8,
    pub source: u8,
    pub number: u64,
    pub one: Vec<u8>,
    pub two: Vec<u8>,
}

/// What comes next in a file of cases.
pub enum Next {
    Case(Case),
    Bad,
    End,
}

impl Case {
    pub fn to_bytes(&self) -> Vec<u8> {
        let mut bytes = vec![self.operation, self.source];
        bytes.extend(self.number.to_be_bytes());
        bytes.extend((self.one.len() as u32).to_be_bytes());
        bytes.extend((self.two.len() as u32).to_be_bytes());
        bytes.extend(&self.one);
        bytes.extend(&self.two);
        bytes
    }

    pub fn read(input: &mut impl Read) -> io::Result<Next> {
        let head = take(input, HEAD)?;
        if head.is_empty() {
            return Ok(Next::End);
        }
        if head.len() < HEAD {
            return Ok(Next::Bad);
        }
        let (operation, source, number) = (head[0], head[1], whole(&head[2..10]));
        let (size_one, size_two) = (whole(&head[10..14]) as usize, whole(&head[14..18]) as usize);
        let unknown = operation > BUILD || source > AGAIN;
        let too_large = size_one > LARGEST || size_two > LARGEST || (operation == CAPTURE && number > LARGEST as u64);
        let uneven = match operation {
            CHAIN => size_two % NUMBER != 0,
            FRAGMENTS => size_two % LISTED != 0,
            _ => false,
        };
        let not_two = operation == JOIN && size_two != 2 * SUM;
        let no_prefix = operation == PREFIX && expected_size(number) > size_two;
        let no_addresses = operation == BUILD && source_size(number) + destination_size(number) > size_two;
        if unknown || too_large || uneven || not_two || no_prefix || no_addresses {
            return Ok(Next::Bad);
        }
        let (one, two) = (take(input, size_one)?, take(input, size_two)?);
        if one.len() < size_one || two.len() < size_two {
            return Ok(Next::Bad);
        }
        Ok(Next::Case(Case { operation, source, number, one, two }))
    }

    /// Of a prefix exchange the side, the expected prefix and the new one.
    pub fn exchange(&self) -> (u32, &[u8], &[u8]) {
        let (expected, new) = self.two.split_at(expected_size(self.number));
        (self.number as u32, expected, new)
    }

    /// Of fragments the list.
    pub fn list(&self) -> Vec<Record> {
        let record = |bytes: &[u8]| Record { offset: whole(&bytes[..8]), length: whole(&bytes[8..]) };
        self.two.chunks(LISTED).map(record).collect()
    }

    /// Of a build what the packet is built from.
    pub fn parts(&self) -> Parts<'_> {
        let (source, rest) = self.two.split_at(source_size(self.number));
        let (destination, body) = rest.split_at(destination_size(self.number));
        let [a, b, c, d, lifetime, ..] = self.number.to_be_bytes();
        let [source_port, destination_port] = [[a, b], [c, d]].map(u16::from_be_bytes);
        Parts { source, destination, source_port, destination_port, lifetime, body }
    }
}

/// The number and payload two of a build.
pub fn build_payload(parts: &Parts) -> (u64, Vec<u8>) {
    let sizes = (parts.source.len() << 12 | parts.destination.len()) as u64;
    let ports = u64::from(parts.source_port) << 48 | u64::from(parts.destination_port) << 32;
    let two = [parts.source, parts.destination, parts.body].concat();
    (ports | u64::from(parts.lifetime) << 24 | sizes, two)
}

/// The size of the source, by the number of a build.
fn source_size(number: u64) -> usize {
    (number >> 12 & LARGEST_ADDRESS) as usize
}

/// The size of the destination, by the number of a build.
fn destination_size(number: u64) -> usize {
    (number & LARGEST_ADDRESS) as usize
}

/// Payload two of fragments.
pub fn list_payload(list: &[Record]) -> Vec<u8> {
    list.iter().flat_map(|record| [record.offset, record.length]).flat_map(u64::to_be_bytes).collect()
}

/// The number and payload two of a prefix exchange.
pub fn exchange_payload(side: u32, expected: &[u8], new: &[u8]) -> (u64, Vec<u8>) {
    ((expected.len() as u64) << 32 | u64::from(side), [expected, new].concat())
}

/// The size of the expected prefix, by the number of a prefix exchange.
fn expected_size(number: u64) -> usize {
    (number >> 32) as usize
}

/// The next bytes of the input, fewer only at its end.
fn take(input: &mut impl Read, size: usize) -> io::Result<Vec<u8>> {
    let mut bytes = Vec::new();
    input.take(size as u64).read_to_end(&mut bytes)?;
    Ok(bytes)
}

/// A big-endian whole number.
fn whole(bytes: &[u8]) -> u64 {
    bytes.iter().fold(0, |number, byte| number * 256 + u64::from(*byte))
}

/// The two partial sums in the payload of a join.
pub fn operands(two: &[u8]) -> (Partial, Partial) {
    let sum = |bytes: &[u8]| Partial { fold: Fold(whole(&bytes[..2]) as u16), length: whole(&bytes[2..]) };
    (sum(&two[..SUM]), sum(&two[SUM..]))
}

/// A digest of all bytes and their order.
pub fn digest(bytes: &[u8]) -> u64 {
    bytes.iter().fold(0, |h, byte| (h * 257 + u64::from(*byte) + 1) % 4_294_967_291)
}

/// The buffers that cases share: the present one, and the last that was given.
#[derive(Default)]
pub struct Desk {
    pub buffer: Vec<u8>,
    given: Vec<u8>,
}

impl Desk {
    /// Makes the case's buffer the present one.
    pub fn lay(&mut self, case: &Case) {
        match case.source {
            GIVEN => {
                self.given = case.one.clone();
                self.buffer = case.one.clone();
            }
            AGAIN => self.buffer = self.given.clone(),
            _ => {}
        }
    }

    /// The answer to the case whose buffer is laid: its lines, each with its newline.
    pub fn answer(&mut self, case: &Case) -> String {
        let (number, two) = (case.number, &case.two[..]);
        let bits = |low: u32| (number >> low) as u16;
        match case.operation {
            JUDGE => format!("{}\n", judge(&self.buffer)),
            MEND => self.edited(mend),
            LIFETIME => self.edited(lower_lifetime),
            ADDRESS => self.edited(|packet| set_address(packet, number as u32, two)),
            STRETCH => self.edited(|packet| set_stretch(packet, number, two)),
            CAPTURE => self.capture(number as usize),
            CHAIN => self.chain(two),
            PARTIAL => summed(partial(&self.buffer)),
            FOLD_AT => format!("{}\n", fold(total_at(number.into(), &self.buffer)).0),
            FIELD => format!("{}\n", field(fold(total(&self.buffer))).0),
            UPDATE => format!("{}\n", sums::update(Field(bits(32)), Fold(bits(16)), Fold(bits(0))).0),
            JOIN => {
                let (a, b) = operands(two);
                judged(sums::join(a, b))
            }
            PREFIX => {
                let (side, expected, new) = case.exchange();
                self.edited(|packet| exchange_prefix(packet, side, expected, new))
            }
            FRAGMENTS => format!("{}\n", judge_fragments(&self.buffer, &case.list())),
            BUILD => self.built(&case.parts()),
            _ => printed(&self.buffer),
        }
    }

    fn edited(&mut self, edit: impl Fn(&mut [u8]) -> Verdict) -> String {
        let verdict = edit(&mut self.buffer);
        format!("{verdict} {}\n", digest(&self.buffer))
    }

    fn built(&mut self, parts: &Parts) -> String {
        let (verdict, length) = build_udp(parts, &mut self.buffer);
        format!("{verdict} {length} {}\n", digest(&self.buffer))
    }

    fn capture(&self, places: usize) -> String {
        let mut verdicts = vec![FILL; places];
        let (verdict, count) = judge_capture(&self.buffer, &mut verdicts);
        format!("{verdict} {count} {}\n", digest(&verdicts))
    }

    fn chain(&self, list: &[u8]) -> String {
        let list: Vec<u32> = list.chunks(NUMBER).map(|number| whole(number) as u32).collect();
        judged(sums::chain(&self.buffer, &list))
    }
}

fn summed(sum: Partial) -> String {
    format!("{} {}\n", sum.fold.0, sum.length)
}

fn judged((verdict, sum): (Verdict, Partial)) -> String {
    format!("{verdict} {}", summed(sum))
}
