// Packets for the cases: good ones of any shape, and faults put into them.

use crate::between::{put_between, Link};
use crate::mend::{computed_message_field, fresh_header_field, fresh_message_field, write_field};
use crate::mistakes::WHOLE_MESSAGE;
use crate::packet::{View, HEADER_FIELD, ICMP, ICMPV6, TABLE, TCP, UDP};
use crate::random::Random;
use crate::sums::Field;
use crate::walk::{HOP_BY_HOP, MOST, OPTIONS, ROUTING};

/// Every family with its protocols.
pub const KINDS: [(u8, u8); 6] = [(4, ICMP), (4, TCP), (4, UDP), (6, TCP), (6, UDP), (6, ICMPV6)];

/// Families with protocols that aren't in the table for them, IPv6's headers between among them.
#[rustfmt::skip]
pub const UNCOVERED_KINDS: [(u8, u8); 18] = [
    (4, 0), (4, 2), (4, 41), (4, 44), (4, 47), (4, 50), (4, ICMPV6), (4, 255),
    (6, 0), (6, ICMP), (6, 43), (6, 44), (6, 50), (6, 51), (6, 59), (6, 60), (6, 135), (6, 255),
];

/// The headers between of a shape: of each its number and its length in 8-byte units beyond the first 8 bytes.
pub type Between = [Option<(u8, u8)>; MOST];

/// These headers between.
pub fn between(headers: &[(u8, u8)]) -> Between {
    let mut all = [None; MOST];
    all.iter_mut().zip(headers).for_each(|(place, header)| *place = Some(*header));
    all
}

/// What a good packet looks like: lengths in bytes, the IPv4 header length and TCP's data offset in words.
#[derive(Clone, Copy)]
pub struct Shape {
    pub family: u8,
    pub protocol: u8,
    pub words: usize,
    /// Of IPv6 alone.
    pub between: Between,
    pub offset: usize,
    pub body: usize,
    /// Behind UDP's datagram, before the declared end.
    pub trailing: usize,
    /// Behind the declared end.
    pub tail: usize,
}

impl Shape {
    /// No options, no headers between, no trailing area and no tail.
    pub fn plain((family, protocol): (u8, u8), body: usize) -> Self {
        Shape { family, protocol, words: 5, between: between(&[]), offset: 5, body, trailing: 0, tail: 0 }
    }

    /// Perhaps options, perhaps a tail, for UDP perhaps a trailing area, and for IPv6 perhaps headers between.
    pub fn any(kind: (u8, u8), body: usize, random: &mut Random) -> Self {
        let shape = Shape::any_direct(kind, body, random);
        if random.once_in(2) {
            shape.behind_any(random)
        } else {
            shape
        }
    }

    /// Like any, with headers between in IPv6.
    pub fn any_behind(kind: (u8, u8), body: usize, random: &mut Random) -> Self {
        Shape::any_direct(kind, body, random).behind_any(random)
    }

    /// Perhaps options, perhaps a tail, and for UDP perhaps a trailing area; the message follows the IP header.
    pub fn any_direct(kind: (u8, u8), body: usize, random: &mut Random) -> Self {
        let mut shape = Shape::any_whole(kind, body, random);
        if kind.1 == UDP && random.once_in(2) {
            shape.trailing = random.between(1, 40);
        }
        shape
    }

    /// Perhaps options, perhaps a tail; a datagram is the whole message.
    pub fn any_whole(kind: (u8, u8), body: usize, random: &mut Random) -> Self {
        let mut shape = Shape::plain(kind, body);
        if random.once_in(2) {
            shape.words = random.between(5, 15);
        }
        if random.once_in(2) {
            shape.offset = random.between(5, 15);
        }
        if random.once_in(2) {
            shape.tail = random.between(1, 9);
        }
        shape
    }

    /// The same behind one to eight headers between, if it is IPv6; long ones are rare.
    fn behind_any(mut self, random: &mut Random) -> Self {
        let most = random.pick(&[1, 2, 3, MOST]);
        let count = if self.family == 6 { random.between(1, most) } else { 0 };
        for (i, header) in self.between[..count].iter_mut().enumerate() {
            let units = random.pick(&[0, 0, 0, 1, 2, 4]);
            let long = random.pick(&[100, 254, 255]);
            let number = match random.between(0, 3) {
                0 | 1 if i == 0 => HOP_BY_HOP,
                0 | 2 => ROUTING,
                _ => OPTIONS,
            };
            *header = Some((number, if random.once_in(100) { long } else { units }));
        }
        self
    }

    /// The bytes of the headers in this shape.
    pub fn headers(&self) -> usize {
        let header = if self.family == 4 { 4 * self.words } else { 40 };
        header + self.length_between() + self.before_body()
    }

    fn length_between(&self) -> usize {
        self.between.iter().flatten().map(|(_, units)| 8 + 8 * usize::from(*units)).sum()
    }

    fn before_body(&self) -> usize {
        let fixed = TABLE.iter().find(|row| row.protocol == self.protocol).map_or(0, |row| row.fixed);
        if self.protocol == TCP {
            4 * self.offset
        } else {
            fixed
        }
    }

    /// A good packet of this shape.
    pub fn good(&self, random: &mut Random) -> Vec<u8> {
        let datagram = (self.before_body() + self.body) as u16;
        let length = datagram + self.trailing as u16;
        let mut packet = if self.family == 4 { self.header4(length, random) } else { self.header6(length, random) };
        let message = packet.len();
        packet.extend(random.bytes(self.before_body()));
        packet.extend(random.contents(self.body));
        packet.extend(random.contents(self.trailing + self.tail));
        match self.protocol {
            TCP => packet[message + 12] = (self.offset << 4) as u8 | random.between(0, 15) as u8,
            UDP => write_word(&mut packet, message + 4, datagram),
            _ => {}
        }
        refresh(&mut packet, self.family);
        let links: Vec<Link> =
            self.between.into_iter().flatten().map(|(number, units)| Link::of(number, units, random)).collect();
        put_between(&mut packet, &links);
        packet
    }

    fn header4(&self, length: u16, random: &mut Random) -> Vec<u8> {
        let mut header = random.bytes(4 * self.words);
        header[0] = 0x40 | self.words as u8;
        let total = header.len() as u16 + length;
        write_word(&mut header, 2, total);
        write_word(&mut header, 6, random.pick(&[0, 0x4000, 0x8000, 0xC000]));
        header[8] = random.between(2, 255) as u8;
        header[9] = self.protocol;
        header
    }

    fn header6(&self, length: u16, random: &mut Random) -> Vec<u8> {
        let mut header = random.bytes(40);
        header[0] = 0x60 | random.between(0, 15) as u8;
        write_word(&mut header, 4, length);
        header[6] = self.protocol;
        header[7] = random.between(2, 255) as u8;
        header
    }
}

pub fn write_word(packet: &mut [u8], place: usize, word: u16) {
    packet[place..place + 2].copy_from_slice(&word.to_be_bytes());
}

/// Declares another message length.
pub fn declare(packet: &mut [u8], family: u8, length: usize) {
    let end = View::read_as(packet, family).message_start() + length;
    let (place, declared) = if family == 4 { (2, end) } else { (4, end - 40) };
    write_word(packet, place, declared as u16);
}

/// Sets the fields to their fresh values as far as there is room for them, whatever else is wrong.
pub fn refresh(packet: &mut [u8], family: u8) {
    let view = View::read_as(packet, family);
    let place = view.field_place();
    let room = view.row().map_or(false, |row| view.message().len() >= row.field + 2);
    if room {
        let field = fresh_message_field(&view);
        write_field(packet, place, field);
    }
    let view = View::read_as(packet, family);
    if family == 4 && view.header().len() >= HEADER_FIELD + 2 {
        let field = fresh_header_field(&view);
        write_field(packet, HEADER_FIELD, field);
    }
}

/// Makes the computed message field 0000 by means of the word at `place`.
pub fn balance_message(packet: &mut [u8], family: u8, place: usize) {
    write_word(packet, place, 0);
    let Field(missing) = computed_message_field(&View::read_as(packet, family));
    write_word(packet, place, missing);
    refresh(packet, family);
}

/// Makes the fresh IPv4 header field 0000 by means of the identification.
pub fn balance_header(packet: &mut [u8]) {
    write_word(packet, 4, 0);
    let Field(missing) = fresh_header_field(&View::read_as(packet, 4));
    write_word(packet, 4, missing);
    refresh(packet, 4);
}

/// A fault, named after the rule it meets.
#[derive(Clone, Copy, Debug, PartialEq, Eq)]
pub enum Fault {
    Spent,
    InnerLength,
    MessageLength,
    Protocol,
    Fragment,
    TotalLength,
    HeaderLength,
    Blank,
    Version,
    Zero,
    HeaderSum,
    MessageSum,
    Declared,
    Under,
}

use Fault::*;

/// The faults that the sums are fresh with, in the order of their making.
const BEFORE_SUMS: [Fault; 9] =
    [Spent, InnerLength, MessageLength, Protocol, Fragment, TotalLength, HeaderLength, Blank, Version];

/// The faults made when the sums stand, in the order of their making.
const AFTER_SUMS: [Fault; 5] = [Zero, HeaderSum, MessageSum, Declared, Under];

/// Faults that every edit but the lifetime's refuses; 0000 only in UDP over IPv6.
pub const PASSED_OVER: [Fault; 5] = [InnerLength, MessageLength, Protocol, Fragment, Zero];

/// The faults that a packet of this kind can have.
pub fn faults_of((family, protocol): (u8, u8)) -> Vec<Fault> {
    let fits = |fault: &Fault| match fault {
        Fragment | TotalLength | HeaderLength | HeaderSum => family == 4,
        InnerLength => protocol == TCP || protocol == UDP,
        Zero => protocol == UDP,
        Blank => protocol == ICMP || protocol == ICMPV6,
        _ => true,
    };
    BEFORE_SUMS.into_iter().chain(AFTER_SUMS).filter(fits).collect()
}

/// Puts faults into a good packet. If they leave more trailing area than it had, the field is that of the whole message,
/// which is wrong.
pub fn spoil(packet: &mut Vec<u8>, family: u8, faults: &[Fault], random: &mut Random) {
    let trailing = View::read_as(packet, family).trailing_length();
    for fault in BEFORE_SUMS.iter().filter(|fault| faults.contains(fault)) {
        put_before_sums(packet, family, *fault, random);
    }
    refresh(packet, family);
    let view = View::read_as(packet, family);
    if view.trailing_length() > trailing {
        let (place, field) = (view.field_place(), WHOLE_MESSAGE.field(&view));
        write_field(packet, place, field);
    }
    for fault in AFTER_SUMS.iter().filter(|fault| faults.contains(fault)) {
        put_after_sums(packet, family, *fault, random);
    }
}

fn put_before_sums(packet: &mut [u8], family: u8, fault: Fault, random: &mut Random) {
    let view = View::read_as(packet, family);
    let (header, message, end) = (view.header_length(), view.message_start().min(packet.len()), view.end());
    let (lifetime, protocol) = (view.lifetime_place(), view.protocol_place());
    match fault {
        Blank => packet[message..end.max(message)].fill(0),
        Spent => packet[lifetime] = random.between(0, 1) as u8,
        InnerLength => put_inner_length(packet, family, random),
        MessageLength => {
            let fixed = view.row().map_or(0, |row| row.fixed);
            let any = random.between(0, fixed - 1);
            let length = random.pick(&[0, 3, fixed - 1, any]);
            declare(packet, family, length);
        }
        Protocol if family == 4 => packet[protocol] = random.pick(&[58, 58, 58, 0, 2, 5, 16, 41, 44, 57, 59, 255]),
        Protocol => packet[protocol] = random.pick(&[1, 1, 1, 0, 2, 5, 16, 43, 44, 57, 59, 60, 255]),
        Fragment => {
            let offset = random.pick(&[0, 1, 0x1FFF, 0x1000]);
            let more = if offset == 0 || random.once_in(2) { 0x2000 } else { 0 };
            write_word(packet, 6, random.pick(&[0, 0x4000, 0x8000]) | more | offset);
        }
        TotalLength => {
            let low = if header > 21 { random.pick(&[0, 21]) } else { 0 };
            write_word(packet, 2, random.between(low, header - 1) as u16);
        }
        HeaderLength => packet[0] = packet[0] & 0xF0 | random.between(0, 4) as u8,
        _ => packet[0] = packet[0] & 0x0F | random.pick(&[0, 1, 2, 3, 5, 7, 8, 12, 14, 15]) << 4,
    }
}

/// A TCP data offset below 5 or past the message; a UDP length that isn't the message's, which is below 8, past the
/// message, or leaves a trailing area.
fn put_inner_length(packet: &mut [u8], family: u8, random: &mut Random) {
    let view = View::read_as(packet, family);
    let (message, length) = (view.message_start(), view.message_length());
    if view.protocol() == TCP {
        let wrong: Vec<u8> = (0..16).filter(|words| *words < 5 || 4 * usize::from(*words) > length).collect();
        packet[message + 12] = packet[message + 12] & 0x0F | random.pick(&wrong) << 4;
    } else {
        let length = length as u16;
        let other = random.pick(&[0, 7, 8, 65535, length.wrapping_add(1), length - 1]);
        write_word(packet, message + 4, if other == length { length + 2 } else { other });
    }
}

fn put_after_sums(packet: &mut Vec<u8>, family: u8, fault: Fault, random: &mut Random) {
    let view = View::read_as(packet, family);
    let (least, end, field) = (view.least(), view.end(), view.field_place());
    let message = view.message_start().max(least);
    match fault {
        Zero if field + 2 <= packet.len() => write_word(packet, field, 0),
        HeaderSum => packet[HEADER_FIELD] ^= 1 << random.between(0, 7),
        MessageSum if message < packet.len() => packet[message] ^= 1 << random.between(0, 7),
        Declared if end > least => {
            let any = random.between(least, end - 1);
            packet.truncate(random.pick(&[end - 1, any]));
        }
        Under => {
            let any = random.between(1, least - 1);
            packet.truncate(random.pick(&[least - 1, any]));
        }
        _ => {}
    }
}
