// Mistakes about building a packet: other tests and other orders of them, other bytes, other sums, and bytes that aren't
// the packet's. They lead to other outcomes, which the cases must tell from the right one.

use crate::build::{build_udp, refusals, Parts, Rule, MOST};
use crate::draft::{refresh, write_word};
use crate::packet::HEADER_FIELD;
use crate::sums::{field, fold, total, Field};
use crate::verdict::*;

/// A verdict, the length beside it, and the buffer afterwards.
pub type Outcome = (Verdict, usize, Vec<u8>);

/// A packet that was asked for, with the right outcome.
pub struct Asked<'a> {
    pub parts: Parts<'a>,
    pub before: &'a [u8],
    pub right: Outcome,
}

/// A mistake, by the outcome that it leads to; and the families of addresses with which it shows, or none.
pub struct BuildMistake {
    pub name: &'static str,
    pub shows: &'static [Option<u8>],
    pub outcome: fn(&Asked) -> Outcome,
}

const FOUR: &[Option<u8>] = &[Some(4)];
const SIX: &[Option<u8>] = &[Some(6)];
const BOTH: &[Option<u8>] = &[Some(4), Some(6)];
const NEITHER: &[Option<u8>] = &[None];
const ANY: &[Option<u8>] = &[None, Some(4), Some(6)];

#[rustfmt::skip]
pub const BUILD_MISTAKES: [BuildMistake; 44] = [
    BuildMistake { name: "11 before 10",                          shows: ANY,     outcome: |asked| asked.in_order(&[SPENT, PLACE, ROOM]) },
    BuildMistake { name: "16 before 11",                          shows: BOTH,    outcome: |asked| asked.in_order(&[PLACE, ROOM, SPENT]) },
    BuildMistake { name: "16 before 10",                          shows: ANY,     outcome: |asked| asked.in_order(&[ROOM, PLACE, SPENT]) },
    BuildMistake { name: "a body of 1,400 refused",               shows: BOTH,    outcome: |asked| asked.unless(PLACE, asked.parts.body.len() == MOST) },
    BuildMistake { name: "a datagram of over 1,400 refused",      shows: BOTH,    outcome: |asked| asked.unless(PLACE, asked.parts.datagram_length() > MOST) },
    BuildMistake { name: "a packet of over 1,400 refused",        shows: BOTH,    outcome: |asked| asked.unless(PLACE, asked.parts.length() > MOST) },
    BuildMistake { name: "a body of 1,401 taken",                 shows: BOTH,    outcome: longer_body },
    BuildMistake { name: "a lifetime of 1 refused",               shows: BOTH,    outcome: |asked| asked.unless(SPENT, asked.parts.lifetime == 1) },
    BuildMistake { name: "lifetimes from 128 refused",            shows: BOTH,    outcome: |asked| asked.unless(SPENT, asked.parts.lifetime > 127) },
    BuildMistake { name: "a lifetime of 0 taken",                 shows: BOTH,    outcome: |asked| asked.without(|rule, _| rule.name == "lifetime") },
    BuildMistake { name: "exact room refused",                    shows: BOTH,    outcome: |asked| asked.unless(ROOM, asked.before.len() == asked.parts.length()) },
    BuildMistake { name: "IPv6 in the room of IPv4",              shows: SIX,     outcome: in_room_of_4 },
    BuildMistake { name: "cut where there is no room",            shows: BOTH,    outcome: |asked| asked.without(|rule, _| rule.name == "room") },
    BuildMistake { name: "written before room is tested",         shows: BOTH,    outcome: written_first },
    BuildMistake { name: "the length told beside 16",             shows: BOTH,    outcome: |asked| asked.with_length(|verdict| verdict == ROOM) },
    BuildMistake { name: "the length told beside any refusal",    shows: ANY,     outcome: |asked| asked.with_length(|verdict| verdict != GOOD) },
    BuildMistake { name: "the family by the source",              shows: NEITHER, outcome: |asked| asked.rebuilt(asked.parts.source.len(), resized) },
    BuildMistake { name: "the family by the destination",         shows: NEITHER, outcome: |asked| asked.rebuilt(asked.parts.destination.len(), resized) },
    BuildMistake { name: "IPv4's addresses mapped into IPv6",     shows: NEITHER, outcome: |asked| asked.rebuilt(asked.longest(), mapped) },
    BuildMistake { name: "longer addresses cut",                  shows: NEITHER, outcome: |asked| asked.rebuilt(0, cut) },
    BuildMistake { name: "sizes of 8 bits",                       shows: NEITHER, outcome: |asked| asked.rebuilt(0, modulo_256) },
    BuildMistake { name: "no address for zeros",                  shows: NEITHER, outcome: |asked| asked.rebuilt(asked.longest(), zeros_for_none) },
    BuildMistake { name: "a computed 0000 sent",                  shows: BOTH,    outcome: |asked| asked.with_sum(asked.parts.computed_sum()) },
    BuildMistake { name: "a header sum of 0000 as FFFF",          shows: FOUR,    outcome: header_sum_of_ones },
    BuildMistake { name: "no sum over IPv4",                      shows: FOUR,    outcome: |asked| asked.with_sum_over(4, Field(0)) },
    BuildMistake { name: "no pseudo-header",                      shows: BOTH,    outcome: no_pseudo_header },
    BuildMistake { name: "the body's length in the pseudo-header", shows: BOTH,   outcome: |asked| asked.with_more(65535 - 8) },
    BuildMistake { name: "UDP's field summed as it stood",        shows: BOTH,    outcome: |asked| asked.with_more(asked.stood_at(asked.start() + 6)) },
    BuildMistake { name: "the header's field summed as it stood", shows: FOUR,    outcome: header_field_summed },
    BuildMistake { name: "what lies behind as padding",           shows: BOTH,    outcome: |asked| asked.with_more(asked.padding()) },
    BuildMistake { name: "an odd body padded behind the packet",  shows: BOTH,    outcome: padded_behind },
    BuildMistake { name: "an odd body made even",                 shows: BOTH,    outcome: made_even },
    BuildMistake { name: "the buffer cleared behind the packet",  shows: BOTH,    outcome: cleared_behind },
    BuildMistake { name: "UDP's length without its header",       shows: BOTH,    outcome: |asked| asked.with_word(asked.start() + 4, asked.parts.body.len()) },
    BuildMistake { name: "IP's length as the other family has it", shows: BOTH,   outcome: other_length },
    BuildMistake { name: "an identification",                     shows: FOUR,    outcome: |asked| asked.with_word_over(4, 4, 1) },
    BuildMistake { name: "don't-fragment set",                    shows: FOUR,    outcome: |asked| asked.with_word_over(4, 6, 0x4000) },
    BuildMistake { name: "a flow label",                          shows: SIX,     outcome: |asked| asked.with_word_over(6, 2, 1) },
    BuildMistake { name: "a class of service",                    shows: BOTH,    outcome: class_of_service },
    BuildMistake { name: "zeros left as they stood",              shows: BOTH,    outcome: zeros_left },
    BuildMistake { name: "the lifetime lowered",                  shows: BOTH,    outcome: lifetime_lowered },
    BuildMistake { name: "addresses exchanged",                   shows: BOTH,    outcome: addresses_exchanged },
    BuildMistake { name: "ports exchanged",                       shows: BOTH,    outcome: |asked| asked.with_ports(asked.parts.destination_port, asked.parts.source_port) },
    BuildMistake { name: "ports low byte first",                  shows: BOTH,    outcome: low_byte_first },
];

impl Asked<'_> {
    fn refused(&self, number: Verdict) -> Outcome {
        (number, 0, self.before.to_vec())
    }

    /// Bytes at the buffer's start; what doesn't fit is left out.
    fn laid(&self, packet: &[u8]) -> Outcome {
        let mut buffer = self.before.to_vec();
        buffer.iter_mut().zip(packet).for_each(|(place, byte)| *place = *byte);
        (GOOD, packet.len(), buffer)
    }

    /// Whether a packet is built.
    fn done(&self) -> bool {
        self.right.0 == GOOD && self.parts.family().is_some()
    }

    /// The right outcome, but that the packet, if one is built, is changed.
    fn changed(&self, change: impl Fn(&mut [u8])) -> Outcome {
        if !self.done() {
            return self.right.clone();
        }
        let mut packet = self.parts.packet();
        change(&mut packet);
        self.laid(&packet)
    }

    /// The packet of other parts, if one is built.
    fn of(&self, parts: &Parts) -> Outcome {
        self.changed(|packet| packet.copy_from_slice(&parts.packet()))
    }

    fn with_ports(&self, source_port: u16, destination_port: u16) -> Outcome {
        self.of(&Parts { source_port, destination_port, ..self.parts })
    }

    /// The same refusals in another order.
    fn in_order(&self, order: &[Verdict]) -> Outcome {
        let applies = |number: &&Verdict| refusals(&self.parts, self.before.len()).any(|rule| rule.number == **number);
        order.iter().find(applies).map_or(self.right.clone(), |number| self.refused(*number))
    }

    /// One more refusal, behind those with its number. The numbers rise in the order of the refusals.
    fn unless(&self, number: Verdict, refused: bool) -> Outcome {
        let earlier = refusals(&self.parts, self.before.len()).any(|rule| rule.number <= number);
        if refused && !earlier {
            self.refused(number)
        } else {
            self.right.clone()
        }
    }

    /// A refusal less.
    fn without(&self, left_out: impl Fn(&Rule, &Parts) -> bool) -> Outcome {
        let mut others = refusals(&self.parts, self.before.len()).filter(|rule| !left_out(rule, &self.parts));
        others.next().map_or_else(|| self.laid(&self.parts.packet()), |rule| self.refused(rule.number))
    }

    /// The right outcome, but for the length beside some verdicts.
    fn with_length(&self, told: fn(Verdict) -> bool) -> Outcome {
        let (verdict, length, buffer) = self.right.clone();
        (verdict, if told(verdict) { self.parts.length() } else { length }, buffer)
    }

    /// The outcome for addresses that are read otherwise.
    fn rebuilt(&self, size: usize, read: fn(&[u8], usize) -> Vec<u8>) -> Outcome {
        let [source, destination] = [self.parts.source, self.parts.destination].map(|address| read(address, size));
        let mut buffer = self.before.to_vec();
        let parts = Parts { source: &source, destination: &destination, ..self.parts };
        let (verdict, length) = build_udp(&parts, &mut buffer);
        (verdict, length, buffer)
    }

    /// The size of the longer address.
    fn longest(&self) -> usize {
        self.parts.source.len().max(self.parts.destination.len())
    }

    /// Where the datagram begins.
    fn start(&self) -> usize {
        self.parts.length() - self.parts.datagram_length()
    }

    /// The right packet, but for UDP's field.
    fn with_sum(&self, sum: Field) -> Outcome {
        self.changed(|packet| write_word(packet, self.start() + 6, sum.0))
    }

    fn with_sum_over(&self, family: u8, sum: Field) -> Outcome {
        if self.parts.family() == Some(family) {
            self.with_sum(sum)
        } else {
            self.right.clone()
        }
    }

    /// The right packet, but for a UDP field that covers more.
    fn with_more(&self, more: u128) -> Outcome {
        match field(fold(u128::from(65535 - self.parts.computed_sum().0) + more)) {
            Field(0) => self.with_sum(Field(0xFFFF)),
            sum => self.with_sum(sum),
        }
    }

    /// A word that stood in the buffer before.
    fn stood_at(&self, place: usize) -> u128 {
        self.before.get(place..place + 2).map_or(0, total)
    }

    /// Behind an odd body the next byte of the buffer.
    fn padding(&self) -> u128 {
        let behind = self.before.get(self.parts.length()).filter(|_| self.parts.body.len() % 2 == 1);
        behind.copied().unwrap_or(0).into()
    }

    /// The right packet, but for a word, with sums that are right for that.
    fn with_word(&self, place: usize, word: usize) -> Outcome {
        self.changed(|packet| {
            write_word(packet, place, word as u16);
            refresh(packet, if self.start() == 20 { 4 } else { 6 });
        })
    }

    fn with_word_over(&self, family: u8, place: usize, word: usize) -> Outcome {
        if self.parts.family() == Some(family) {
            self.with_word(place, word)
        } else {
            self.right.clone()
        }
    }
}

fn longer_body(asked: &Asked) -> Outcome {
    asked.without(|rule, parts| rule.name == "body" && parts.body.len() == MOST + 1)
}

/// Where there is room for the same datagram over IPv4.
fn in_room_of_4(asked: &Asked) -> Outcome {
    let enough = asked.parts.family() == Some(6) && asked.before.len() >= 20 + asked.parts.datagram_length();
    asked.without(|rule, _| rule.name == "room" && enough)
}

/// What fits is written, and then it is refused.
fn written_first(asked: &Asked) -> Outcome {
    match asked.right.0 {
        ROOM => (ROOM, 0, asked.laid(&asked.parts.packet()).2),
        _ => asked.right.clone(),
    }
}

/// The first bytes of an address, zeros behind those that there are.
fn resized(address: &[u8], size: usize) -> Vec<u8> {
    (0..size).map(|place| address.get(place).copied().unwrap_or(0)).collect()
}

/// Beside an IPv6 address an IPv4 address as IPv6 writes it: ::FFFF and its four bytes.
fn mapped(address: &[u8], size: usize) -> Vec<u8> {
    match (address.len(), size) {
        (4, 16) => [&[0; 10][..], &[0xFF, 0xFF], address].concat(),
        _ => address.to_vec(),
    }
}

fn cut(address: &[u8], _: usize) -> Vec<u8> {
    match address.len() {
        0..=3 => address.to_vec(),
        4..=15 => address[..4].to_vec(),
        _ => address[..16].to_vec(),
    }
}

fn modulo_256(address: &[u8], _: usize) -> Vec<u8> {
    address[..address.len() % 256].to_vec()
}

fn zeros_for_none(address: &[u8], size: usize) -> Vec<u8> {
    if address.is_empty() {
        vec![0; size]
    } else {
        address.to_vec()
    }
}

fn no_pseudo_header(asked: &Asked) -> Outcome {
    asked.with_sum(field(fold(total(&asked.parts.datagram(Field(0))))))
}

fn header_sum_of_ones(asked: &Asked) -> Outcome {
    match (asked.parts.family(), asked.parts.header_sum()) {
        (Some(4), Field(0)) => asked.changed(|packet| write_word(packet, HEADER_FIELD, 0xFFFF)),
        _ => asked.right.clone(),
    }
}

fn header_field_summed(asked: &Asked) -> Outcome {
    if asked.parts.family() != Some(4) {
        return asked.right.clone();
    }
    let right = u128::from(65535 - asked.parts.header_sum().0);
    let Field(wrong) = field(fold(right + asked.stood_at(HEADER_FIELD)));
    asked.changed(|packet| write_word(packet, HEADER_FIELD, wrong))
}

/// An odd datagram is ended by a zero in the buffer.
fn padded_behind(asked: &Asked) -> Outcome {
    let (verdict, length, mut buffer) = asked.right.clone();
    if asked.done() && asked.parts.body.len() % 2 == 1 {
        buffer.iter_mut().skip(length).take(1).for_each(|byte| *byte = 0);
    }
    (verdict, length, buffer)
}

/// A zero more behind an odd body, which counts in every length.
fn made_even(asked: &Asked) -> Outcome {
    let body = [asked.parts.body, &[0][..asked.parts.body.len() % 2]].concat();
    let mut buffer = asked.before.to_vec();
    let (verdict, length) = build_udp(&Parts { body: &body, ..asked.parts }, &mut buffer);
    (verdict, length, buffer)
}

fn cleared_behind(asked: &Asked) -> Outcome {
    let (verdict, length, mut buffer) = asked.right.clone();
    if asked.done() {
        buffer.iter_mut().skip(length).for_each(|byte| *byte = 0);
    }
    (verdict, length, buffer)
}

/// Without the header over IPv4, and with it over IPv6.
fn other_length(asked: &Asked) -> Outcome {
    match asked.start() {
        20 => asked.with_word(2, asked.parts.datagram_length()),
        _ => asked.with_word(4, asked.parts.length()),
    }
}

/// As for what steers a network, in the service byte or in the class.
fn class_of_service(asked: &Asked) -> Outcome {
    asked.with_word(0, if asked.start() == 20 { 0x45C0 } else { 0x6C00 })
}

/// Service, identification, flags and offset, or class and flow label, aren't written.
fn zeros_left(asked: &Asked) -> Outcome {
    asked.changed(|packet| {
        let (family, zeros) = if asked.start() == 20 { (4, &[1, 4, 5, 6, 7][..]) } else { (6, &[1, 2, 3][..]) };
        for place in zeros {
            packet[*place] = asked.before.get(*place).copied().unwrap_or(0);
        }
        refresh(packet, family);
    })
}

fn lifetime_lowered(asked: &Asked) -> Outcome {
    asked.of(&Parts { lifetime: asked.parts.lifetime.wrapping_sub(1), ..asked.parts })
}

fn addresses_exchanged(asked: &Asked) -> Outcome {
    let (source, destination) = (asked.parts.destination, asked.parts.source);
    asked.of(&Parts { source, destination, ..asked.parts })
}

fn low_byte_first(asked: &Asked) -> Outcome {
    asked.with_ports(asked.parts.source_port.swap_bytes(), asked.parts.destination_port.swap_bytes())
}
