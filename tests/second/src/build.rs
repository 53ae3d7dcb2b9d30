// The hut's own status packets: UDP over IPv4 or IPv6 from addresses, ports, lifetime and body. Each header has its
// fields in the order of its RFC, and each sum is that of a block laid out for it.

use crate::packet::UDP;
use crate::sums::{field, fold, total, Field};
use crate::verdict::*;

/// The most bytes of a body.
pub const MOST: usize = 1_400;

/// What a packet is built from.
#[derive(Clone, Copy, Debug)]
pub struct Parts<'a> {
    pub source: &'a [u8],
    pub destination: &'a [u8],
    pub source_port: u16,
    pub destination_port: u16,
    pub lifetime: u8,
    pub body: &'a [u8],
}

/// A refusal, asked by itself of the parts and of the buffer's length.
pub struct Rule {
    pub number: Verdict,
    pub name: &'static str,
    pub applies: fn(&Parts, usize) -> bool,
}

#[rustfmt::skip]
pub const RULES: [Rule; 6] = [
    Rule { number: PLACE, name: "source size",      applies: |parts, _| no_size(parts.source) },
    Rule { number: PLACE, name: "destination size", applies: |parts, _| no_size(parts.destination) },
    Rule { number: PLACE, name: "two sizes",        applies: |parts, _| parts.source.len() != parts.destination.len() },
    Rule { number: PLACE, name: "body",             applies: |parts, _| parts.body.len() > MOST },
    Rule { number: SPENT, name: "lifetime",         applies: |parts, _| parts.lifetime == 0 },
    Rule { number: ROOM,  name: "room",             applies: |parts, room| room < parts.length() },
];

/// Whether an address is neither IPv4's nor IPv6's.
fn no_size(address: &[u8]) -> bool {
    ![4, 16].contains(&address.len())
}

impl Parts<'_> {
    /// The family that both addresses are of, if they are of one.
    pub fn family(&self) -> Option<u8> {
        match (self.source.len(), self.destination.len()) {
            (4, 4) => Some(4),
            (16, 16) => Some(6),
            _ => None,
        }
    }

    /// The packet's length. Where the addresses are of no family it is that of an IPv4 packet, the shorter one, so that
    /// room can be asked of any parts.
    pub fn length(&self) -> usize {
        let header = if self.family() == Some(6) { 40 } else { 20 };
        header + self.datagram_length()
    }

    pub fn datagram_length(&self) -> usize {
        8 + self.body.len()
    }

    /// RFC 791: version, header length, service, total length; identification, flags and offset; lifetime, protocol,
    /// sum; source, destination.
    fn header_4(&self, sum: Field) -> Vec<u8> {
        let [high, low] = (self.length() as u16).to_be_bytes();
        let [sum_high, sum_low] = sum.0.to_be_bytes();
        let words = [0x45, 0, high, low, 0, 0, 0, 0, self.lifetime, UDP, sum_high, sum_low];
        [&words, self.source, self.destination].concat()
    }

    /// RFC 8200: version, class, flow label; payload length, next header, lifetime; source, destination.
    fn header_6(&self) -> Vec<u8> {
        let [high, low] = (self.datagram_length() as u16).to_be_bytes();
        [&[0x60, 0, 0, 0, high, low, UDP, self.lifetime], self.source, self.destination].concat()
    }

    /// RFC 768: source port, destination port, length, sum; body.
    pub fn datagram(&self, sum: Field) -> Vec<u8> {
        let words = [self.source_port, self.destination_port, self.datagram_length() as u16, sum.0];
        [&words.map(u16::to_be_bytes).concat(), self.body].concat()
    }

    /// What a UDP sum covers before the datagram: RFC 768's for IPv4, RFC 8200's for IPv6.
    fn pseudo_header(&self) -> Vec<u8> {
        let length = (self.datagram_length() as u32).to_be_bytes();
        let rest = match self.family() {
            Some(6) => [&length[..], &[0, 0, 0, UDP]].concat(),
            _ => [&[0, UDP], &length[2..]].concat(),
        };
        [self.source, self.destination, &rest].concat()
    }

    /// The header's sum, which IPv4 alone has.
    pub fn header_sum(&self) -> Field {
        field(fold(total(&self.header_4(Field(0)))))
    }

    /// UDP's sum as it is computed.
    pub fn computed_sum(&self) -> Field {
        let block = [self.pseudo_header(), self.datagram(Field(0))].concat();
        field(fold(total(&block)))
    }

    /// UDP's sum as it is sent: 0000 as FFFF.
    pub fn sent_sum(&self) -> Field {
        match self.computed_sum() {
            Field(0) => Field(0xFFFF),
            sum => sum,
        }
    }

    /// The packet, if nothing is refused.
    pub fn packet(&self) -> Vec<u8> {
        let header = match self.family() {
            Some(6) => self.header_6(),
            _ => self.header_4(self.header_sum()),
        };
        [header, self.datagram(self.sent_sum())].concat()
    }
}

/// Every refusal that applies by itself, in order.
pub fn refusals<'a>(parts: &'a Parts<'a>, room: usize) -> impl Iterator<Item = &'static Rule> + 'a {
    RULES.iter().filter(move |rule| (rule.applies)(parts, room))
}

/// Builds a packet in the buffer's first bytes: the verdict, and the packet's length, which is 0 beside a refusal.
pub fn build_udp(parts: &Parts, buffer: &mut [u8]) -> (Verdict, usize) {
    if let Some(rule) = refusals(parts, buffer.len()).next() {
        return (rule.number, 0);
    }
    let packet = parts.packet();
    buffer[..packet.len()].copy_from_slice(&packet);
    (GOOD, packet.len())
}
