// The fragments of one IPv4 packet, judged together: the list, each fragment by its header, all of them side by side,
// how often each byte of the message is there, and then the packet that they were, as the judge has it.

use crate::judge::{judge, Rule, RULES};
use crate::mend::{fresh_header_field, write_field};
use crate::packet::{View, HEADER_FIELD};
use crate::verdict::*;
use std::ops::Range;

/// The most fragments of a packet.
pub const MOST: usize = 64;

/// The most bytes of a message.
pub const LONGEST: usize = 65_515;

/// A record of the list: where a fragment lies in the buffer.
#[derive(Clone, Copy, Debug, PartialEq, Eq)]
pub struct Record {
    pub offset: u64,
    pub length: u64,
}

impl Record {
    /// The fragment's bytes, if the buffer has them all. Whole numbers are added: nothing wraps.
    pub fn within<'a>(&self, buffer: &'a [u8]) -> Option<&'a [u8]> {
        let end = u128::from(self.offset) + u128::from(self.length);
        (end <= buffer.len() as u128).then(|| &buffer[self.offset as usize..end as usize])
    }
}

/// The version test of a fragment: IPv6 is 3 too.
const NOT_IPV4: Rule = Rule { number: VERSION, name: "version", applies: |v| v.version() != 4 };

/// What a fragment is refused for by itself, in order: the judge's rules up to the header sum.
pub fn rules() -> impl Iterator<Item = &'static Rule> {
    let before = RULES.iter().take_while(|rule| rule.number != FRAGMENT);
    before.map(|rule| if rule.number == VERSION { &NOT_IPV4 } else { rule })
}

/// What is asked of the message, in order: the judge's rules from the protocol on, as IPv4 has them.
pub fn message_rules() -> impl Iterator<Item = &'static Rule> {
    RULES.iter().skip_while(|rule| rule.name != "protocol").filter(|rule| rule.number != MISSING)
}

/// The bytes that all fragments of a packet share: source, destination, protocol and identification.
pub const SOURCE: Range<usize> = 12..16;
pub const DESTINATION: Range<usize> = 16..20;
pub const PROTOCOL: Range<usize> = 9..10;
pub const IDENTIFICATION: Range<usize> = 4..6;

/// Where a fragment's first byte belongs in the message.
pub fn start(part: &View) -> usize {
    8 * usize::from(part.fragment_offset())
}

/// Where the byte behind a fragment's last would belong.
pub fn end(part: &View) -> usize {
    start(part) + part.message_length()
}

/// Fragments that each passed by themselves, in list order.
pub struct Bundle<'a> {
    pub parts: Vec<View<'a>>,
}

/// A test of all fragments together, by the places in the list of those that are at fault.
pub struct Test {
    pub number: Verdict,
    pub name: &'static str,
    pub at_fault: fn(&Bundle) -> Vec<usize>,
}

#[rustfmt::skip]
pub const TESTS: [Test; 11] = [
    Test { number: SHAPE,    name: "another source",         at_fault: |all| all.differing(SOURCE) },
    Test { number: SHAPE,    name: "another destination",    at_fault: |all| all.differing(DESTINATION) },
    Test { number: SHAPE,    name: "another protocol",       at_fault: |all| all.differing(PROTOCOL) },
    Test { number: SHAPE,    name: "another identification", at_fault: |all| all.differing(IDENTIFICATION) },
    Test { number: SHAPE,    name: "empty fragment",         at_fault: |all| all.which(|part| part.message_length() == 0) },
    Test { number: SHAPE,    name: "past 65,515",            at_fault: |all| all.which(|part| end(part) > LONGEST) },
    Test { number: FRAGMENT, name: "gap",                    at_fault: |all| all.behind_gaps() },
    Test { number: FRAGMENT, name: "overlap",                at_fault: |all| all.overlapping() },
    Test { number: FRAGMENT, name: "no multiple of 8",       at_fault: |all| all.before_last(|part| part.message_length() % 8 != 0) },
    Test { number: FRAGMENT, name: "no more before the end", at_fault: |all| all.before_last(|part| !part.more_fragments()) },
    Test { number: FRAGMENT, name: "more behind the end",    at_fault: |all| all.which(|part| all.ends(part) && part.more_fragments()) },
];

impl<'a> Bundle<'a> {
    pub fn new(packets: impl IntoIterator<Item = &'a [u8]>) -> Self {
        Bundle { parts: packets.into_iter().map(|packet| View::read_as(packet, 4)).collect() }
    }

    fn which(&self, holds: impl Fn(&View) -> bool) -> Vec<usize> {
        (0..self.parts.len()).filter(|i| holds(&self.parts[*i])).collect()
    }

    fn before_last(&self, holds: impl Fn(&View) -> bool) -> Vec<usize> {
        self.which(|part| !self.ends(part) && holds(part))
    }

    /// Those with other bytes at some places than the first of the list.
    fn differing(&self, places: Range<usize>) -> Vec<usize> {
        self.which(|part| places.clone().any(|place| part.byte(place) != self.parts[0].byte(place)))
    }

    /// The message's length: it goes as far as any fragment.
    pub fn length(&self) -> usize {
        self.parts.iter().map(end).max().unwrap_or(0)
    }

    /// Whether a fragment goes to the message's end, as the last one does.
    pub fn ends(&self, part: &View) -> bool {
        end(part) == self.length()
    }

    /// How many fragments have each byte of the message.
    pub fn counts(&self) -> Vec<usize> {
        let mut counts = vec![0; self.length()];
        for part in &self.parts {
            counts[start(part)..end(part)].iter_mut().for_each(|count| *count += 1);
        }
        counts
    }

    fn behind_gaps(&self) -> Vec<usize> {
        let counts = self.counts();
        self.which(|part| start(part) > 0 && counts[start(part) - 1] == 0)
    }

    fn overlapping(&self) -> Vec<usize> {
        let counts = self.counts();
        self.which(|part| counts[start(part)..end(part)].iter().any(|count| *count > 1))
    }

    /// The message, each byte where it belongs. What is missing counts as 0, and of what is there twice the later one
    /// in the list stands, so that the judge's rules can be asked of any fragments; what is too long ends at 65,515.
    pub fn message(&self) -> Vec<u8> {
        let mut message = vec![0; self.length()];
        for part in &self.parts {
            let bytes = part.message();
            message[start(part)..][..bytes.len()].copy_from_slice(bytes);
        }
        message.truncate(LONGEST);
        message
    }

    /// The packet that these were, without options, and with a header that passes.
    pub fn whole(&self) -> Vec<u8> {
        self.packet_with(&self.message())
    }

    /// An unfragmented packet with what the fragments share and a given message.
    pub fn packet_with(&self, message: &[u8]) -> Vec<u8> {
        let first = self.parts[0].bytes;
        let mut packet = vec![0; 20];
        packet[0] = 0x45;
        packet[2..4].copy_from_slice(&((20 + message.len()) as u16).to_be_bytes());
        for places in [IDENTIFICATION, PROTOCOL, SOURCE, DESTINATION] {
            packet[places.clone()].copy_from_slice(&first[places]);
        }
        packet.extend(message);
        let field = fresh_header_field(&View::new(&packet));
        write_field(&mut packet, HEADER_FIELD, field);
        packet
    }
}

/// The fragments' bytes; or 2 for an empty list, and 10 for more than 64 and for one that isn't in the buffer.
pub fn listed<'a>(buffer: &'a [u8], list: &[Record]) -> Result<Vec<&'a [u8]>, Verdict> {
    match list.len() {
        0 => Err(CUT),
        1..=MOST => list.iter().map(|record| record.within(buffer)).collect::<Option<_>>().ok_or(PLACE),
        _ => Err(PLACE),
    }
}

/// The first rule that refuses a fragment by itself.
pub fn refused(packet: &[u8]) -> Option<Verdict> {
    let view = View::read_as(packet, 4);
    rules().find(|rule| (rule.applies)(&view)).map(|rule| rule.number)
}

/// The verdict on the fragments of one packet, each given by a record.
pub fn judge_fragments(buffer: &[u8], list: &[Record]) -> Verdict {
    let packets = match listed(buffer, list) {
        Ok(packets) => packets,
        Err(refusal) => return refusal,
    };
    if let Some(refusal) = packets.iter().find_map(|packet| refused(packet)) {
        return refusal;
    }
    let all = Bundle::new(packets);
    match TESTS.iter().find(|test| !(test.at_fault)(&all).is_empty()) {
        Some(test) => test.number,
        None => judge(&all.whole()),
    }
}
