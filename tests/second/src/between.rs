// Headers between, for the cases: what the walk goes over, and what stops it.

use crate::draft::write_word;
use crate::packet::View;
use crate::random::Random;
use crate::walk::{FRAGMENT_HEADER, HOP_BY_HOP, OPTIONS, ROUTING};

/// A header to be put between: its number and its bytes, the first of which is set then.
#[derive(Clone)]
pub struct Link {
    pub number: u8,
    pub bytes: Vec<u8>,
}

impl Link {
    /// Random bytes, so many 8-byte units beyond the first 8; a routing header has no segments left.
    pub fn of(number: u8, units: u8, random: &mut Random) -> Self {
        let mut bytes = random.bytes(8 + 8 * usize::from(units));
        if number != FRAGMENT_HEADER {
            bytes[1] = units;
        }
        if number == ROUTING {
            bytes[3] = 0;
        }
        Link { number, bytes }
    }
}

/// The bytes of these headers.
pub fn length_of(links: &[Link]) -> usize {
    links.iter().map(|link| link.bytes.len()).sum()
}

/// Every list of one to three numbers that is walked: hop-by-hop first or not at all, the other two in any order.
pub fn lists_of_numbers() -> Vec<Vec<u8>> {
    let mut lists: Vec<Vec<u8>> = [HOP_BY_HOP, ROUTING, OPTIONS].map(|number| vec![number]).to_vec();
    for shorter in 0..9 {
        lists.extend([ROUTING, OPTIONS].map(|number| [&lists[shorter][..], &[number]].concat()));
    }
    lists
}

/// Puts headers between the fixed header and what follows it. The payload length grows by them, and no field changes.
pub fn put_between(packet: &mut Vec<u8>, links: &[Link]) {
    for link in links.iter().rev() {
        let length = View::read_as(packet, 6).word(4) + link.bytes.len() as u16;
        write_word(packet, 4, length);
        packet.splice(40..40, link.bytes.iter().copied());
        packet[40] = packet[6];
        packet[6] = link.number;
    }
}
