// The walk over IPv6's headers between, from the fixed header to the message. It is as lenient as all reading here: it
// goes on behind a header that stops it, so that what follows can be asked too. What it met first counts.

use crate::packet::View;
use crate::verdict::*;

pub const HOP_BY_HOP: u8 = 0;
pub const ROUTING: u8 = 43;
pub const FRAGMENT_HEADER: u8 = 44;
pub const OPTIONS: u8 = 60;

/// The numbers that the walk looks at; any other ends it.
pub const BETWEEN: [u8; 4] = [HOP_BY_HOP, ROUTING, FRAGMENT_HEADER, OPTIONS];

/// How many headers may stand between.
pub const MOST: usize = 8;

/// How many are looked at. A walk that counts ends before that.
const LOOKED_AT: usize = 12;

/// What a header between stops the walk for.
#[derive(Clone, Copy, Debug, PartialEq, Eq, PartialOrd, Ord)]
pub enum Stop {
    /// A fragment header.
    Fragment,
    /// Hop-by-hop that isn't directly behind the fixed header.
    Late,
    /// One more than may stand between.
    Ninth,
    /// A header past the payload.
    Reach,
    /// A routing header with segments left.
    SegmentsLeft,
}

impl Stop {
    pub fn number(self) -> Verdict {
        match self {
            Stop::Fragment => FRAGMENT,
            Stop::Late | Stop::Ninth | Stop::SegmentsLeft => UNCOVERED,
            Stop::Reach => SHAPE,
        }
    }
}

/// A header between: its number, its place in the packet, its length, and all that it stops the walk for, in order.
#[derive(Clone, Debug)]
pub struct Header {
    pub number: u8,
    pub place: usize,
    pub length: usize,
    pub stops: Vec<Stop>,
}

/// The headers met, then the protocol, the place of the byte that says it, and the place of what it names.
#[derive(Clone, Debug, Default)]
pub struct Walk {
    pub headers: Vec<Header>,
    pub protocol: u8,
    pub said_at: usize,
    pub start: usize,
}

impl Walk {
    /// No headers: a byte says the protocol of what stands at a place.
    pub fn direct(view: &View, said_at: usize, start: usize) -> Self {
        Walk { headers: Vec::new(), protocol: view.byte(said_at), said_at, start }
    }

    /// The headers from a place on, the first of which is named by the byte at `said_at`; as far as there are bytes.
    pub fn over(view: &View, said_at: usize, start: usize) -> Self {
        let mut walk = Walk::direct(view, said_at, start);
        while BETWEEN.contains(&walk.protocol) && walk.headers.len() < LOOKED_AT {
            let header = Header::met(view, walk.protocol, walk.start, walk.headers.len());
            let (place, behind) = (header.place, header.place + header.length);
            walk.headers.push(header);
            if place >= view.bytes.len() {
                break;
            }
            (walk.protocol, walk.said_at, walk.start) = (view.byte(place), place, behind);
        }
        walk
    }

    /// What the walk met first.
    pub fn stop(&self) -> Option<Stop> {
        self.headers.iter().find_map(|header| header.stops.first().copied())
    }
}

impl Header {
    /// A header behind so many others. A fragment header has 8 bytes and no length.
    fn met(view: &View, number: u8, place: usize, before: usize) -> Self {
        let units = if number == FRAGMENT_HEADER { 0 } else { usize::from(view.byte(place + 1)) };
        let length = 8 + 8 * units;
        let tests = [
            (Stop::Fragment, number == FRAGMENT_HEADER),
            (Stop::Late, number == HOP_BY_HOP && before > 0),
            (Stop::Ninth, before == MOST),
            (Stop::Reach, place + length > view.end()),
            (Stop::SegmentsLeft, number == ROUTING && view.byte(place + 3) != 0),
        ];
        let stops = tests.into_iter().filter(|(_, applies)| *applies).map(|(stop, _)| stop).collect();
        Header { number, place, length, stops }
    }
}
