// The judge: the paper's rules in the paper's order, and the first that applies.

use crate::packet::{View, TCP, UDP};
use crate::sums::passes;
use crate::verdict::*;
use crate::walk::Stop;

/// A rule, asked of a packet by itself.
pub struct Rule {
    pub number: Verdict,
    pub name: &'static str,
    pub applies: fn(&View) -> bool,
}

/// In a packet only one of the five rules of the walk applies, so their order here is none: the walk has its own.
#[rustfmt::skip]
pub const RULES: [Rule; 19] = [
    Rule { number: CUT,         name: "no bytes",          applies: |v| v.bytes.is_empty() },
    Rule { number: VERSION,     name: "version",           applies: |v| v.version() != 4 && v.version() != 6 },
    Rule { number: CUT,         name: "under 20 or 40",    applies: |v| v.bytes.len() < v.least() },
    Rule { number: SHAPE,       name: "header length",     applies: |v| v.family == 4 && v.header_length() < 20 },
    Rule { number: SHAPE,       name: "total length",      applies: |v| v.family == 4 && v.end() < v.header_length() },
    Rule { number: CUT,         name: "declared",          applies: |v| v.bytes.len() < v.end() },
    Rule { number: HEADER_SUM,  name: "header sum",        applies: |v| v.family == 4 && !passes(v.header()) },
    Rule { number: FRAGMENT,    name: "fragment",          applies: fragment },
    Rule { number: FRAGMENT,    name: "fragment header",   applies: |v| v.stopped_by(Stop::Fragment) },
    Rule { number: UNCOVERED,   name: "late hop-by-hop",   applies: |v| v.stopped_by(Stop::Late) },
    Rule { number: UNCOVERED,   name: "ninth header",      applies: |v| v.stopped_by(Stop::Ninth) },
    Rule { number: SHAPE,       name: "past the payload",  applies: |v| v.stopped_by(Stop::Reach) },
    Rule { number: UNCOVERED,   name: "segments left",     applies: |v| v.stopped_by(Stop::SegmentsLeft) },
    Rule { number: UNCOVERED,   name: "protocol",          applies: uncovered },
    Rule { number: SHAPE,       name: "message length",    applies: message_short },
    Rule { number: SHAPE,       name: "TCP or UDP length", applies: length_wrong },
    Rule { number: MISSING,     name: "zero in IPv6",      applies: |v| v.family == 6 && udp_zero(v) },
    Rule { number: UNSUMMED,    name: "zero in IPv4",      applies: |v| v.family == 4 && udp_zero(v) },
    Rule { number: MESSAGE_SUM, name: "message sum",       applies: |v| !passes(&v.covered_block()) },
];

fn fragment(view: &View) -> bool {
    view.family == 4 && (view.more_fragments() || view.fragment_offset() != 0)
}

fn uncovered(view: &View) -> bool {
    !view.row().map_or(false, |row| row.families.contains(&view.family))
}

fn message_short(view: &View) -> bool {
    view.row().map_or(false, |row| view.message_length() < row.fixed)
}

fn length_wrong(view: &View) -> bool {
    match view.protocol() {
        TCP => view.data_offset() < 5 || 4 * view.data_offset() > view.message_length(),
        UDP => !view.datagram_fits(),
        _ => false,
    }
}

fn udp_zero(view: &View) -> bool {
    view.protocol() == UDP && view.word(view.field_place()) == 0
}

/// The number of the first rule that applies, of those that are looked at.
pub fn first(view: &View, looked_at: impl Fn(&Rule) -> bool) -> Option<Verdict> {
    RULES.iter().find(|rule| looked_at(rule) && (rule.applies)(view)).map(|rule| rule.number)
}

/// The verdict on a packet.
pub fn judge(packet: &[u8]) -> Verdict {
    first(&View::new(packet), |_| true).unwrap_or(GOOD)
}
