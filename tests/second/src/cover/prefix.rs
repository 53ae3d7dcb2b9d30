// What the cases of the prefix exchange must reach: each refusal alone and before others, words and prefixes at the
// corners, messages of each protocol, other calls before and behind, and outcomes that tell each mistake from the
// exchange.

use super::lifetimes::word_name;
use super::trailing::tail_name;
use super::*;
use crate::cases::prefixes::{CORNER_WORDS, NO_SIDES, TWO_LENGTHS};
use crate::mistakes::prefix::{ones_complement, Asked, PREFIX_MISTAKES};
use crate::prefix::{address_place, beginning, class, SIX};
use crate::sums::{fold, total};
use crate::walk::MOST;

const NAME: &str = OPERATIONS[PREFIX as usize];

/// The protocols over IPv6.
const PROTOCOLS: [u8; 3] = [TCP, UDP, ICMPV6];

/// The mistake that shows on other sides alone.
const OTHER_SIDE: &str = "every side but 0 the destination";

impl Cover {
    /// An exchange: what is asked for, which refusal comes first, and what mistakes would lead to.
    pub fn note_exchange(&mut self, case: &Case, before: &View, after: &View, verdict: Verdict) {
        let (side, expected, new) = case.exchange();
        let asked = Asked { before: before.clone(), side, expected, new, right: (verdict, after.bytes.to_vec()) };
        for mistake in PREFIX_MISTAKES.iter().filter(|mistake| (mistake.outcome)(&asked) != asked.right) {
            self.reach(format!("{NAME} on side {side}, told from {}", mistake.name));
        }
        if !before.bytes.is_empty() {
            self.reach(format!("{NAME} of version {}: {verdict}", before.version()));
        }
        if before.family != 6 {
            return;
        }
        if verdict == CUT {
            self.reach(format!("{NAME}, cut to {} bytes", before.bytes.len()));
        }
        let applying = rules_that_apply(case, before);
        self.exact.insert(format!("{NAME}, {} refused: {verdict}", applying.first().map_or("nothing", |rule| rule.0)));
        if applying.iter().all(|rule| rule.1 == PLACE) {
            self.note_prefixes(&asked, &applying);
        }
        if verdict == GOOD && applying.is_empty() {
            self.note_exchanged(&asked, after);
            self.note_exchanged_message(&asked);
        }
    }

    /// What prefixes are given, where nothing else is wrong.
    fn note_prefixes(&mut self, asked: &Asked, applying: &[Named]) {
        let (side, verdict, judged) = (asked.side, asked.right.0, judge(asked.before.bytes));
        self.reach(format!("{NAME} on side {side}: {verdict}"));
        if let [(only, _)] = applying {
            let kind = kind_name(asked.before.kind());
            self.reach(format!("{NAME} on side {side}, {only} alone: {verdict}"));
            self.reach(format!("{NAME} of {kind} on side {side}, {only} alone, verdict {judged}: {verdict}"));
        }
        if !applying.iter().any(|rule| rule.0 == "expected prefix") {
            let (expected, new) = (asked.expected.len(), asked.new.len());
            self.reach(format!("{NAME} on side {side}, {expected} bytes expected and {new} new: {verdict}"));
        }
        if let [bit] = bits_off(&beginning(asked.before.bytes, side, SIX), asked.expected)[..] {
            self.reach(format!("{NAME} on side {side}, bit {bit} off: {verdict}"));
        }
    }

    /// What an exchange that is done leaves.
    fn note_exchanged(&mut self, asked: &Asked, after: &View) {
        let (side, place) = (asked.side, address_place(asked.side));
        let [old, new] = [&asked.before, after].map(|view| view.bytes[place..place + 16].to_vec());
        let [was, is] = [&asked.before, after].map(|view| view.word(place + SIX));
        for (fact, holds) in [
            ("the new prefix is there", new.starts_with(asked.new)),
            ("the class is kept", class(&old) == class(&new)),
            ("the word is below FFFF", is < 0xFFFF),
            ("the fresh field is as before", fresh_message_field(&asked.before) == fresh_message_field(after)),
        ] {
            self.exact.insert(format!("{NAME}, {fact}: {holds}"));
        }
        self.exact.insert(format!("{NAME} changes {}", changes(&asked.before, after, place)));
        self.reach(format!("{NAME} on side {side}, word {} to {}", corner_name(was), corner_name(is)));
        let to = if asked.new == asked.expected { "the same" } else { prefix_name(asked.new) };
        let words = format!("prefix of {} to {to}, word {}", prefix_name(asked.expected), corner_name(was));
        self.reach(format!("{NAME} on side {side}, {words}"));
        for (when, address) in [("before", &old), ("behind", &new)] {
            if address.iter().all(|byte| *byte == 0) && asked.new != asked.expected {
                self.reach(format!("{NAME} on side {side}, zeros alone {when}"));
            }
        }
        let fold_of = |bytes| fold(total(bytes)).0;
        if ones_complement(was, fold_of(asked.expected), fold_of(asked.new)) == 0xFFFF {
            let kind = kind_name(asked.before.kind());
            self.exact.insert(format!("{NAME} of {kind} on side {side}, FFFF by one's complement: {is:04X}"));
        }
    }

    /// What message an exchange that is done leaves alone.
    fn note_exchanged_message(&mut self, asked: &Asked) {
        let (view, judged) = (&asked.before, judge(asked.before.bytes));
        let name = format!("{NAME} of {}", kind_name(view.kind()));
        self.reach(format!("{name} behind {} headers, verdict {judged}", view.walk.headers.len()));
        self.reach(format!("{name} on side {}, {}, verdict {judged}", asked.side, tail_name(view)));
        let word = word_name(view, view.field_place());
        self.reach(format!("{name} on side {}, field {word}, verdict {judged}", asked.side));
    }
}

/// A word by its digits, if it is a corner.
fn corner_name(word: u16) -> String {
    if CORNER_WORDS.contains(&word) {
        format!("{word:04X}")
    } else {
        "another".to_string()
    }
}

fn prefix_name(prefix: &[u8]) -> &'static str {
    match prefix {
        [0, 0, 0, 0, 0, 0] => "zeros",
        [0xFF, 0xFF, 0xFF, 0xFF, 0xFF, 0xFF] => "ones",
        _ => "others",
    }
}

/// What differs after an exchange of an address at a place, in words.
fn changes(before: &View, after: &View, place: usize) -> String {
    differing(before, after, |at| match at.wrapping_sub(place) {
        0..=5 => "the prefix",
        6 | 7 => "the word",
        _ => "another byte",
    })
}

/// The bits in which an expected prefix of six bytes differs from the one there; bit 0 is the high bit of byte 0.
fn bits_off(there: &[u8], expected: &[u8]) -> Vec<usize> {
    let bit = |bytes: &[u8], i: usize| bytes[i / 8] >> (7 - i % 8) & 1;
    (0..8 * SIX).filter(|i| expected.len() == SIX && bit(there, *i) != bit(expected, *i)).collect()
}

/// The refusals of the exchange in IPv6.
fn refusals() -> Vec<Named> {
    let first = looked_at(PREFIX).map(|rule| (rule.name, rule.number));
    first.chain(own_rules(PREFIX).iter().copied()).filter(|rule| in_family(rule.0, 6)).collect()
}

pub fn wanted_exactly() -> Vec<String> {
    let mut wanted = vec![format!("{NAME} of no bytes: {CUT}")];
    wanted.extend(["another version", "IPv4"].map(|name| format!("{NAME} of {name}: {VERSION}")));
    let refused = refusals().into_iter().filter(|rule| !["no bytes", "version"].contains(&rule.0));
    for (rule, number) in refused.chain([("nothing", GOOD)]) {
        wanted.push(format!("{NAME} of IPv6: {number}"));
        wanted.push(format!("{NAME}, {rule} refused: {number}"));
    }
    wanted.extend([GOOD, MESSAGE_SUM].map(|v| format!("{NAME} of IPv6, verdict {v}: {v} afterwards")));
    let facts =
        ["the new prefix is there", "the class is kept", "the word is below FFFF", "the fresh field is as before"];
    wanted.extend(facts.map(|fact| format!("{NAME}, {fact}: true")));
    wanted.extend(["nothing", "the prefix", "the prefix and the word"].map(|what| format!("{NAME} changes {what}")));
    for (protocol, side) in PROTOCOLS.into_iter().flat_map(|protocol| [(protocol, 0), (protocol, 1)]) {
        let kind = kind_name((6, protocol));
        wanted.push(format!("{NAME} of {kind} on side {side}, FFFF by one's complement: 0000"));
    }
    wanted
}

pub fn wanted() -> Vec<String> {
    let mut wanted = wanted_meetings();
    for side in [0, 1] {
        wanted.extend(wanted_given(side));
        wanted.extend(wanted_words(side));
        wanted.extend(wanted_messages(side));
        let told = PREFIX_MISTAKES.iter().filter(|mistake| mistake.name != OTHER_SIDE);
        wanted.extend(told.map(|mistake| format!("{NAME} on side {side}, told from {}", mistake.name)));
    }
    for side in NO_SIDES {
        wanted.push(format!("{NAME} on side {side}: {PLACE}"));
        wanted.push(format!("{NAME} on side {side}, told from {OTHER_SIDE}"));
    }
    wanted.extend((0..16).filter(|v| *v != 6).map(|v| format!("{NAME} of version {v}: {VERSION}")));
    wanted.extend((1..63).map(|length| format!("{NAME}, cut to {length} bytes")));
    let least = [CUT, SHAPE, FRAGMENT, UNCOVERED];
    wanted.extend(least.map(|verdict| format!("{NAME} of IPv6: just the least bytes, verdict {verdict}")));
    wanted.push(format!("{NAME} of IPv6: one byte missing, verdict {CUT}"));
    wanted.extend(wanted_sequences());
    wanted
}

/// Every two refusals that can meet. IPv4 is 3 before all that can be wrong with it.
fn wanted_meetings() -> Vec<String> {
    let first = |family: u8, rule: &str| family == 6 || ["no bytes", "version"].contains(&rule);
    let mut wanted = Vec::new();
    for family in [4, 6] {
        let meeting = meeting(PREFIX, family).into_iter().filter(|(a, _)| first(family, a.0));
        wanted.extend(meeting.map(|(a, b)| format!("{NAME} of IPv{family}: {} before {}", a.0, b.0)));
    }
    wanted
}

/// Prefixes of every length, with each bit off; and each of the exchange's own refusals alone, a word of FFFF in
/// packets of each protocol that are good and that have a wrong sum.
fn wanted_given(side: u32) -> Vec<String> {
    let name = format!("{NAME} on side {side}");
    let one = (0..=16).flat_map(|length| [(length, SIX), (SIX, length)]);
    let mut wanted = Vec::new();
    for (expected, new) in one.chain(TWO_LENGTHS) {
        let verdict = if (expected, new) == (SIX, SIX) { GOOD } else { PLACE };
        wanted.push(format!("{name}, {expected} bytes expected and {new} new: {verdict}"));
    }
    wanted.extend((0..8 * SIX).map(|bit| format!("{name}, bit {bit} off: {PLACE}")));
    let own = own_rules(PREFIX).iter().filter(|rule| rule.0 != "side");
    wanted.extend(own.map(|rule| format!("{name}, {} alone: {PLACE}", rule.0)));
    for kind in PROTOCOLS.map(|protocol| kind_name((6, protocol))) {
        let name = format!("{NAME} of {kind} on side {side}, word alone, verdict");
        wanted.extend([GOOD, MESSAGE_SUM].map(|verdict| format!("{name} {verdict}: {PLACE}")));
    }
    wanted
}

/// Each corner word and another before and behind; prefixes of zeros and of ones, and the same again; addresses of
/// zeros.
fn wanted_words(side: u32) -> Vec<String> {
    let name = format!("{NAME} on side {side}");
    let words: Vec<String> = CORNER_WORDS.map(corner_name).into_iter().chain(["another".to_string()]).collect();
    let mut wanted = Vec::new();
    for (was, is) in words.iter().flat_map(|was| words.iter().map(move |is| (was, is))) {
        wanted.push(format!("{name}, word {was} to {is}"));
    }
    for (old, new) in
        ["zeros", "ones", "others"].into_iter().flat_map(|old| ["zeros", "ones", "others"].map(|n| (old, n)))
    {
        let to = if old == new { "the same" } else { new };
        wanted.extend(["0000", "FFFE", "another"].map(|word| format!("{name}, prefix of {old} to {to}, word {word}")));
    }
    wanted.extend(["before", "behind"].map(|when| format!("{name}, zeros alone {when}")));
    wanted
}

/// Messages of each protocol behind none to eight headers, with a tail and without, and with any field: good ones, and
/// ones with a wrong sum. UDP's 0000 is refused.
fn wanted_messages(side: u32) -> Vec<String> {
    let mut wanted = Vec::new();
    for (protocol, verdict) in PROTOCOLS.into_iter().flat_map(|p| [(p, GOOD), (p, MESSAGE_SUM)]) {
        let name = format!("{NAME} of {}", kind_name((6, protocol)));
        wanted.extend((0..=MOST).map(|count| format!("{name} behind {count} headers, verdict {verdict}")));
        let fields = if protocol == UDP { &["FFFF", "another word"][..] } else { &["0000", "FFFF", "another word"] };
        let fields = fields.iter().map(|field| format!("field {field}"));
        let what = fields.chain(["a tail", "no tail"].map(String::from));
        wanted.extend(what.map(|what| format!("{name} on side {side}, {what}, verdict {verdict}")));
    }
    wanted
}

/// Each call before an exchange and behind it, both done and refused, and the judge behind.
fn wanted_sequences() -> Vec<String> {
    let calls = [(LIFETIME, GOOD), (MEND, GOOD)];
    let calls =
        calls.into_iter().chain([ADDRESS, STRETCH, PREFIX].into_iter().flat_map(|op| [(op, GOOD), (op, PLACE)]));
    let mut wanted = Vec::new();
    for ((operation, verdict), exchange) in calls.flat_map(|call| [(call, GOOD), (call, PLACE)]) {
        let call = OPERATIONS[operation as usize];
        wanted.push(format!("{call}'s {verdict}, then {NAME}: {exchange}"));
        wanted.push(format!("{NAME}'s {exchange}, then {call}: {verdict}"));
    }
    for exchange in [GOOD, PLACE] {
        wanted.push(format!("{NAME}'s {exchange}, then lower lifetime: {SPENT}"));
        wanted.extend([GOOD, MESSAGE_SUM].map(|verdict| format!("{NAME}'s {exchange}, then judge: {verdict}")));
    }
    wanted
}
