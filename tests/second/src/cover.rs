// What the stored cases must reach, and the check that they do. Each thing reached is a line of plain words.

mod between;
mod build;
mod fragments;
mod lifetimes;
mod prefix;
mod trailing;

use crate::answer::*;
use crate::capture::{edition_wrong, mark_wrong, whole_records};
use crate::draft::KINDS;
use crate::edit;
use crate::judge::{judge, Rule, RULES};
use crate::mend::{self, fresh_header_field, fresh_message_field};
use crate::packet::{View, HEADER_FIELD, ICMP, ICMPV6, TABLE, TCP, UDP};
use crate::prefix as exchange;
use crate::sums::{passes, Field};
use crate::updates::{corner_triples, updated_fields};
use crate::verdict::*;
use std::collections::BTreeSet;

#[derive(Default)]
pub struct Cover {
    /// The verdicts of each operation, what an edit makes of the fields that it updates and of the verdict, what the
    /// lifetime edit changes, what lies behind a datagram, what stops the walk, what a prefix exchange leaves, why
    /// fragments are refused, and what is built; these must be those the paper makes possible, and no others.
    exact: BTreeSet<String>,
    /// All else that was reached; there may be more than is wanted.
    reached: BTreeSet<String>,
    /// The operation of the case before, and its verdict.
    last: Option<(u8, Verdict)>,
}

/// A rule that applies, or could: its name and number.
type Named = (&'static str, Verdict);

impl Cover {
    /// Takes note of a case, its buffer before and after, and its answer.
    pub fn note(&mut self, case: &Case, before: &[u8], after: &[u8], answer: &str) {
        let first = answer.split([' ', '\n']).next().and_then(|word| word.parse().ok());
        self.reach(OPERATIONS[case.operation as usize].to_string());
        match case.operation {
            JUDGE..=STRETCH | PREFIX => self.note_packet(case, before, after, first.unwrap_or(u8::MAX)),
            CAPTURE | PRINTED => self.note_capture(case, before, answer),
            CHAIN => self.note_chain(case, before, answer),
            UPDATE => self.note_update(case, answer),
            JOIN => self.note_join(case, answer),
            FRAGMENTS => self.note_fragments(case, before, first.unwrap_or(u8::MAX)),
            BUILD => self.note_build(case, before, after, answer),
            _ => self.reach(format!("{} of {} bytes", OPERATIONS[case.operation as usize], before.len())),
        }
    }

    /// An error that names the first things missing, or a verdict that no rule allows.
    pub fn check(&self) -> Result<(), String> {
        let wanted = wanted_exactly();
        if let Some(line) = self.exact.difference(&wanted).next() {
            return Err(format!("the paper makes this impossible: {line}"));
        }
        let missing: Vec<String> =
            wanted.difference(&self.exact).cloned().chain(wanted_else().difference(&self.reached).cloned()).collect();
        match missing.len() {
            0 => Ok(()),
            n => Err(format!("{n} things aren't reached, such as:\n{}", missing[..n.min(20)].join("\n"))),
        }
    }

    fn reach(&mut self, line: String) {
        self.reached.insert(line);
    }

    fn note_packet(&mut self, case: &Case, before: &[u8], after: &[u8], verdict: Verdict) {
        let operation = OPERATIONS[case.operation as usize];
        let view = View::new(before);
        self.exact.insert(format!("{operation} of {}: {verdict}", family_name(before)));
        let families: &[u8] = match view.family {
            4 => &[4],
            6 => &[6],
            _ => &[4, 6],
        };
        for family in families {
            let applying = rules_that_apply(case, &View::read_as(before, *family));
            for (a, b) in pairs(&applying).iter().filter(|(a, _)| *a == applying[0]) {
                self.reach(format!("{operation} of IPv{family}: {} before {}", a.0, b.0));
            }
        }
        if before.len() == view.least() {
            self.reach(format!("{operation} of IPv{}: just the least bytes, verdict {verdict}", view.family));
        }
        if before.len() + 1 == view.end() {
            self.reach(format!("{operation} of IPv{}: one byte missing, verdict {verdict}", view.family));
        }
        if let (LEFT, Some((before, its_verdict))) = (case.source, self.last) {
            self.reach(format!("{}'s {its_verdict}, then {operation}: {verdict}", OPERATIONS[before as usize]));
        }
        if case.operation != PREFIX || view.family == 6 {
            self.note_datagram(case, &view, &View::new(after), verdict);
        }
        self.note_between(case, &view, &View::new(after), verdict);
        self.last = Some((case.operation, verdict));
        if verdict != GOOD && before != after {
            self.exact.insert(format!("{operation} refused with {verdict}: bytes changed"));
        } else if verdict == GOOD && ![JUDGE, MEND].contains(&case.operation) {
            let (was, is) = (judge(before), judge(after));
            self.exact.insert(format!("{operation} of IPv{}, verdict {was}: {is} afterwards", view.family));
        }
        if before.len() > view.end() && verdict == GOOD {
            self.reach(format!("{operation} of IPv{}: a tail", view.family));
        }
        match case.operation {
            JUDGE => self.note_judged(&view, verdict),
            MEND if verdict == GOOD => self.note_fields(case, &View::new(after), true, true),
            LIFETIME => self.note_lifetime(case, &view, &View::new(after), verdict),
            ADDRESS => self.note_address(case, &view, after, verdict),
            STRETCH => self.note_stretch(case, &view, after, verdict),
            PREFIX => self.note_exchange(case, &view, &View::new(after), verdict),
            _ => {}
        }
    }

    fn note_judged(&mut self, view: &View, verdict: Verdict) {
        self.reach(format!("judge of {} bytes", view.bytes.len()));
        self.reach(format!("{}: message of {}, verdict {verdict}", kind_name(view.kind()), view.message_length()));
        if view.protocol() == TCP && view.bytes.len() >= view.end() {
            self.reach(format!("TCP in IPv{}: data offset {}, verdict {verdict}", view.family, view.data_offset()));
        }
        if verdict == GOOD || verdict == UNSUMMED {
            self.reach(format!("good: {} bytes", view.end()));
            self.reach(format!("good: IPv{}, header {}", view.family, view.header_length()));
            self.reach(format!("good: {}, body {}", kind_name(view.kind()), view.body_length()));
        }
        if view.protocol() == UDP {
            let field = view.word(view.field_place());
            self.reach(format!("UDP in IPv{}: stored {field:04X}, verdict {verdict}", view.family));
        }
        if view.bytes.len() > view.end() + 65_575 && verdict == GOOD {
            self.reach(format!("good: IPv{}, a tail longer than any packet", view.family));
        }
    }

    /// The fields that an operation has just written, if they stand at a corner.
    fn note_fields(&mut self, case: &Case, after: &View, header: bool, message: bool) {
        let operation = OPERATIONS[case.operation as usize];
        let (header_field, message_field) = (after.word(HEADER_FIELD), after.word(after.field_place()));
        if header && after.family == 4 {
            self.reach(format!("{operation}: IPv4 header field {header_field:04X}"));
        }
        if message {
            self.reach(format!("{operation}: {} field {message_field:04X}", kind_name(after.kind())));
        }
    }

    /// The fields that an accepted edit has just updated. Where the sum was right the field is fresh, in a good packet
    /// and in one that is wrong elsewhere; only UDP's can be FFFF. Where equation 3 alone answers FFFF, what is taken
    /// note of says which case of it this is.
    fn note_updated(&mut self, case: &Case, before: &View, after: &View) {
        let (operation, kind) = (OPERATIONS[case.operation as usize], kind_name(before.kind()));
        let verdict = judge(before.bytes);
        for updated in updated_fields(case, before) {
            let name = if updated.header { "header" } else { "message" };
            let fresh = if updated.header { fresh_header_field(after) } else { fresh_message_field(after) };
            let right = if updated.header { passes(before.header()) } else { passes(&before.covered_block()) };
            let field = after.word(updated.place);
            if right {
                let word = if Field(field) == fresh { "fresh" } else { "not fresh" };
                self.exact.insert(format!("{operation} of {kind}, verdict {verdict}: {name} field {word}"));
            }
            if field == 0xFFFF && (updated.header || before.protocol() != UDP) {
                self.exact.insert(format!("{operation} of {kind}: {name} field FFFF"));
            }
            if updated.from_full_to_zeros() {
                let place = match case.operation {
                    ADDRESS => format!("side {}", case.number),
                    _ => format!("{} place, {}", parity(case.number), size_name(case.two.len())),
                };
                self.exact.insert(format!("{kind}: {name} field FFFF, fold FFFF to 0000: {field:04X}"));
                self.reach(format!("{kind}: {name} field FFFF, fold FFFF to 0000: {place}, verdict {verdict}"));
            }
        }
    }

    fn note_update(&mut self, case: &Case, answer: &str) {
        let words = [32, 16, 0].map(|low| (case.number >> low) as u16);
        self.reach(format!("update of {words:04X?}"));
        if answer == "65535\n" {
            self.exact.insert("update to FFFF".to_string());
        }
    }

    fn note_address(&mut self, case: &Case, before: &View, after: &[u8], verdict: Verdict) {
        self.reach(format!("side {}: {verdict}", case.number));
        self.reach(format!("address of {} bytes in IPv{}: {verdict}", case.two.len(), before.family));
        if verdict != GOOD {
            return;
        }
        let place = before.address_place(case.number as usize);
        if before.bytes[place..].starts_with(&case.two) {
            self.reach(format!("{}: the same address again", kind_name(before.kind())));
        }
        self.note_fields(case, &View::new(after), true, !before.pseudo_header().is_empty());
        self.note_updated(case, before, &View::new(after));
    }

    fn note_stretch(&mut self, case: &Case, before: &View, after: &[u8], verdict: Verdict) {
        let (place, length, body) = (case.number, case.two.len(), before.body_length() as u64);
        let kind = kind_name(before.kind());
        if length == 0 && place.wrapping_sub(body) <= 1 {
            self.reach(format!("{kind}: empty stretch {} past the body: {verdict}", place - body));
        }
        if place > u64::MAX - 20 && place.checked_add(length as u64).is_none() {
            self.reach(format!("{kind}: stretch past the largest number: {verdict}"));
        }
        if verdict != GOOD || length == 0 {
            return;
        }
        self.reach(format!("{kind}: stretch at {} place, {} length", parity(place), parity(length as u64)));
        let start = before.message_start() + before.body_offset() + place as usize;
        if before.bytes[start..].starts_with(&case.two) {
            self.reach(format!("{kind}: the same stretch again"));
        }
        self.note_fields(case, &View::new(after), false, true);
        self.note_updated(case, before, &View::new(after));
    }

    fn note_capture(&mut self, case: &Case, capture: &[u8], answer: &str) {
        if case.operation == PRINTED {
            let last: Vec<&str> = answer.lines().last().unwrap_or("").split(' ').collect();
            self.reach(if last[0] == "stopped" {
                format!("printed: stopped {}", last[1])
            } else {
                "printed: totals".into()
            });
            return;
        }
        let (records, damaged) = whole_records(capture);
        let (count, places) = (records.len() as u64, case.number);
        self.exact.insert(format!("judge capture: {}", answer.split(' ').next().unwrap_or("")));
        let tests = [
            ("mark", mark_wrong(capture)),
            ("edition", edition_wrong(capture)),
            ("record", damaged),
            ("room", count > places),
        ];
        let applying: Vec<Named> =
            tests.into_iter().zip(MARK..).filter(|(test, _)| test.1).map(|(test, number)| (test.0, number)).collect();
        for (a, b) in pairs(&applying).iter().filter(|(a, _)| *a == applying[0]) {
            self.reach(format!("judge capture: {} before {}", a.0, b.0));
        }
        if applying.is_empty() {
            self.reach(format!("judge capture: {} room", if places == count { "exact" } else { "more" }));
            for record in records {
                self.reach(format!("record of {} bytes", record.len()));
                self.reach(format!("record with verdict {}", judge(record)));
                if View::new(record).trailing_length() > 0 {
                    self.reach(format!("record with a trailing area: {}", judge(record)));
                }
                if !View::new(record).walk.headers.is_empty() {
                    self.reach(format!("record with headers between: {}", judge(record)));
                }
            }
        }
    }

    fn note_chain(&mut self, case: &Case, buffer: &[u8], answer: &str) {
        self.exact.insert(format!("chain: {}", answer.split(' ').next().unwrap_or("")));
        let numbers: Vec<u64> =
            case.two.chunks(4).map(|n| u32::from_be_bytes([n[0], n[1], n[2], n[3]]).into()).collect();
        let pieces: Vec<(u64, u64)> = numbers.chunks_exact(2).map(|piece| (piece[0], piece[1])).collect();
        let size = buffer.len() as u64;
        let outside = |(offset, length): &(u64, u64)| offset + length > size;
        let over_and_over = |odd: u64| pieces.len() >= 1000 && pieces.iter().all(|p| *p == pieces[0] && p.1 % 2 == odd);
        let found = [
            ("empty list", numbers.is_empty()),
            ("odd list", numbers.len() % 2 == 1),
            ("odd list, a piece outside", numbers.len() % 2 == 1 && pieces.iter().any(outside)),
            ("a piece outside", pieces.iter().any(outside)),
            ("passes 32 bits", pieces.iter().any(|(o, l)| o + l > u32::MAX.into())),
            ("empty at the end", pieces.contains(&(size, 0))),
            ("empty past the end", pieces.contains(&(size + 1, 0))),
            ("all of it", pieces.contains(&(0, size))),
            ("odd then odd", pieces.windows(2).any(|two| two[0].1 % 2 == 1 && two[1].1 % 2 == 1)),
            ("overlap", pieces.windows(2).any(|two| two[0].0 < two[1].0 && two[1].0 < two[0].0 + two[0].1)),
            ("repeat", pieces.windows(2).any(|two| two[0].1 > 0 && two[0] == two[1])),
            ("good, then outside", pieces.len() > 1 && !outside(&pieces[0]) && answer.starts_with("10")),
            ("an odd piece a thousand times", over_and_over(1)),
            ("an even piece a thousand times", over_and_over(0) && pieces[0].1 > 0),
            ("the first outside after a thousand", pieces.iter().position(outside) >= Some(1000)),
            ("odd list of over two thousand", numbers.len() > 2000 && numbers.len() % 2 == 1),
            ("over 65,535 bytes", pieces.iter().map(|piece| piece.1).sum::<u64>() > 65_535),
        ];
        for (name, _) in found.into_iter().filter(|(_, holds)| *holds) {
            let verdict = answer.split(' ').next().unwrap_or("");
            self.reach(format!("chain: {name}: {verdict}"));
        }
    }

    fn note_join(&mut self, case: &Case, answer: &str) {
        let (a, b) = operands(&case.two);
        let verdict = answer.split(' ').next().unwrap_or("");
        let lengths = match u128::from(a.length) + u128::from(b.length) {
            together if together < LARGEST_LENGTH => "under 2^64 - 1",
            LARGEST_LENGTH => "2^64 - 1",
            together if together == LARGEST_LENGTH + 1 => "2^64",
            _ => "over 2^64",
        };
        self.exact.insert(format!("join, lengths together {lengths}: {verdict}"));
        self.reach(format!("join, {} before {}: {verdict}", parity(a.length), parity(b.length)));
        for (name, sum) in [("first", a), ("second", b)] {
            if sum.length == 0 && sum.fold.0 != 0 {
                self.reach(format!("join, the {name} of length 0 with a fold: {verdict}"));
            }
        }
    }
}

/// What differs after a call, each place by its name.
fn differing(before: &View, after: &View, name: impl Fn(usize) -> &'static str) -> String {
    let places = (0..before.bytes.len()).filter(|place| before.byte(*place) != after.byte(*place));
    let names: BTreeSet<&str> = places.map(name).collect();
    if names.is_empty() {
        return "nothing".to_string();
    }
    names.into_iter().collect::<Vec<_>>().join(" and ")
}

/// Two bytes, or more of them.
fn size_name(length: usize) -> String {
    match length {
        2 => "two bytes".to_string(),
        _ => format!("more, {}", parity(length as u64)),
    }
}

/// The largest length of a partial sum.
const LARGEST_LENGTH: u128 = u64::MAX as u128;

fn parity(number: u64) -> &'static str {
    if number % 2 == 0 {
        "even"
    } else {
        "odd"
    }
}

fn family_name(packet: &[u8]) -> &'static str {
    match packet.first().map(|byte| byte >> 4) {
        None => "no bytes",
        Some(4) => "IPv4",
        Some(6) => "IPv6",
        Some(_) => "another version",
    }
}

fn kind_name((family, protocol): (u8, u8)) -> String {
    let name = match protocol {
        ICMP => "ICMP",
        TCP => "TCP",
        UDP => "UDP",
        ICMPV6 => "ICMPv6",
        _ => "another protocol",
    };
    format!("{name} in IPv{family}")
}

/// The calls on packets of a family. The prefix exchange is IPv6's.
fn calls_of(family: u8) -> impl Iterator<Item = u8> {
    (JUDGE..=STRETCH).chain((family == 6).then_some(PREFIX))
}

/// The rules an operation looks at.
fn looked_at(operation: u8) -> Box<dyn Iterator<Item = &'static Rule>> {
    let looked_at: fn(&Rule) -> bool = match operation {
        JUDGE => |_| true,
        MEND => mend::refused,
        LIFETIME => edit::refused_lifetime,
        PREFIX => return Box::new(exchange::rules()),
        _ => edit::refused,
    };
    Box::new(RULES.iter().filter(move |rule| looked_at(rule)))
}

/// Every refusal of a case that applies by itself, in order.
fn rules_that_apply(case: &Case, view: &View) -> Vec<Named> {
    let mut applying: Vec<Named> =
        looked_at(case.operation).filter(|rule| (rule.applies)(view)).map(|rule| (rule.name, rule.number)).collect();
    let own = match case.operation {
        LIFETIME => vec![edit::spent(view)],
        ADDRESS => vec![edit::no_side(case.number), edit::address_misfit(view, &case.two)],
        STRETCH => vec![edit::stretch_misfit(view, case.number, &case.two), edit::blank(view, case.number, &case.two)],
        PREFIX => {
            let (side, expected, new) = case.exchange();
            exchange::misfits(view, side, expected, new).to_vec()
        }
        _ => vec![],
    };
    applying.extend(own_rules(case.operation).iter().zip(own).filter(|(_, applies)| *applies).map(|(rule, _)| *rule));
    applying
}

/// The refusals that are an edit's own, in order.
fn own_rules(operation: u8) -> &'static [Named] {
    match operation {
        LIFETIME => &[("spent", SPENT)],
        ADDRESS => &[("side", PLACE), ("address length", PLACE)],
        STRETCH => &[("stretch", PLACE), ("blank", BLANK)],
        PREFIX => &[
            ("side", PLACE),
            ("expected length", PLACE),
            ("new length", PLACE),
            ("expected prefix", PLACE),
            ("word", PLACE),
        ],
        _ => &[],
    }
}

/// All pairs, in order, of rules whose numbers differ.
fn pairs(rules: &[Named]) -> Vec<(Named, Named)> {
    let mut pairs = Vec::new();
    for (i, a) in rules.iter().enumerate() {
        pairs.extend(rules[i + 1..].iter().filter(|b| b.1 != a.1).map(|b| (*a, *b)));
    }
    pairs
}

/// Whether a family has this rule at all.
fn in_family(rule: &str, family: u8) -> bool {
    match rule {
        "header length" | "total length" | "header sum" | "fragment" | "zero in IPv4" | "blank" => family == 4,
        "zero in IPv6" => family == 6,
        _ if WALK.contains(&rule) => family == 6,
        _ => true,
    }
}

/// The rules of the walk. Of these one applies at most; which, the walk decides.
const WALK: [&str; 5] = ["fragment header", "late hop-by-hop", "ninth header", "past the payload", "segments left"];

/// What can be wrong besides where there are no bytes.
const WITHOUT_BYTES: [&str; 8] =
    ["version", "spent", "side", "address length", "stretch", "expected length", "new length", "expected prefix"];

/// Whether two rules can apply at once. Without bytes there is nothing else to be wrong but the version and what
/// the caller gives, and without a whole fixed header nothing behind it. The protocols of the later rules are in the
/// table. Only ICMP can be blank.
fn can_meet(a: &str, b: &str) -> bool {
    match a {
        _ if WALK.contains(&a) && WALK.contains(&b) => false,
        "under 20 or 40" => !["late hop-by-hop", "ninth header", "segments left"].contains(&b),
        "no bytes" => WITHOUT_BYTES.contains(&b),
        "protocol" => !["TCP or UDP length", "zero in IPv6", "zero in IPv4", "blank"].contains(&b),
        "TCP or UDP length" => b != "blank",
        _ => true,
    }
}

/// The verdicts that the paper makes possible, and what it makes of updated fields.
fn wanted_exactly() -> BTreeSet<String> {
    let mut wanted = BTreeSet::new();
    for operation in JUDGE..=STRETCH {
        let name = OPERATIONS[operation as usize];
        wanted.insert(format!("{name} of no bytes: {CUT}"));
        wanted.insert(format!("{name} of another version: {VERSION}"));
        for family in [4, 6] {
            wanted.insert(format!("{name} of IPv{family}: {GOOD}"));
            let rules = looked_at(operation).map(|rule| (rule.name, rule.number));
            for (rule, number) in rules.chain(own_rules(operation).iter().copied()) {
                if in_family(rule, family) && number != VERSION {
                    wanted.insert(format!("{name} of IPv{family}: {number}"));
                }
            }
        }
    }
    wanted.extend([GOOD, MARK, EDITION, RECORD, ROOM].map(|number| format!("judge capture: {number}")));
    wanted.extend([GOOD, PLACE].map(|number| format!("chain: {number}")));
    let together = [("under 2^64 - 1", GOOD), ("2^64 - 1", GOOD), ("2^64", PLACE), ("over 2^64", PLACE)];
    wanted.extend(together.map(|(lengths, number)| format!("join, lengths together {lengths}: {number}")));
    wanted.extend(lifetimes::wanted_exactly());
    wanted.extend(trailing::wanted_exactly());
    wanted.extend(between::wanted_exactly());
    wanted.extend(prefix::wanted_exactly());
    wanted.extend(fragments::wanted_exactly());
    wanted.extend(build::wanted_exactly());
    for operation in [ADDRESS, STRETCH] {
        let name = OPERATIONS[operation as usize];
        for (family, verdicts) in [(4, &[GOOD, UNSUMMED, HEADER_SUM, MESSAGE_SUM][..]), (6, &[GOOD, MESSAGE_SUM])] {
            wanted.extend(verdicts.iter().map(|v| format!("{name} of IPv{family}, verdict {v}: {v} afterwards")));
        }
    }
    for kind in KINDS {
        let name = kind_name(kind);
        for (operation, field) in updates_of(kind) {
            let verdicts: &[Verdict] = match (kind, field) {
                ((4, UDP), "header") => &[GOOD, UNSUMMED, MESSAGE_SUM],
                (_, "header") => &[GOOD, MESSAGE_SUM],
                ((4, _), _) => &[GOOD, HEADER_SUM],
                _ => &[GOOD],
            };
            let edit = OPERATIONS[operation as usize];
            wanted.extend(verdicts.iter().map(|v| format!("{edit} of {name}, verdict {v}: {field} field fresh")));
            let sent = if field == "message" && kind.1 == UDP { "FFFF" } else { "0000" };
            wanted.insert(format!("{name}: {field} field FFFF, fold FFFF to 0000: {sent}"));
        }
    }
    wanted
}

/// The address and the stretch edit, with each field that they update in packets of a kind.
fn updates_of((family, protocol): (u8, u8)) -> Vec<(u8, &'static str)> {
    let all = [(ADDRESS, "header"), (ADDRESS, "message"), (STRETCH, "message")];
    let covered = |(operation, field): &(u8, &str)| match *field {
        "header" => family == 4,
        _ => *operation == STRETCH || protocol != ICMP,
    };
    all.into_iter().filter(covered).collect()
}

fn wanted_else() -> BTreeSet<String> {
    let mut wanted: BTreeSet<String> = OPERATIONS.iter().map(|name| name.to_string()).collect();
    wanted.extend(wanted_pairs());
    wanted.extend(wanted_lengths());
    wanted.extend(wanted_fields());
    wanted.extend(wanted_zeros());
    wanted.extend(wanted_edits());
    wanted.extend(lifetimes::wanted());
    wanted.extend(trailing::wanted());
    wanted.extend(between::wanted());
    wanted.extend(prefix::wanted());
    wanted.extend(fragments::wanted());
    wanted.extend(build::wanted());
    wanted.extend(wanted_captures());
    wanted.extend(wanted_sums());
    wanted
}

fn wanted_pairs() -> Vec<String> {
    let mut wanted = Vec::new();
    for operation in JUDGE..=STRETCH {
        for family in [4, 6] {
            let name = OPERATIONS[operation as usize];
            let meeting = meeting(operation, family).into_iter();
            wanted.extend(meeting.map(|(a, b)| format!("{name} of IPv{family}: {} before {}", a.0, b.0)));
        }
    }
    wanted
}

/// Every two refusals of an operation that can apply at once in a family.
fn meeting(operation: u8, family: u8) -> Vec<(Named, Named)> {
    let rules = looked_at(operation).map(|rule| (rule.name, rule.number)).chain(own_rules(operation).iter().copied());
    let rules: Vec<Named> = rules.filter(|rule| in_family(rule.0, family)).collect();
    pairs(&rules).into_iter().filter(|(a, b)| can_meet(a.0, b.0)).collect()
}

fn wanted_lengths() -> Vec<String> {
    let mut wanted = Vec::new();
    for length in 0..=100 {
        wanted.push(format!("judge of {length} bytes"));
        wanted.extend(KINDS.map(|kind| format!("good: {}, body {length}", kind_name(kind))));
        for operation in [PARTIAL, FOLD_AT, FIELD] {
            wanted.push(format!("{} of {length} bytes", OPERATIONS[operation as usize]));
        }
    }
    wanted.extend([65_535, 65_575].map(|length| format!("good: {length} bytes")));
    for row in TABLE {
        for name in row.families.iter().map(|family| kind_name((*family, row.protocol))) {
            wanted.push(format!("{name}: message of {}, verdict {SHAPE}", row.fixed - 1));
            wanted.push(format!("{name}: message of {}, verdict {GOOD}", row.fixed));
        }
    }
    for operation in JUDGE..=STRETCH {
        for family in [4, 6] {
            let verdicts: &[Verdict] = match (operation, family) {
                (LIFETIME, 4) => &[GOOD, CUT, SHAPE, SPENT],
                (LIFETIME, _) => &[GOOD, CUT, SPENT],
                _ => &[CUT, SHAPE, FRAGMENT, UNCOVERED],
            };
            let name = OPERATIONS[operation as usize];
            let least = |verdict| format!("{name} of IPv{family}: just the least bytes, verdict {verdict}");
            wanted.extend(verdicts.iter().map(least));
            wanted.push(format!("{name} of IPv{family}: one byte missing, verdict {CUT}"));
        }
    }
    for family in [4, 6] {
        wanted.push(format!("good: IPv{family}, a tail longer than any packet"));
        wanted.extend((JUDGE..=STRETCH).map(|op| format!("{} of IPv{family}: a tail", OPERATIONS[op as usize])));
        wanted.extend((5..16).map(|offset| format!("TCP in IPv{family}: data offset {offset}, verdict {GOOD}")));
        wanted.extend((0..5).map(|offset| format!("TCP in IPv{family}: data offset {offset}, verdict {SHAPE}")));
        wanted.extend((6..16).map(|offset| format!("TCP in IPv{family}: data offset {offset}, verdict {SHAPE}")));
    }
    wanted.extend((5..16).map(|words| format!("good: IPv4, header {}", 4 * words)));
    wanted
}

fn wanted_fields() -> Vec<String> {
    let mut wanted: Vec<String> = [
        "mend: IPv4 header field 0000",
        "lower lifetime: IPv4 header field 0000",
        "set address: IPv4 header field 0000",
        "mend: ICMP in IPv4 field FFFF",
        "set address: UDP in IPv4 field 0000",
        "set stretch: UDP in IPv4 field 0000",
        "mend: UDP in IPv4 field 0000",
    ]
    .map(String::from)
    .to_vec();
    for kind in KINDS {
        let (name, udp) = (kind_name(kind), kind.1 == UDP);
        wanted.push(format!("mend: {name} field {}", if udp { "FFFF" } else { "0000" }));
        for operation in [ADDRESS, STRETCH] {
            if updates_of(kind).contains(&(operation, "message")) {
                let field = if udp { "FFFF" } else { "0000" };
                wanted.push(format!("{}: {name} field {field}", OPERATIONS[operation as usize]));
            }
        }
    }
    for (family, zero) in [(4, UNSUMMED), (6, MISSING)] {
        wanted.push(format!("UDP in IPv{family}: stored 0000, verdict {zero}"));
        wanted.push(format!("UDP in IPv{family}: stored FFFF, verdict {GOOD}"));
        wanted.push(format!("UDP in IPv{family}: stored FFFF, verdict {MESSAGE_SUM}"));
    }
    wanted
}

/// Updates of every three corner words, and edits where equation 3 alone answers FFFF: at even and odd places, of
/// two bytes and more, on both sides, of packets that are good and of packets that aren't.
fn wanted_zeros() -> Vec<String> {
    let mut wanted: Vec<String> = corner_triples().map(|triple| format!("update of {triple:04X?}")).collect();
    for kind in KINDS {
        let verdicts: &[Verdict] = if kind.0 == 4 { &[GOOD, HEADER_SUM, MESSAGE_SUM] } else { &[GOOD, MESSAGE_SUM] };
        for (operation, field) in updates_of(kind) {
            let places: &[&str] = match operation {
                ADDRESS => &["side 0", "side 1"],
                _ => &STRETCHED,
            };
            let unsummed = if kind == (4, UDP) && field == "header" { &[UNSUMMED][..] } else { &[] };
            for verdict in verdicts.iter().chain(unsummed) {
                let line = |place| {
                    format!("{}: {field} field FFFF, fold FFFF to 0000: {place}, verdict {verdict}", kind_name(kind))
                };
                wanted.extend(places.iter().map(line));
            }
        }
    }
    wanted
}

/// Where a stretch is and how long, in words.
const STRETCHED: [&str; 6] = [
    "even place, two bytes",
    "even place, more, even",
    "even place, more, odd",
    "odd place, two bytes",
    "odd place, more, even",
    "odd place, more, odd",
];

fn wanted_edits() -> Vec<String> {
    let mut wanted = Vec::new();
    for kind in KINDS {
        let name = kind_name(kind);
        wanted.push(format!("{name}: empty stretch 0 past the body: {GOOD}"));
        wanted.push(format!("{name}: empty stretch 1 past the body: {PLACE}"));
        wanted.push(format!("{name}: stretch past the largest number: {PLACE}"));
        wanted.push(format!("{name}: the same stretch again"));
        wanted.push(format!("{name}: the same address again"));
        for (place, length) in [("even", "even"), ("even", "odd"), ("odd", "even"), ("odd", "odd")] {
            wanted.push(format!("{name}: stretch at {place} place, {length} length"));
        }
    }
    for (side, verdict) in [(0, GOOD), (1, GOOD), (2, PLACE), (u32::MAX, PLACE)] {
        wanted.push(format!("side {side}: {verdict}"));
    }
    for (family, right) in [(4, 4), (6, 16)] {
        for length in 0..=20 {
            let verdict = if length == right { GOOD } else { PLACE };
            wanted.push(format!("address of {length} bytes in IPv{family}: {verdict}"));
        }
    }
    for operation in LIFETIME..=STRETCH {
        let own = own_rules(operation).iter().map(|rule| rule.1);
        let name = OPERATIONS[operation as usize];
        wanted.extend(own.chain([GOOD]).map(|verdict| format!("{name}'s {verdict}, then judge: {GOOD}")));
    }
    wanted
}

fn wanted_captures() -> Vec<String> {
    let mut wanted = vec!["printed: totals".to_string()];
    wanted.extend([MARK, EDITION, RECORD].map(|verdict| format!("printed: stopped {verdict}")));
    let tests = [("mark", MARK), ("edition", EDITION), ("record", RECORD), ("room", ROOM)];
    wanted.extend(pairs(&tests).iter().map(|(a, b)| format!("judge capture: {} before {}", a.0, b.0)));
    wanted.extend(["exact", "more"].map(|room| format!("judge capture: {room} room")));
    wanted.extend([0, 2048].map(|length| format!("record of {length} bytes")));
    wanted.extend((GOOD..=MESSAGE_SUM).map(|verdict| format!("record with verdict {verdict}")));
    wanted
}

fn wanted_sums() -> Vec<String> {
    let mut wanted = Vec::new();
    for verdict in [GOOD, PLACE] {
        for (a, b) in [("even", "even"), ("even", "odd"), ("odd", "even"), ("odd", "odd")] {
            wanted.push(format!("join, {a} before {b}: {verdict}"));
        }
    }
    wanted.extend(["first", "second"].map(|name| format!("join, the {name} of length 0 with a fold: {GOOD}")));
    let good = [
        "empty list",
        "empty at the end",
        "all of it",
        "odd then odd",
        "overlap",
        "repeat",
        "an odd piece a thousand times",
        "an even piece a thousand times",
        "over 65,535 bytes",
    ];
    wanted.extend(good.map(|name| format!("chain: {name}: {GOOD}")));
    let refused = [
        "odd list",
        "odd list, a piece outside",
        "a piece outside",
        "passes 32 bits",
        "empty past the end",
        "good, then outside",
        "the first outside after a thousand",
        "odd list of over two thousand",
    ];
    wanted.extend(refused.map(|name| format!("chain: {name}: {PLACE}")));
    wanted
}
