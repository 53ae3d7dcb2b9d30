// What the cases on UDP lengths must reach: a length from 8 up to the message's is that of the datagram, and what lies
// behind it is a trailing area, which nobody sums or writes.

use super::lifetimes::{part, word_name, PARTS};
use super::*;
use crate::mistakes::{Mistake, MISTAKES};

/// What may be wrong with a packet that has a trailing area.
const BESIDE: [&str; 6] = ["declared", "header sum", "fragment", "zero in IPv6", "zero in IPv4", "message sum"];

/// The longest trailing area that is tried with every datagram and tail.
const LONGEST: usize = 40;

/// Datagrams, and what follows the declared end.
const ENDS: [(&str, &str); 4] = [("even", "a tail"), ("even", "no tail"), ("odd", "a tail"), ("odd", "no tail")];

/// UDP lengths by name, and whether they fit.
pub const LENGTHS: [(&str, bool); 9] = [
    ("0", false),
    ("below 8", false),
    ("7", false),
    ("8", true),
    ("between", true),
    ("the message's", true),
    ("one more", false),
    ("above", false),
    ("FFFF", false),
];

/// Stretches by name, and what is answered where nothing else is wrong.
const STRETCHES: [(&str, Verdict); 11] = [
    ("empty in the datagram", GOOD),
    ("empty at the datagram's end", GOOD),
    ("empty one byte behind the datagram", PLACE),
    ("empty further behind", PLACE),
    ("before the datagram's end", GOOD),
    ("up to the datagram's end", GOOD),
    ("one byte into the trailing area", PLACE),
    ("further into the trailing area", PLACE),
    ("inside the trailing area", PLACE),
    ("up to the declared end", PLACE),
    ("past the declared end", PLACE),
];

impl Cover {
    /// A call on a packet whose UDP header is there, and that nothing stops on the way to it.
    pub fn note_datagram(&mut self, case: &Case, before: &View, after: &View, verdict: Verdict) {
        let there = before.bytes.len() >= before.message_start() + 8 && before.header_length() >= before.least();
        if !there || before.walk.stop().is_some() || ![(4, UDP), (6, UDP)].contains(&before.kind()) {
            return;
        }
        self.note_udp_length(case, before, verdict);
        self.note_empty_body(case, before, verdict);
        if before.trailing_length() > 0 {
            self.note_trailing(case, before, after, verdict);
        }
    }

    /// A UDP length that doesn't fit is 4 for all but the lifetime edit, unless something is wrong before it.
    fn note_udp_length(&mut self, case: &Case, view: &View, verdict: Verdict) {
        let (operation, message) = (OPERATIONS[case.operation as usize], view.message_length());
        if message < 8 {
            let length = view.udp_length();
            self.reach(format!("{operation} of IPv{}, UDP length {length} of {message}: {verdict}", view.family));
        }
        for (name, fits) in LENGTHS.into_iter().filter(|(name, _)| message >= 8 && has_length(view, name)) {
            let (line, word) = (format!("IPv{}, UDP length {name}", view.family), word_name(view, view.field_place()));
            self.reach(format!("{operation} of {line}, field {word}: {verdict}"));
            self.reach(format!("{operation} of {line}, {}: {verdict}", tail_name(view)));
            if let Some(part) = part(view) {
                self.reach(format!("{operation} of a {part} fragment, UDP length {name}: {verdict}"));
            } else if fits || case.operation == LIFETIME || [CUT, HEADER_SUM].contains(&verdict) {
                self.reach(format!("{operation} of {line}: {verdict}"));
            } else {
                self.exact.insert(format!("{operation} of {line}: {verdict}"));
            }
        }
    }

    /// A UDP length of 8: a message of just 8 bytes, or one with a trailing area.
    fn note_empty_body(&mut self, case: &Case, view: &View, verdict: Verdict) {
        if view.udp_length() != 8 {
            return;
        }
        let area = match view.trailing_length() {
            0 => "no trailing area",
            1..=999 => "a trailing area",
            _ => "a long trailing area",
        };
        let what = match case.operation {
            STRETCH => format!("{} bytes at place {}", case.two.len(), case.number),
            operation => OPERATIONS[operation as usize].to_string(),
        };
        self.reach(format!("empty body in IPv{}, {area}, {what}: {verdict}", view.family));
    }

    fn note_trailing(&mut self, case: &Case, before: &View, after: &View, verdict: Verdict) {
        let (operation, family) = (OPERATIONS[case.operation as usize], before.family);
        let name = format!("{operation} of IPv{family}, a trailing area");
        self.exact.insert(format!("{name}: {verdict}"));
        let datagram = before.message_start() + before.covered_length();
        if before.bytes.get(datagram..) != after.bytes.get(datagram..) {
            self.exact.insert(format!("{name}: written"));
        }
        let applying = rules_that_apply(case, before);
        for (a, b) in pairs(&applying).iter().filter(|(a, _)| *a == applying[0]) {
            self.reach(format!("{name}: {} before {}", a.0, b.0));
        }
        if let (LEFT, Some((last, its_verdict))) = (case.source, self.last) {
            self.reach(format!("{name}, after {}'s {its_verdict}: {verdict}", OPERATIONS[last as usize]));
        }
        if verdict == CUT {
            let cut = if before.bytes.len() >= datagram { "behind the datagram" } else { "before its end" };
            self.reach(format!("{name}, cut {cut}"));
            return;
        }
        let field = before.field_place();
        self.reach(format!("{name}, field {} to {}: {verdict}", word_name(before, field), word_name(after, field)));
        self.reach(format!("{}, trailing area of {}: {verdict}", what(case, before), before.trailing_length()));
        if before.word(field) == 0 {
            self.reach(format!("{}, field 0000: {verdict}", what(case, before)));
        }
        if before.covered_length() % 2 == 1 && before.bytes[datagram..].iter().all(|byte| *byte == 0xFF) {
            self.reach(format!("{operation} of IPv{family}, FF behind an odd datagram: {verdict}"));
        }
        match case.operation {
            JUDGE => self.note_judged_trailing(before, verdict),
            MEND if verdict == GOOD => self.note_mended_trailing(before, after),
            STRETCH if [GOOD, PLACE].contains(&verdict) => {
                self.exact.insert(format!("stretch in IPv{family}, {}: {verdict}", stretch_name(case, before)));
            }
            _ => {}
        }
    }

    /// Sums that are right or wrong, where a mistake about the datagram's end would find the opposite.
    fn note_judged_trailing(&mut self, view: &View, verdict: Verdict) {
        if verdict == GOOD {
            self.reach(format!("good: IPv{} of {} bytes, a trailing area", view.family, view.end()));
            self.reach(format!("good: IPv{}, header {}, a trailing area", view.family, view.header_length()));
        }
        if ![GOOD, MESSAGE_SUM].contains(&verdict) {
            return;
        }
        let right = passes(&view.covered_block());
        for mistake in MISTAKES.iter().filter(|mistake| mistake.passes(view) != right) {
            let sum = if right { "a right sum" } else { "a wrong sum" };
            self.exact.insert(format!("judge of IPv{}, {sum} but for {}: {verdict}", view.family, mistake.name));
            self.reach(format!("{}, {sum} but for {}", ends(view), mistake.name));
        }
    }

    /// Fields that a mistake about the datagram's end led to, made right.
    fn note_mended_trailing(&mut self, before: &View, after: &View) {
        let field = |view: &View| Field(view.word(view.field_place()));
        for mistake in MISTAKES.iter().filter(|mistake| mistake.field(before) != fresh_message_field(before)) {
            if field(before) == mistake.field(before) {
                let mended = if field(after) == fresh_message_field(before) { "fresh" } else { "not fresh" };
                self.exact.insert(format!("mend of IPv{}, {}: {mended}", before.family, mistake.name));
            }
        }
    }
}

/// Whether a packet's UDP length has this name. One can have two: in a message of 8 bytes 8 is the message's.
pub fn has_length(view: &View, name: &str) -> bool {
    let (length, message) = (view.udp_length(), view.message_length());
    match name {
        "0" => length == 0,
        "below 8" => (1..7).contains(&length),
        "7" => length == 7,
        "8" => length == 8,
        "between" => (9..message).contains(&length),
        "the message's" => length == message,
        "one more" => length == message + 1,
        "FFFF" => length == 0xFFFF && message < 0xFFFF,
        _ => (message + 2..0xFFFF).contains(&length),
    }
}

/// Whether there is a tail behind the declared end.
pub fn tail_name(view: &View) -> &'static str {
    if view.bytes.len() > view.end() {
        "a tail"
    } else {
        "no tail"
    }
}

/// Whether the datagram is odd, and whether there is a tail behind the declared end.
fn ends(view: &View) -> String {
    format!("IPv{}, {} datagram, {}", view.family, parity(view.covered_length() as u64), tail_name(view))
}

/// What is asked of a packet, and what kind of datagram it has.
fn what(case: &Case, view: &View) -> String {
    match case.operation {
        STRETCH => format!("stretch {}: {}", stretch_name(case, view), ends(view)),
        operation => format!("{}: {}", OPERATIONS[operation as usize], ends(view)),
    }
}

fn stretch_name(case: &Case, view: &View) -> &'static str {
    let (body, trailing) = (view.body_length() as u128, view.trailing_length() as u128);
    let start = u128::from(case.number);
    let end = start + case.two.len() as u128;
    match (case.two.is_empty(), end) {
        (true, end) if end < body => "empty in the datagram",
        (true, end) if end == body => "empty at the datagram's end",
        (true, end) if end == body + 1 => "empty one byte behind the datagram",
        (true, _) => "empty further behind",
        (_, end) if end < body => "before the datagram's end",
        (_, end) if end == body => "up to the datagram's end",
        (_, end) if end > body + trailing => "past the declared end",
        (_, end) if end == body + trailing && trailing > 1 => "up to the declared end",
        _ if start >= body => "inside the trailing area",
        (_, end) if end == body + 1 => "one byte into the trailing area",
        _ => "further into the trailing area",
    }
}

/// What an operation can refuse in a packet of a family with a trailing area.
fn refusals(operation: u8, family: u8) -> Vec<Named> {
    let first = looked_at(operation).filter(|rule| BESIDE.contains(&rule.name)).map(|rule| (rule.name, rule.number));
    let own = own_rules(operation).iter().copied().filter(|rule| rule.0 != "blank");
    first.chain(own).filter(|rule| in_family(rule.0, family)).collect()
}

pub fn wanted_exactly() -> Vec<String> {
    let mut wanted = Vec::new();
    for (family, operation) in [4, 6].into_iter().flat_map(|family| calls_of(family).map(move |op| (family, op))) {
        let name = OPERATIONS[operation as usize];
        let numbers = refusals(operation, family).into_iter().map(|rule| rule.1).chain([GOOD]);
        wanted.extend(numbers.map(|number| format!("{name} of IPv{family}, a trailing area: {number}")));
        if operation != LIFETIME {
            let wrong = LENGTHS.into_iter().filter(|(_, fits)| !fits);
            wanted.extend(wrong.map(|(length, _)| format!("{name} of IPv{family}, UDP length {length}: {SHAPE}")));
        }
    }
    for family in [4, 6] {
        wanted.extend(STRETCHES.map(|(name, verdict)| format!("stretch in IPv{family}, {name}: {verdict}")));
        for Mistake { name, .. } in MISTAKES {
            wanted.push(format!("judge of IPv{family}, a right sum but for {name}: {GOOD}"));
            wanted.push(format!("judge of IPv{family}, a wrong sum but for {name}: {MESSAGE_SUM}"));
            wanted.push(format!("mend of IPv{family}, {name}: fresh"));
        }
    }
    wanted
}

pub fn wanted() -> Vec<String> {
    let mut wanted = wanted_lengths();
    for family in [4, 6] {
        wanted.extend(wanted_sums(family));
        wanted.extend(wanted_fields(family));
        wanted.extend(wanted_sequences(family));
        for operation in calls_of(family) {
            let name = format!("{} of IPv{family}, a trailing area", OPERATIONS[operation as usize]);
            wanted.push(format!("{name}, cut behind the datagram"));
            let pairs = pairs(&refusals(operation, family));
            wanted.extend(pairs.into_iter().map(|(a, b)| format!("{name}: {} before {}", a.0, b.0)));
        }
    }
    wanted.extend((5..16).map(|words| format!("good: IPv4, header {}, a trailing area", 4 * words)));
    let longest = [(4, 65_535), (6, 65_575)];
    wanted.extend(longest.map(|(family, bytes)| format!("good: IPv{family} of {bytes} bytes, a trailing area")));
    let verdicts = [GOOD, UNSUMMED, MISSING, MESSAGE_SUM];
    wanted.extend(verdicts.map(|verdict| format!("record with a trailing area: {verdict}")));
    wanted
}

/// Trailing areas of each length behind even and odd datagrams, with a tail and without; UDP lengths that fit, and all of
/// them in fragments and where the lifetime is lowered; and empty bodies.
fn wanted_lengths() -> Vec<String> {
    let mut wanted = Vec::new();
    let calls = [
        ("judge", GOOD),
        ("mend", GOOD),
        ("stretch up to the datagram's end", GOOD),
        ("stretch one byte into the trailing area", PLACE),
    ];
    for (family, (datagram, tail)) in [4, 6].into_iter().flat_map(|family| ENDS.map(|ends| (family, ends))) {
        for (call, verdict) in calls {
            let name = format!("{call}: IPv{family}, {datagram} datagram, {tail}, trailing area of");
            wanted.extend((1..=LONGEST).map(|length| format!("{name} {length}: {verdict}")));
        }
    }
    for (length, fits) in LENGTHS {
        for operation in JUDGE..=STRETCH {
            let name = OPERATIONS[operation as usize];
            let verdict = if operation == LIFETIME { GOOD } else { FRAGMENT };
            wanted.extend(PARTS.map(|part| format!("{name} of a {part} fragment, UDP length {length}: {verdict}")));
            if fits || operation == LIFETIME {
                wanted.extend([4, 6].map(|family| format!("{name} of IPv{family}, UDP length {length}: {GOOD}")));
            }
        }
    }
    wanted.extend(wanted_shape_faults());
    let calls = [("judge", GOOD), ("mend", GOOD), ("set address", GOOD), ("lower lifetime", GOOD)];
    let stretches = [("0 bytes at place 0", GOOD), ("1 bytes at place 0", PLACE), ("0 bytes at place 1", PLACE)];
    for (call, verdict) in calls.into_iter().chain(stretches) {
        for area in ["no trailing area", "a trailing area", "a long trailing area"] {
            wanted.extend([4, 6].map(|family| format!("empty body in IPv{family}, {area}, {call}: {verdict}")));
        }
    }
    wanted
}

/// Messages under 8 bytes, whatever their UDP length; a length that doesn't fit before a field that is 0000; and one past
/// the declared end, with the bytes there or not.
fn wanted_shape_faults() -> Vec<String> {
    let mut wanted = Vec::new();
    let names = ["judge", "mend", "set stretch"];
    for (family, name) in [4, 6].into_iter().flat_map(|family| names.map(|name| (family, name))) {
        for message in [0, 1, 4, 5, 6, 7] {
            let line = |length| format!("{name} of IPv{family}, UDP length {length} of {message}: {SHAPE}");
            wanted.extend([message, 8].map(line));
        }
        let wrong = ["0", "7", "one more", "FFFF"];
        wanted.extend(wrong.map(|length| format!("{name} of IPv{family}, UDP length {length}, field 0000: {SHAPE}")));
        let past = ["a tail", "no tail"];
        wanted.extend(past.map(|tail| format!("{name} of IPv{family}, UDP length one more, {tail}: {SHAPE}")));
    }
    wanted
}

/// Each mistake behind even and odd datagrams, with a tail and without. Only an odd datagram is padded.
fn wanted_sums(family: u8) -> Vec<String> {
    let mut wanted = Vec::new();
    for ((datagram, tail), Mistake { name, .. }) in ENDS.into_iter().flat_map(|ends| MISTAKES.map(|m| (ends, m))) {
        if datagram == "odd" || name != "the first trailing byte as padding" {
            let sums = ["a right sum", "a wrong sum"];
            wanted.extend(sums.map(|sum| format!("IPv{family}, {datagram} datagram, {tail}, {sum} but for {name}")));
        }
    }
    let behind =
        [("judge", GOOD), ("judge", MESSAGE_SUM), ("mend", GOOD), ("set stretch", GOOD), ("set stretch", PLACE)];
    wanted.extend(behind.map(|(name, verdict)| format!("{name} of IPv{family}, FF behind an odd datagram: {verdict}")));
    wanted
}

/// A field of 0000 is kept, or missing in IPv6 and filled in by the mender. One at FFFF is like any other.
fn wanted_fields(family: u8) -> Vec<String> {
    let (zero, edited, mended) =
        if family == 4 { (UNSUMMED, GOOD, "0000") } else { (MISSING, MISSING, "another word") };
    let mut lines = vec![
        (JUDGE, "0000", "0000", zero),
        (JUDGE, "FFFF", "FFFF", GOOD),
        (JUDGE, "FFFF", "FFFF", MESSAGE_SUM),
        (MEND, "0000", mended, GOOD),
        (MEND, "another word", "FFFF", GOOD),
        (MEND, "FFFF", "another word", GOOD),
        (LIFETIME, "0000", "0000", GOOD),
        (LIFETIME, "FFFF", "FFFF", GOOD),
    ];
    for operation in [ADDRESS, STRETCH] {
        lines.push((operation, "0000", "0000", edited));
        lines.push((operation, "another word", "FFFF", GOOD));
        lines.push((operation, "FFFF", "another word", GOOD));
        lines.push((operation, "FFFF", "FFFF", GOOD));
    }
    let line = |(operation, from, to, verdict): (u8, &str, &str, Verdict)| {
        format!("{} of IPv{family}, a trailing area, field {from} to {to}: {verdict}", OPERATIONS[operation as usize])
    };
    let mut wanted: Vec<String> = lines.into_iter().map(line).collect();
    let calls = [("judge", zero), ("mend", GOOD), ("lower lifetime", GOOD), ("set address", edited)];
    let refused = if family == 4 { PLACE } else { MISSING };
    let stretches = [("stretch up to the datagram's end", edited), ("stretch inside the trailing area", refused)];
    for (call, verdict) in calls.into_iter().chain(stretches) {
        let line =
            |(datagram, tail)| format!("{call}: IPv{family}, {datagram} datagram, {tail}, field 0000: {verdict}");
        wanted.extend(ENDS.map(line));
    }
    wanted
}

/// Every two edits, one of them refused or none, the mender before and behind them, and the judge's verdict at the end.
fn wanted_sequences(family: u8) -> Vec<String> {
    let calls = [(MEND, GOOD), (LIFETIME, GOOD), (ADDRESS, GOOD), (ADDRESS, PLACE), (STRETCH, GOOD), (STRETCH, PLACE)];
    let line = |(first, its_verdict): (u8, Verdict), (then, verdict): (u8, Verdict)| {
        let [first, then] = [first, then].map(|operation| OPERATIONS[operation as usize]);
        format!("{then} of IPv{family}, a trailing area, after {first}'s {its_verdict}: {verdict}")
    };
    let mut wanted: Vec<String> = calls.into_iter().flat_map(|first| calls.map(|then| line(first, then))).collect();
    for verdict in [GOOD, MESSAGE_SUM].into_iter().chain((family == 4).then_some(UNSUMMED)) {
        wanted.extend(calls[1..].iter().map(|first| line(*first, (JUDGE, verdict))));
    }
    wanted.push(line((MEND, GOOD), (JUDGE, GOOD)));
    wanted
}
