// What the cases of fragments must reach: every refusal, each two that can meet, in both orders of the list, lists at
// their limits, messages in every order, what may differ between fragments, and verdicts that tell each mistake from the
// right one.

use super::*;
use crate::fragments::{end, message_rules, rules, start, Bundle, Record, LONGEST, MOST, TESTS};
use crate::mistakes::fragments::FRAGMENT_MISTAKES;

const NAME: &str = OPERATIONS[FRAGMENTS as usize];

/// IPv4's protocols in the table.
const PROTOCOLS: [u8; 3] = [ICMP, TCP, UDP];

/// What is refused of the list.
const OF_LIST: [Named; 3] = [("empty list", CUT), ("more than 64", PLACE), ("outside", PLACE)];

/// A refusal that applies, and the places in the list of the records that it is for; none if it is for the message.
struct Refusal {
    rule: Named,
    at: Vec<usize>,
}

/// Every refusal that applies by itself, in order. Fragments are looked at together without those that are refused by
/// themselves.
fn refusals(buffer: &[u8], list: &[Record]) -> Vec<Refusal> {
    let packets: Vec<Option<&[u8]>> = list.iter().map(|record| record.within(buffer)).collect();
    let outside = (0..list.len()).filter(|i| packets[*i].is_none()).collect();
    let mut found = Vec::new();
    for (rule, applies, at) in [
        (OF_LIST[0], list.is_empty(), vec![]),
        (OF_LIST[1], list.len() > MOST, (MOST..list.len()).collect()),
        (OF_LIST[2], packets.contains(&None), outside),
    ] {
        found.extend(applies.then_some(Refusal { rule, at }));
    }
    let mut sound = Vec::new();
    for (i, packet) in packets.iter().enumerate().filter_map(|(i, packet)| packet.map(|packet| (i, packet))) {
        let view = View::read_as(packet, 4);
        let before = found.len();
        let applying = rules().filter(|rule| (rule.applies)(&view));
        found.extend(applying.map(|rule| Refusal { rule: (rule.name, rule.number), at: vec![i] }));
        if found.len() == before {
            sound.push(i);
        }
    }
    if !sound.is_empty() {
        let all = Bundle::new(sound.iter().filter_map(|i| packets[*i]));
        for test in &TESTS {
            let at: Vec<usize> = (test.at_fault)(&all).into_iter().map(|part| sound[part]).collect();
            found.extend((!at.is_empty()).then_some(Refusal { rule: (test.name, test.number), at }));
        }
        let whole = all.whole();
        let applying = message_rules().filter(|rule| (rule.applies)(&View::new(&whole)));
        found.extend(applying.map(|rule| Refusal { rule: (rule.name, rule.number), at: vec![] }));
    }
    found
}

/// Where the records of a later rule stand from those of the rule that decides.
fn places(first: &Refusal, other: &Refusal) -> BTreeSet<&'static str> {
    if first.at.is_empty() || other.at.is_empty() {
        return BTreeSet::from(["anywhere"]);
    }
    let all = first.at.iter().flat_map(|i| other.at.iter().map(move |j| i.cmp(j)));
    all.map(|order| match order {
        std::cmp::Ordering::Less => LATER,
        std::cmp::Ordering::Equal => SAME,
        std::cmp::Ordering::Greater => EARLIER,
    })
    .collect()
}

const LATER: &str = "in a later record";
const SAME: &str = "in the same record";
const EARLIER: &str = "in an earlier record";

impl Cover {
    pub fn note_fragments(&mut self, case: &Case, buffer: &[u8], verdict: Verdict) {
        let list = case.list();
        let found = refusals(buffer, &list);
        let first = found.first().map_or(("nothing", GOOD), |refusal| refusal.rule);
        self.exact.insert(format!("{NAME}: {verdict}"));
        self.exact.insert(format!("{NAME}, {} refused: {verdict}", first.0));
        for other in found.iter().skip(1).filter(|other| other.rule.1 != first.1) {
            for place in places(&found[0], other) {
                self.reach(format!("{NAME}: {} before {} {place}", first.0, other.rule.0));
            }
        }
        if found.len() == 1 {
            self.note_only(&found[0], list.len());
        }
        for mistake in FRAGMENT_MISTAKES.iter().filter(|m| (m.verdict)(buffer, &list, verdict) != verdict) {
            self.reach(format!("{NAME}, told from {}", mistake.name));
        }
        self.reach(format!("{NAME} of {} records: {verdict}", list.len()));
        self.note_records(buffer, &list, verdict);
        self.note_single(buffer, &list, verdict);
        let of_list =
            |refusal: &Refusal| rules().any(|rule| rule.name == refusal.rule.0) || OF_LIST.contains(&refusal.rule);
        if !found.iter().any(of_list) {
            let all = Bundle::new(list.iter().filter_map(|record| record.within(buffer)));
            self.note_together(&all, verdict);
            let tests = |refusal: &Refusal| TESTS.iter().any(|test| test.name == refusal.rule.0);
            if !found.iter().any(tests) {
                self.note_filled(&all, verdict);
                self.note_carried(&all, verdict);
            }
        }
    }

    /// A refusal that is the only one, and where in the list it is for a record alone.
    fn note_only(&mut self, only: &Refusal, count: usize) {
        self.reach(format!("{NAME}, {} alone", only.rule.0));
        if let [at] = only.at[..] {
            let place = match at {
                0 => "first",
                _ if at + 1 == count => "last",
                _ => "middle",
            };
            self.reach(format!("{NAME}, {} alone in the {place} record", only.rule.0));
        }
    }

    /// The numbers that the records have, and what lies where.
    fn note_records(&mut self, buffer: &[u8], list: &[Record], verdict: Verdict) {
        let size = buffer.len() as u128;
        for record in list {
            let (offset, length) = (u128::from(record.offset), u128::from(record.length));
            let found = [
                ("empty at the end", offset == size && length == 0),
                ("empty before the end", offset < size && length == 0),
                ("empty past the end", offset == size + 1 && length == 0),
                ("up to the end", offset + length == size && length > 0),
                ("one past the end", offset + length == size + 1 && length > 0),
                ("2^64", offset + length == 1 << 64),
                (
                    "past 2^64, and within if it wraps",
                    offset + length > 1 << 64 && (offset + length - (1 << 64)) <= size,
                ),
            ];
            for (name, _) in found.iter().filter(|(_, holds)| *holds) {
                self.reach(format!("{NAME}, a record {name}: {verdict}"));
            }
            match record.within(buffer) {
                Some([byte]) => self.reach(format!("{NAME}, a byte of version {} alone: {verdict}", byte >> 4)),
                Some(packet) if !packet.is_empty() => {
                    self.reach(format!("{NAME}, a record of version {}: {verdict}", packet[0] >> 4));
                }
                _ => {}
            }
        }
        let overlap = |a: &Record, b: &Record| {
            a.offset < b.offset && u128::from(b.offset) < u128::from(a.offset) + u128::from(a.length)
        };
        let shared = list.iter().any(|a| list.iter().any(|b| overlap(a, b)));
        let twice = (1..list.len()).any(|i| list[..i].contains(&list[i]));
        for (name, _) in [("shared bytes", shared), ("the same record twice", twice)].iter().filter(|(_, holds)| *holds)
        {
            self.reach(format!("{NAME}, {name}: {verdict}"));
        }
    }

    /// The only record is the whole buffer: the judge says the same, unless it is for IPv6, for a fragment, or for an
    /// empty message.
    fn note_single(&mut self, buffer: &[u8], list: &[Record], verdict: Verdict) {
        if *list != [Record { offset: 0, length: buffer.len() as u64 }] {
            return;
        }
        let (view, judged) = (View::read_as(buffer, 4), judge(buffer));
        if judged == FRAGMENT
            || View::new(buffer).version() == 6
            || (judged > HEADER_SUM || judged == SHAPE) && view.message_length() == 0
        {
            self.reach(format!("{NAME}, a single record: {verdict} where the judge says {judged}"));
        } else {
            self.exact.insert(format!("{NAME}, a single record: {verdict} as the judge, {}", verdict == judged));
        }
    }

    /// What stands in fragments that passed by themselves.
    fn note_together(&mut self, all: &Bundle, verdict: Verdict) {
        for part in &all.parts {
            if part.fragment_offset() == 0x1FFF {
                self.exact.insert(format!("{NAME}, offset 8191: {verdict}"));
            }
            if (LONGEST - 1..=LONGEST + 1).contains(&end(part)) {
                self.reach(format!("{NAME}, a fragment to {}: {verdict}", end(part)));
            }
        }
        if all.parts.iter().any(|part| !all.ends(part) && part.message_length() % 8 != 0) {
            self.reach(format!("{NAME}, a length that is no multiple of 8: {verdict}"));
        }
        let last = all.parts.iter().filter(|part| !part.more_fragments()).count();
        self.reach(format!("{NAME}, {} without more to come: {verdict}", last.min(3)));
    }

    /// How fragments fill a message, and what may differ between them.
    fn note_filled(&mut self, all: &Bundle, verdict: Verdict) {
        let (kind, count) = (kind_name((4, all.parts[0].protocol())), all.parts.len());
        let starts: Vec<usize> = all.parts.iter().map(start).collect();
        let mut sorted = starts.clone();
        sorted.sort_unstable();
        if count == 3 {
            let order: Vec<Option<usize>> = starts.iter().map(|place| sorted.iter().position(|s| s == place)).collect();
            self.reach(format!(
                "{NAME}, {kind} in order {:?}: {verdict}",
                order.into_iter().flatten().collect::<Vec<_>>()
            ));
        }
        if count > 3 {
            let backwards = starts.iter().rev().eq(&sorted);
            let order = if starts == sorted {
                "order"
            } else if backwards {
                "reverse"
            } else {
                "another order"
            };
            self.reach(format!("{NAME}, {kind} in {order}: {verdict}"));
        }
        self.reach(format!("{NAME}, {kind} in {count}: {verdict}"));
        let sets = |value: fn(&View) -> usize| all.parts.iter().map(value).collect::<BTreeSet<_>>();
        for (name, values) in [
            ("headers", sets(|part| part.header_length())),
            ("service bytes", sets(|part| part.byte(1).into())),
            ("lifetimes", sets(|part| part.byte(8).into())),
            ("don't-fragment", sets(|part| (part.word(6) & 0x4000).into())),
            ("reserved flags", sets(|part| (part.word(6) & 0x8000).into())),
        ] {
            if values.len() > 1 {
                self.reach(format!("{NAME}, other {name}: {verdict}"));
            }
        }
        for part in &all.parts {
            self.reach(format!("{NAME}, header {}: {verdict}", part.header_length()));
            let place = match (start(part) == 0, all.ends(part)) {
                (true, true) => "only",
                (true, false) => "first",
                (false, true) => "last",
                _ => "middle",
            };
            if part.bytes.len() > part.end() {
                self.reach(format!("{NAME}, a tail behind the {place} fragment: {verdict}"));
            }
            if place == "last" {
                self.reach(format!(
                    "{NAME}, {kind}, last fragment {} more than units: {verdict}",
                    part.message_length() % 8
                ));
            }
        }
    }

    /// The message that fragments carry, and where its parts lie in them.
    fn note_carried(&mut self, all: &Bundle, verdict: Verdict) {
        let whole = all.whole();
        let (view, protocol) = (View::new(&whole), all.parts[0].protocol());
        let (kind, length) = (kind_name((4, protocol)), view.message_length());
        let holds = |place: usize| all.parts.iter().find(|part| (start(part)..end(part)).contains(&place));
        let nth = |place: usize| {
            let at = holds(place).map_or(0, start);
            1 + all.parts.iter().filter(|part| start(part) < at).count()
        };
        if [LONGEST - 1, LONGEST].contains(&length) {
            self.reach(format!("{NAME}, {kind} of {length} bytes in {}: {verdict}", all.parts.len()));
        }
        self.reach(format!("{NAME}, {kind} of {} length: {verdict}", parity(length as u64)));
        let row = TABLE.iter().find(|row| row.protocol == protocol && length >= row.fixed);
        if let (Some(row), true) = (row, all.parts.len() > 1) {
            let field = view.word(20 + row.field);
            self.reach(format!(
                "{NAME}, {kind}, field {}: {verdict}",
                super::lifetimes::word_name(&view, 20 + row.field)
            ));
            self.reach(format!("{NAME}, {kind}, field in fragment {}: {verdict}", nth(row.field)));
            if view.message().iter().map(|byte| u32::from(*byte)).sum::<u32>()
                == [field >> 8, field & 255].map(u32::from).iter().sum()
            {
                self.reach(format!("{NAME}, {kind} of zeros, field {field:04X}: {verdict}"));
            }
            if protocol == TCP {
                self.reach(format!(
                    "{NAME}, data offset {} in fragment {}: {verdict}",
                    view.data_offset(),
                    nth(12).min(2)
                ));
            }
        }
        if protocol == UDP && length >= 8 {
            let datagram = view.udp_length();
            let fits = match datagram {
                0..=7 => "below 8",
                8.. if datagram < length => "within",
                _ if datagram == length => "to the end",
                _ if datagram == length + 1 => "one past",
                _ => "past",
            };
            self.reach(format!("{NAME}, datagram {fits}: {verdict}"));
            if let Some(part) = holds(view.covered_length() - 1).filter(|_| view.trailing_length() > 0) {
                let where_it_is = if all.ends(part) { "the last" } else { "an earlier one" };
                let border = if end(part) == datagram { "at the end of" } else { "within" };
                let odd = parity(datagram as u64);
                self.reach(format!("{NAME}, {odd} datagram to {border} {where_it_is}: {verdict}"));
            }
        }
    }
}

/// The refusals of fragments by themselves, of those together, and of the message.
fn by_themselves() -> Vec<Named> {
    rules().map(|rule| (rule.name, rule.number)).collect()
}

fn together(number: Verdict) -> Vec<Named> {
    TESTS.iter().filter(|test| test.number == number).map(|test| (test.name, test.number)).collect()
}

fn of_message() -> Vec<Named> {
    message_rules().map(|rule| (rule.name, rule.number)).collect()
}

pub fn wanted_exactly() -> Vec<String> {
    let all = [OF_LIST.to_vec(), by_themselves(), together(SHAPE), together(FRAGMENT), of_message()].concat();
    let mut wanted = Vec::new();
    // a length that is no multiple of 8 leaves a gap or an overlap, which are looked for before it
    for (rule, number) in all.into_iter().chain([("nothing", GOOD)]).filter(|rule| rule.0 != "no multiple of 8") {
        wanted.push(format!("{NAME}, {rule} refused: {number}"));
        wanted.push(format!("{NAME}: {number}"));
    }
    wanted.push(format!("{NAME}, offset 8191: {SHAPE}"));
    let judged = [GOOD, UNSUMMED, CUT, VERSION, SHAPE, HEADER_SUM, UNCOVERED, MESSAGE_SUM];
    wanted.extend(judged.map(|v| format!("{NAME}, a single record: {v} as the judge, true")));
    wanted
}

pub fn wanted() -> Vec<String> {
    let mut wanted = wanted_meetings();
    wanted.extend(wanted_alone());
    wanted.extend(wanted_records());
    wanted.extend(wanted_filled());
    wanted.extend(wanted_carried());
    wanted.extend(FRAGMENT_MISTAKES.iter().map(|mistake| format!("{NAME}, told from {}", mistake.name)));
    wanted
}

/// Every two refusals that can meet, with the records in both orders.
fn wanted_meetings() -> Vec<String> {
    let mut wanted = Vec::new();
    let mut meet = |a: &Named, b: &Named, places: &[&str]| {
        if a.1 != b.1 {
            wanted.extend(places.iter().map(|place| format!("{NAME}: {} before {} {place}", a.0, b.0)));
        }
    };
    let (alone, misfits, unfilled, message) = (by_themselves(), together(SHAPE), together(FRAGMENT), of_message());
    for b in [&alone[..], &misfits, &unfilled].concat() {
        meet(&OF_LIST[1], &b, &[EARLIER, SAME]);
        meet(&OF_LIST[2], &b, &[EARLIER, LATER]);
    }
    for (i, a) in alone.iter().enumerate() {
        alone.iter().for_each(|b| meet(a, b, &[LATER]));
        alone[i + 1..].iter().filter(|b| can_meet(a.0, b.0)).for_each(|b| meet(a, b, &[SAME]));
        [&misfits[..], &unfilled].concat().iter().for_each(|b| meet(a, b, &[EARLIER, LATER]));
    }
    for (a, b) in misfits.iter().flat_map(|a| unfilled.iter().map(move |b| (a, b))) {
        meet(a, b, &[EARLIER, LATER]);
    }
    let before = [&OF_LIST[1..], &alone, &misfits, &unfilled].concat();
    for (a, b) in
        before.iter().flat_map(|a| message.iter().map(move |b| (a, b))).filter(|(a, _)| a.0 != "no multiple of 8")
    {
        meet(a, b, &["anywhere"]);
    }
    for (a, b) in pairs(&message).iter().filter(|(a, b)| can_meet(a.0, b.0)) {
        meet(a, b, &["anywhere"]);
    }
    wanted
}

/// Each refusal alone; of a fragment by itself in each place of the list.
fn wanted_alone() -> Vec<String> {
    let all = [&OF_LIST[..], &by_themselves(), &together(SHAPE), &together(FRAGMENT), &of_message()].concat();
    // past 65,515 there is a gap, unless the message is as long; a length that is no multiple of 8 leaves another fault
    let mut wanted: Vec<String> = all
        .iter()
        .filter(|rule| rule.0 != "no multiple of 8" && rule.0 != "no bytes" && rule.0 != "under 20 or 40")
        .map(|rule| format!("{NAME}, {} alone", rule.0))
        .collect();
    wanted.sort();
    wanted
}

fn wanted_records() -> Vec<String> {
    let mut wanted = Vec::new();
    for (name, verdict) in [
        ("empty at the end", CUT),
        ("empty before the end", CUT),
        ("empty past the end", PLACE),
        ("up to the end", GOOD),
        ("one past the end", PLACE),
        ("2^64", PLACE),
        ("past 2^64, and within if it wraps", PLACE),
    ] {
        wanted.push(format!("{NAME}, a record {name}: {verdict}"));
    }
    let counts = [
        (0, CUT),
        (1, GOOD),
        (2, GOOD),
        (3, GOOD),
        (63, GOOD),
        (64, GOOD),
        (64, MESSAGE_SUM),
        (65, PLACE),
        (66, PLACE),
    ];
    wanted.extend(counts.map(|(count, verdict)| format!("{NAME} of {count} records: {verdict}")));
    for version in (0..16).filter(|version| *version != 4) {
        wanted.push(format!("{NAME}, a byte of version {version} alone: {VERSION}"));
        wanted.push(format!("{NAME}, a record of version {version}: {VERSION}"));
    }
    wanted.push(format!("{NAME}, a byte of version 4 alone: {CUT}"));
    wanted.extend([GOOD, FRAGMENT, MESSAGE_SUM].map(|verdict| format!("{NAME}, shared bytes: {verdict}")));
    wanted.push(format!("{NAME}, the same record twice: {FRAGMENT}"));
    let single = [(VERSION, GOOD), (FRAGMENT, FRAGMENT), (SHAPE, FRAGMENT), (SHAPE, SHAPE), (SHAPE, UNCOVERED)];
    wanted.extend(single.map(|(v, judged)| format!("{NAME}, a single record: {v} where the judge says {judged}")));
    wanted
}

fn wanted_filled() -> Vec<String> {
    let mut wanted = Vec::new();
    let ends = [(LONGEST - 1, GOOD), (LONGEST, GOOD), (LONGEST + 1, SHAPE)];
    wanted.extend(ends.map(|(end, verdict)| format!("{NAME}, a fragment to {end}: {verdict}")));
    wanted.extend([SHAPE, FRAGMENT].map(|verdict| format!("{NAME}, a length that is no multiple of 8: {verdict}")));
    let last = [(0, FRAGMENT), (1, GOOD), (1, FRAGMENT), (2, FRAGMENT), (3, FRAGMENT)];
    wanted.extend(last.map(|(last, verdict)| format!("{NAME}, {last} without more to come: {verdict}")));
    for (kind, verdict) in
        PROTOCOLS.into_iter().flat_map(|p| [(kind_name((4, p)), GOOD), (kind_name((4, p)), MESSAGE_SUM)])
    {
        for order in [[0, 1, 2], [0, 2, 1], [1, 0, 2], [1, 2, 0], [2, 0, 1], [2, 1, 0]] {
            wanted.push(format!("{NAME}, {kind} in order {order:?}: {verdict}"));
        }
        wanted
            .extend(["order", "reverse", "another order"].map(|order| format!("{NAME}, {kind} in {order}: {verdict}")));
        wanted.extend([1, 2, 3, 4, 64].map(|count| format!("{NAME}, {kind} in {count}: {verdict}")));
        wanted.extend((0..8).map(|more| format!("{NAME}, {kind}, last fragment {more} more than units: {GOOD}")));
    }
    for verdict in [GOOD, MESSAGE_SUM] {
        let may = ["headers", "service bytes", "lifetimes", "don't-fragment", "reserved flags"];
        wanted.extend(may.map(|name| format!("{NAME}, other {name}: {verdict}")));
        let parts = ["only", "first", "middle", "last"];
        wanted.extend(parts.map(|part| format!("{NAME}, a tail behind the {part} fragment: {verdict}")));
    }
    wanted.extend((5..16).map(|words| format!("{NAME}, header {}: {GOOD}", 4 * words)));
    wanted
}

fn wanted_carried() -> Vec<String> {
    let mut wanted = Vec::new();
    for (protocol, field_in) in [(ICMP, 1), (TCP, 3), (UDP, 1)] {
        let kind = kind_name((4, protocol));
        for verdict in [GOOD, MESSAGE_SUM] {
            wanted.extend(["even", "odd"].map(|odd| format!("{NAME}, {kind} of {odd} length: {verdict}")));
            wanted.push(format!("{NAME}, {kind}, field in fragment {field_in}: {verdict}"));
            let fields =
                if protocol == UDP { &["FFFF", "another word"][..] } else { &["0000", "FFFF", "another word"] };
            wanted.extend(fields.iter().map(|field| format!("{NAME}, {kind}, field {field}: {verdict}")));
        }
    }
    wanted.extend([TCP, UDP].map(|p| format!("{NAME}, {}, field in fragment 1: {GOOD}", kind_name((4, p)))));
    wanted.push(format!("{NAME}, UDP in IPv4, field 0000: {UNSUMMED}"));
    wanted.push(format!("{NAME}, ICMP in IPv4 of zeros, field 0000: {MESSAGE_SUM}"));
    wanted.push(format!("{NAME}, ICMP in IPv4 of zeros, field FFFF: {GOOD}"));
    for (protocol, length, count, verdict) in [
        (ICMP, LONGEST, MOST, GOOD),
        (TCP, LONGEST - 1, MOST, GOOD),
        (UDP, LONGEST, MOST, GOOD),
        (UDP, LONGEST, MOST, MESSAGE_SUM),
        (TCP, LONGEST, 1, GOOD),
        (UDP, LONGEST, 1, GOOD),
    ] {
        let kind = kind_name((4, protocol));
        wanted.push(format!("{NAME}, {kind} of {length} bytes in {count}: {verdict}"));
    }
    for nth in [1, 2] {
        wanted.extend((5..16).map(|offset| format!("{NAME}, data offset {offset} in fragment {nth}: {GOOD}")));
        wanted.extend(
            (0..16)
                .filter(|o| *o != 5)
                .map(|offset| format!("{NAME}, data offset {offset} in fragment {nth}: {SHAPE}")),
        );
    }
    let fits = [("below 8", SHAPE), ("within", GOOD), ("to the end", GOOD), ("one past", SHAPE), ("past", SHAPE)];
    wanted.extend(fits.map(|(fits, verdict)| format!("{NAME}, datagram {fits}: {verdict}")));
    for (odd, border, verdict) in [
        ("even", "at the end of", GOOD),
        ("even", "within", GOOD),
        ("odd", "within", GOOD),
        ("even", "at the end of", MESSAGE_SUM),
        ("even", "within", MESSAGE_SUM),
        ("odd", "within", MESSAGE_SUM),
    ] {
        wanted.push(format!("{NAME}, {odd} datagram to {border} an earlier one: {verdict}"));
        if border == "within" {
            wanted.push(format!("{NAME}, {odd} datagram to {border} the last: {verdict}"));
        }
    }
    wanted
}
