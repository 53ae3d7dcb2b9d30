// What the cases of the lifetime edit must reach. It looks at the IP header and the declared length alone, so it takes
// fragments, protocols that aren't covered, and messages of any shape, which the other edits refuse.

use super::*;
use crate::draft::UNCOVERED_KINDS;

/// The lifetimes that are tried in every kind of packet.
const LIFETIMES: [&str; 4] = ["0", "1", "2", "255"];

/// What the other edits refuse and this one doesn't look at.
const PASSED_OVER: [Named; 10] = [
    ("fragment", FRAGMENT),
    ("fragment header", FRAGMENT),
    ("late hop-by-hop", UNCOVERED),
    ("ninth header", UNCOVERED),
    ("past the payload", SHAPE),
    ("segments left", UNCOVERED),
    ("protocol", UNCOVERED),
    ("message length", SHAPE),
    ("TCP or UDP length", SHAPE),
    ("zero in IPv6", MISSING),
];

/// Fragments by their flag and offset.
pub const PARTS: [&str; 3] = ["first", "middle", "last"];

impl Cover {
    /// A lifetime edit: why the others would refuse the packet first, what is answered, what changes, and what the
    /// packet is.
    pub fn note_lifetime(&mut self, case: &Case, before: &View, after: &View, verdict: Verdict) {
        if before.family != 4 && before.family != 6 {
            return;
        }
        let (name, lifetime) = (family_name(before.bytes), lifetime_name(before));
        let others: Vec<Named> =
            looked_at(ADDRESS).filter(|rule| (rule.applies)(before)).map(|rule| (rule.name, rule.number)).collect();
        let first = others.first().map_or("nothing", |rule| rule.0);
        let what = format!("{name}, {first} refused elsewhere, lifetime {lifetime}");
        self.exact.insert(format!("lower lifetime of {what}: {verdict}"));
        for what in descriptions(before) {
            self.reach(format!("lower lifetime, {what}, lifetime {lifetime}: {verdict}"));
        }
        if verdict != GOOD {
            return;
        }
        for (a, b) in pairs(&others) {
            self.reach(format!("lower lifetime of {name} over {} and {}", a.0, b.0));
        }
        self.exact.insert(format!("lower lifetime of {name} changes {}", changes(before, after)));
        self.note_fields(case, after, true, false);
        self.note_updated(case, before, after);
        if part(before).is_some() && passes(before.header()) {
            self.reach(format!("a fragment's header field: {} to {}", word_name(before, 10), word_name(after, 10)));
        }
    }
}

/// The word at a place, if it is a corner.
pub fn word_name(view: &View, place: usize) -> &'static str {
    match view.word(place) {
        0x0000 => "0000",
        0xFFFF => "FFFF",
        _ => "another word",
    }
}

fn lifetime_name(view: &View) -> &'static str {
    match view.byte(view.lifetime_place()) {
        0 => "0",
        1 => "1",
        2 => "2",
        255 => "255",
        _ => "another",
    }
}

/// Which part of a message an IPv4 fragment has.
pub fn part(view: &View) -> Option<&'static str> {
    match (view.family, view.more_fragments(), view.fragment_offset()) {
        (4, true, 0) => Some("first"),
        (4, true, _) => Some("middle"),
        (4, false, offset) if offset > 0 => Some("last"),
        _ => None,
    }
}

/// What differs after an accepted edit, in words.
fn changes(before: &View, after: &View) -> String {
    let one_less = |place| before.byte(place).checked_sub(1) == Some(after.byte(place));
    differing(before, after, |place| match place {
        10 | 11 if before.family == 4 => "the header field",
        _ if place == before.lifetime_place() && one_less(place) => "the lifetime to one less",
        _ => "another byte",
    })
}

/// What a packet is, as far as the lifetime edit must not care, in all ways of saying it that are wanted.
fn descriptions(view: &View) -> Vec<String> {
    let (kind, length) = (kind_name(view.kind()), view.message_length());
    let mut all = vec![format!("protocol {} in IPv{}", view.first_said(), view.family)];
    if view.family == 4 && !passes(view.header()) {
        let others = looked_at(ADDRESS).filter(|rule| (rule.applies)(view));
        all.extend(others.map(|rule| format!("{} besides a wrong header sum", rule.name)));
    }
    if let Some(part) = part(view) {
        let options = if view.header_length() > 20 { "options" } else { "no options" };
        all.push(format!("{part} fragment of {kind}, {options}, {}", message_name(view)));
        let word = in_the_fields_place(view);
        all.extend(word.map(|word| format!("fragment of {kind}, {word} where the field would be")));
        if view.header_length() > view.bytes.len() {
            let total = if view.header_length() > view.end() { "and than its total length" } else { "alone" };
            all.push(format!("fragment, header longer than its bytes {total}"));
        } else if view.header_length() > view.end() {
            all.push("fragment, header longer than its total length".to_string());
        }
        return all;
    }
    all.push(format!("{kind}, message of {length}"));
    all.push(format!("{kind}, verdict {}", judge(view.bytes)));
    let fits = view.row().map_or(false, |row| length >= row.fixed);
    if fits && view.protocol() == TCP {
        let reach = 4 * view.data_offset();
        let offset = if reach > length && reach <= length + 4 { "just past the message" } else { "elsewhere" };
        all.push(format!("{kind}, data offset {}", view.data_offset()));
        all.push(format!("{kind}, data offset {offset}"));
    }
    if fits && view.protocol() == UDP {
        all.push(format!("{kind}, length off by {}", view.udp_length() as i32 - length as i32));
    }
    all
}

/// How a fragment's message compares with its protocol's fixed header.
fn message_name(view: &View) -> &'static str {
    match (view.message_length(), view.row().map_or(0, |row| row.fixed)) {
        (0, _) => "no message",
        (length, fixed) if length < fixed => "under the fixed header",
        _ => "more",
    }
}

/// The word at the place where the field of a whole packet stands, if there is one.
fn in_the_fields_place(view: &View) -> Option<&'static str> {
    let room = view.row().map_or(false, |row| view.message_length() >= row.field + 2);
    room.then(|| word_name(view, view.field_place()))
}

/// The answer for a lifetime, by the first refusal of the other edits.
fn answer(refused_elsewhere: &str, lifetime: &str) -> Verdict {
    match (refused_elsewhere, lifetime) {
        ("under 20 or 40" | "declared", _) => CUT,
        ("header length" | "total length", _) => SHAPE,
        (_, "0" | "1") => SPENT,
        _ => GOOD,
    }
}

pub fn wanted_exactly() -> Vec<String> {
    let mut wanted = Vec::new();
    for family in [4, 6] {
        let rules = ["under 20 or 40", "header length", "total length", "declared", "nothing"];
        for rule in rules.into_iter().chain(PASSED_OVER.map(|rule| rule.0)).filter(|rule| in_family(rule, family)) {
            for lifetime in LIFETIMES.into_iter().chain(["another"]) {
                let verdict = answer(rule, lifetime);
                let what = format!("IPv{family}, {rule} refused elsewhere, lifetime {lifetime}");
                wanted.push(format!("lower lifetime of {what}: {verdict}"));
            }
        }
    }
    wanted.push("lower lifetime of IPv4 changes the header field and the lifetime to one less".to_string());
    wanted.push("lower lifetime of IPv6 changes the lifetime to one less".to_string());
    let kept = |family: u8| move |v: Verdict| format!("lower lifetime of IPv{family}, verdict {v}: {v} afterwards");
    wanted.extend([GOOD, UNSUMMED, SHAPE, HEADER_SUM, FRAGMENT, UNCOVERED, MESSAGE_SUM].map(kept(4)));
    wanted.extend([GOOD, SHAPE, FRAGMENT, UNCOVERED, MISSING, MESSAGE_SUM].map(kept(6)));
    for protocol in [ICMP, TCP, UDP, ICMPV6, 0] {
        let verdicts: &[Verdict] = match protocol {
            UDP => &[GOOD, UNSUMMED, SHAPE, FRAGMENT, MESSAGE_SUM],
            ICMP | TCP => &[GOOD, SHAPE, FRAGMENT, MESSAGE_SUM],
            _ => &[FRAGMENT, UNCOVERED],
        };
        let kind = kind_name((4, protocol));
        wanted.extend(verdicts.iter().map(|v| format!("lower lifetime of {kind}, verdict {v}: header field fresh")));
    }
    wanted
}

pub fn wanted() -> Vec<String> {
    let mut wanted = wanted_fragments();
    wanted.extend(with_lifetimes(UNCOVERED_KINDS.map(|(family, number)| format!("protocol {number} in IPv{family}"))));
    for family in [4, 6] {
        let rules: Vec<Named> = PASSED_OVER.into_iter().filter(|rule| in_family(rule.0, family)).collect();
        let meeting = pairs(&rules).into_iter().filter(|(a, b)| can_meet(a.0, b.0));
        wanted.extend(meeting.map(|(a, b)| format!("lower lifetime of IPv{family} over {} and {}", a.0, b.0)));
        wanted.extend(with_lifetimes(shapes(family)));
    }
    for kind in KINDS {
        let wrong: &[Verdict] = if kind.0 == 4 { &[HEADER_SUM, MESSAGE_SUM] } else { &[MESSAGE_SUM] };
        wanted.extend(with_lifetimes(wrong.iter().map(|verdict| format!("{}, verdict {verdict}", kind_name(kind)))));
    }
    let of_header = PASSED_OVER.iter().filter(|rule| in_family(rule.0, 4));
    wanted.extend(with_lifetimes(of_header.map(|rule| format!("{} besides a wrong header sum", rule.0))));
    wanted.extend(wanted_sequences());
    wanted
}

/// Each description with each lifetime that is tried everywhere.
fn with_lifetimes(descriptions: impl IntoIterator<Item = String>) -> Vec<String> {
    let line = |what: &str, lifetime: &str| {
        format!("lower lifetime, {what}, lifetime {lifetime}: {}", answer("nothing", lifetime))
    };
    descriptions.into_iter().flat_map(|what| LIFETIMES.map(|lifetime| line(&what, lifetime))).collect()
}

/// Each part of a message of each protocol: without a message, with a short one and with more, and with options; any
/// word where the field would be; and headers that are longer than they can be.
fn wanted_fragments() -> Vec<String> {
    let mut all = Vec::new();
    for protocol in [ICMP, TCP, UDP, ICMPV6, 0] {
        let kind = kind_name((4, protocol));
        let messages = ["no message", "more", "under the fixed header"];
        let messages = if protocol == 0 { &messages[..2] } else { &messages };
        for (part, options) in PARTS.into_iter().flat_map(|part| [(part, "options"), (part, "no options")]) {
            all.extend(messages.iter().map(|message| format!("{part} fragment of {kind}, {options}, {message}")));
        }
        if protocol != 0 {
            let words = ["0000", "FFFF", "another word"];
            all.extend(words.map(|word| format!("fragment of {kind}, {word} where the field would be")));
        }
    }
    let mut wanted = with_lifetimes(all);
    let past = [("bytes alone", CUT), ("bytes and than its total length", SHAPE), ("total length", SHAPE)];
    for (what, verdict) in past {
        let what = format!("lower lifetime, fragment, header longer than its {what}");
        wanted.extend(LIFETIMES.map(|lifetime| format!("{what}, lifetime {lifetime}: {verdict}")));
    }
    wanted.extend(
        ["another word to 0000", "FFFF to another word"].map(|words| format!("a fragment's header field: {words}")),
    );
    wanted
}

/// Messages whose shape is wrong, in a family, and UDP's last byte as a trailing area.
fn shapes(family: u8) -> Vec<String> {
    let mut all = Vec::new();
    for row in TABLE.iter().filter(|row| row.families.contains(&family)) {
        let kind = kind_name((family, row.protocol));
        all.extend([0, 1, row.fixed - 1].map(|length| format!("{kind}, message of {length}")));
        match row.protocol {
            TCP => {
                all.extend((0..5).map(|offset| format!("{kind}, data offset {offset}")));
                all.push(format!("{kind}, data offset just past the message"));
            }
            UDP => all.extend([-1, 1].map(|more| format!("{kind}, length off by {more}"))),
            _ => {}
        }
    }
    all
}

/// On packets that the other edits refuse: they do so between two lifetime edits, the judge says the same all the
/// time, and the lifetime goes down to 1.
fn wanted_sequences() -> Vec<String> {
    let mut wanted = Vec::new();
    for verdict in [SHAPE, FRAGMENT, UNCOVERED, MISSING] {
        // the mender fills in what is missing
        let mended = if verdict == MISSING { GOOD } else { verdict };
        wanted.extend([
            format!("judge's {verdict}, then lower lifetime: {GOOD}"),
            format!("lower lifetime's {GOOD}, then judge: {verdict}"),
            format!("lower lifetime's {GOOD}, then set address: {verdict}"),
            format!("set address's {verdict}, then lower lifetime: {GOOD}"),
            format!("lower lifetime's {GOOD}, then set stretch: {verdict}"),
            format!("set stretch's {verdict}, then lower lifetime: {GOOD}"),
            format!("set address's {verdict}, then set stretch: {verdict}"),
            format!("judge's {verdict}, then lower lifetime: {SPENT}"),
            format!("lower lifetime's {SPENT}, then judge: {verdict}"),
            format!("lower lifetime's {SPENT}, then set address: {verdict}"),
            format!("lower lifetime's {GOOD}, then mend: {mended}"),
            format!("mend's {mended}, then judge: {mended}"),
            format!("mend's {mended}, then lower lifetime: {GOOD}"),
        ]);
    }
    wanted
}
