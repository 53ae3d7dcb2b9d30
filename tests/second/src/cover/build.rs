// What the cases of builds must reach: each refusal alone and before others, addresses, bodies and rooms at the limits,
// fields and ports at the corners, what stood in the buffer before, other calls before and behind, and outcomes that
// tell each mistake from the right one.

use super::*;
use crate::build::{refusals, Parts, MOST, RULES as REFUSALS};
use crate::cases::build::{two_sizes, CORNER_SUMS, IN_EVERY_ROOM, LIFETIMES, LONG_BODIES, MIDDLE_BODIES, PORTS, SHORT};
use crate::mistakes::build::{Asked, BUILD_MISTAKES};

const NAME: &str = OPERATIONS[BUILD as usize];

/// The families, with the length of the IP header.
const FAMILIES: [(u8, usize); 2] = [(4, 20), (6, 40)];

impl Cover {
    /// A build: what is asked for, which refusal comes first, and what mistakes would lead to.
    pub fn note_build(&mut self, case: &Case, before: &[u8], after: &[u8], answer: &str) {
        let mut numbers = answer.split_whitespace().map(|word| word.parse().unwrap_or(usize::MAX));
        let (verdict, length) = (numbers.next().unwrap_or(usize::MAX) as Verdict, numbers.next().unwrap_or(usize::MAX));
        let asked = Asked { parts: case.parts(), before, right: (verdict, length, after.to_vec()) };
        let name = family_of(&asked.parts);
        for mistake in BUILD_MISTAKES.iter().filter(|mistake| (mistake.outcome)(&asked) != asked.right) {
            self.reach(format!("{NAME} of {name}, told from {}", mistake.name));
        }
        if let (LEFT, Some((operation, its_verdict))) = (case.source, self.last) {
            self.reach(format!("{}'s {its_verdict}, then {NAME}: {verdict}", OPERATIONS[operation as usize]));
        }
        self.last = Some((BUILD, verdict));
        self.exact.insert(format!("{NAME} of {name}: {verdict}"));
        self.note_refusals(&asked);
        self.note_asked(&asked);
        if verdict == GOOD && asked.parts.family().is_some() {
            self.note_built(&asked);
            self.note_sums(&asked);
        } else {
            self.exact.insert(format!("{NAME} refused: length {length}, {}", changed(before, after)));
        }
    }

    /// Which refusals apply: the first decides, and those with other numbers come behind it.
    fn note_refusals(&mut self, asked: &Asked) {
        let applying: Vec<Named> =
            refusals(&asked.parts, asked.before.len()).map(|rule| (rule.name, rule.number)).collect();
        let (name, verdict) = (family_of(&asked.parts), asked.right.0);
        self.exact.insert(format!("{NAME}, {} refused: {verdict}", applying.first().map_or("nothing", |rule| rule.0)));
        for (a, b) in pairs(&applying).iter().filter(|(a, _)| *a == applying[0]) {
            self.reach(format!("{NAME} of {name}: {} before {}", a.0, b.0));
        }
        if let [(only, _)] = applying[..] {
            self.reach(format!("{NAME} of {name}, {only} alone"));
        }
        let all: BTreeSet<Verdict> = applying.iter().map(|rule| rule.1).collect();
        if all.len() == 3 {
            self.reach(format!("{NAME} of {name}: {} before two others", applying[0].0));
        }
    }

    /// The addresses, the body, the lifetime, the ports and the room that are asked for.
    fn note_asked(&mut self, asked: &Asked) {
        let (parts, verdict) = (&asked.parts, asked.right.0);
        let (name, room) = (family_of(parts), room_name(asked));
        let others: BTreeSet<&str> = refusals(parts, asked.before.len()).map(|rule| rule.name).collect();
        if !others.iter().any(|rule| ["body", "lifetime", "room"].contains(rule)) {
            let (source, destination) = (parts.source.len(), parts.destination.len());
            self.reach(format!("{NAME}, addresses of {source} and {destination} bytes: {verdict}"));
        }
        if parts.family().is_none() {
            return;
        }
        let odd = parity(parts.body.len() as u64);
        self.reach(format!("{NAME} of {name}, body of {}: {verdict}", parts.body.len()));
        self.reach(format!("{NAME} of {name}, body of {}, {room} room: {verdict}", parts.body.len()));
        self.reach(format!("{NAME} of {name}, {odd} body, {room} room: {verdict}"));
        self.reach(format!("{NAME} of {name}, lifetime {}, {room} room: {verdict}", parts.lifetime));
        self.reach(format!("{NAME} of {name}, a buffer of {} bytes for {}", asked.before.len(), parts.length()));
        if verdict == GOOD {
            let ports = [parts.source_port, parts.destination_port];
            self.reach(format!("{NAME} of {name}, ports {ports:04X?}"));
        }
    }

    /// What a packet that was built is: good, read back as it was asked for, and as the mender has it.
    fn note_built(&mut self, asked: &Asked) {
        let (_, length, after) = &asked.right;
        let (parts, packet) = (&asked.parts, &after[..*length.min(&after.len())]);
        let mut mended = packet.to_vec();
        mend::mend(&mut mended);
        let (view, whole) = (View::new(packet), View::new(after));
        let behind = asked.before.len().min(parts.length());
        for (fact, holds) in [
            ("its length is told", *length == parts.length()),
            ("it is good", judge(packet) == GOOD),
            ("it is good before what lies behind it", judge(after) == GOOD),
            ("it is the whole packet", view.end() == *length && whole.end() == *length),
            ("the mender leaves it", mended == packet),
            ("its parts are read back", reads_back(&view, parts)),
            ("nothing else is in it", is_bare(&view)),
            ("what lies behind it stays", after[behind..] == asked.before[behind..]),
        ] {
            self.exact.insert(format!("{NAME}, {fact}: {holds}"));
        }
    }

    /// The sums of a packet that was built, and what stood there before.
    fn note_sums(&mut self, asked: &Asked) {
        let (name, parts, view) = (family_of(&asked.parts), &asked.parts, View::new(&asked.right.2));
        let (Field(computed), sent) = (parts.computed_sum(), view.word(view.field_place()));
        let odd = parity(parts.body.len() as u64);
        if computed == 0 {
            self.exact.insert(format!("{NAME} of {name}, computed 0000: {sent:04X}"));
            self.reach(format!("{NAME} of {name}, {odd} body, computed 0000"));
        }
        self.exact.insert(format!("{NAME} of {name}, a sum: {}", sent != 0));
        self.reach(format!("{NAME} of {name}, {odd} body, field {sent:04X}"));
        if view.family == 4 {
            let header = view.word(HEADER_FIELD);
            self.reach(format!("{NAME} of {name}, header field {header:04X}"));
            self.reach(format!("{NAME} of {name}, header field {header:04X}, field {sent:04X}"));
        }
        let stood = [(judge(asked.before) == GOOD, "a good packet"), (true, filling_name(asked.before))];
        for (_, filling) in stood.iter().filter(|(holds, _)| *holds) {
            self.reach(format!("{NAME} of {name} over {filling}"));
        }
    }
}

/// The family of both addresses, or none.
fn family_of(parts: &Parts) -> &'static str {
    name_of(parts.family())
}

fn name_of(family: Option<u8>) -> &'static str {
    match family {
        Some(4) => "IPv4",
        Some(6) => "IPv6",
        _ => "no family",
    }
}

/// How much of a buffer there is for a packet.
fn room_name(asked: &Asked) -> &'static str {
    let (there, needed) = (asked.before.len(), asked.parts.length());
    match there {
        0 => "no",
        _ if there == needed => "exact",
        _ if there == needed + 1 => "one more",
        _ if there > needed => "more",
        _ if there + 1 == needed => "one less",
        _ => "less",
    }
}

/// What stood in a buffer.
fn filling_name(bytes: &[u8]) -> &'static str {
    if bytes.iter().all(|byte| *byte == 0) {
        "zeros"
    } else if bytes.iter().all(|byte| *byte == 0xFF) {
        "ones"
    } else if bytes.contains(&0) {
        "other bytes"
    } else {
        "bytes that aren't zero"
    }
}

fn changed(before: &[u8], after: &[u8]) -> &'static str {
    if before == after {
        "nothing changed"
    } else {
        "bytes changed"
    }
}

/// Whether addresses, ports, lifetime and body are found where the layout of a packet has them.
fn reads_back(view: &View, parts: &Parts) -> bool {
    let address = |side: usize| view.bytes.get(view.address_place(side)..).map(|rest| &rest[..view.address_length()]);
    let start = view.message_start();
    let body = view.message().get(view.body_offset()..view.covered_length());
    Some(view.family) == parts.family()
        && view.bytes.len() >= view.least()
        && address(0) == Some(parts.source)
        && address(1) == Some(parts.destination)
        && view.byte(view.lifetime_place()) == parts.lifetime
        && (view.word(start), view.word(start + 2)) == (parts.source_port, parts.destination_port)
        && body == Some(parts.body)
}

/// Whether there are no options, no headers between and no trailing area, and service, identification, flags and offset,
/// or class and flow label, are 0.
fn is_bare(view: &View) -> bool {
    let zeros = match view.family {
        4 => view.header_length() == 20 && [view.byte(1).into(), view.word(4), view.word(6)] == [0; 3],
        _ => [view.word(0), view.word(2)] == [0x6000, 0],
    };
    zeros && view.protocol() == UDP && view.walk.headers.is_empty() && view.trailing_length() == 0
}

/// Whether a refusal is of the addresses.
fn of_addresses(rule: &str) -> bool {
    ["source size", "destination size", "two sizes"].contains(&rule)
}

pub fn wanted_exactly() -> Vec<String> {
    let mut wanted = vec![
        format!("{NAME} of no family: {PLACE}"),
        format!("{NAME}, nothing refused: {GOOD}"),
        format!("{NAME} refused: length 0, nothing changed"),
    ];
    wanted.extend(REFUSALS.iter().map(|rule| format!("{NAME}, {} refused: {}", rule.name, rule.number)));
    for (family, _) in FAMILIES {
        wanted.extend([GOOD, PLACE, SPENT, ROOM].map(|verdict| format!("{NAME} of IPv{family}: {verdict}")));
        wanted.push(format!("{NAME} of IPv{family}, computed 0000: FFFF"));
        wanted.push(format!("{NAME} of IPv{family}, a sum: true"));
    }
    let facts = [
        "its length is told",
        "it is good",
        "it is good before what lies behind it",
        "it is the whole packet",
        "the mender leaves it",
        "its parts are read back",
        "nothing else is in it",
        "what lies behind it stays",
    ];
    wanted.extend(facts.map(|fact| format!("{NAME}, {fact}: true")));
    wanted
}

pub fn wanted() -> Vec<String> {
    let mut wanted = wanted_meetings();
    wanted.extend(wanted_sizes());
    for (family, header) in FAMILIES {
        let name = name_of(Some(family));
        wanted.extend(wanted_bodies(name));
        wanted.extend(wanted_rooms(name, header));
        wanted.extend(wanted_given(name));
        wanted.extend(wanted_built(name));
    }
    for mistake in &BUILD_MISTAKES {
        let families = mistake.shows.iter().map(|family| name_of(*family));
        wanted.extend(families.map(|family| format!("{NAME} of {family}, told from {}", mistake.name)));
    }
    wanted.extend(wanted_sequences());
    wanted
}

/// Every two refusals that can meet, and three; and each that can be the only one.
fn wanted_meetings() -> Vec<String> {
    let rules: Vec<Named> = REFUSALS.iter().map(|rule| (rule.name, rule.number)).collect();
    let mut wanted = vec![format!("{NAME} of no family, two sizes alone")];
    for family in [None, Some(4), Some(6)] {
        let name = name_of(family);
        let first = |rule: &Named| family.is_none() == of_addresses(rule.0);
        let meeting = pairs(&rules).into_iter().filter(|(a, _)| first(a));
        wanted.extend(meeting.map(|(a, b)| format!("{NAME} of {name}: {} before {}", a.0, b.0)));
        let place = rules.iter().filter(|rule| first(rule) && rule.1 == PLACE);
        wanted.extend(place.map(|rule| format!("{NAME} of {name}: {} before two others", rule.0)));
        let alone = rules.iter().filter(|rule| first(rule) && family.is_some());
        wanted.extend(alone.map(|rule| format!("{NAME} of {name}, {} alone", rule.0)));
    }
    wanted
}

/// Addresses of every two sizes.
fn wanted_sizes() -> Vec<String> {
    let verdict = |sizes: (usize, usize)| if [(4, 4), (16, 16)].contains(&sizes) { GOOD } else { PLACE };
    let line = |(a, b): (usize, usize)| format!("{NAME}, addresses of {a} and {b} bytes: {}", verdict((a, b)));
    two_sizes().into_iter().map(line).collect()
}

/// Bodies of every short length and about the longest, in exact room, in a byte more, and in a byte less; and some
/// between.
fn wanted_bodies(name: &str) -> Vec<String> {
    let middle = MIDDLE_BODIES.iter().map(|length| format!("{NAME} of {name}, body of {length}: {GOOD}"));
    let mut wanted: Vec<String> = middle.collect();
    for length in (0..=SHORT).chain(LONG_BODIES) {
        for (room, verdict) in [("exact", GOOD), ("one more", GOOD), ("one less", ROOM)] {
            let verdict = if length > MOST { PLACE } else { verdict };
            wanted.push(format!("{NAME} of {name}, body of {length}, {room} room: {verdict}"));
        }
    }
    wanted
}

/// Every room from none to three bytes more than enough; and each kind of room for even bodies and odd ones.
fn wanted_rooms(name: &str, header: usize) -> Vec<String> {
    let needed = header + 8 + IN_EVERY_ROOM;
    let mut wanted: Vec<String> =
        (0..needed + 4).map(|room| format!("{NAME} of {name}, a buffer of {room} bytes for {needed}")).collect();
    let rooms = [("exact", GOOD), ("one more", GOOD), ("more", GOOD), ("one less", ROOM), ("less", ROOM)];
    for (room, verdict) in rooms {
        wanted.extend(["even", "odd"].map(|odd| format!("{NAME} of {name}, {odd} body, {room} room: {verdict}")));
    }
    wanted.push(format!("{NAME} of {name}, odd body, no room: {ROOM}"));
    wanted
}

/// Lifetimes with room and without; every two ports of the corners.
fn wanted_given(name: &str) -> Vec<String> {
    let mut wanted = Vec::new();
    for (lifetime, room, verdict) in LIFETIMES.into_iter().flat_map(|l| [(l, "exact", GOOD), (l, "one less", ROOM)]) {
        let verdict = if lifetime == 0 { SPENT } else { verdict };
        wanted.push(format!("{NAME} of {name}, lifetime {lifetime}, {room} room: {verdict}"));
    }
    for ports in PORTS.into_iter().flat_map(|source| PORTS.map(|destination| [source, destination])) {
        wanted.push(format!("{NAME} of {name}, ports {ports:04X?}"));
    }
    wanted
}

/// Sums at the corners, 0000 as FFFF, behind even bodies and odd ones; IPv4's header sums besides; and all that stood in
/// the buffer.
fn wanted_built(name: &str) -> Vec<String> {
    let mut wanted = Vec::new();
    for odd in ["even", "odd"] {
        let sent = CORNER_SUMS.map(|sum| if sum == 0 { 0xFFFF } else { sum });
        wanted.extend(sent.map(|sum| format!("{NAME} of {name}, {odd} body, field {sum:04X}")));
        wanted.push(format!("{NAME} of {name}, {odd} body, computed 0000"));
    }
    if name == name_of(Some(4)) {
        wanted.extend(CORNER_SUMS.map(|sum| format!("{NAME} of {name}, header field {sum:04X}")));
        wanted.push(format!("{NAME} of {name}, header field 0000, field FFFF"));
    }
    let fillings = ["zeros", "ones", "other bytes", "bytes that aren't zero", "a good packet"];
    wanted.extend(fillings.map(|filling| format!("{NAME} of {name} over {filling}")));
    wanted
}

/// Each call on what was built, and what was refused to be, and builds behind each call.
fn wanted_sequences() -> Vec<String> {
    let calls = [(JUDGE, GOOD), (MEND, GOOD), (LIFETIME, GOOD), (LIFETIME, SPENT), (PREFIX, VERSION)];
    let calls =
        calls.into_iter().chain([ADDRESS, STRETCH, PREFIX].into_iter().flat_map(|op| [(op, GOOD), (op, PLACE)]));
    let builds = [GOOD, PLACE, SPENT, ROOM];
    let mut wanted = Vec::new();
    for ((operation, verdict), build) in calls.flat_map(|call| builds.map(|build| (call, build))) {
        let call = OPERATIONS[operation as usize];
        wanted.push(format!("{call}'s {verdict}, then {NAME}: {build}"));
        wanted.push(format!("{NAME}'s {build}, then {call}: {verdict}"));
    }
    for (one, other) in builds.into_iter().flat_map(|one| builds.map(|other| (one, other))) {
        wanted.push(format!("{NAME}'s {one}, then {NAME}: {other}"));
    }
    wanted
}
