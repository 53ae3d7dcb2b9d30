// What the cases on IPv6's headers between must reach: each that stops the walk in each call that walks, every two of them
// in one header and in two, all that can stand between, and sums that a mistake about it would find right or wrong.

use super::lifetimes::word_name;
use super::trailing::{has_length, tail_name, LENGTHS};
use super::*;
use crate::between::lists_of_numbers;
use crate::cases::between::{NEXT, UNITS};
use crate::cases::stops::STOPS;
use crate::judge::first;
use crate::mistakes::{at_40, Mistake, BETWEEN_MISTAKES};
use crate::walk::{Header, Stop, BETWEEN, FRAGMENT_HEADER, HOP_BY_HOP, MOST, OPTIONS, ROUTING};

/// The calls that walk.
const WALKING: [u8; 4] = [JUDGE, MEND, ADDRESS, STRETCH];

/// The protocols behind headers.
const BEHIND: [u8; 3] = [TCP, UDP, ICMPV6];

/// Every two stops that one header can have, in order.
const IN_ONE: [(Stop, Stop); 7] = [
    (Stop::Fragment, Stop::Ninth),
    (Stop::Fragment, Stop::Reach),
    (Stop::Late, Stop::Ninth),
    (Stop::Late, Stop::Reach),
    (Stop::Ninth, Stop::Reach),
    (Stop::Ninth, Stop::SegmentsLeft),
    (Stop::Reach, Stop::SegmentsLeft),
];

/// Three in one header, in order.
const THREE_IN_ONE: [[Stop; 3]; 3] = [
    [Stop::Fragment, Stop::Ninth, Stop::Reach],
    [Stop::Late, Stop::Ninth, Stop::Reach],
    [Stop::Ninth, Stop::Reach, Stop::SegmentsLeft],
];

impl Cover {
    /// A call on an IPv6 packet whose fixed header says that a header follows, or on an IPv4 packet that looks like it.
    pub fn note_between(&mut self, case: &Case, before: &View, after: &View, verdict: Verdict) {
        let name = OPERATIONS[case.operation as usize];
        match before.family {
            4 if before.header_length() == 20 && before.bytes.len() > 28 && before.byte(21) == 0 => {
                let (number, like) = (before.first_said(), before.byte(20));
                self.reach(format!(
                    "{name} of IPv4, {number} before what looks like a header before {like}: {verdict}"
                ));
            }
            6 if before.bytes.len() >= 40 && !before.walk.headers.is_empty() => {
                self.note_headers(case, before, after, verdict);
            }
            _ => {}
        }
    }

    fn note_headers(&mut self, case: &Case, before: &View, after: &View, verdict: Verdict) {
        let name = format!("{} of IPv6, headers between", OPERATIONS[case.operation as usize]);
        let refusal = rules_that_apply(case, before).first().map_or("nothing", |rule| rule.0);
        self.exact.insert(format!("{name}, {refusal} refused: {verdict}"));
        if verdict == GOOD && changed_elsewhere(case, before, after) {
            self.exact.insert(format!("{name}: another byte changed"));
        }
        if let (LEFT, Some((last, its_verdict))) = (case.source, self.last) {
            self.reach(format!("{name}, after {}'s {its_verdict}: {verdict}", OPERATIONS[last as usize]));
        }
        if before.bytes.len() < before.end() {
            self.reach(format!("{name}, cut: {verdict}"));
            self.reach(format!("{name}, cut to {} bytes", before.bytes.len()));
            return;
        }
        self.reach(format!("{name}, payload of {}, {}", before.end() - 40, tail_name(before)));
        if before.bytes.len() == 40 {
            self.reach(format!("{name}, but not there, {}: {verdict}", before.first_said()));
        } else if case.operation == JUDGE {
            self.reach(format!("judge, {} behind the first header: {verdict}", before.byte(40)));
        }
        match before.walk.headers.iter().position(|header| !header.stops.is_empty()) {
            Some(at) => self.note_stopped(case, before, at, verdict),
            None => self.note_walked(case, before, after, verdict),
        }
    }

    /// A header that stops the walk, as the first that does; what else stops it there, and behind it.
    fn note_stopped(&mut self, case: &Case, view: &View, at: usize, verdict: Verdict) {
        let (name, header) = (OPERATIONS[case.operation as usize], &view.walk.headers[at]);
        let met = header.stops[0];
        let behind = view.walk.headers[at + 1..].iter().any(|later| !later.stops.is_empty());
        let alone = if behind && met != Stop::Reach || header.stops.len() > 1 { "not alone" } else { "alone" };
        self.reach(format!("{name}, {met:?} in header {}, {alone}: {verdict}", at + 1));
        for other in &header.stops[1..] {
            self.reach(format!("{name}, {met:?} before {other:?} in one header: {verdict}"));
        }
        if header.stops.len() == 3 {
            self.reach(format!("{name}, {:?} in one header: {verdict}", header.stops));
        }
        for (distance, later) in view.walk.headers[at + 1..].iter().enumerate().filter(|_| header.stops.len() == 1) {
            let apart = if distance == 0 { "next header" } else { "later header" };
            // what is past the payload has nothing but such behind it
            let stops = if met == Stop::Reach { &later.stops[..] } else { &later.stops[..later.stops.len().min(1)] };
            for other in stops {
                self.reach(format!("{name}, {met:?} before {other:?} in a {apart}: {verdict}"));
            }
        }
        self.note_reach(case, view, header, verdict);
        if met == Stop::SegmentsLeft {
            self.reach(format!("{name}, {} segments left: {verdict}", view.byte(header.place + 3)));
        }
    }

    /// Where a header that stops the walk stands beside the payload's end.
    fn note_reach(&mut self, case: &Case, view: &View, header: &Header, verdict: Verdict) {
        let (name, number) = (OPERATIONS[case.operation as usize], header.number);
        let (left, tail) = (view.end().saturating_sub(header.place), tail_name(view));
        if left < 8 {
            self.reach(format!("{name}, {number} with {left} bytes left, {tail}: {verdict}"));
        }
        if left == 0 {
            self.reach(format!("{name}, nothing behind {}: {verdict}", behind(view, header.number)));
        }
        if header.stops[0] != Stop::Reach {
            return;
        }
        let past = header.place + header.length - view.end();
        self.reach(format!("{name}, {number} of {} bytes, {past} past the payload: {verdict}", header.length));
        self.reach(format!("{name}, {number} past the payload, says {}: {verdict}", view.byte(header.place)));
        if header.stops.contains(&Stop::SegmentsLeft) {
            let there = if left > 3 { "in the payload" } else { "in the tail" };
            self.reach(format!("{name}, past the payload, segments left {there}: {verdict}"));
        }
    }

    /// A message behind headers.
    fn note_walked(&mut self, case: &Case, before: &View, after: &View, verdict: Verdict) {
        let (name, kind) = (OPERATIONS[case.operation as usize], kind_name(before.kind()));
        let (headers, field) = (&before.walk.headers, before.field_place());
        self.reach(format!("{name} of {kind} behind {} headers: {verdict}", headers.len()));
        self.reach(format!("{name} of {kind} behind headers, {}: {verdict}", tail_name(before)));
        self.reach(format!("{name} of {kind} behind headers, message of {}: {verdict}", before.message_length()));
        let refusal = rules_that_apply(case, before).first().map_or("nothing", |rule| rule.0);
        self.reach(format!("{name} of {kind} behind headers, {refusal} refused: {verdict}"));
        let (from, to) = (word_name(before, field), word_name(after, field));
        self.reach(format!("{name} of {kind} behind headers, field {from} to {to}: {verdict}"));
        if before.walk.start == before.end() {
            self.reach(format!("{name}, nothing behind {}: {verdict}", behind(before, before.protocol())));
        }
        for header in headers {
            let (number, third) = (header.number, before.byte(header.place + 3));
            self.reach(format!("{name}, byte 3 of {number} is {third}: {verdict}"));
        }
        if before.protocol() == UDP && before.message_length() >= 8 {
            for (length, _) in LENGTHS.into_iter().filter(|(length, _)| has_length(before, length)) {
                self.reach(format!("{name} behind headers, UDP length {length}: {verdict}"));
            }
            if before.trailing_length() > 0 {
                let datagram = parity(before.covered_length() as u64);
                self.reach(format!("{name} behind headers, a trailing area, {datagram} datagram: {verdict}"));
            }
        }
        match case.operation {
            JUDGE => self.note_judged_behind(before, verdict),
            MEND if verdict == GOOD => self.note_mended_behind(before, after),
            _ => {}
        }
    }

    /// What stands between, before a message that is good; and sums where a mistake would find the opposite.
    fn note_judged_behind(&mut self, view: &View, verdict: Verdict) {
        if view.protocol() == TCP {
            self.reach(format!("TCP behind headers, data offset {}: {verdict}", view.data_offset()));
        }
        if ![GOOD, MESSAGE_SUM].contains(&verdict) {
            return;
        }
        let (sum, kind) = (if verdict == GOOD { "a right sum" } else { "a wrong sum" }, kind_name(view.kind()));
        for mistake in BETWEEN_MISTAKES.iter().filter(|mistake| mistake.passes(view) != passes(&view.covered_block())) {
            self.exact.insert(format!("judge of {kind}, headers between, {sum} but for {}: {verdict}", mistake.name));
        }
        let otherwise = first(&at_40(view), |_| true).unwrap_or(GOOD);
        if (verdict == GOOD) != (otherwise == GOOD) {
            self.exact.insert(format!("judge of {kind}, headers between, {sum} but for a start at 40: {verdict}"));
        }
        if verdict != GOOD {
            return;
        }
        self.reach(format!("good: IPv6 of {} bytes, headers between", view.end()));
        self.reach(format!("good: {} bytes between", view.message_start() - 40));
        for header in &view.walk.headers {
            self.reach(format!("good: header {} of {} units", header.number, header.length / 8 - 1));
            if header.number == ROUTING {
                self.reach(format!("good: routing type {}", view.byte(header.place + 2)));
            }
        }
        let numbers: Vec<u8> = view.walk.headers.iter().map(|header| header.number).collect();
        self.reach(format!("good: {kind} behind {numbers:?}"));
    }

    /// Fields that a mistake about the headers between led to, made right.
    fn note_mended_behind(&mut self, before: &View, after: &View) {
        let (kind, fresh) = (kind_name(before.kind()), fresh_message_field(before));
        let field = |view: &View| Field(view.word(view.field_place()));
        for mistake in BETWEEN_MISTAKES.iter().filter(|mistake| mistake.field(before) != fresh) {
            if field(before) == mistake.field(before) {
                let mended = if field(after) == fresh { "fresh" } else { "not fresh" };
                self.exact.insert(format!("mend of {kind}, headers between, {}: {mended}", mistake.name));
            }
        }
    }
}

/// How many headers are walked, and what the last of them says.
fn behind(view: &View, number: u8) -> String {
    let count = view.walk.headers.iter().filter(|header| header.stops.is_empty()).count();
    format!("{count} headers, which say {number}")
}

/// Whether an accepted call changed another byte than the message's field and what it is to change.
fn changed_elsewhere(case: &Case, before: &View, after: &View) -> bool {
    let field = before.field_place()..before.field_place() + 2;
    let keeps_field = [LIFETIME, PREFIX].contains(&case.operation);
    let own = match case.operation {
        LIFETIME => before.lifetime_place()..before.lifetime_place() + 1,
        ADDRESS => {
            let place = before.address_place(case.number as usize);
            place..place + case.two.len()
        }
        STRETCH => {
            let place = before.message_start() + before.body_offset() + case.number as usize;
            place..place + case.two.len()
        }
        PREFIX => {
            let place = before.address_place(case.exchange().0 as usize);
            place..place + 8
        }
        _ => field.clone(),
    };
    let may = |place: &usize| own.contains(place) || (!keeps_field && field.contains(place));
    (0..before.bytes.len()).any(|place| before.byte(place) != after.byte(place) && !may(&place))
}

pub fn wanted_exactly() -> Vec<String> {
    let mut wanted = Vec::new();
    for operation in calls_of(6) {
        let name = format!("{} of IPv6, headers between", OPERATIONS[operation as usize]);
        let rules =
            looked_at(operation).map(|rule| (rule.name, rule.number)).chain(own_rules(operation).iter().copied());
        let elsewhere = ["no bytes", "version", "under 20 or 40"];
        for (rule, number) in rules.filter(|rule| in_family(rule.0, 6) && !elsewhere.contains(&rule.0)) {
            wanted.push(format!("{name}, {rule} refused: {number}"));
        }
        wanted.push(format!("{name}, nothing refused: {GOOD}"));
    }
    let mistakes = BETWEEN_MISTAKES.iter().map(|mistake| mistake.name);
    for (protocol, mistake) in
        BEHIND.into_iter().flat_map(|p| mistakes.clone().chain(["a start at 40"]).map(move |m| (p, m)))
    {
        let name = format!("judge of {}, headers between", kind_name((6, protocol)));
        wanted.push(format!("{name}, a right sum but for {mistake}: {GOOD}"));
        wanted.push(format!("{name}, a wrong sum but for {mistake}: {MESSAGE_SUM}"));
    }
    for (protocol, Mistake { name, .. }) in BEHIND.into_iter().flat_map(|p| BETWEEN_MISTAKES.map(|m| (p, m))) {
        wanted.push(format!("mend of {}, headers between, {name}: fresh", kind_name((6, protocol))));
    }
    wanted
}

pub fn wanted() -> Vec<String> {
    let mut wanted = wanted_stops();
    wanted.extend(wanted_two_stops());
    wanted.extend(wanted_ends());
    wanted.extend(wanted_headers());
    wanted.extend(wanted_messages());
    wanted.extend(wanted_calls());
    wanted
}

/// The places in the list at which a stop can be met first and alone, counted from 1.
fn places(stop: Stop) -> Vec<usize> {
    match stop {
        Stop::Late => (2..=MOST).collect(),
        Stop::Ninth => vec![MOST + 1],
        _ => (1..=MOST).collect(),
    }
}

/// What a call answers that is stopped: the lifetime edit isn't.
fn answer(operation: u8, stop: Stop) -> Verdict {
    if operation == LIFETIME {
        GOOD
    } else {
        stop.number()
    }
}

fn wanted_stops() -> Vec<String> {
    let mut wanted = Vec::new();
    for (operation, stop) in calls_of(6).flat_map(|operation| STOPS.map(|stop| (operation, stop))) {
        let (name, verdict) = (OPERATIONS[operation as usize], answer(operation, stop));
        wanted.extend(places(stop).iter().map(|at| format!("{name}, {stop:?} in header {at}, alone: {verdict}")));
    }
    for (operation, number) in calls_of(6).flat_map(|operation| BETWEEN.map(|number| (operation, number))) {
        let stop = if number == FRAGMENT_HEADER { Stop::Fragment } else { Stop::Reach };
        let name = format!("{} of IPv6, headers between", OPERATIONS[operation as usize]);
        wanted.push(format!("{name}, but not there, {number}: {}", answer(operation, stop)));
    }
    for operation in WALKING {
        let name = OPERATIONS[operation as usize];
        wanted.extend([1, 2, 127, 128, 255].map(|left| format!("{name}, {left} segments left: {UNCOVERED}")));
        for (number, third) in [HOP_BY_HOP, OPTIONS].into_iter().flat_map(|n| [1, 2, 127, 128, 255].map(|t| (n, t))) {
            wanted.push(format!("{name}, byte 3 of {number} is {third}: {GOOD}"));
        }
    }
    wanted
}

/// Every two stops that can be in one header, three, and every two in two headers, next to each other and apart.
fn wanted_two_stops() -> Vec<String> {
    let mut wanted = Vec::new();
    for operation in calls_of(6) {
        let name = OPERATIONS[operation as usize];
        let one = |(a, b): (Stop, Stop)| format!("{name}, {a:?} before {b:?} in one header: {}", answer(operation, a));
        wanted.extend(IN_ONE.map(one));
        let three = |stops: [Stop; 3]| format!("{name}, {stops:?} in one header: {}", answer(operation, stops[0]));
        wanted.extend(THREE_IN_ONE.map(three));
        for (a, b) in
            STOPS.into_iter().flat_map(|a| STOPS.map(|b| (a, b))).filter(|two| *two != (Stop::Ninth, Stop::Ninth))
        {
            let two = |apart| format!("{name}, {a:?} before {b:?} in a {apart}: {}", answer(operation, a));
            wanted.extend(["next header", "later header"].map(two));
        }
        let there = ["in the payload", "in the tail"];
        let verdict = answer(operation, Stop::Reach);
        wanted.extend(there.map(|there| format!("{name}, past the payload, segments left {there}: {verdict}")));
    }
    wanted
}

/// Payloads of each length, and packets cut to each; headers about the payload's end: with 0 to 7 bytes left, with
/// lengths that go past it by one byte, a unit and far; and a payload that ends with a header, whatever that says.
fn wanted_ends() -> Vec<String> {
    let judged = "judge of IPv6, headers between";
    let mut wanted: Vec<String> = (40..80).map(|bytes| format!("{judged}, cut to {bytes} bytes")).collect();
    let tails = ["a tail", "no tail"];
    wanted.extend((0..40).flat_map(|length| tails.map(|tail| format!("{judged}, payload of {length}, {tail}"))));
    for (number, left) in BETWEEN.into_iter().flat_map(|number| (0..8).map(move |left| (number, left))) {
        let verdict = if number == FRAGMENT_HEADER { FRAGMENT } else { SHAPE };
        let line = |name: &str, tail| format!("{name}, {number} with {left} bytes left, {tail}: {verdict}");
        wanted.extend(["judge", "mend"].map(|name| line(name, "no tail")));
        wanted.extend(WALKING.map(|operation| line(OPERATIONS[operation as usize], "a tail")));
    }
    for (number, operation) in [HOP_BY_HOP, ROUTING, OPTIONS].into_iter().flat_map(|n| WALKING.map(|op| (n, op))) {
        let name = OPERATIONS[operation as usize];
        for (length, past) in [(8, 1), (16, 1), (48, 1), (2048, 1), (8, 8), (16, 8), (48, 8), (2048, 8)] {
            wanted.push(format!("{name}, {number} of {length} bytes, {past} past the payload: {SHAPE}"));
        }
        wanted.extend([6, 17].map(|says| format!("{name}, {number} past the payload, says {says}: {SHAPE}")));
    }
    for (count, next) in
        [1, 2, MOST].into_iter().flat_map(|count| NEXT.into_iter().chain(BEHIND).map(move |n| (count, n)))
    {
        let verdict = match (next, count) {
            (FRAGMENT_HEADER, _) => FRAGMENT,
            (ROUTING | OPTIONS, MOST) => UNCOVERED,
            (ROUTING | OPTIONS | TCP | UDP | ICMPV6, _) => SHAPE,
            _ => UNCOVERED,
        };
        let line = |op: u8| {
            format!("{}, nothing behind {count} headers, which say {next}: {verdict}", OPERATIONS[op as usize])
        };
        wanted.extend(WALKING.map(line));
    }
    wanted
}

/// What stands between good messages: one to eight headers in every order, each length, every routing type; and every
/// number behind the first header.
fn wanted_headers() -> Vec<String> {
    let mut wanted = Vec::new();
    for number in [HOP_BY_HOP, ROUTING, OPTIONS] {
        wanted.extend(UNITS.map(|units| format!("good: header {number} of {units} units")));
    }
    wanted.extend((0..=255).map(|routing| format!("good: routing type {routing}")));
    for numbers in lists_of_numbers() {
        wanted.extend(BEHIND.map(|protocol| format!("good: {} behind {numbers:?}", kind_name((6, protocol)))));
    }
    wanted.push("good: IPv6 of 65575 bytes, headers between".to_string());
    wanted.push(format!("good: {} bytes between", MOST * 2048));
    for next in (0..=255).filter(|next| ![TCP, ROUTING, OPTIONS].contains(next)) {
        let verdict = match next {
            FRAGMENT_HEADER => FRAGMENT,
            UDP | ICMPV6 => GOOD,
            _ => UNCOVERED,
        };
        wanted.push(format!("judge, {next} behind the first header: {verdict}"));
    }
    wanted
}

/// What an operation can refuse of a message behind headers.
fn refusals(operation: u8, protocol: u8) -> impl Iterator<Item = Named> {
    let of_messages = ["message length", "TCP or UDP length", "zero in IPv6", "message sum"];
    let rules =
        looked_at(operation).map(|rule| (rule.name, rule.number)).filter(move |rule| of_messages.contains(&rule.0));
    let own = own_rules(operation).iter().copied().filter(|rule| rule.0 != "blank");
    let fits = move |rule: &Named| match rule.0 {
        "TCP or UDP length" => protocol != ICMPV6,
        "zero in IPv6" => protocol == UDP,
        _ => true,
    };
    rules.chain(own).filter(fits)
}

/// Messages behind headers: of each protocol behind one to eight, good and damaged, about the fixed header's length, with a
/// tail; TCP offsets, UDP lengths and trailing areas; fields at 0000 and FFFF.
fn wanted_messages() -> Vec<String> {
    let mut wanted = Vec::new();
    for row in TABLE.iter().filter(|row| row.families.contains(&6)) {
        let kind = kind_name((6, row.protocol));
        for count in 1..=MOST {
            let of = |name: &str, verdict: Verdict| format!("{name} of {kind} behind {count} headers: {verdict}");
            wanted.extend(calls_of(6).map(|operation| of(OPERATIONS[operation as usize], GOOD)));
            wanted.push(of("judge", MESSAGE_SUM));
            if row.protocol == UDP {
                wanted.extend(["judge", "set address", "set stretch"].map(|name| of(name, MISSING)));
            }
        }
        for operation in calls_of(6) {
            let name = format!("{} of {kind} behind headers", OPERATIONS[operation as usize]);
            wanted.extend(
                refusals(operation, row.protocol).map(|(rule, number)| format!("{name}, {rule} refused: {number}")),
            );
        }
        for operation in WALKING {
            let name = format!("{} of {kind} behind headers", OPERATIONS[operation as usize]);
            wanted.extend([0, 1, row.fixed - 1].map(|length| format!("{name}, message of {length}: {SHAPE}")));
            wanted.push(format!("{name}, message of {}: {GOOD}", row.fixed));
            wanted.extend(["a tail", "no tail"].map(|tail| format!("{name}, {tail}: {GOOD}")));
        }
        let zero = if row.protocol == UDP { "FFFF" } else { "0000" };
        for name in ["mend", "set address", "set stretch"].map(|name| format!("{name} of {kind} behind headers")) {
            wanted.push(format!("{name}, field another word to {zero}: {GOOD}"));
            wanted.push(format!("{name}, field FFFF to {zero}: {GOOD}"));
        }
    }
    wanted.extend((0..5).map(|offset| format!("TCP behind headers, data offset {offset}: {SHAPE}")));
    wanted.extend((5..8).map(|offset| format!("TCP behind headers, data offset {offset}: {GOOD}")));
    wanted.extend((8..16).map(|offset| format!("TCP behind headers, data offset {offset}: {SHAPE}")));
    for (operation, (length, fits)) in WALKING.into_iter().flat_map(|op| LENGTHS.map(|length| (op, length))) {
        let (name, verdict) = (OPERATIONS[operation as usize], if fits { GOOD } else { SHAPE });
        wanted.push(format!("{name} behind headers, UDP length {length}: {verdict}"));
    }
    for datagram in ["even", "odd"] {
        let name = |name: &str| format!("{name} behind headers, a trailing area, {datagram} datagram");
        wanted.extend([GOOD, MISSING, MESSAGE_SUM].map(|verdict| format!("{}: {verdict}", name("judge"))));
        wanted.extend([GOOD, PLACE, MISSING].map(|verdict| format!("{}: {verdict}", name("set stretch"))));
        wanted.extend([GOOD, MISSING].map(|verdict| format!("{}: {verdict}", name("set address"))));
        wanted.extend(["mend", "lower lifetime"].map(|call| format!("{}: {GOOD}", name(call))));
    }
    wanted
}

/// Calls one after the other, packets that are cut, IPv4 with the same numbers, and records.
fn wanted_calls() -> Vec<String> {
    let mut wanted = Vec::new();
    let calls = [(MEND, GOOD), (LIFETIME, GOOD), (ADDRESS, GOOD), (ADDRESS, PLACE), (STRETCH, GOOD), (STRETCH, PLACE)];
    for ((first, its_verdict), (then, verdict)) in calls.into_iter().flat_map(|first| calls.map(|then| (first, then))) {
        let [first, then] = [first, then].map(|operation| OPERATIONS[operation as usize]);
        wanted.push(format!("{then} of IPv6, headers between, after {first}'s {its_verdict}: {verdict}"));
    }
    for (operation, verdict) in calls[1..].iter().flat_map(|call| [(call.0, GOOD), (call.0, MESSAGE_SUM)]) {
        let name = OPERATIONS[operation as usize];
        wanted.push(format!("judge of IPv6, headers between, after {name}'s {GOOD}: {verdict}"));
    }
    for operation in JUDGE..=STRETCH {
        let (name, verdict) = (OPERATIONS[operation as usize], if operation == LIFETIME { GOOD } else { UNCOVERED });
        wanted.push(format!("{name} of IPv6, headers between, cut: {CUT}"));
        for (number, like) in BETWEEN.into_iter().flat_map(|number| [ICMP, TCP, UDP].map(|like| (number, like))) {
            let what = format!("{number} before what looks like a header before {like}");
            wanted.push(format!("{name} of IPv4, {what}: {verdict}"));
        }
    }
    let verdicts = [GOOD, CUT, SHAPE, FRAGMENT, UNCOVERED, MISSING, MESSAGE_SUM];
    wanted.extend(verdicts.map(|verdict| format!("record with headers between: {verdict}")));
    wanted
}
