// The stored cases and answers are those of seed 1; the case format is read as CASES.md says.

use second::answer::{build_payload, digest, exchange_payload, list_payload, Case, Desk, Next};
use second::answer::{ADDRESS, BUILD, FRAGMENTS, JUDGE, LEFT, LIFETIME, MEND, PREFIX, STRETCH};
use second::build::{Parts, MOST};
use second::cases;
use second::cases::prefixes::CORNER_WORDS;
use second::fragments::Record;
use second::judge::{first, judge};
use second::mistakes::build::{Asked as AskedToBuild, BUILD_MISTAKES};
use second::mistakes::fragments::FRAGMENT_MISTAKES;
use second::mistakes::prefix::{Asked, PREFIX_MISTAKES};
use second::mistakes::{at_40, BETWEEN_MISTAKES, MISTAKES};
use second::packet::View;
use second::prefix::address_place;
use second::updates::updated_fields;
use std::collections::{BTreeMap, BTreeSet};
use std::fs;

/// The answers to a file of cases, and whether it ends well.
fn answers(mut input: &[u8]) -> (String, bool) {
    let (mut desk, mut lines) = (Desk::default(), String::new());
    loop {
        match Case::read(&mut input).unwrap() {
            Next::Case(case) => {
                desk.lay(&case);
                lines += &desk.answer(&case);
            }
            Next::Bad => return (lines, false),
            Next::End => return (lines, true),
        }
    }
}

#[test]
fn the_stored_cases_and_answers_are_those_of_seed_1() {
    let folder = concat!(env!("CARGO_MANIFEST_DIR"), "/../../crates/vectors");
    let (bytes, count) = cases::stored(1).unwrap();
    assert!(count >= 20_000);
    assert!(fs::read(format!("{folder}/stdin")).unwrap() == bytes, "stdin isn't what seed 1 gives");
    let stored = fs::read_to_string(format!("{folder}/stdout")).unwrap();
    assert!((stored, true) == answers(&bytes), "stdout isn't what stdin gives");
}

#[test]
fn fuzz_cases_are_well_formed_and_the_same_from_the_same_seed() {
    let (mut one, mut two) = (Vec::new(), Vec::new());
    cases::fuzz(9, 3000, &mut one).unwrap();
    cases::fuzz(9, 3000, &mut two).unwrap();
    assert!(one == two);
    let (lines, well) = answers(&one);
    assert!(well && lines.lines().count() >= 3000);
}

#[test]
fn fuzz_reaches_long_chains_and_both_answers_of_a_join() {
    let mut bytes = Vec::new();
    cases::fuzz(9, 250_000, &mut bytes).unwrap();
    let (mut input, mut desk, mut long, mut joins) = (&bytes[..], Desk::default(), 0, [0, 0]);
    while let Next::Case(case) = Case::read(&mut input).unwrap() {
        desk.lay(&case);
        match case.operation {
            6 if case.two.len() > 8000 => long += 1,
            11 => joins[usize::from(desk.answer(&case).starts_with("10 "))] += 1,
            _ => {}
        }
    }
    assert!(long >= 1 && joins[0] >= 100 && joins[1] >= 100, "{long} long chains, joins {joins:?}");
}

/// Every kind of packet, both of its fields, and the update by itself.
#[test]
fn fuzz_reaches_each_update_where_equation_3_answers_ffff() {
    let mut bytes = Vec::new();
    cases::fuzz(9, 60_000, &mut bytes).unwrap();
    let (mut input, mut desk, mut alone, mut edits) = (&bytes[..], Desk::default(), 0, BTreeMap::new());
    while let Next::Case(case) = Case::read(&mut input).unwrap() {
        desk.lay(&case);
        let before = desk.buffer.clone();
        let answer = desk.answer(&case);
        alone += u32::from(case.operation == 10 && case.number == 0xFFFF_FFFF_0000);
        if (2..=4).contains(&case.operation) && answer.starts_with("0 ") {
            let view = View::new(&before);
            for updated in updated_fields(&case, &view).iter().filter(|updated| updated.from_full_to_zeros()) {
                *edits.entry((view.kind(), updated.header)).or_insert(0) += 1;
            }
        }
    }
    assert!(alone >= 100 && edits.len() == 9 && edits.values().all(|count| *count >= 20), "{alone} {edits:?}");
}

/// Each verdict that the lifetime edit passes over, lowered and spent; and the lifetime lowered right after another
/// edit refused the same packet.
#[test]
fn fuzz_reaches_lifetimes_of_packets_that_the_other_edits_refuse() {
    let mut bytes = Vec::new();
    cases::fuzz(9, 90_000, &mut bytes).unwrap();
    let (mut input, mut desk, mut last, mut met) = (&bytes[..], Desk::default(), String::new(), BTreeMap::new());
    while let Next::Case(case) = Case::read(&mut input).unwrap() {
        desk.lay(&case);
        let (family, verdict) = (View::new(&desk.buffer).family, judge(&desk.buffer));
        let answer = desk.answer(&case);
        if case.operation == LIFETIME && (4..=8).contains(&verdict) {
            for lowered in ["0 ", "11 "] {
                *met.entry((family, verdict, lowered)).or_insert(0) += u32::from(answer.starts_with(lowered));
            }
            let again = case.source == LEFT && answer.starts_with("0 ") && last.starts_with(&format!("{verdict} "));
            *met.entry((family, verdict, "again")).or_insert(0) += u32::from(again);
        }
        last = if (ADDRESS..=STRETCH).contains(&case.operation) { answer } else { String::new() };
    }
    for (family, verdict) in [(4, 4), (4, 6), (4, 7), (6, 4), (6, 7), (6, 8)] {
        for (what, least) in [("0 ", 60), ("11 ", 20), ("again", 10)] {
            let count = met[&(family, verdict, what)];
            assert!(count >= least, "IPv{family}, verdict {verdict}, {what}: {count}");
        }
    }
}

/// Datagrams and trailing areas of even and odd lengths in both families: each call done and refused, and sums that a
/// mistake about the datagram's end finds right.
#[test]
fn fuzz_reaches_trailing_areas() {
    let mut bytes = Vec::new();
    cases::fuzz(9, 180_000, &mut bytes).unwrap();
    let (mut input, mut desk, mut met, mut mistaken) = (&bytes[..], Desk::default(), BTreeMap::new(), BTreeMap::new());
    while let Next::Case(case) = Case::read(&mut input).unwrap() {
        desk.lay(&case);
        let before = desk.buffer.clone();
        let (view, answer) = (View::new(&before), desk.answer(&case));
        if case.operation > STRETCH || view.trailing_length() == 0 {
            continue;
        }
        let verdict: u8 = answer.trim_end().split(' ').next().unwrap().parse().unwrap();
        let odd = (view.covered_length() % 2, view.trailing_length() % 2);
        *met.entry((view.family, odd, case.operation, verdict)).or_insert(0) += 1;
        if (case.operation, verdict) == (JUDGE, 9) {
            for (i, _) in MISTAKES.iter().enumerate().filter(|(_, mistake)| mistake.passes(&view)) {
                *mistaken.entry((view.family, i)).or_insert(0) += 1;
            }
        }
    }
    let kinds = [(4, 1), (6, 8)].into_iter().flat_map(|kind| [(0, 0), (0, 1), (1, 0), (1, 1)].map(|odd| (kind, odd)));
    for ((family, zero), odd) in kinds {
        let calls = [(JUDGE, 0), (JUDGE, 2), (JUDGE, 9), (JUDGE, zero), (MEND, 0), (LIFETIME, 0)];
        for call in calls.into_iter().chain([(ADDRESS, 0), (ADDRESS, 10), (STRETCH, 0), (STRETCH, 10)]) {
            let count = met.get(&(family, odd, call.0, call.1)).copied().unwrap_or(0);
            assert!(count >= 10, "IPv{family}, odd {odd:?}, call {call:?}: {count}");
        }
    }
    assert!(mistaken.len() == 10 && mistaken.values().all(|count| *count >= 10), "{mistaken:?}");
}

/// Messages of each protocol behind one to eight headers, each call done and refused; each that stops the walk, in every
/// call; every two of them, in one header and in two; and sums that a mistake about the headers finds right.
#[test]
fn fuzz_reaches_headers_between() {
    let mut bytes = Vec::new();
    cases::fuzz(9, 250_000, &mut bytes).unwrap();
    let (mut input, mut desk) = (&bytes[..], Desk::default());
    let (mut walked, mut called, mut stopped) = (BTreeMap::new(), BTreeMap::new(), BTreeMap::new());
    let (mut in_one, mut in_two, mut mistaken) = (BTreeMap::new(), BTreeMap::new(), BTreeMap::new());
    while let Next::Case(case) = Case::read(&mut input).unwrap() {
        desk.lay(&case);
        let before = desk.buffer.clone();
        let (view, answer) = (View::new(&before), desk.answer(&case));
        if case.operation > STRETCH || view.walk.headers.is_empty() || before.len() < view.end().max(40) {
            continue;
        }
        let verdict: u8 = answer.trim_end().split(' ').next().unwrap().parse().unwrap();
        let headers = &view.walk.headers;
        if let Some(at) = headers.iter().position(|header| !header.stops.is_empty()) {
            let (stop, others) = headers[at].stops.split_first().unwrap();
            *stopped.entry((case.operation, *stop)).or_insert(0) += 1;
            others.iter().for_each(|other| *in_one.entry((*stop, *other)).or_insert(0) += 1);
            let later = headers[at + 1..].iter().flat_map(|header| &header.stops);
            later.for_each(|other| *in_two.entry((*stop, *other)).or_insert(0) += 1);
            continue;
        }
        *called.entry((case.operation, verdict)).or_insert(0) += 1;
        if (case.operation, verdict) == (JUDGE, 0) {
            *walked.entry((view.protocol(), headers.len())).or_insert(0) += 1;
        }
        if (case.operation, verdict) == (JUDGE, 9) {
            let wrong = BETWEEN_MISTAKES.iter().map(|mistake| mistake.passes(&view));
            let wrong = wrong.chain([first(&at_40(&view), |_| true).is_none()]);
            wrong.enumerate().filter(|(_, passes)| *passes).for_each(|(i, _)| *mistaken.entry(i).or_insert(0) += 1);
        }
    }
    assert!(walked.len() == 24 && walked.values().all(|count| *count >= 10), "{walked:?}");
    let calls = [(JUDGE, &[0, 4, 7, 8, 9][..]), (MEND, &[0, 4, 7]), (LIFETIME, &[0, 11])];
    for (operation, verdicts) in calls.into_iter().chain([ADDRESS, STRETCH].map(|op| (op, &[0, 4, 7, 8, 10][..]))) {
        assert!(verdicts.iter().all(|verdict| called[&(operation, *verdict)] >= 50), "{operation}: {called:?}");
    }
    assert!(stopped.len() == 25 && stopped.values().all(|count| *count >= 50), "{stopped:?}");
    assert!(in_one.len() == 7 && in_one.values().all(|count| *count >= 10), "{in_one:?}");
    assert!(in_two.len() == 24 && in_two.values().all(|count| *count >= 10), "{in_two:?}");
    assert!(mistaken.len() == 6 && mistaken.values().all(|count| *count >= 10), "{mistaken:?}");
}

/// Prefixes of each protocol exchanged on both sides, behind headers and not, in packets that are good and that aren't;
/// every verdict; words at the corners; and exchanges that each mistake makes otherwise.
#[test]
fn fuzz_reaches_prefixes() {
    let mut bytes = Vec::new();
    cases::fuzz(9, 120_000, &mut bytes).unwrap();
    let (mut input, mut desk) = (&bytes[..], Desk::default());
    let (mut done, mut refused, mut words) = (BTreeMap::new(), BTreeMap::new(), BTreeMap::new());
    let mut told = [0; PREFIX_MISTAKES.len()];
    while let Next::Case(case) = Case::read(&mut input).unwrap() {
        desk.lay(&case);
        let before = desk.buffer.clone();
        let (view, answer) = (View::new(&before), desk.answer(&case));
        if case.operation != PREFIX {
            continue;
        }
        let verdict: u8 = answer.trim_end().split(' ').next().unwrap().parse().unwrap();
        let (side, expected, new) = case.exchange();
        *refused.entry((view.family == 4, verdict)).or_insert(0) += 1;
        if verdict == 0 {
            let place = address_place(side) + 6;
            *done.entry((view.protocol(), side, judge(&before), view.walk.headers.is_empty())).or_insert(0) += 1;
            *words.entry([view.word(place), View::new(&desk.buffer).word(place)]).or_insert(0) += 1;
        }
        let asked = Asked { before: view.clone(), side, expected, new, right: (verdict, desk.buffer.clone()) };
        for (count, mistake) in told.iter_mut().zip(&PREFIX_MISTAKES).filter(|(count, _)| **count < 20) {
            *count += u32::from((mistake.outcome)(&asked) != asked.right);
        }
    }
    assert!(done.len() == 24 && done.values().all(|count| *count >= 20), "{done:?}");
    let verdicts =
        [(true, 3), (false, 0), (false, 2), (false, 3), (false, 4), (false, 6), (false, 7), (false, 8), (false, 10)];
    assert!(refused.keys().eq(&verdicts.into_iter().collect::<BTreeSet<_>>()), "{refused:?}");
    assert!(refused.values().all(|count| *count >= 50), "{refused:?}");
    for two in CORNER_WORDS.into_iter().flat_map(|was| CORNER_WORDS.map(|is| [was, is])) {
        assert!(words.get(&two) >= Some(&5), "{two:04X?}");
    }
    assert!(told.iter().all(|count| *count == 20), "{told:?}");
}

/// Every verdict on fragments; few and many of them; and verdicts that each mistake makes otherwise.
#[test]
fn fuzz_reaches_fragments() {
    let mut bytes = Vec::new();
    cases::fuzz(9, 180_000, &mut bytes).unwrap();
    let (mut input, mut desk) = (&bytes[..], Desk::default());
    let (mut verdicts, mut counts, mut long) = (BTreeMap::new(), BTreeMap::new(), 0);
    let mut told = [0; FRAGMENT_MISTAKES.len()];
    while let Next::Case(case) = Case::read(&mut input).unwrap() {
        desk.lay(&case);
        if case.operation != FRAGMENTS {
            continue;
        }
        let (list, verdict) = (case.list(), desk.answer(&case).trim_end().parse().unwrap());
        *verdicts.entry(verdict).or_insert(0) += 1;
        *counts.entry((list.len().min(5), verdict == 0)).or_insert(0) += 1;
        long += u32::from(verdict == 0 && list.len() > 50);
        for (count, mistake) in told.iter_mut().zip(&FRAGMENT_MISTAKES).filter(|(count, _)| **count < 5) {
            *count += u32::from((mistake.verdict)(&desk.buffer, &list, verdict) != verdict);
        }
    }
    assert!(verdicts.keys().eq(&[0, 1, 2, 3, 4, 5, 6, 7, 9, 10]), "{verdicts:?}");
    assert!(verdicts.values().all(|count| *count >= 50), "{verdicts:?}");
    assert!((1..=5).all(|count| [false, true].iter().all(|good| counts[&(count, *good)] >= 50)), "{counts:?}");
    assert!(long >= 5, "{long}");
    let rare: Vec<&str> =
        FRAGMENT_MISTAKES.iter().zip(told).filter(|(_, count)| *count < 5).map(|(mistake, _)| mistake.name).collect();
    assert!(rare.is_empty(), "{rare:?}");
}

/// Every verdict on builds of each family; bodies that are long, and sums that compute to 0000; and outcomes that each
/// mistake makes otherwise.
#[test]
fn fuzz_reaches_builds() {
    let mut bytes = Vec::new();
    cases::fuzz(9, 120_000, &mut bytes).unwrap();
    let (mut input, mut desk, mut told) = (&bytes[..], Desk::default(), [0; BUILD_MISTAKES.len()]);
    let (mut verdicts, mut zeros, mut long) = (BTreeMap::new(), BTreeMap::new(), BTreeMap::new());
    while let Next::Case(case) = Case::read(&mut input).unwrap() {
        desk.lay(&case);
        let before = desk.buffer.clone();
        let answer = desk.answer(&case);
        if case.operation != BUILD {
            continue;
        }
        let numbers: Vec<usize> = answer.split_whitespace().map(|word| word.parse().unwrap()).collect();
        let (parts, verdict) = (case.parts(), numbers[0] as u8);
        *verdicts.entry((parts.family(), verdict)).or_insert(0) += 1;
        if verdict == 0 && parts.computed_sum().0 == 0 {
            *zeros.entry((parts.family(), parts.body.len() % 2)).or_insert(0) += 1;
        }
        *long.entry((parts.body.len(), verdict)).or_insert(0) += 1;
        let asked = AskedToBuild { parts, before: &before, right: (verdict, numbers[1], desk.buffer.clone()) };
        for (count, mistake) in told.iter_mut().zip(&BUILD_MISTAKES).filter(|(count, _)| **count < 5) {
            *count += u32::from((mistake.outcome)(&asked) != asked.right);
        }
    }
    let of_families = [Some(4), Some(6)].into_iter().flat_map(|family| [0, 10, 11, 16].map(|v| (family, v)));
    let possible: BTreeSet<_> = of_families.chain([(None, 10)]).collect();
    assert!(verdicts.keys().eq(&possible) && verdicts.values().all(|count| *count >= 10), "{verdicts:?}");
    assert!(zeros.len() == 4 && zeros.values().all(|count| *count >= 20), "{zeros:?}");
    for (length, verdict) in [(MOST - 1, 0), (MOST, 0), (MOST + 1, 10)] {
        assert!(long.get(&(length, verdict)) >= Some(&5), "{length}: {:?}", long.get(&(length, verdict)));
    }
    let rare: Vec<&str> =
        BUILD_MISTAKES.iter().zip(told).filter(|(_, count)| *count < 5).map(|(mistake, _)| mistake.name).collect();
    assert!(rare.is_empty(), "{rare:?}");
}

#[test]
fn sources_and_malformed_cases() {
    let case = |operation: u8, source: u8, one: &[u8]| {
        Case { operation, source, number: 0, one: one.to_vec(), two: vec![] }.to_bytes()
    };
    let good = [case(9, 0, &[0xAB]), case(9, 1, &[]), case(9, 2, &[])].concat();
    assert_eq!(answers(&good), ("21759\n".repeat(3), true));
    assert_eq!(answers(&good[..good.len() - 1]), ("21759\n".repeat(2), false));
    assert_eq!(answers(&case(16, 0, &[])), (String::new(), false));
    assert_eq!(answers(&case(0, 3, &[])), (String::new(), false));
    let mut cut = case(0, 0, &[1, 2]);
    cut.pop();
    assert_eq!(answers(&cut), (String::new(), false));
    let mut large = case(0, 0, &[]);
    large[10..14].copy_from_slice(&131_073_u32.to_be_bytes());
    assert_eq!(answers(&large), (String::new(), false));
    let chain = |two: &[u8]| Case { operation: 6, source: 0, number: 0, one: vec![0xAB], two: two.to_vec() }.to_bytes();
    assert_eq!(answers(&chain(&[0; 8])), ("0 0 0\n".to_string(), true));
    assert_eq!(answers(&chain(&[0, 0, 0, 0, 0, 0, 0, 1])), ("0 43776 1\n".to_string(), true));
    assert_eq!(answers(&chain(&[0; 4])), ("10 0 0\n".to_string(), true));
    for size in [1, 2, 3, 5, 6, 7, 9] {
        assert_eq!(answers(&chain(&vec![0; size])), (String::new(), false));
    }
}

/// The example of RFC 6296; a case whose expected prefix is longer than payload two is malformed.
#[test]
fn prefix_exchanges_as_the_format_has_them() {
    let (inside, outside) = ([0xFD, 1, 2, 3, 4, 5], [0x20, 1, 0xD, 0xB8, 0, 1]);
    let head = [0x60, 0, 0, 0, 0, 4, 58, 64];
    let one = [&head[..], &[0; 16], &inside, &[0, 1, 0, 0, 0, 0, 0, 0, 0x12, 0x34], &[0x80, 0, 0, 0]].concat();
    let after = [&head[..], &[0; 16], &outside, &[0xD5, 0x50, 0, 0, 0, 0, 0, 0, 0x12, 0x34], &[0x80, 0, 0, 0]].concat();
    let (number, two) = exchange_payload(1, &inside, &outside);
    assert_eq!((number, two.len()), (0x0000_0006_0000_0001, 12));
    let case = |number, two: &[u8]| {
        Case { operation: PREFIX, source: 0, number, one: one.clone(), two: two.to_vec() }.to_bytes()
    };
    assert_eq!(answers(&case(number, &two)), (format!("0 {}\n", digest(&after)), true));
    for (size, side) in [(5, 1), (7, 1), (12, 1), (0, 1), (6, 0), (6, 2), (6, u64::from(u32::MAX))] {
        assert_eq!(answers(&case(size << 32 | side, &two)), (format!("10 {}\n", digest(&one)), true));
    }
    for size in [13, 0xFFFF_FFFF] {
        assert_eq!(answers(&case(size << 32, &two)), (String::new(), false));
    }
    assert_eq!(answers(&case(1 << 32, &[])), (String::new(), false));
}

/// The example of 28 bytes as the only fragment. A list that doesn't end with a whole record is malformed.
#[test]
fn fragments_as_the_format_has_them() {
    let head = [0x45, 0, 0, 0x1C, 0, 0, 0, 0, 0x40, 1, 0x66, 0xDF, 0x0A, 0, 0, 1, 0x0A, 0, 0, 2];
    let one = [&[7][..], &head, &[8, 0, 0xF7, 0xFD, 0, 1, 0, 1]].concat();
    let case = |two: &[u8]| {
        Case { operation: FRAGMENTS, source: 0, number: 0, one: one.clone(), two: two.to_vec() }.to_bytes()
    };
    let list = list_payload(&[Record { offset: 1, length: 28 }]);
    assert_eq!(list, [0, 0, 0, 0, 0, 0, 0, 1, 0, 0, 0, 0, 0, 0, 0, 28]);
    assert_eq!(answers(&case(&list)), ("0\n".to_string(), true));
    assert_eq!(answers(&case(&[])), ("2\n".to_string(), true));
    assert_eq!(answers(&case(&[&list[..], &list].concat())), ("6\n".to_string(), true));
    assert_eq!(answers(&case(&[0xFF; 16])), ("10\n".to_string(), true));
    for size in [1, 8, 15, 17, 24] {
        assert_eq!(answers(&case(&vec![0; size])), (String::new(), false));
    }
}

/// The paper's example 11, built. A case whose addresses are longer than payload two is malformed.
#[test]
fn builds_as_the_format_has_them() {
    let parts = Parts {
        source: &[0xC0, 0xA8, 0, 1],
        destination: &[0xC0, 0xA8, 0, 0xC7],
        source_port: 0x1388,
        destination_port: 0x1389,
        lifetime: 64,
        body: &[0x48, 0x69],
    };
    let (number, two) = build_payload(&parts);
    assert_eq!((number, &two[..]), (0x1388_1389_4000_4004, &[0xC0, 0xA8, 0, 1, 0xC0, 0xA8, 0, 0xC7, 0x48, 0x69][..]));
    let case = |number, room: usize, two: &[u8]| {
        Case { operation: BUILD, source: 0, number, one: vec![7; room], two: two.to_vec() }.to_bytes()
    };
    let after = [&parts.packet()[..], &[7; 3]].concat();
    assert_eq!(answers(&case(number, 33, &two)), (format!("0 30 {}\n", digest(&after)), true));
    assert_eq!(answers(&case(number, 30, &two)), (format!("0 30 {}\n", digest(&after[..30])), true));
    assert_eq!(answers(&case(number, 29, &two)), (format!("16 0 {}\n", digest(&[7; 29])), true));
    assert_eq!(answers(&case(number - 0x4000_0000, 29, &two)), (format!("11 0 {}\n", digest(&[7; 29])), true));
    for sizes in [0x4003, 0x4005, 0x3004, 0x5004, 0xA000, 0x000A, 0] {
        let number = number & 0xFFFF_FFFF_0000_0000 | sizes;
        assert_eq!(answers(&case(number, 33, &two)), (format!("10 0 {}\n", digest(&[7; 33])), true));
    }
    for sizes in [0x4007, 0x7004, 0xB000, 0x000B, 0xFFF000, 0x000FFF, 0xFFFFFF] {
        assert_eq!(answers(&case(sizes, 33, &two)), (String::new(), false));
    }
    let (number, two) = build_payload(&Parts { source: &[0; 4095], destination: &[0; 4095], ..parts });
    assert_eq!(answers(&case(number, 0, &two)), ("10 0 0\n".to_string(), true));
    assert_eq!(answers(&case(number, 0, &two[..8189])), (String::new(), false));
}

#[test]
fn partial_sums_and_joins_as_the_format_has_them() {
    let partial = Case { operation: 7, source: 0, number: 0, one: vec![0xAB; 3], two: vec![] };
    assert_eq!(answers(&partial.to_bytes()), ("22188 3\n".to_string(), true));
    let join = |two: &[u8]| Case { operation: 11, source: 0, number: 0, one: vec![], two: two.to_vec() }.to_bytes();
    let two = [0xF2, 0x01, 0, 0, 0, 0, 0, 0, 0, 3, 0xF0, 0xEB, 0, 0, 0, 0, 0, 0, 0, 5];
    assert_eq!(answers(&join(&two)), (format!("0 {} 8\n", 0xDDF2), true));
    let mut long = two;
    long[2..10].fill(0xFF);
    assert_eq!(answers(&join(&long)), (format!("10 {} {}\n", 0xF201, u64::MAX), true));
    for size in [0, 1, 8, 10, 19, 21, 40] {
        assert_eq!(answers(&join(&vec![0; size])), (String::new(), false));
    }
}
