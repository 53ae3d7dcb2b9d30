// Mistakes about fragments: lists read otherwise, other orders of tests, other bytes put together. They lead to other
// verdicts, which the cases must tell from the right one.

use crate::fragments::*;
use crate::judge::{first, judge};
use crate::packet::View;
use crate::sums::passes;
use crate::verdict::*;

/// A mistake, by the verdict that it leads to for a buffer, a list and the right verdict.
pub struct FragmentMistake {
    pub name: &'static str,
    pub verdict: fn(&[u8], &[Record], Verdict) -> Verdict,
}

#[rustfmt::skip]
pub const FRAGMENT_MISTAKES: [FragmentMistake; 31] = [
    FragmentMistake { name: "an empty list is 10",                verdict: |_, list, right| if list.is_empty() { PLACE } else { right } },
    FragmentMistake { name: "64 are too many",                    verdict: |_, list, right| if list.len() == MOST { PLACE } else { right } },
    FragmentMistake { name: "65 aren't too many",                 verdict: any_number },
    FragmentMistake { name: "refused records not counted",        verdict: sound_counted },
    FragmentMistake { name: "ends that wrap",                     verdict: wrapped },
    FragmentMistake { name: "a record outside in its turn",       verdict: outside_in_turn },
    FragmentMistake { name: "outside to be cut",                  verdict: outside_cut },
    FragmentMistake { name: "empty records passed over",          verdict: |buffer, list, right| without(buffer, list, right, |bytes| bytes.is_empty()) },
    FragmentMistake { name: "empty fragments passed over",        verdict: |buffer, list, right| without(buffer, list, right, is_empty) },
    FragmentMistake { name: "IPv6 by its own rules",              verdict: six_by_its_rules },
    FragmentMistake { name: "the smallest refusal of all",        verdict: |buffer, list, right| refusal_by(buffer, list, right, |all| all.min()) },
    FragmentMistake { name: "the last refusal of all",            verdict: |buffer, list, right| refusal_by(buffer, list, right, |all| all.last()) },
    FragmentMistake { name: "the first header's sum alone",       verdict: first_header_alone },
    FragmentMistake { name: "all tests fragment by fragment",     verdict: one_by_one },
    FragmentMistake { name: "6 before 4",                         verdict: unfilled_first },
    FragmentMistake { name: "put together in list order",         verdict: |buffer, list, right| judged(buffer, list, right, in_list_order) },
    FragmentMistake { name: "only in order",                      verdict: only_in_order },
    FragmentMistake { name: "overlaps taken",                     verdict: |buffer, list, right| unless(buffer, list, right, &["overlap"]) },
    FragmentMistake { name: "gaps taken for zeros",               verdict: |buffer, list, right| unless(buffer, list, right, &["gap", "no multiple of 8"]) },
    FragmentMistake { name: "messages that begin late",           verdict: late },
    FragmentMistake { name: "more-fragments not looked at",       verdict: |buffer, list, right| unless(buffer, list, right, &["no more before the end", "more behind the end"]) },
    FragmentMistake { name: "identification not looked at",       verdict: |buffer, list, right| unless(buffer, list, right, &["another identification"]) },
    FragmentMistake { name: "protocol not looked at",             verdict: |buffer, list, right| unless(buffer, list, right, &["another protocol"]) },
    FragmentMistake { name: "source not looked at",               verdict: |buffer, list, right| unless(buffer, list, right, &["another source"]) },
    FragmentMistake { name: "destination not looked at",          verdict: |buffer, list, right| unless(buffer, list, right, &["another destination"]) },
    FragmentMistake { name: "tails in the message",               verdict: |buffer, list, right| judged(buffer, list, right, with_tails) },
    FragmentMistake { name: "headers of 20 bytes",                verdict: |buffer, list, right| judged(buffer, list, right, behind_20) },
    FragmentMistake { name: "the sum to a fragment's end",        verdict: to_fragment_end },
    FragmentMistake { name: "messages to 65,535",                 verdict: to_65535 },
    FragmentMistake { name: "the other flags must be alike",      verdict: flags_alike },
    FragmentMistake { name: "the first fragment for the message", verdict: |buffer, list, right| judged(buffer, list, right, first_alone) },
];

/// The fragments, if the list and each of them by itself are right.
fn sound<'a>(buffer: &'a [u8], list: &[Record]) -> Option<Bundle<'a>> {
    let packets = listed(buffer, list).ok()?;
    packets.iter().all(|packet| refused(packet).is_none()).then(|| Bundle::new(packets))
}

/// Whether a test finds fault.
fn fails(all: &Bundle, test: &Test) -> bool {
    !(test.at_fault)(all).is_empty()
}

/// A bundle's verdict where some tests aren't made.
fn unless(buffer: &[u8], list: &[Record], right: Verdict, left_out: &[&str]) -> Verdict {
    let all = match sound(buffer, list) {
        Some(all) => all,
        None => return right,
    };
    let looked_at = TESTS.iter().filter(|test| !left_out.contains(&test.name));
    looked_at.into_iter().find(|test| fails(&all, test)).map_or_else(|| judge(&all.whole()), |test| test.number)
}

/// The verdict on another message, where the fragments fill theirs.
fn judged(buffer: &[u8], list: &[Record], right: Verdict, message: fn(&Bundle) -> Vec<u8>) -> Verdict {
    match sound(buffer, list) {
        Some(all) if !TESTS.iter().any(|test| fails(&all, test)) => judge(&all.packet_with(&message(&all))),
        _ => right,
    }
}

/// As many as there are.
fn any_number(buffer: &[u8], list: &[Record], right: Verdict) -> Verdict {
    if list.len() <= MOST || list.iter().any(|record| record.within(buffer).is_none()) {
        return right;
    }
    let packets: Vec<&[u8]> = list.iter().filter_map(|record| record.within(buffer)).collect();
    match packets.iter().find_map(|packet| refused(packet)) {
        Some(refusal) => refusal,
        None => together(&Bundle::new(packets)),
    }
}

/// The verdict on fragments that passed by themselves.
fn together(all: &Bundle) -> Verdict {
    TESTS.iter().find(|test| fails(all, test)).map_or_else(|| judge(&all.whole()), |test| test.number)
}

/// Only records that pass by themselves are too many.
fn sound_counted(buffer: &[u8], list: &[Record], right: Verdict) -> Verdict {
    let packets: Vec<&[u8]> = list.iter().filter_map(|record| record.within(buffer)).collect();
    let refusals: Vec<Verdict> = packets.iter().filter_map(|packet| refused(packet)).collect();
    let few = packets.len() == list.len() && list.len() - refusals.len() <= MOST;
    refusals.first().copied().filter(|_| few).unwrap_or(right)
}

/// Offset plus length in 64 bits.
fn wrapped(buffer: &[u8], list: &[Record], right: Verdict) -> Verdict {
    let inside = |record: &Record| record.offset.wrapping_add(record.length) <= buffer.len() as u64;
    let outside = list.iter().any(|record| record.within(buffer).is_none());
    match right {
        PLACE if outside && list.len() <= MOST && list.iter().all(inside) => GOOD,
        _ => right,
    }
}

/// A fragment before it in the list that is refused comes first.
fn outside_in_turn(buffer: &[u8], list: &[Record], right: Verdict) -> Verdict {
    if right != PLACE || list.len() > MOST {
        return right;
    }
    let refusals = list.iter().map(|record| record.within(buffer).map_or(Some(PLACE), refused));
    refusals.flatten().next().unwrap_or(right)
}

/// What is outside is 2.
fn outside_cut(_: &[u8], list: &[Record], right: Verdict) -> Verdict {
    match right {
        PLACE if list.len() <= MOST => CUT,
        _ => right,
    }
}

fn is_empty(packet: &[u8]) -> bool {
    refused(packet).is_none() && View::read_as(packet, 4).message_length() == 0
}

/// Some records are passed over.
fn without(buffer: &[u8], list: &[Record], right: Verdict, passed: fn(&[u8]) -> bool) -> Verdict {
    let others: Vec<Record> =
        list.iter().filter(|record| !record.within(buffer).map_or(false, passed)).copied().collect();
    if right == PLACE {
        return right;
    }
    judge_fragments(buffer, &others)
}

/// IPv6 is refused as the judge refuses it, and else as a fragment.
fn six_by_its_rules(buffer: &[u8], list: &[Record], right: Verdict) -> Verdict {
    let refusal = |packet: &&[u8]| match packet.first() {
        Some(byte) if byte >> 4 == 6 => Some(first(&View::new(packet), |_| true).unwrap_or(FRAGMENT)),
        _ => refused(packet),
    };
    listed(buffer, list).map_or(right, |packets| packets.iter().find_map(refusal).unwrap_or(right))
}

/// Another of the refusals that fragments meet by themselves than the first in the list.
fn refusal_by(
    buffer: &[u8],
    list: &[Record],
    right: Verdict,
    choose: fn(&mut dyn Iterator<Item = Verdict>) -> Option<Verdict>,
) -> Verdict {
    match listed(buffer, list) {
        Ok(packets) => choose(&mut packets.iter().filter_map(|packet| refused(packet))).unwrap_or(right),
        Err(_) => right,
    }
}

/// The other headers' sums aren't looked at.
fn first_header_alone(buffer: &[u8], list: &[Record], right: Verdict) -> Verdict {
    let packets = match listed(buffer, list) {
        Ok(packets) => packets,
        Err(_) => return right,
    };
    let refusals = packets.iter().enumerate().filter_map(|(i, packet)| refused(packet).map(|refusal| (i, refusal)));
    let found = refusals.map(|(i, refusal)| if i > 0 && refusal == HEADER_SUM { None } else { Some(refusal) });
    let found: Vec<Option<Verdict>> = found.collect();
    match found.iter().flatten().next() {
        Some(refusal) => *refusal,
        None if found.is_empty() => right,
        None => together(&Bundle::new(packets)),
    }
}

/// What is 4 of fragments together is tested as each of them comes.
fn one_by_one(buffer: &[u8], list: &[Record], right: Verdict) -> Verdict {
    let packets = match listed(buffer, list) {
        Ok(packets) => packets,
        Err(_) => return right,
    };
    for count in 1..=packets.len() {
        if let Some(refusal) = refused(packets[count - 1]) {
            return refusal;
        }
        let so_far = Bundle::new(packets[..count].iter().copied());
        if TESTS.iter().filter(|test| test.number == SHAPE).any(|test| fails(&so_far, test)) {
            return SHAPE;
        }
    }
    right
}

fn unfilled_first(buffer: &[u8], list: &[Record], right: Verdict) -> Verdict {
    match sound(buffer, list) {
        Some(all) if TESTS.iter().any(|test| test.number == FRAGMENT && fails(&all, test)) => FRAGMENT,
        _ => right,
    }
}

/// Fragments fill a message from wherever the first of them begins.
fn late(buffer: &[u8], list: &[Record], right: Verdict) -> Verdict {
    let all = match sound(buffer, list) {
        Some(all) if right == FRAGMENT => all,
        _ => return right,
    };
    let begin = all.parts.iter().map(start).min();
    let others = TESTS.iter().any(|test| test.name != "gap" && fails(&all, test));
    let gaps = TESTS.iter().filter(|test| test.name == "gap").flat_map(|test| (test.at_fault)(&all));
    if others || gaps.into_iter().any(|i| Some(start(&all.parts[i])) != begin) {
        return right;
    }
    judge(&all.packet_with(&all.message()[begin.unwrap_or(0)..]))
}

fn in_list_order(all: &Bundle) -> Vec<u8> {
    all.parts.iter().flat_map(|part| part.message()).copied().collect()
}

/// Fragments must come in the message's order.
fn only_in_order(buffer: &[u8], list: &[Record], right: Verdict) -> Verdict {
    match sound(buffer, list) {
        Some(all) if together(&all) == right => {
            let starts: Vec<usize> = all.parts.iter().map(start).collect();
            let four = TESTS.iter().any(|test| test.number == SHAPE && fails(&all, test));
            if !four && starts.windows(2).any(|two| two[0] > two[1]) {
                FRAGMENT
            } else {
                right
            }
        }
        _ => right,
    }
}

/// The fragments in the message's order.
fn sorted<'a, 'b>(all: &'b Bundle<'a>) -> Vec<&'b View<'a>> {
    let mut parts: Vec<&View> = all.parts.iter().collect();
    parts.sort_by_key(|part| start(part));
    parts
}

/// A record's bytes to its end are taken for the fragment's.
fn with_tails(all: &Bundle) -> Vec<u8> {
    let bytes = |part: &&View| part.bytes[part.header_length()..].to_vec();
    let mut message: Vec<u8> = sorted(all).iter().flat_map(bytes).collect();
    message.truncate(LONGEST);
    message
}

/// Options are taken for the message's first bytes.
fn behind_20(all: &Bundle) -> Vec<u8> {
    let bytes = |part: &&View| part.bytes[20..20 + part.message_length()].to_vec();
    sorted(all).iter().flat_map(bytes).collect()
}

/// The sum goes on to the end of the fragment in which the datagram ends.
fn to_fragment_end(buffer: &[u8], list: &[Record], right: Verdict) -> Verdict {
    let all = match sound(buffer, list) {
        Some(all) if [GOOD, MESSAGE_SUM].contains(&right) => all,
        _ => return right,
    };
    let whole = all.whole();
    let view = View::new(&whole);
    let last = all.parts.iter().find(|part| (start(part)..end(part)).contains(&(view.covered_length() - 1)));
    let block = [&view.pseudo_header()[..], &view.message()[..last.map_or(0, end)]].concat();
    if passes(&block) {
        GOOD
    } else {
        MESSAGE_SUM
    }
}

fn first_alone(all: &Bundle) -> Vec<u8> {
    sorted(all)[0].message().to_vec()
}

/// What ends before 65,535 is taken, and then 6 is looked for.
fn to_65535(buffer: &[u8], list: &[Record], right: Verdict) -> Verdict {
    match sound(buffer, list) {
        Some(all) if all.parts.iter().all(|part| end(part) <= 65_535) => {
            let looked_at = TESTS.iter().filter(|test| test.name != "past 65,515");
            looked_at.into_iter().find(|test| fails(&all, test)).map_or(right, |test| test.number)
        }
        _ => right,
    }
}

/// Don't-fragment and the reserved flag are compared.
fn flags_alike(buffer: &[u8], list: &[Record], right: Verdict) -> Verdict {
    match sound(buffer, list) {
        Some(all) if all.parts.iter().any(|part| (part.word(6) ^ all.parts[0].word(6)) & 0xC000 != 0) => SHAPE,
        _ => right,
    }
}
