// Mistakes about the prefix exchange: other words, fields that are written, and other tests. They lead to other
// outcomes, which the cases must tell from the right one.

use crate::draft::write_word;
use crate::edit::{refused, set_address};
use crate::judge::first;
use crate::mend::mend;
use crate::packet::View;
use crate::prefix::{address_place, exchanged, misfits, SIX};
use crate::sums::{fold, total};
use crate::verdict::*;

/// A verdict, and the packet afterwards.
pub type Outcome = (Verdict, Vec<u8>);

/// An exchange that was asked for, with its right outcome.
pub struct Asked<'a> {
    pub before: View<'a>,
    pub side: u32,
    pub expected: &'a [u8],
    pub new: &'a [u8],
    pub right: Outcome,
}

/// A mistake, by the outcome that it leads to.
pub struct PrefixMistake {
    pub name: &'static str,
    pub outcome: fn(&Asked) -> Outcome,
}

#[rustfmt::skip]
pub const PREFIX_MISTAKES: [PrefixMistake; 13] = [
    PrefixMistake { name: "FFFF for 0000",                    outcome: |asked| asked.with_word(ones_complement) },
    PrefixMistake { name: "no end-around carry",              outcome: |asked| asked.with_word(without_carry) },
    PrefixMistake { name: "the other way round",              outcome: |asked| asked.with_word(reversed) },
    PrefixMistake { name: "the next word left",               outcome: |asked| asked.with_word(|word, _, _| word) },
    PrefixMistake { name: "the last word set",                outcome: last_word_set },
    PrefixMistake { name: "the field updated",                outcome: field_updated },
    PrefixMistake { name: "the packet mended",                outcome: mended },
    PrefixMistake { name: "a word of FFFF taken",             outcome: full_word_taken },
    PrefixMistake { name: "the word tested when it is set",   outcome: tested_when_set },
    PrefixMistake { name: "four bytes compared",              outcome: four_compared },
    PrefixMistake { name: "any beginning expected",           outcome: any_beginning },
    PrefixMistake { name: "every side but 0 the destination", outcome: any_other_side },
    PrefixMistake { name: "IPv4 by its own rules",            outcome: four_by_its_rules },
];

/// The next word by one's complement: the old one with the old prefix's fold, and the new one's taken away. RFC 6296
/// makes 0000 of FFFF then.
pub fn ones_complement(word: u16, old: u16, new: u16) -> u16 {
    fold(u128::from(word) + u128::from(old) + u128::from(65535 - new)).0
}

fn without_carry(word: u16, old: u16, new: u16) -> u16 {
    word.wrapping_add(old).wrapping_sub(new)
}

fn reversed(word: u16, old: u16, new: u16) -> u16 {
    ones_complement(word, new, old) % 0xFFFF
}

impl Asked<'_> {
    /// Whether there is an address on a side at all.
    fn has_address(&self, side: u32) -> bool {
        side < 2 && self.before.bytes.len() >= 40
    }

    /// Whether the exchange is done.
    fn done(&self) -> bool {
        self.right.0 == GOOD && self.has_address(self.side)
    }

    /// What is 10 on a side.
    fn tests(&self, side: u32) -> [bool; 5] {
        misfits(&self.before, side, self.expected, self.new)
    }

    /// What a mistake makes of the next word and the folds of the two prefixes.
    fn word_by(&self, word: fn(u16, u16, u16) -> u16) -> u16 {
        let fold_of = |bytes| fold(total(bytes)).0;
        word(self.before.word(address_place(self.side) + SIX), fold_of(self.expected), fold_of(self.new))
    }

    /// The right outcome, but for another next word.
    fn with_word(&self, word: fn(u16, u16, u16) -> u16) -> Outcome {
        let (verdict, mut packet) = self.right.clone();
        if self.done() {
            write_word(&mut packet, address_place(self.side) + SIX, self.word_by(word));
        }
        (verdict, packet)
    }

    /// The outcome with other tests for 10, and perhaps another side.
    fn unless(&self, refused: bool, side: u32) -> Outcome {
        if ![GOOD, PLACE].contains(&self.right.0) || !self.has_address(side) {
            return self.right.clone();
        }
        let mut packet = self.before.bytes.to_vec();
        if refused {
            return (PLACE, packet);
        }
        let address = &mut packet[address_place(side)..][..16];
        let after = exchanged(address, self.new);
        address.copy_from_slice(&after);
        (GOOD, packet)
    }
}

/// The last word of the address takes up the difference.
fn last_word_set(asked: &Asked) -> Outcome {
    let (verdict, mut packet) = asked.right.clone();
    if asked.done() {
        let (place, fold_of) = (address_place(asked.side), |bytes| fold(total(bytes)).0);
        let [next, last] = [SIX, 14].map(|at| asked.before.word(place + at));
        write_word(&mut packet, place + SIX, next);
        write_word(
            &mut packet,
            place + 14,
            ones_complement(last, fold_of(asked.expected), fold_of(asked.new)) % 0xFFFF,
        );
    }
    (verdict, packet)
}

/// The new address is set by the address edit.
fn field_updated(asked: &Asked) -> Outcome {
    let (verdict, after) = &asked.right;
    let mut packet = asked.before.bytes.to_vec();
    if asked.done() {
        set_address(&mut packet, asked.side, &after[address_place(asked.side)..][..16]);
    }
    (*verdict, packet)
}

fn mended(asked: &Asked) -> Outcome {
    let (verdict, mut packet) = asked.right.clone();
    if asked.done() {
        mend(&mut packet);
    }
    (verdict, packet)
}

fn full_word_taken(asked: &Asked) -> Outcome {
    let [side, expected, new, beginning, _] = asked.tests(asked.side);
    asked.unless(side || expected || new || beginning, asked.side)
}

/// Not the word that stands there is tested for FFFF, but the one that would be written.
fn tested_when_set(asked: &Asked) -> Outcome {
    let [side, expected, new, beginning, _] = asked.tests(asked.side);
    asked.unless(side || expected || new || beginning || asked.word_by(ones_complement) == 0xFFFF, asked.side)
}

fn four_compared(asked: &Asked) -> Outcome {
    let [side, expected, new, _, word] = asked.tests(asked.side);
    let four = &asked.expected[..asked.expected.len().min(4)];
    let beginning = misfits(&asked.before, asked.side, four, asked.new)[3];
    asked.unless(side || expected || new || beginning || word, asked.side)
}

/// An expected prefix of any length that the address begins with.
fn any_beginning(asked: &Asked) -> Outcome {
    let [side, _, new, beginning, word] = asked.tests(asked.side);
    asked.unless(side || new || beginning || word, asked.side)
}

fn any_other_side(asked: &Asked) -> Outcome {
    let side = asked.side.min(1);
    asked.unless(asked.tests(side).contains(&true), side)
}

/// IPv4 is refused as the address edit does, and only then.
fn four_by_its_rules(asked: &Asked) -> Outcome {
    if asked.before.version() == 4 {
        return (first(&asked.before, refused).unwrap_or(PLACE), asked.right.1.clone());
    }
    asked.right.clone()
}
