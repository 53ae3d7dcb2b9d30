// Updates by themselves: what an edit's updates start from, and records that a program in C holds a library to.

use crate::answer::{Case, ADDRESS, LIFETIME, STRETCH};
use crate::packet::{View, HEADER_FIELD, UDP};
use crate::random::Random;
use crate::sums::{fold, total_at, update, Field, Fold};
use std::io::{self, Write};

/// A field that an edit updates: whether it is the header's, its place, how it stood, and the folds of the old and
/// the new bytes.
pub struct Updated {
    pub header: bool,
    pub place: usize,
    pub field: Field,
    pub old: Fold,
    pub new: Fold,
}

impl Updated {
    /// Whether equation 3 alone would answer FFFF.
    pub fn from_full_to_zeros(&self) -> bool {
        (self.field, self.old, self.new) == (Field(0xFFFF), Fold(0xFFFF), Fold(0))
    }
}

/// The fields that an accepted edit updates.
pub fn updated_fields(case: &Case, before: &View) -> Vec<Updated> {
    let (pseudo, message) = (before.pseudo_header().len(), before.message_start());
    let body = before.body_offset() + case.number as usize;
    let lower = [before.byte(before.lifetime_place()).wrapping_sub(1)];
    // where the new bytes are in the packet, and where in the covered block
    let (start, new, in_block) = match case.operation {
        LIFETIME => (before.lifetime_place(), &lower[..], None),
        ADDRESS => {
            let side = case.number as usize;
            let in_pseudo_header = (pseudo > 0).then(|| side * before.address_length());
            (before.address_place(side), &case.two[..], in_pseudo_header)
        }
        _ => (message + body, &case.two[..], Some(pseudo + body)),
    };
    let updated = |header, place, position: usize| {
        let fold_at = |bytes| fold(total_at(position as u128, bytes));
        let old = &before.bytes[start..start + new.len()];
        Updated { header, place, field: Field(before.word(place)), old: fold_at(old), new: fold_at(new) }
    };
    let unsummed = before.protocol() == UDP && before.word(before.field_place()) == 0;
    let of_header = (before.family == 4 && case.operation != STRETCH).then(|| updated(true, HEADER_FIELD, start));
    let of_message = in_block.filter(|_| !unsummed).map(|position| updated(false, before.field_place(), position));
    of_header.into_iter().chain(of_message).filter(|_| !new.is_empty()).collect()
}

/// Words at which the update goes wrong.
pub const CORNER_WORDS: [u16; 6] = [0x0000, 0x0001, 0x7FFF, 0x8000, 0xFFFE, 0xFFFF];

/// Every three of the corner words.
pub fn corner_triples() -> impl Iterator<Item = [u16; 3]> {
    (0..216).map(|i| [i / 36, i / 6 % 6, i % 6].map(|place: usize| CORNER_WORDS[place]))
}

/// Writes records of field, old fold, new fold and answer: of all corner triples, then of `count` random ones.
pub fn write_records(seed: u64, count: u64, out: &mut impl Write) -> io::Result<()> {
    let mut random = Random(seed);
    let fresh = (0..count).map(|_| [(); 3].map(|()| any_word(&mut random)));
    for [field, old, new] in corner_triples().chain(fresh) {
        let answer = update(Field(field), Fold(old), Fold(new)).0;
        for word in [field, old, new, answer] {
            out.write_all(&word.to_be_bytes())?;
        }
    }
    out.flush()
}

/// A random word, which one time in four is a corner word.
fn any_word(random: &mut Random) -> u16 {
    if random.once_in(4) {
        random.pick(&CORNER_WORDS)
    } else {
        random.any() as u16
    }
}
