// Sums by the paper's definitions: total, fold, field, partial sums, chains and the update (RFC 1071, RFC 1624).
// All whole numbers are wide enough that nothing wraps.

use crate::verdict::{Verdict, GOOD, PLACE};

/// What 16-bit addition with end-around carry gives.
#[derive(Clone, Copy, Debug, PartialEq, Eq)]
pub struct Fold(pub u16);

/// 65535 minus a fold: what stands in a packet.
#[derive(Clone, Copy, Debug, PartialEq, Eq)]
pub struct Field(pub u16);

/// A fold and the length in bytes.
#[derive(Clone, Copy, Debug, PartialEq, Eq)]
pub struct Partial {
    pub fold: Fold,
    pub length: u64,
}

/// The partial sum of no bytes, which stands beside a refused chain too.
pub const NOTHING: Partial = Partial { fold: Fold(0), length: 0 };

/// The total of bytes whose first stands at `position`: 256 times a byte at an even position, once one at an odd.
pub fn total_at(position: u128, bytes: &[u8]) -> u128 {
    let mut total = 0;
    for (i, byte) in bytes.iter().enumerate() {
        let weight = if (position + i as u128) % 2 == 0 { 256 } else { 1 };
        total += weight * u128::from(*byte);
    }
    total
}

/// The total of a byte string.
pub fn total(bytes: &[u8]) -> u128 {
    total_at(0, bytes)
}

/// The fold of a total.
pub fn fold(total: u128) -> Fold {
    if total == 0 {
        Fold(0)
    } else {
        Fold((1 + (total - 1) % 65535) as u16)
    }
}

/// The field of a fold.
pub fn field(fold: Fold) -> Field {
    Field(65535 - fold.0)
}

/// Whether a block with its field in place passes.
pub fn passes(block: &[u8]) -> bool {
    let total = total(block);
    total > 0 && total % 65535 == 0
}

/// The fold with its two bytes exchanged.
pub fn exchange(fold: Fold) -> Fold {
    Fold(fold.0.swap_bytes())
}

/// The partial sum of a byte string.
pub fn partial(bytes: &[u8]) -> Partial {
    Partial { fold: fold(total(bytes)), length: bytes.len() as u64 }
}

/// Lengths added, unless together they pass the 64-bit range.
pub fn joined_length(lengths: impl IntoIterator<Item = u64>) -> Option<u64> {
    let together: u128 = lengths.into_iter().map(u128::from).sum();
    u64::try_from(together).ok()
}

/// A joined before B, with 0; or 10 and A handed back.
pub fn join(a: Partial, b: Partial) -> (Verdict, Partial) {
    let second = if a.length % 2 == 1 { exchange(b.fold) } else { b.fold };
    match joined_length([a.length, b.length]) {
        Some(length) => (GOOD, Partial { fold: fold(u128::from(a.fold.0) + u128::from(second.0)), length }),
        None => (PLACE, a),
    }
}

/// The partial sum of a chain, with 0: that of its pieces written one after the other; or 10 and that of no bytes.
pub fn chain(buffer: &[u8], list: &[u32]) -> (Verdict, Partial) {
    let outside = |piece: &[u32]| u64::from(piece[0]) + u64::from(piece[1]) > buffer.len() as u64;
    if list.len() % 2 == 1 || list.chunks(2).any(outside) {
        return (PLACE, NOTHING);
    }
    let length = match joined_length(list.chunks(2).map(|piece| piece[1].into())) {
        Some(length) => length,
        None => return (PLACE, NOTHING),
    };
    let (mut position, mut sum) = (0, 0);
    for piece in list.chunks(2) {
        sum += total_at(position, &buffer[piece[0] as usize..][..piece[1] as usize]);
        position += u128::from(piece[1]);
    }
    (GOOD, Partial { fold: fold(sum), length })
}

/// Equation 3 of RFC 1624: the new field after a word or stretch with the fold `old` became one with the fold `new`.
pub fn equation_3(field_before: Field, old: Fold, new: Fold) -> Field {
    let sum = (65535 - u128::from(field_before.0)) + (65535 - u128::from(old.0)) + u128::from(new.0);
    field(fold(sum))
}

/// The update: what equation 3 answers, and 0000 where that is FFFF.
pub fn update(field_before: Field, old: Fold, new: Fold) -> Field {
    match equation_3(field_before, old, new) {
        Field(0xFFFF) => Field(0),
        answer => answer,
    }
}
