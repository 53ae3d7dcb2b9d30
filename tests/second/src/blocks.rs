// Byte strings with their fields: records that a program in C holds a library's sum to.

use crate::random::Random;
use crate::sums::{field, fold, total};
use std::io::{self, Write};

/// Lengths at which a sum of several bytes a turn goes wrong: all short ones, both sides of longer turns, what a packet
/// can have, and more than fits the accumulators of a careless one.
pub fn lengths() -> impl Iterator<Item = usize> {
    let around = [512, 1024, 1500, 2048, 4096, 9000].into_iter().flat_map(|length| length - 3..=length + 9);
    (0..=300).chain(around).chain([65_515, 65_535, 65_536, (1 << 20) + 7])
}

/// Of each length all FF, all zeros, FF and zeros, zeros and one FF, and random bytes.
fn contents(length: usize, random: &mut Random) -> [Vec<u8>; 5] {
    let mixed = (0..length).map(|_| random.pick(&[0, 0xFF])).collect();
    let mut single = vec![0; length];
    if length > 0 {
        single[random.between(0, length - 1)] = 0xFF;
    }
    [vec![0xFF; length], vec![0; length], mixed, single, random.bytes(length)]
}

/// Writes records of a 32-bit length, so many bytes, and their field.
pub fn write_blocks(seed: u64, out: &mut impl Write) -> io::Result<()> {
    let mut random = Random(seed);
    for length in lengths() {
        for bytes in contents(length, &mut random) {
            out.write_all(&(length as u32).to_be_bytes())?;
            out.write_all(&bytes)?;
            out.write_all(&field(fold(total(&bytes))).0.to_be_bytes())?;
        }
    }
    out.flush()
}
