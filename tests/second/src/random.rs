// A small generator of random numbers (splitmix64): the same numbers from the same seed on every processor.

pub struct Random(pub u64);

impl Random {
    /// Any number of 64 bits.
    pub fn any(&mut self) -> u64 {
        self.0 = self.0.wrapping_add(0x9E37_79B9_7F4A_7C15);
        let mut z = self.0;
        z = (z ^ (z >> 30)).wrapping_mul(0xBF58_476D_1CE4_E5B9);
        z = (z ^ (z >> 27)).wrapping_mul(0x94D0_49BB_1331_11EB);
        z ^ (z >> 31)
    }

    /// A number from `low` to `high`, both included.
    pub fn between(&mut self, low: usize, high: usize) -> usize {
        low + (self.any() % (high - low + 1) as u64) as usize
    }

    /// True once in `times`.
    pub fn once_in(&mut self, times: usize) -> bool {
        self.between(1, times) == 1
    }

    pub fn pick<T: Copy>(&mut self, choices: &[T]) -> T {
        choices[self.between(0, choices.len() - 1)]
    }

    pub fn bytes(&mut self, length: usize) -> Vec<u8> {
        (0..length).map(|_| self.any() as u8).collect()
    }

    /// Bytes of one of the kinds that sums care about: random, all zeros, all FF, mostly zeros, zeros and FF.
    pub fn contents(&mut self, length: usize) -> Vec<u8> {
        let mut bytes = self.bytes(length);
        match self.between(0, 7) {
            0 => bytes.fill(0),
            1 => bytes.fill(0xFF),
            2 => bytes.iter_mut().filter(|b| **b > 40).for_each(|b| *b = 0),
            3 => bytes.iter_mut().for_each(|b| *b = if *b > 127 { 0xFF } else { 0 }),
            _ => {}
        }
        bytes
    }
}
