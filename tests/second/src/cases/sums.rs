// Cases on sums: the marked and printed examples, all small lengths, the update, joining, and chains.

use super::Maker;
use crate::answer::*;

/// Words at which sums go wrong.
const CORNER_WORDS: [u64; 9] = [0, 1, 0xFF, 0x100, 0x7FFF, 0x8000, 0xFF00, 0xFFFE, 0xFFFF];

/// Lengths at which a joined length goes wrong, or its parity.
#[rustfmt::skip]
const CORNER_LENGTHS: [u64; 12] = [
    0, 1, 2, 3, (1 << 32) - 1, 1 << 32, (1 << 63) - 1, 1 << 63, (1 << 63) + 1, u64::MAX - 2, u64::MAX - 1, u64::MAX,
];

/// Folds that are joined with each two of these lengths.
const JOINED_FOLDS: [u16; 8] = [0, 1, 0xFF, 0x100, 0x1234, 0xFF00, 0xFFFE, 0xFFFF];

const EIGHT: [u8; 8] = [0x00, 0x01, 0xF2, 0x03, 0xF4, 0xF5, 0xF6, 0xF7];

impl Maker {
    pub fn sums(&mut self) {
        self.sum_examples();
        for length in 0..=100 {
            let random = self.random.bytes(length);
            for bytes in [random, vec![0; length], vec![0xFF; length]] {
                self.sum(&bytes);
            }
        }
        for field in CORNER_WORDS {
            for old in CORNER_WORDS {
                for new in CORNER_WORDS {
                    self.again(UPDATE, field << 32 | old << 16 | new, &[]);
                }
                for (length_a, length_b) in [(0, 0), (0, 1), (1, 0), (1, 1)] {
                    self.join((field as u16, length_a), (old as u16, length_b));
                }
            }
        }
        for _ in 0..150 {
            self.any_update();
        }
        for length in [0, 1, 2, 9, 40] {
            let buffer = self.random.contents(length);
            self.fixed_chains(&buffer);
        }
        for _ in 0..60 {
            self.any_chain();
        }
    }

    /// Each two corner lengths with each fold before two others, and random joins.
    pub fn joins(&mut self) {
        for (i, length_a) in CORNER_LENGTHS.into_iter().enumerate() {
            for (j, length_b) in CORNER_LENGTHS.into_iter().enumerate() {
                for (k, fold) in JOINED_FOLDS.into_iter().enumerate() {
                    for other in [i + j + k, i + j + k + 3].map(|place| JOINED_FOLDS[place % JOINED_FOLDS.len()]) {
                        self.join((fold, length_a), (other, length_b));
                    }
                }
            }
        }
        for _ in 0..500 {
            self.any_join();
        }
    }

    /// Lists of some thousand pieces, over and over the same few of a small buffer.
    pub fn long_chains(&mut self) {
        for buffer in [self.random.bytes(301), vec![0xFF; 301]] {
            self.given(CHAIN, 0, &buffer, &[]);
            let repeated: [(&[u32], usize, &[u32]); 7] = [
                (&[0, 301], 1000, &[]),
                (&[1, 300], 1000, &[]),
                (&[7, 1], 2001, &[]),
                (&[0, 299, 301, 0, 5, 2], 500, &[]),
                (&[150, 151, 0, 150], 500, &[0, 1]),
                (&[0, 301], 1000, &[1, 301]),
                (&[0, 301], 1000, &[0]),
            ];
            for (pieces, times, last) in repeated {
                self.again(CHAIN, 0, &big_endian(&[&pieces.repeat(times), last].concat()));
            }
        }
    }

    /// Every operation on the sum of one byte string.
    pub fn sum(&mut self, bytes: &[u8]) {
        self.given(PARTIAL, 0, bytes, &[]);
        self.again(FOLD_AT, 0, &[]);
        self.again(FOLD_AT, 1, &[]);
        self.again(FIELD, 0, &[]);
    }

    /// The paper's examples 1 to 9, and those printed in RFC 1071 and RFC 1624.
    fn sum_examples(&mut self) {
        let low_first: Vec<u8> = EIGHT.chunks(2).flat_map(|word| [word[1], word[0]]).collect();
        for bytes in [&[][..], &[0, 0], &[0xFF, 0xFF], &[0xAB], &EIGHT, &EIGHT[..3], &EIGHT[3..], &low_first] {
            self.sum(bytes);
        }
        self.given(CHAIN, 0, &EIGHT, &big_endian(&[0, 3, 3, 5]));
        self.join((0xF201, 3), (0xF0EB, 5));
        self.again(UPDATE, 0xDD2F_5555_3285, &[]);
        self.again(UPDATE, 0xEDCB_1234_0000, &[]);
    }

    /// A joined before B, each given as its fold and its length.
    fn join(&mut self, a: (u16, u64), b: (u16, u64)) {
        let mut two = Vec::new();
        for (fold, length) in [a, b] {
            two.extend(fold.to_be_bytes());
            two.extend(length.to_be_bytes());
        }
        self.again(JOIN, 0, &two);
    }

    /// An update, and a join of small lengths that are made of the same number.
    fn any_update(&mut self) {
        let number = self.random.any() >> 16;
        self.again(UPDATE, number, &[]);
        self.join(((number >> 32) as u16, number >> 24 & 0xFF), (number as u16, number >> 16 & 0xFF));
    }

    /// A join of lengths of any size; every other time they come to about 2^64 together.
    fn any_join(&mut self) {
        let folds = self.random.contents(4);
        let length_a = self.any_length();
        let length_b = if self.random.once_in(2) {
            let about = self.random.between(0, 4) as u64;
            (u64::MAX - length_a).saturating_sub(2).saturating_add(about)
        } else {
            self.any_length()
        };
        let fold = |at: usize| u16::from_be_bytes([folds[at], folds[at + 1]]);
        self.join((fold(0), length_a), (fold(2), length_b));
    }

    /// A length of 1 to 64 bits.
    fn any_length(&mut self) -> u64 {
        let shift = self.random.between(0, 63);
        self.random.any() >> shift
    }

    pub fn any_sums(&mut self) {
        let longest = self.random.pick(&[9, 100, 100, 3000]);
        let length = self.random.between(0, longest);
        let bytes = self.random.contents(length);
        self.sum(&bytes);
        for _ in 0..5 {
            self.any_update();
            self.corner_update();
            self.any_join();
        }
    }

    /// An update of words at which sums go wrong; one in four is the one where equation 3 answers FFFF.
    fn corner_update(&mut self) {
        let [field, old, new] = [(); 3].map(|()| self.random.pick(&CORNER_WORDS));
        let full = self.random.once_in(4);
        self.again(UPDATE, if full { 0xFFFF_FFFF_0000 } else { field << 32 | old << 16 | new }, &[]);
    }

    /// Chains that fit, that don't, and that only fit if a sum of 32-bit numbers wraps.
    fn fixed_chains(&mut self, buffer: &[u8]) {
        let n = buffer.len() as u32;
        let all = u32::MAX;
        let half = 0x8000_0000;
        self.given(CHAIN, 0, buffer, &[]);
        let lists: [&[u32]; 30] = [
            &[0],
            &[0, 0, 0],
            &[n + 1, 0, 5],
            &[0, n, n, 0, 0],
            &[0, 0],
            &[0, n],
            &[n, 0],
            &[n + 1, 0],
            &[0, n + 1],
            &[n, 1],
            &[1, n],
            &[all, 0],
            &[0, all],
            &[all, 1],
            &[1, all],
            &[all, 2],
            &[all, all],
            &[half, half],
            &[all - n, n + 1],
            &[0, n, all, 2],
            &[all, 2, 0, n],
            &[0, n, n + 1, 0, 0, n],
            &[0, n, 0, n, 0, n],
            &[0, n, n / 2, n - n / 2],
            &[0, n / 2, n / 2, n - n / 2],
            &[n / 2, n - n / 2, 0, n / 2],
            &[0, n.min(1), n, 0, 0, 0, n / 2, n.min(1)],
            &[0, n.min(1), 0, n.min(1), 0, n.min(1)],
            &[0, n.min(3), n.min(3), n - n.min(3)],
            &[0, n.min(3), n.min(1), n.min(3) - n.min(1)],
        ];
        for list in lists {
            self.again(CHAIN, 0, &big_endian(list));
        }
    }

    /// Random chains over one buffer; one in four has a piece outside or an odd list.
    pub fn any_chain(&mut self) {
        let length = self.random.between(0, 60);
        let buffer = self.random.contents(length);
        self.given(CHAIN, 0, &buffer, &[]);
        for _ in 0..6 {
            let mut list = Vec::new();
            for _ in 0..self.random.between(0, 7) {
                list.extend(self.any_piece(length));
            }
            if !list.is_empty() && self.random.once_in(4) {
                let at = self.random.between(0, list.len() - 1);
                list[at] = self.random.pick(&[length as u32 + 1, u32::MAX, u32::MAX - 1, 0x8000_0000]);
            }
            if self.random.once_in(8) {
                list.push(0);
            }
            self.again(CHAIN, 0, &big_endian(&list));
        }
    }

    /// A few random pieces of one buffer, up to some thousand times over; one list in eight ends outside.
    pub fn any_long_chain(&mut self) {
        let length = self.random.between(1, 3000);
        let buffer = self.random.contents(length);
        let count = self.random.between(1, 5);
        let pieces: Vec<u32> = (0..count).flat_map(|_| self.any_piece(length)).collect();
        let mut list = pieces.repeat(self.random.between(1, 4000 / count));
        if self.random.once_in(8) {
            list.extend([length as u32, 1]);
        }
        self.given(CHAIN, 0, &buffer, &big_endian(&list));
    }

    /// The offset and length of a piece that fits.
    fn any_piece(&mut self, length: usize) -> [u32; 2] {
        let offset = self.random.between(0, length);
        [offset as u32, self.random.between(0, length - offset) as u32]
    }
}

pub fn big_endian(list: &[u32]) -> Vec<u8> {
    list.iter().flat_map(|number| number.to_be_bytes()).collect()
}
