//! A repeatable generator (splitmix64).
mod archives;
mod editions;
mod families;
mod questions;
mod tables;

use crate::model::ALL;

pub struct Random(u64);

impl Random {
    /// The seed of a test: CUBE_SEED, or the test's own. It is printed, so that a failure names it.
    pub fn seeded(own: u64) -> Random {
        let seed = std::env::var("CUBE_SEED").ok().and_then(|s| s.parse().ok()).unwrap_or(own);
        println!("seed {seed} (CUBE_SEED={seed} repeats it)");
        Random(seed)
    }

    /// A generator of its own for a part, so that what the part draws does not move what follows.
    pub fn part(&mut self) -> Random {
        Random(self.draw())
    }

    pub fn draw(&mut self) -> u64 {
        self.0 = self.0.wrapping_add(0x9E37_79B9_7F4A_7C15);
        let mut z = self.0;
        z = (z ^ z >> 30).wrapping_mul(0xBF58_476D_1CE4_E5B9);
        z = (z ^ z >> 27).wrapping_mul(0x94D0_49BB_1331_11EB);
        z ^ z >> 31
    }

    /// From 0 to n - 1.
    pub fn below(&mut self, n: u64) -> u64 {
        self.draw() % n
    }

    /// A place in something of this length.
    pub fn place(&mut self, length: usize) -> usize {
        self.below(length as u64) as usize
    }

    pub fn one_in(&mut self, n: u64) -> bool {
        self.below(n) == 0
    }

    pub fn pick<T: Copy>(&mut self, of: &[T]) -> T {
        of[self.place(of.len())]
    }

    /// Any word, often one that a check looks at.
    pub fn any_word(&mut self) -> u32 {
        match self.below(4) {
            0 => self.pick(&[0, 1, 2, 70, 71, 255, 256, 1_024, 1_025, ALL, 65_536, 1 << 31, u32::MAX]),
            1 => self.below(256) as u32,
            _ => self.draw() as u32,
        }
    }

    /// An opening and fewer than `limit` words, most of them small.
    pub fn words(&mut self, opening: &[u8; 4], limit: u64) -> Vec<u8> {
        let mut bytes = opening.to_vec();
        for _ in 0..self.below(limit) {
            let word = match self.below(4) {
                0 => self.any_word(),
                1 => 0,
                _ => self.below(4) as u32,
            };
            bytes.extend(word.to_le_bytes());
        }
        bytes
    }
}
