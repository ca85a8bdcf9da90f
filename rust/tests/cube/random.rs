//! Random tables and questions.
use super::Records;
use cube_archive::Code;

/// A repeatable generator (splitmix64).
pub struct Random(pub u64);

impl Random {
    pub fn draw(&mut self) -> u64 {
        self.0 = self.0.wrapping_add(0x9E37_79B9_7F4A_7C15);
        let z = (self.0 ^ self.0 >> 30).wrapping_mul(0xBF58_476D_1CE4_E5B9);
        let z = (z ^ z >> 27).wrapping_mul(0x94D0_49BB_1331_11EB);
        z ^ z >> 31
    }

    pub fn below(&mut self, n: u64) -> u64 {
        self.draw() % n
    }

    /// Few codes or many, so that rows repeat, agree or are single; small readings and extreme ones.
    pub fn records(&mut self, dims: usize, rows: u64) -> Records {
        let sizes: Vec<u16> = (0..dims).map(|_| [1, 2, 3, 9, 65_535][self.below(5) as usize]).collect();
        let rows = (0..self.below(rows + 1)).map(|_| (sizes.iter().map(|&size| self.code(size)).collect(), self.reading())).collect();
        Records { sizes, rows }
    }

    /// One of the first two codes, or of all.
    pub fn code(&mut self, size: u16) -> u16 {
        let among = if self.below(2) == 0 { size.min(2) } else { size };
        self.below(among.into()) as u16
    }

    pub fn reading(&mut self) -> i32 {
        match self.below(4) {
            0 => [0, -1, i32::MAX, i32::MIN][self.below(4) as usize],
            1 => self.draw() as i32,
            _ => self.below(100) as i32 - 50,
        }
    }

    pub fn question(&mut self, sizes: &[u16]) -> Vec<Code> {
        sizes.iter().map(|&size| (self.below(2) == 0).then(|| self.code(size))).collect()
    }
}
