//! Random tables.
use super::Random;
use crate::write::table_bytes;

impl Random {
    pub fn reading(&mut self) -> i32 {
        match self.below(6) {
            0 => i32::MIN,
            1 => i32::MAX,
            2 => 0,
            3 => self.below(7) as i32 - 3,
            4 => i32::MIN + self.below(3) as i32,
            _ => self.draw() as i32,
        }
    }

    /// Sizes for D dimensions: all small, all wide, or mixed.
    pub fn sizes(&mut self, dims: usize) -> Vec<u32> {
        let kind = self.below(4);
        let mut size = || match kind {
            0 => self.pick(&[1, 2, 3]),
            1 => self.pick(&[65_535, 65_534, 40_000]),
            2 => 1 + self.below(32) as u32,
            _ => self.pick(&[1, 2, 5, 255, 256, 257, 4_096, 65_535]),
        };
        (0..dims).map(|_| size()).collect()
    }

    pub fn code(&mut self, size: u32) -> u32 {
        match self.below(4) {
            0 => size - 1,
            1 => self.below(size.min(4) as u64) as u32,
            _ => self.below(size as u64) as u32,
        }
    }

    pub fn codes(&mut self, sizes: &[u32]) -> Vec<u32> {
        sizes.iter().map(|&size| self.code(size)).collect()
    }

    /// Rows of a table: now and then equal codes, or those of an earlier row but for one.
    pub fn table_rows(&mut self, sizes: &[u32], count: usize) -> Vec<(Vec<u32>, i32)> {
        let repeats = self.pick(&[0, 2, 5, 9]);
        let mut rows: Vec<(Vec<u32>, i32)> = Vec::new();
        while rows.len() < count {
            let mut codes = self.codes(sizes);
            if !rows.is_empty() && self.below(10) < repeats {
                codes = rows[self.place(rows.len())].0.clone();
                if self.one_in(3) {
                    let i = self.place(sizes.len());
                    codes[i] = self.code(sizes[i]);
                }
            }
            rows.push((codes, self.reading()));
        }
        match self.below(5) {
            0 => rows.sort(),
            1 => rows.sort_by(|a, b| b.cmp(a)),
            _ => {}
        }
        rows
    }

    /// The rows of a table, few or many.
    pub fn row_count(&mut self) -> usize {
        match self.below(8) {
            0 => 0,
            1 => 1,
            2 => 2,
            3..=5 => 3 + self.place(10),
            6 => 13 + self.place(40),
            _ => 60 + self.place(80),
        }
    }

    /// The bytes of a table.
    pub fn table(&mut self, dims: usize, count: usize) -> Vec<u8> {
        let sizes = self.sizes(dims);
        let rows = self.table_rows(&sizes, count);
        table_bytes(&sizes, &rows)
    }
}
