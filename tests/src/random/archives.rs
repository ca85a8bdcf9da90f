//! Random archives: ours, and those of other writers.
use super::Random;
use crate::model::editions::Edition;
use crate::model::{cube, our_archive, Base, Row, ALL};
use crate::write::archive_bytes;
use crate::ROWS;

impl Random {
    /// A sum that so many readings can make, often at an end.
    fn fair_sum(&mut self, count: u32) -> i64 {
        let (low, high) = (count as i64 * i32::MIN as i64, count as i64 * i32::MAX as i64);
        match self.below(5) {
            0 => low,
            1 => high,
            2 => 0,
            3 => self.below(2_001) as i64 % (high + 1) * if self.one_in(2) { 1 } else { -1 },
            _ => low + self.below((high - low) as u64 + 1) as i64,
        }
    }

    /// Rising codes, about as many as asked for if the sizes allow them.
    fn rising(&mut self, sizes: &[u32], count: usize) -> Vec<Vec<u32>> {
        let mut all: Vec<Vec<u32>> = self.table_rows(sizes, count.min(ROWS)).into_iter().map(|r| r.0).collect();
        all.sort();
        all.dedup();
        let tries = self.pick(&[0, 20]);
        for _ in 0..tries {
            let missing = count.min(ROWS) - all.len();
            all.extend((0..missing).map(|_| self.codes(sizes)));
            all.sort();
            all.dedup();
        }
        all
    }

    /// Rising base rows of any table, with small counts or counts that fill up to the limit of the total.
    pub fn base_rows(&mut self, sizes: &[u32], count: usize) -> Vec<Row> {
        let all = self.rising(sizes, count);
        let big = self.one_in(2);
        let (mut left, last) = (1_048_576u64, all.len());
        let mut rows = Vec::new();
        for (i, codes) in all.into_iter().enumerate() {
            let behind = (last - 1 - i) as u64;
            let count = match (big, behind) {
                (true, 0) => left,
                (true, _) => 1 + self.below((left - behind).min(1 + 2 * left / (behind + 1))),
                (false, _) => 1 + self.below(3),
            };
            left -= count;
            rows.push(Row::new(codes, self.fair_sum(count as u32), count as u32));
        }
        rows
    }

    /// Lists and normal entries of any value, now and then just that of an empty table: no stop up to 11 looks at them.
    pub fn any_entries(&mut self, dims: usize, rows: &[Row]) -> (Vec<Base>, Vec<Row>) {
        let longest = self.pick(&[0, 1, 4, 70]);
        let mut bases = Vec::new();
        for row in rows {
            let listed = if longest == 70 && self.one_in(3) { 70 } else { self.below(longest + 1) };
            let list = (0..listed).map(|_| self.any_word()).collect();
            bases.push(Base { row: row.clone(), list });
        }
        if self.one_in(4) {
            return (bases, vec![Row::new(vec![ALL; dims], 0, 0)]);
        }
        let normals = self.below(12) * self.below(3);
        let mut cell = || Row::new((0..dims).map(|_| self.any_word()).collect(), self.draw() as i64, self.any_word());
        (bases, (0..normals).map(|_| cell()).collect())
    }

    /// An archive with any lists and normal entries.
    pub fn any_archive(&mut self, dims: usize, count: usize) -> Vec<u8> {
        let sizes = self.sizes(dims);
        let rows = self.base_rows(&sizes, count);
        let (bases, normals) = self.any_entries(dims, &rows);
        archive_bytes(Edition::One, &sizes, &bases, &normals)
    }

    /// An archive of ours: of a table, or of base rows with high counts.
    pub fn our_archive(&mut self, dims: usize, count: usize) -> Vec<u8> {
        let sizes = self.sizes(dims);
        let rows = match self.below(2) {
            0 => self.base_rows(&sizes, count),
            _ => cube::folded(&self.table_rows(&sizes, count)),
        };
        our_archive(&sizes, &rows)
    }
}
