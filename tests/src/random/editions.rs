//! Random extremes, and archives of either edition.
use super::Random;
use crate::calls::Extremes;
use crate::model::editions::Edition;
use crate::model::{archive_of, cube, Row};
use crate::write::archive_bytes;

impl Random {
    /// A number from one to another, often an end.
    fn between(&mut self, low: i64, high: i64) -> i64 {
        match self.below(4) {
            0 => low,
            1 => high,
            _ => low + self.below((high - low) as u64 + 1) as i64,
        }
    }

    /// Extremes that so many readings of this sum can have.
    pub fn fair_extremes(&mut self, sum: i64, count: u32) -> Extremes {
        let (others, most) = (count as i64 - 1, i32::MAX as i64);
        let least = self.between((sum - others * most).max(i32::MIN as i64), sum.div_euclid(count as i64));
        let greatest = match others {
            0 => least,
            _ => self.between(least + (sum - count as i64 * least + others - 1).div_euclid(others), (sum - others * least).min(most)),
        };
        Extremes { least: least as i32, greatest: greatest as i32 }
    }

    /// Base rows whose extremes are known or unknown; now and then all of one kind.
    pub fn ranged_rows(&mut self, sizes: &[u32], count: usize) -> Vec<Row> {
        let unknown = self.pick(&[0, 0, 1, 5, 10]);
        let mut rows = self.base_rows(sizes, count);
        for row in &mut rows {
            let extremes = self.fair_extremes(row.sum, row.count);
            row.extremes = (self.below(10) >= unknown).then_some(extremes);
        }
        rows
    }

    /// An archive of ours of edition two: of a table, or of base rows with high counts and unknown extremes.
    pub fn our_archive_two(&mut self, dims: usize, count: usize) -> Vec<u8> {
        let sizes = self.sizes(dims);
        self.archive_of(Edition::Two, &sizes, count)
    }

    pub fn archive_of(&mut self, edition: Edition, sizes: &[u32], count: usize) -> Vec<u8> {
        let rows = match self.below(3) {
            0 => cube::folded(&self.table_rows(sizes, count)),
            _ => self.ranged_rows(sizes, count),
        };
        archive_of(edition, sizes, &rows)
    }

    pub fn edition(&mut self) -> Edition {
        self.pick(&[Edition::One, Edition::Two])
    }

    /// An archive of edition two with any lists and normal entries.
    pub fn any_archive_two(&mut self, dims: usize, count: usize) -> Vec<u8> {
        let sizes = self.sizes(dims);
        let rows = self.ranged_rows(&sizes, count);
        let (bases, normals) = self.any_entries(dims, &rows);
        archive_bytes(Edition::Two, &sizes, &bases, &normals)
    }
}
