//! Rows in groups that agree on a set.
use super::measure::Measure;
use crate::ROWS;

/// Added to the number of a group's last row.
pub const LAST: u16 = 1 << 15;

/// The row of a number.
pub fn row(number: u16) -> usize {
    number as usize % ROWS
}

/// The groups of a set, by codes.
#[derive(Default)]
pub struct Groups {
    /// Row numbers, group after group.
    pub numbers: Vec<u16>,
    /// How many groups are normal entries': those of two or more rows, and the empty table's of none.
    pub shared: usize,
}

impl Groups {
    /// All rows in one group, as the empty set has them.
    pub fn whole(rows: usize) -> Groups {
        let mut numbers: Vec<u16> = (0..rows as u16).collect();
        if let Some(last) = numbers.last_mut() {
            *last += LAST;
        }
        Groups { numbers, shared: (rows != 1) as usize }
    }

    /// How many groups there are.
    pub fn len(&self) -> usize {
        self.numbers.iter().filter(|&&number| number >= LAST).count()
    }

    pub fn iter(&self) -> impl Iterator<Item = &[u16]> {
        self.numbers.split_inclusive(|&number| number >= LAST)
    }

    /// For each group one of its rows, how many it has, and their total.
    pub fn each<M: Measure>(&self, totals: &[M], mut see: impl FnMut(usize, usize, M)) {
        let (mut members, mut total) = (0, M::START);
        for &number in &self.numbers {
            let row = row(number);
            members += 1;
            total.add(&totals[row]);
            if number >= LAST {
                see(row, members, total);
                (members, total) = (0, M::START);
            }
        }
    }
}
