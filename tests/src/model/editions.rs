//! The two editions of an archive (document 02, C-17).
use super::{archive_of, open, Row};
use crate::calls::{Extremes, Stop};

#[derive(Clone, Copy, Debug, PartialEq, Eq, PartialOrd, Ord)]
pub enum Edition {
    One,
    Two,
}

impl Edition {
    pub fn opening(self) -> [u8; 4] {
        match self {
            Edition::One => [0x43, 0x55, 0x42, 0x45],
            Edition::Two => [0x43, 0x55, 0x42, 0x32],
        }
    }

    /// That of a file which is an archive; one if it is none.
    pub fn of(s: &[u8]) -> Edition {
        if s.starts_with(&Edition::Two.opening()) {
            Edition::Two
        } else {
            Edition::One
        }
    }
}

/// "A call converts edition one (edition two stops with 1)."
pub fn convert(s: &[u8]) -> Result<Vec<u8>, Stop> {
    if Edition::of(s) == Edition::Two {
        return Err(1);
    }
    let archive = open(s)?;
    Ok(archive_of(Edition::Two, &archive.sizes, &archive.rows))
}

/// A base row of edition one: "a base row with count 1 has both equal to its sum; other base rows are unknown".
pub fn converted(row: Row) -> Row {
    let reading = row.sum as i32;
    Row { extremes: (row.count == 1).then_some(Extremes { least: reading, greatest: reading }), ..row }
}

/// "Least at most greatest; sum from greatest plus (count minus 1) times least to least plus (count minus 1) times greatest."
pub fn fit(extremes: Extremes, sum: i64, count: u32) -> bool {
    let (least, greatest, sum, count) = (extremes.least as i128, extremes.greatest as i128, sum as i128, count as i128);
    least <= greatest && greatest + (count - 1) * least <= sum && sum <= least + (count - 1) * greatest
}
