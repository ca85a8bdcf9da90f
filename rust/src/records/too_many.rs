//! Which limit of an archive records go beyond, and where.
use super::{Records, COMBINATIONS, RECORDS};
use std::fmt;

/// Records that no archive holds: they have more than 1,024 different combinations of codes, or are more than 1,048,576.
#[derive(Clone, Copy, Debug, PartialEq, Eq)]
pub struct TooMany {
    /// The place of the first record that is too many.
    pub place: usize,
    /// How many different combinations of codes there are.
    pub combinations: usize,
    /// Whether they are those of all records, and not of the records before one that is not looked at.
    pub all: bool,
}

impl Records {
    /// Why there are too many records: of those that were taken, or because there is a next one, at this place.
    pub fn too_many(&mut self, next: Option<usize>) -> TooMany {
        self.rows.sort_unstable();
        let mut first: Vec<usize> = self.rows.chunk_by(|a, b| a.codes == b.codes).map(|alike| alike[0].place).collect();
        first.sort_unstable();
        let combinations = first.len();
        let place = first.get(COMBINATIONS).copied().or(next).expect("an archive holds these records");
        TooMany { place, combinations, all: next.is_none() }
    }
}

impl fmt::Display for TooMany {
    fn fmt(&self, f: &mut fmt::Formatter) -> fmt::Result {
        let TooMany { combinations, all, .. } = self;
        if *combinations <= COMBINATIONS {
            let before = format!("those before it have {combinations} different combinations of codes");
            return write!(f, "one record more than the {RECORDS} that an archive holds; {before}");
        }
        let which = if *all { "in all" } else { "so far" };
        write!(f, "one different combination of codes more than the {COMBINATIONS} that an archive holds; {which} there are {combinations}")
    }
}

impl std::error::Error for TooMany {}
