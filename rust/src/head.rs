//! What a table and an archive have alike: behind the opening D, the sizes, and how many rows or base entries follow.
use crate::fields::Fields;

#[derive(Clone, Copy, Debug, PartialEq, Eq)]
pub(crate) struct Head {
    pub dims: usize,
    pub rows: usize,
}

impl Head {
    /// The head of a file, or none if no call accepts the file.
    pub fn read(file: &[u8]) -> Option<Head> {
        let dims = Fields(file.get(4..)?).word().filter(|dims| (1..=8).contains(dims))? as usize;
        let rows = Fields(file.get(8 + 4 * dims..)?).word().filter(|&rows| rows <= 1_024)? as usize;
        Some(Head { dims, rows })
    }
}
