//! Which codes fix which: the definitions of document 02's C-12 as plainly as they are said there.
use super::cube::{agree, holds, lattice, Row};

/// "A key is a set on which no two base rows agree."
pub fn key(rows: &[Row], set: u32) -> bool {
    (0..rows.len()).all(|i| (0..i).all(|j| !agree(&rows[i].codes, &rows[j].codes, set)))
}

/// "Each key that holds no other key and nothing else", in lattice order.
pub fn smallest(dims: usize, rows: &[Row]) -> Vec<u32> {
    let keys: Vec<u32> = lattice(dims).into_iter().filter(|&set| key(rows, set)).collect();
    let smallest = |set: &u32| !keys.iter().any(|&other| other != *set && holds(*set, other));
    keys.iter().copied().filter(smallest).collect()
}

/// "Base rows which agree on the set agree on that dimension too"; dimensions are counted from 1.
pub fn fixes(rows: &[Row], set: u32, dimension: usize) -> bool {
    let code = |row: &Row| row.codes[dimension - 1];
    rows.iter().all(|a| rows.iter().all(|b| !agree(&a.codes, &b.codes, set) || code(a) == code(b)))
}
