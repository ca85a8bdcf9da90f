//! Keys, and what a set fixes, both read off the groups of two or more rows.
use super::codes::lattice;
use super::groups::row;
use super::measure::Measure;
use super::Checked;

/// The smallest keys, in lattice order: sets on which no two rows agree.
pub fn keys<M: Measure>(checked: &Checked<M>) -> Vec<usize> {
    let (rows, groups) = (&checked.read.rows, &checked.condensed.groups);
    let mut keys: Vec<usize> = Vec::new();
    for set in lattice(rows.dims) {
        if (rows.len() == 0 || groups[set].shared == 0) && !keys.iter().any(|key| set & key == *key) {
            keys.push(set);
        }
    }
    keys
}

/// Whether a set fixes a dimension, counted from 0.
pub fn fixes<M: Measure>(checked: &Checked<M>, set: usize, dim: usize) -> bool {
    let code = |&number: &u16| checked.read.rows.codes[row(number)][dim];
    checked.condensed.groups[set].iter().all(|group| group.iter().all(|other| code(other) == code(&group[0])))
}
