//! All the small tables of document 02 (C-23): "every table with D of 1 to 3, sizes 2, readings 1 and rows rising strictly by codes. Table t
//! has row j if bit j of t is set, rows by rising j; j in binary gives the codes, first dimension highest."
use super::{build, open};
use crate::write::table_bytes;
use std::collections::BTreeMap;

/// How many tables there are with D dimensions.
pub fn count(dims: usize) -> u32 {
    1 << (1 << dims)
}

/// The codes of table t.
pub fn codes(dims: usize, t: u32) -> Vec<Vec<u32>> {
    let binary = |j: u32| (0..dims).rev().map(|bit| j >> bit & 1).collect();
    (0..1 << dims).filter(|j| t >> j & 1 == 1).map(binary).collect()
}

/// The bytes of table t.
pub fn table(dims: usize, t: u32) -> Vec<u8> {
    let rows: Vec<_> = codes(dims, t).into_iter().map(|codes| (codes, 1)).collect();
    table_bytes(&vec![2; dims], &rows)
}

/// The line for D: "D, then each number of entries that occurs, rising, followed by its tally, one space between fields".
pub fn line(dims: usize, entries: impl Fn(&[u8]) -> u32) -> String {
    let mut tallies: BTreeMap<u32, u32> = BTreeMap::new();
    for t in 0..count(dims) {
        *tallies.entry(entries(&table(dims, t))).or_default() += 1;
    }
    let fields = tallies.iter().flat_map(|(entries, tally)| [entries, tally]);
    let fields: Vec<String> = [dims as u32].iter().chain(fields).map(u32::to_string).collect();
    fields.join(" ") + "\n"
}

/// What the program prints, by the entries of the model's archives.
pub fn small_tables() -> Vec<u8> {
    let entries = |table: &[u8]| {
        let (bases, normals) = open(&build(table).unwrap()).unwrap().counts();
        bases + normals
    };
    (1..=3).flat_map(|dims| line(dims, entries).into_bytes()).collect()
}
