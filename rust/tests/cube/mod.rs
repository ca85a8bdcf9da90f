//! The complete cube of a table by brute force over its rows.
#![allow(dead_code)]
pub mod random;

use cube_archive::{Archive, Cell, Code, Cuboid, Table};
use std::collections::BTreeSet;

pub struct Records {
    pub sizes: Vec<u16>,
    pub rows: Vec<(Vec<u16>, i32)>,
}

impl Records {
    /// The five-row example of document 01.
    pub fn five() -> Records {
        let rows = [([0, 1, 1], 50), ([1, 1, 1], 100), ([2, 3, 1], 60), ([4, 5, 1], 70), ([6, 5, 2], 80)];
        Records { sizes: vec![7, 6, 3], rows: rows.map(|(codes, reading)| (codes.to_vec(), reading)).to_vec() }
    }

    pub fn dims(&self) -> usize {
        self.sizes.len()
    }

    pub fn table(&self) -> Vec<u8> {
        let mut table = Table::new(&self.sizes).unwrap();
        for (codes, reading) in &self.rows {
            table.push(codes, *reading).unwrap();
        }
        table.to_bytes()
    }

    pub fn archive(&self) -> Archive {
        Archive::build(&self.table()).unwrap()
    }

    /// The sum and the count over the rows that fall in a cell; none if none do, but for all ALL of an empty table.
    pub fn total(&self, cell: &[Code]) -> Option<(i64, u32)> {
        let falls = |codes: &[u16]| cell.iter().zip(codes).all(|(wanted, code)| wanted.is_none() || *wanted == Some(*code));
        let readings = self.rows.iter().filter(|(codes, _)| falls(codes)).map(|(_, reading)| i64::from(*reading));
        let (sum, count) = readings.fold((0, 0), |(sum, count), reading| (sum + reading, count + 1));
        let empty = self.rows.is_empty() && cell.iter().all(Option::is_none);
        (count > 0 || empty).then_some((sum, count))
    }

    /// The cells of a set that have a row, by codes. An empty table has one cell, all ALL.
    pub fn cuboid(&self, set: u32) -> Cuboid {
        let code = |i: usize, code: u16| (set >> i & 1 == 1).then_some(code);
        let cells = self.rows.iter().map(|(codes, _)| (0..self.dims()).map(|i| code(i, codes[i])).collect());
        let mut cells: BTreeSet<Vec<Code>> = cells.collect();
        if self.rows.is_empty() && set == 0 {
            cells.insert(vec![None; self.dims()]);
        }
        let total = |codes: Vec<Code>| {
            let (sum, count) = self.total(&codes).unwrap();
            Cell { codes, sum, count }
        };
        Cuboid { set, cells: cells.into_iter().map(total).collect() }
    }

    /// All cuboids: for each number of dimensions those sets, by number.
    pub fn cube(&self) -> Vec<Cuboid> {
        let sets = (0..=8).flat_map(|n| (0..1u32 << self.dims()).filter(move |set| set.count_ones() == n));
        sets.map(|set| self.cuboid(set)).collect()
    }
}
