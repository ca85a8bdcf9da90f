//! The levels of each dimension, and the numbers of nodes.
use crate::calls::Stop;
use crate::good::codes::Codes;
use crate::good::read::{le, word};

pub struct Levels<'a> {
    /// For each dimension the sizes of its levels.
    sizes: Vec<Vec<u32>>,
    /// For each dimension the bytes of its tables, from level 0 on.
    pub tables: Vec<Vec<&'a [u8]>>,
    pub nodes: usize,
}

impl<'a> Levels<'a> {
    /// The level fields at a place, and the place behind them. Stops 2, 21 and 22.
    pub fn read(s: &'a [u8], sizes: &[u32], at: usize) -> Result<(Levels<'a>, usize), Stop> {
        let mut levels = Levels { sizes: vec![], tables: vec![vec![]; sizes.len()], nodes: 1 };
        let mut counts = [0; 8];
        for (dim, count) in counts[..sizes.len()].iter_mut().enumerate() {
            *count = word(s, at + 4 * dim)?;
            if !(1..=4).contains(count) {
                return Err(21);
            }
            levels.nodes *= *count as usize + 1;
        }
        let mut at = at + 4 * sizes.len();
        for (dim, &size) in sizes.iter().enumerate() {
            let mut below = vec![size];
            for level in 1..counts[dim] as usize {
                let size = word(s, at)?;
                let table = table(&s[at + 4..], below[level - 1], size)?;
                at += 4 + table.len();
                below.push(size);
                levels.tables[dim].push(table);
            }
            levels.sizes.push(below);
        }
        if levels.nodes > 4_096 {
            return Err(22);
        }
        Ok((levels, at))
    }

    pub fn dims(&self) -> usize {
        self.sizes.len()
    }

    /// How many levels a dimension has; also the number of its level ALL.
    pub fn all(&self, dim: usize) -> usize {
        self.sizes[dim].len()
    }

    /// The nodes by falling number.
    pub fn falling(&self) -> impl Iterator<Item = usize> {
        (0..self.nodes).rev()
    }

    /// The levels of a node.
    pub fn of(&self, node: usize) -> [usize; 8] {
        let (mut levels, mut rest) = ([0; 8], node);
        for (dim, level) in levels[..self.dims()].iter_mut().enumerate() {
            *level = rest % (self.all(dim) + 1);
            rest /= self.all(dim) + 1;
        }
        levels
    }

    /// The cell that a question at a node names.
    pub fn question(&self, node: usize, question: &[u32]) -> Result<Codes, Stop> {
        if question.len() != self.dims() {
            return Err(13);
        }
        let (mut cell, levels) = ([u16::MAX; 8], self.of(node));
        for (dim, &code) in question.iter().enumerate() {
            let right = match self.sizes[dim].get(levels[dim]) {
                Some(&size) => code < size,
                None => code == 65_535,
            };
            if !right {
                return Err(13);
            }
            cell[dim] = code as u16;
        }
        Ok(cell)
    }
}

/// The bytes of a table of so many entries below a size, of which as many are looked at as there are.
fn table(s: &[u8], entries: u32, size: u32) -> Result<&[u8], Stop> {
    if !(1..=65_535).contains(&size) {
        return Err(21);
    }
    let length = 4 * entries as usize;
    if s[..length.min(s.len())].chunks_exact(4).any(|entry| le(entry) >= size) {
        return Err(21);
    }
    s.get(..length).ok_or(2)
}
