//! Cells and cuboids, decoded from what the library lists.
use crate::code::{from_word, Code, Codes};
use crate::fields::Fields;
use std::fmt;

/// A cell with its exact sum and count. In print it is the lister's line of a normal entry.
///
/// ```
/// let cell = cube_archive::Cell { codes: vec![None, Some(4)], sum: -2, count: 2 };
/// assert_eq!(cell.to_string(), "* 4 -2 2");
/// ```
#[derive(Clone, Debug, PartialEq, Eq)]
pub struct Cell {
    /// A code, or `None` for ALL, for each dimension.
    pub codes: Vec<Code>,
    pub sum: i64,
    pub count: u32,
}

/// The cells of a set of dimensions, by codes. In print each of them has a line.
#[derive(Clone, Debug, PartialEq, Eq)]
pub struct Cuboid {
    /// The number of the set: dimension i, counted from 1, adds 2 to the power i-1.
    pub set: u32,
    pub cells: Vec<Cell>,
}

impl Cell {
    pub(crate) fn read(fields: &mut Fields, dims: usize) -> Option<Cell> {
        let codes = (0..dims).map(|_| fields.word().map(from_word)).collect::<Option<_>>()?;
        Some(Cell { codes, sum: fields.sum()?, count: fields.word()? })
    }
}

impl fmt::Display for Cell {
    fn fmt(&self, f: &mut fmt::Formatter) -> fmt::Result {
        write!(f, "{} {} {}", Codes(&self.codes), self.sum, self.count)
    }
}

impl Cuboid {
    pub(crate) fn read(fields: &mut Fields, dims: usize, set: u32) -> Option<Cuboid> {
        let count = fields.word()?;
        let cells = (0..count).map(|_| Cell::read(fields, dims)).collect::<Option<_>>()?;
        Some(Cuboid { set, cells })
    }
}

impl fmt::Display for Cuboid {
    fn fmt(&self, f: &mut fmt::Formatter) -> fmt::Result {
        self.cells.iter().try_for_each(|cell| writeln!(f, "{cell}"))
    }
}
