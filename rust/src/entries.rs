//! The entries of an archive, decoded from its bytes.
use crate::cell::Cell;
use crate::fields::Fields;
use std::fmt;

/// A base entry: a base row's cell, and the smallest sets on which the row is single.
#[derive(Clone, Debug, PartialEq, Eq)]
pub struct Base {
    pub cell: Cell,
    pub list: Vec<u32>,
}

/// What an archive holds, in its order. In print it is the lister's text.
#[derive(Clone, Debug, PartialEq, Eq)]
pub struct Entries {
    /// The number of dimensions.
    pub dims: usize,
    pub bases: Vec<Base>,
    pub normals: Vec<Cell>,
}

impl Base {
    fn read(fields: &mut Fields, dims: usize) -> Option<Base> {
        let cell = Cell::read(fields, dims)?;
        let count = fields.word()?;
        Some(Base { cell, list: (0..count).map(|_| fields.word()).collect::<Option<_>>()? })
    }
}

impl Entries {
    /// The entries that follow an archive's sizes: the base count, base entries, the normal count, normal entries.
    pub(crate) fn read(fields: &mut Fields, dims: usize) -> Option<Entries> {
        let bases = fields.word()?;
        let bases = (0..bases).map(|_| Base::read(fields, dims)).collect::<Option<_>>()?;
        let normals = fields.word()?;
        let normals = (0..normals).map(|_| Cell::read(fields, dims)).collect::<Option<_>>()?;
        Some(Entries { dims, bases, normals })
    }
}

impl fmt::Display for Base {
    fn fmt(&self, f: &mut fmt::Formatter) -> fmt::Result {
        write!(f, "{} :", self.cell)?;
        self.list.iter().try_for_each(|set| write!(f, " {set}"))
    }
}

impl fmt::Display for Entries {
    fn fmt(&self, f: &mut fmt::Formatter) -> fmt::Result {
        writeln!(f, "{} {} {}", self.dims, self.bases.len(), self.normals.len())?;
        self.bases.iter().try_for_each(|base| writeln!(f, "{base}"))?;
        self.normals.iter().try_for_each(|cell| writeln!(f, "{cell}"))
    }
}
