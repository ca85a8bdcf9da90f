//! The totals of a dimension.
use crate::failure::Outcome;
use crate::opened::Opened;
use cube_archive::{Cell, Found};

/// The cells of one dimension, and the cell of all records.
pub struct Totals {
    pub cells: Vec<Cell>,
    pub all: Found,
}

impl Totals {
    pub fn of(opened: &Opened, place: usize) -> Outcome<Totals> {
        let cells = opened.ask(opened.archive.list_cuboid(1 << place))?.cells;
        Ok(Totals { cells, all: grand(opened)? })
    }

    /// The cells' sums added up.
    pub fn sum(&self) -> i64 {
        self.cells.iter().map(|cell| cell.sum).sum()
    }

    /// The cells' counts added up.
    pub fn count(&self) -> u32 {
        self.cells.iter().map(|cell| cell.count).sum()
    }

    pub fn equal(&self) -> bool {
        (self.sum(), self.count()) == (self.all.sum, self.all.count)
    }
}

/// The cell of all records.
pub fn grand(opened: &Opened) -> Outcome<Found> {
    let all = opened.ask(opened.archive.look_up(&vec![None; opened.dims()]))?;
    Ok(all.expect("the cell of all records exists"))
}
