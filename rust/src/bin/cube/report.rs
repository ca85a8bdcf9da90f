//! The report on an archive: the field engineer's five points carried out, and the totals of every dimension.
mod html;
mod page;
mod points;
mod questions;
mod totals;

use crate::failure::Outcome;
use crate::opened::Opened;
use cube_archive::{Counts, Cuboid, Found};
pub use page::page;
pub use totals::Totals;

/// An archive and what the calls answer about all of it.
struct Asked<'a> {
    opened: &'a Opened,
    counts: Counts,
    /// All cuboids in lattice order.
    cuboids: Vec<Cuboid>,
    /// The totals of each dimension.
    totals: Vec<Totals>,
}

impl Asked<'_> {
    fn of(opened: &Opened) -> Outcome<Asked<'_>> {
        let counts = opened.ask(opened.archive.check())?;
        let cuboids = opened.ask(opened.archive.expand())?;
        let all = totals::grand(opened)?;
        let totals = (0..opened.dims()).map(|place| Totals { cells: questions::cells(&cuboids, 1 << place).to_vec(), all }).collect();
        Ok(Asked { opened, counts, cuboids, totals })
    }

    /// The cell of all records.
    fn all(&self) -> Found {
        self.totals[0].all
    }
}

/// The name of a dimension, or without a legend what it is and its number.
fn heading(opened: &Opened, place: usize) -> String {
    let kind = if opened.legend.is_some() { "" } else { "dimension " };
    kind.to_string() + &opened.name(place)
}
