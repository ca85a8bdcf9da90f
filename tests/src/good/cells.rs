//! The bytes of cells, normal entries and cuboids.
use super::codes::{cell, lattice, missing, Codes};
use super::condense::Condensed;
use super::groups::Groups;
use super::measure::Measure;
use super::read::le;
use super::rows::Rows;

/// Writes a cell into bytes that just hold it.
pub fn write<M: Measure>(cell: &Codes, total: M, out: &mut [u8]) {
    let (codes, end) = out.split_at_mut(out.len() - M::BYTES);
    codes.chunks_exact_mut(4).zip(cell).for_each(|(place, &code)| place.copy_from_slice(&(code as u32).to_le_bytes()));
    total.write(end);
}

/// Whether the bytes are those of a cell.
pub fn is_cell<M: Measure>(cell: &Codes, total: M, bytes: &[u8]) -> bool {
    let (codes, end) = bytes.split_at(bytes.len() - M::BYTES);
    codes.chunks_exact(4).zip(cell).all(|(place, &code)| le(place) == code as u32) && total.is(end)
}

/// The cells of a set's groups of so many rows or more, by codes; the empty table's one cell, too.
fn each<M: Measure>(rows: &Rows<M>, set: usize, groups: &Groups, least: usize, mut see: impl FnMut(&Codes, M)) {
    let missing = missing(set);
    if set == 0 && rows.len() == 0 {
        see(&missing, M::EMPTY);
    }
    groups.each(&rows.totals, |row, members, total| {
        if members >= least {
            see(&cell(&rows.codes[row], &missing), total);
        }
    });
}

/// Writes the normal entries into bytes that just hold them.
pub fn write_normals<M: Measure>(rows: &Rows<M>, condensed: &Condensed, out: &mut [u8]) {
    let mut places = out.chunks_exact_mut(rows.width());
    for set in lattice(rows.dims) {
        each(rows, set, &condensed.groups[set], 2, |cell, total| write(cell, total, places.next().unwrap()));
    }
}

/// Whether the bytes, as many as the normal entries have, are theirs.
pub fn are_normals<M: Measure>(rows: &Rows<M>, condensed: &Condensed, bytes: &[u8]) -> bool {
    let mut places = bytes.chunks_exact(rows.width());
    let mut same = true;
    for set in lattice(rows.dims) {
        each(rows, set, &condensed.groups[set], 2, |cell, total| same &= is_cell(cell, total, places.next().unwrap()));
    }
    same
}

/// The length of a cuboid.
pub fn length<M: Measure>(rows: &Rows<M>, set: usize, groups: &Groups) -> usize {
    let cells = if set == 0 && rows.len() == 0 { 1 } else { groups.len() };
    4 + cells * rows.width()
}

/// Writes a cuboid into bytes that just hold it.
pub fn write_cuboid<M: Measure>(rows: &Rows<M>, set: usize, groups: &Groups, out: &mut [u8]) {
    let (count, out) = out.split_at_mut(4);
    let mut places = out.chunks_exact_mut(rows.width());
    count.copy_from_slice(&(places.len() as u32).to_le_bytes());
    each(rows, set, groups, 1, |cell, total| write(cell, total, places.next().unwrap()));
}
