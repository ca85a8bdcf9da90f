//! How many bytes of output are always enough, for so many dimensions (1 to 8) and rows (0 to 1,024).
//!
//! These are upper bounds. The rows are the row count of a table or the base count of an archive; a table without rows needs
//! the room of one with one row. That the bounds hold is proved of these formulas (`crates/promises/proofs/Room.antt`); the
//! comments of `include/cube_archive.h` say why.

/// For the archive of a table.
pub const fn archive(dims: usize, rows: usize) -> usize {
    let each = 4 * dims + 16 + ((1 << dims) - 1) * (2 * dims + 6);
    20 + 4 * dims + at_least_1(rows) * each
}

/// For two archives joined, of so many base rows: they have no more together, and no more than 1,024.
pub const fn join(dims: usize, rows: usize, others: usize) -> usize {
    let both = rows + others;
    archive(dims, if both < 1024 { both } else { 1024 })
}

/// For a record added to an archive of so many base rows: one row more at most, and no more than 1,024.
pub const fn add(dims: usize, rows: usize) -> usize {
    join(dims, rows, 1)
}

/// For a listed cuboid.
pub const fn cuboid(dims: usize, rows: usize) -> usize {
    4 + at_least_1(rows) * (4 * dims + 12)
}

/// For the smallest keys of any archive: a count, and at most 70 sets of which none holds another.
pub const KEYS: usize = 4 + 4 * 70;

/// For the shares of a fee over so many cells; the base count is no less where a fee can be shared.
pub const fn fee(cells: usize) -> usize {
    4 + 4 * cells
}

/// For an expansion.
pub const fn expansion(dims: usize, rows: usize) -> usize {
    cuboid(dims, rows) << dims
}

/// An empty table has a cell too.
const fn at_least_1(rows: usize) -> usize {
    if rows == 0 {
        1
    } else {
        rows
    }
}
