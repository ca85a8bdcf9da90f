//! A naive model of the calls and the two programs, written from documents 01 and 02 alone: the definitions in `cube`, `keys`, `editions` and
//! `families`, the stops in checking order in `fields` and here, what the programs print in `listing` and `programs`.
pub mod cube;
pub mod editions;
pub mod families;
pub mod fees;
pub mod fields;
pub mod joins;
pub mod keys;
mod listing;
pub mod programs;
pub mod small;
mod window;

use crate::calls::{Cell, Found, Stop};
use crate::write::{archive_bytes, cuboid_bytes, list_bytes};
pub use cube::{Base, Row, ALL};
use editions::{converted, Edition};
pub use listing::listing;

/// Our archive of base rows.
pub fn archive_of(edition: Edition, sizes: &[u32], rows: &[Row]) -> Vec<u8> {
    archive_bytes(edition, sizes, &cube::bases(sizes.len(), rows), &cube::normals(sizes.len(), rows))
}

/// That of edition one.
pub fn our_archive(sizes: &[u32], rows: &[Row]) -> Vec<u8> {
    archive_of(Edition::One, sizes, rows)
}

/// The archive of a table, in edition one.
pub fn build(table: &[u8]) -> Result<Vec<u8>, Stop> {
    build_edition(Edition::One, table)
}

pub fn build_edition(edition: Edition, table: &[u8]) -> Result<Vec<u8>, Stop> {
    let table = fields::table(table)?;
    Ok(archive_of(edition, &table.sizes, &cube::folded(&table.rows)))
}

/// The result if it fits in so many bytes.
pub fn fit(result: &[u8], room: usize) -> Result<&[u8], Stop> {
    if result.len() > room {
        return Err(15);
    }
    Ok(result)
}

/// An archive that no stop on its own bytes refuses. In edition one the extremes are those of the converted archive.
#[derive(Clone, Debug)]
pub struct Accepted {
    pub edition: Edition,
    pub sizes: Vec<u32>,
    pub rows: Vec<Row>,
    pub bases: Vec<Base>,
    pub normals: Vec<Row>,
}

/// The archive of either edition, or the first of the stops 1 to 12 and 19. Number 12: a byte is not what the base entries require.
pub fn open(archive: &[u8]) -> Result<Accepted, Stop> {
    let fields::Archive { edition, sizes, mut bases, .. } = fields::archive(archive)?;
    if edition == Edition::One {
        bases.iter_mut().for_each(|base| base.row = converted(base.row.clone()));
    }
    let rows: Vec<Row> = bases.iter().map(|b| b.row.clone()).collect();
    let lists = (0..rows.len()).all(|i| bases[i].list == cube::list(sizes.len(), &rows, i));
    if !lists {
        return Err(12);
    }
    let normals = cube::normals(sizes.len(), &rows);
    if archive_bytes(edition, &sizes, &bases, &normals) != archive {
        return Err(12);
    }
    Ok(Accepted { edition, sizes, rows, bases, normals })
}

impl Accepted {
    pub fn dims(&self) -> usize {
        self.sizes.len()
    }

    /// What a check returns.
    pub fn counts(&self) -> (u32, u32) {
        (self.bases.len() as u32, self.normals.len() as u32)
    }

    /// A question has D codes, each below its size or ALL.
    fn question(&self, question: &[u32]) -> Result<(), Stop> {
        if question.len() != self.dims() || question.iter().zip(&self.sizes).any(|(code, size)| code >= size && *code != ALL) {
            return Err(13);
        }
        Ok(())
    }

    /// The cell that a question names, from the rows that fall in it, with the entry that stands for it. An empty table's cell has no row.
    pub fn look_up_extremes(&self, question: &[u32]) -> Result<Option<(Cell, u32)>, Stop> {
        self.question(question)?;
        let set = (0..self.dims()).filter(|&i| question[i] != ALL).map(|i| 1 << i).sum();
        let total = cube::Total::over(self.rows.iter().filter(|row| cube::agree(&row.codes, question, set)));
        if total.rows == 0 && !cube::empty(&self.rows, set) {
            return Ok(None);
        }
        let cube::Total { sum, count, extremes, .. } = total;
        Ok(Some((Cell { sum, count, extremes }, self.entry(question, set, total))))
    }

    /// The same without extremes.
    pub fn look_up(&self, question: &[u32]) -> Result<Option<Found>, Stop> {
        let found = self.look_up_extremes(question)?;
        Ok(found.map(|(cell, entry)| Found { sum: cell.sum, count: cell.count, entry }))
    }

    /// The one entry that stands for a cell.
    fn entry(&self, codes: &[u32], set: u32, total: cube::Total) -> u32 {
        let listed = |base: &Base| set == cube::full(self.dims()) || base.list.iter().any(|&other| cube::holds(set, other));
        let bases = self.bases.iter().map(|b| (&b.row, cube::agree(&b.row.codes, codes, set) && listed(b)));
        standing(bases.chain(self.normals.iter().map(|n| (n, n.codes == codes))), &total.at(codes.to_vec()))
    }

    /// The cells of a set.
    fn cells(&self, set: u32) -> Result<Vec<Row>, Stop> {
        if set > cube::full(self.dims()) {
            return Err(14);
        }
        Ok(cube::cells(self.dims(), &self.rows, set).into_iter().map(|(codes, total)| total.at(codes)).collect())
    }

    /// The cells of a set, listed in the shape of the archive's edition.
    pub fn list_cuboid(&self, set: u32) -> Result<Vec<u8>, Stop> {
        Ok(cuboid_bytes(self.edition, &self.cells(set)?))
    }

    /// All cuboids in lattice order.
    pub fn expand(&self) -> Vec<u8> {
        cube::lattice(self.dims()).into_iter().flat_map(|set| self.list_cuboid(set).unwrap()).collect()
    }

    /// The smallest keys: a count, then set numbers in lattice order.
    pub fn smallest_keys(&self) -> Vec<u8> {
        list_bytes(&keys::smallest(self.dims(), &self.rows))
    }

    /// Whether a set fixes a dimension.
    pub fn fixes(&self, set: u32, dimension: u32) -> Result<bool, Stop> {
        if set > cube::full(self.dims()) {
            return Err(14);
        }
        if !(1..=self.dims()).contains(&(dimension as usize)) {
            return Err(16);
        }
        Ok(keys::fixes(&self.rows, set, dimension as usize))
    }

    /// The number of cells of a set, then each cell's cents of a fee.
    pub fn share_fee(&self, fee: u32, set: u32) -> Result<Vec<u8>, Stop> {
        let cells = self.cells(set)?;
        if fee > 1_000_000_000 {
            return Err(23);
        }
        if self.rows.is_empty() {
            return Err(24);
        }
        Ok(list_bytes(&fees::shares(fee, &cells.iter().map(|cell| cell.count).collect::<Vec<_>>())))
    }
}

/// The number of the one entry that stands for a cell, which has the cell's values.
fn standing<'a>(entries: impl Iterator<Item = (&'a Row, bool)>, cell: &Row) -> u32 {
    let standing: Vec<(usize, &Row)> = entries.enumerate().filter(|(_, (_, stands))| *stands).map(|(i, (row, _))| (i, row)).collect();
    let [(i, row)] = standing[..] else { panic!("{} entries stand for {cell:?}", standing.len()) };
    assert_eq!((row.sum, row.count, row.extremes), (cell.sum, cell.count, cell.extremes), "the cell {cell:?}");
    i as u32
}
