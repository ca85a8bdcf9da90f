//! Records of any number up to what an archive holds, and their archive.
mod too_many;

use crate::archive::Archive;
use crate::stop::Stop;
use crate::table::{Table, TableError, ROWS};
pub use too_many::TooMany;

/// The most base rows of an archive, which are different combinations of codes.
pub const COMBINATIONS: usize = 1_024;

/// The most records of an archive: the total of its counts.
pub const RECORDS: usize = 1_048_576;

/// Records with their codes' sizes, from which an archive is made: a table holds 1,024 of them, an archive 1,048,576 with 1,024
/// different combinations of codes.
///
/// ```
/// use cube_archive::Records;
///
/// let mut records = Records::new(&[3, 5])?;
/// for i in 0..5_000 {
///     records.push(i, &[i as u16 % 3, i as u16 % 5], 2)?;
/// }
/// let archive = records.archive()?;
/// assert_eq!(archive.look_up(&[None, None])?.map(|all| (all.sum, all.count)), Some((10_000, 5_000)));
/// assert_eq!(archive.check()?.bases, 15);
/// # Ok::<(), Box<dyn std::error::Error>>(())
/// ```
#[derive(Clone, Debug, PartialEq, Eq)]
pub struct Records {
    sizes: Vec<u16>,
    rows: Vec<Row>,
}

/// A record, of 32 bytes. The order is that of the codes, then of the places.
#[derive(Clone, Copy, Debug, PartialEq, Eq, PartialOrd, Ord)]
struct Row {
    /// 0 behind the last dimension.
    codes: [u16; 8],
    place: usize,
    reading: i32,
}

/// Why a record is not taken.
#[derive(Clone, Copy, Debug, PartialEq, Eq)]
pub enum RecordError {
    /// Its codes are none.
    Table(TableError),
    /// There are as many as an archive holds.
    TooMany(TooMany),
}

impl Records {
    /// No records yet, from the size of each dimension: one to eight sizes, each at least 1.
    pub fn new(sizes: &[u16]) -> Result<Records, TableError> {
        Table::new(sizes).map(|_| Records { sizes: sizes.to_vec(), rows: vec![] })
    }

    /// Adds a record: a code for each dimension, below its size, and a reading. Its place, such as the line of a file, is for
    /// errors alone; places rise.
    pub fn push(&mut self, place: usize, codes: &[u16], reading: i32) -> Result<(), RecordError> {
        if codes.len() != self.sizes.len() {
            return Err(RecordError::Table(TableError::Codes { codes: codes.len(), dimensions: self.sizes.len() }));
        }
        let mut row = Row { codes: [0; 8], place, reading };
        row.codes[..codes.len()].copy_from_slice(codes);
        self.fits(&row).map_err(RecordError::Table)?;
        if self.rows.len() == RECORDS {
            return Err(RecordError::TooMany(self.too_many(Some(place))));
        }
        self.rows.push(row);
        Ok(())
    }

    /// Whether a row's codes are below their sizes.
    fn fits(&self, row: &Row) -> Result<(), TableError> {
        match self.sizes.iter().zip(row.codes).zip(1..).find(|((size, code), _)| code >= *size) {
            Some(((&size, code), dimension)) => Err(TableError::Code { dimension, code, size }),
            None => Ok(()),
        }
    }

    /// Gives the records other sizes and codes: `code` has the place of a dimension, counted from 0, and a record's old codes. An error
    /// leaves the records behind the one that is at fault with their old codes.
    pub fn recode(&mut self, sizes: &[u16], code: impl Fn(usize, &[u16]) -> u16) -> Result<(), TableError> {
        let old = std::mem::replace(&mut self.sizes, Records::new(sizes)?.sizes).len();
        for i in 0..self.rows.len() {
            let codes = self.rows[i].codes;
            self.rows[i].codes = std::array::from_fn(|place| if place < sizes.len() { code(place, &codes[..old]) } else { 0 });
            self.fits(&self.rows[i])?;
        }
        Ok(())
    }

    /// Makes a dimension's size, counted from 1, the least that its codes allow: the largest code plus 1, or 1 without records.
    pub fn narrow(&mut self, dimension: usize) {
        let i = dimension - 1;
        self.sizes[i] = self.rows.iter().map(|row| row.codes[i] + 1).max().unwrap_or(1);
    }

    /// The size of each dimension.
    pub fn sizes(&self) -> &[u16] {
        &self.sizes
    }

    /// How many records there are.
    pub fn len(&self) -> usize {
        self.rows.len()
    }

    pub fn is_empty(&self) -> bool {
        self.rows.is_empty()
    }

    /// The place that a record was given, by its number counted from 0.
    pub fn place(&self, number: usize) -> Option<usize> {
        self.rows.get(number).map(|row| row.place)
    }

    /// One table of all records, if there are no more than 1,024.
    pub fn table(&self) -> Result<Table, TableError> {
        table(&self.sizes, &self.rows)
    }

    /// The archive of all records: more than 1,024 are built in parts, and these are joined. A join gives the archive of the base
    /// rows of both archives, which are those of both tables' rows, and the order of rows does not matter: that is proved.
    ///
    /// The records are ordered by codes first, so that a part has few different combinations of them, and its archive few entries.
    pub fn archive(&mut self) -> Result<Archive, TooMany> {
        self.rows.sort_unstable();
        match joined(&self.sizes, &self.rows) {
            Ok(archive) => Ok(archive),
            Err(Stop::Many) => Err(self.too_many(None)),
            Err(stop) => panic!("records within their sizes: {stop}"),
        }
    }
}

/// The archive of rows: of one table, or of both halves joined.
fn joined(sizes: &[u16], rows: &[Row]) -> Result<Archive, Stop> {
    if rows.len() <= ROWS {
        let table = table(sizes, rows).expect("so many rows, and codes below their sizes");
        return Archive::build(&table.to_bytes());
    }
    let tables = rows.len().div_ceil(ROWS);
    let (front, back) = rows.split_at(tables.div_ceil(2) * ROWS);
    joined(sizes, front)?.join(&joined(sizes, back)?)
}

fn table(sizes: &[u16], rows: &[Row]) -> Result<Table, TableError> {
    let mut table = Table::new(sizes)?;
    rows.iter().try_for_each(|row| table.push(&row.codes[..sizes.len()], row.reading))?;
    Ok(table)
}

impl std::fmt::Display for RecordError {
    fn fmt(&self, f: &mut std::fmt::Formatter) -> std::fmt::Result {
        match self {
            RecordError::Table(error) => error.fmt(f),
            RecordError::TooMany(error) => error.fmt(f),
        }
    }
}

impl std::error::Error for RecordError {}
