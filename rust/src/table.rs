//! A table of records, and its bytes.
use std::fmt;

/// The most rows of a table.
pub(crate) const ROWS: usize = 1_024;

/// Records with their codes' sizes, from which the bytes of a table are made.
///
/// ```
/// use cube_archive::Table;
///
/// let mut table = Table::new(&[7, 6, 3])?;
/// table.push(&[0, 1, 1], 50)?;
/// assert!(table.push(&[0, 6, 1], 50).is_err(), "6 is not below its size");
/// assert_eq!(table.to_bytes().len(), 44);
/// # Ok::<(), cube_archive::TableError>(())
/// ```
#[derive(Clone, Debug, PartialEq, Eq)]
pub struct Table {
    sizes: Vec<u16>,
    rows: Vec<(Vec<u16>, i32)>,
}

impl Table {
    /// A table without rows, from the size of each dimension: one to eight sizes, each at least 1.
    pub fn new(sizes: &[u16]) -> Result<Table, TableError> {
        if !(1..=8).contains(&sizes.len()) {
            return Err(TableError::Dimensions(sizes.len()));
        }
        match sizes.iter().position(|&size| size == 0) {
            Some(i) => Err(TableError::Size { dimension: i + 1 }),
            None => Ok(Table { sizes: sizes.to_vec(), rows: vec![] }),
        }
    }

    /// Adds a row: a code for each dimension, below its size, and a reading. Rows may repeat; there may be 1,024 of them.
    pub fn push(&mut self, codes: &[u16], reading: i32) -> Result<(), TableError> {
        if self.rows.len() == ROWS {
            return Err(TableError::Rows);
        }
        if codes.len() != self.sizes.len() {
            return Err(TableError::Codes { codes: codes.len(), dimensions: self.sizes.len() });
        }
        if let Some(i) = (0..codes.len()).find(|&i| codes[i] >= self.sizes[i]) {
            return Err(TableError::Code { dimension: i + 1, code: codes[i], size: self.sizes[i] });
        }
        self.rows.push((codes.to_vec(), reading));
        Ok(())
    }

    /// Makes a dimension's size, counted from 1, the least that its codes allow: the largest code plus 1, or 1 without rows.
    pub(crate) fn narrow(&mut self, dimension: usize) {
        let i = dimension - 1;
        self.sizes[i] = self.rows.iter().map(|(codes, _)| codes[i] + 1).max().unwrap_or(1);
    }

    /// The size of each dimension.
    pub fn sizes(&self) -> &[u16] {
        &self.sizes
    }

    /// The table as a file holds it, with its check word.
    pub fn to_bytes(&self) -> Vec<u8> {
        let mut words = vec![u32::from_le_bytes([0x46, 0x41, 0x43, 0x54]), self.sizes.len() as u32];
        words.extend(self.sizes.iter().map(|&size| u32::from(size)));
        words.push(self.rows.len() as u32);
        for (codes, reading) in &self.rows {
            words.extend(codes.iter().map(|&code| u32::from(code)));
            words.push(*reading as u32);
        }
        words.push(words.iter().fold(0, |sum, word| sum.wrapping_add(*word)));
        words.into_iter().flat_map(u32::to_le_bytes).collect()
    }
}

/// Why a table cannot be as it is asked for. Dimensions are counted from 1.
#[derive(Clone, Copy, Debug, PartialEq, Eq)]
pub enum TableError {
    /// So many dimensions: not 1 to 8.
    Dimensions(usize),
    /// A size of 0.
    Size { dimension: usize },
    /// A row beyond 1,024.
    Rows,
    /// A row with other than one code for each dimension.
    Codes { codes: usize, dimensions: usize },
    /// A code that is not below its size.
    Code { dimension: usize, code: u16, size: u16 },
}

impl fmt::Display for TableError {
    fn fmt(&self, f: &mut fmt::Formatter) -> fmt::Result {
        match self {
            TableError::Dimensions(dimensions) => write!(f, "{dimensions} dimensions: a table has 1 to 8"),
            TableError::Size { dimension } => write!(f, "the size of dimension {dimension} is 0"),
            TableError::Rows => write!(f, "a table has at most {ROWS} rows"),
            TableError::Codes { codes, dimensions } => write!(f, "expected {dimensions} codes, found {codes}"),
            TableError::Code { dimension, code, size } => write!(f, "code {code} of dimension {dimension} is not below its size {size}"),
        }
    }
}

impl std::error::Error for TableError {}
