//! Records from CSV text.
//!
//! The first line is the header: the names of the columns, parted by commas. One column is the reading, the last one unless
//! another is named; the others are the dimensions, one to eight of them, in their order. A dimension's name may be followed by
//! its size, `name:size`; its size is otherwise the largest code plus 1. Benches whose tables shall have the same sizes give
//! them. A name begins with neither a digit nor a sign, so that a header that was forgotten is found out, has no `=` and no
//! comma, and no two columns have the same.
//!
//! Each further line is a record: in the dimensions' columns codes (unsigned decimal numbers below their sizes, at most 65,534),
//! in the reading's a signed decimal number of 32 bits. A table has at most 1,024 records; [`Reader`] reads more, for an archive.
//!
//! The text is UTF-8, with or without a byte order mark. Lines end with LF or CRLF, the last one also with neither. Spaces round
//! a field and blank lines are passed over. A field in double quotes is taken as it is, with its commas, line ends and spaces; a
//! double quote in it is written twice. A line with its line end, and with the lines to which its quoted fields go on, has at most
//! 1,048,576 bytes ([`RECORD_BYTES`]), so that a quote which is never closed does not take in the rest of a long text.
//!
//! ```
//! let table = cube_archive::csv::table_of("chip:7, port, reading\n0, 1, 50\n6, 5, -80\n")?;
//! assert_eq!(table.sizes(), [7, 6]);
//!
//! let error = cube_archive::csv::table_of("chip, port, reading\n0, 1, 50\n\n6, five, -80\n").unwrap_err();
//! assert_eq!(error.to_string(), "line 4: \"five\" is no code: a code is a number from 0 to 65534");
//! # Ok::<(), cube_archive::csv::Error>(())
//! ```
mod error;
mod header;
mod lines;
mod reader;

use crate::table::Table;
pub use error::{Error, Fault};
pub use header::{is_name, Column};
pub use reader::{Reader, Record};

/// The most bytes of a line with its line end, and with the lines to which its quoted fields go on.
pub const RECORD_BYTES: usize = 1_048_576;

/// CSV text taken apart whole: what stands in the dimensions' columns may be codes or anything else.
///
/// ```
/// use cube_archive::csv::Sheet;
///
/// let sheet = Sheet::read("ticks,chip,port\n50,\"A7\",left\n", Some("ticks"))?;
/// assert_eq!(sheet.dimensions[1].name, "port");
/// assert_eq!((&sheet.records[0].fields[..], sheet.records[0].reading), (&["A7".to_string(), "left".to_string()][..], 50));
/// # Ok::<(), cube_archive::csv::Error>(())
/// ```
#[derive(Clone, Debug, PartialEq, Eq)]
pub struct Sheet {
    /// The line of the header, counted from 1.
    pub line: usize,
    /// The columns but for the reading's.
    pub dimensions: Vec<Column>,
    pub records: Vec<Record>,
}

impl Sheet {
    /// Takes text apart. The reading's column is the one of this name, or the last.
    pub fn read(text: &str, reading: Option<&str>) -> Result<Sheet, Error> {
        let reader = Reader::new(text.as_bytes(), reading)?;
        let (line, dimensions) = (reader.line(), reader.dimensions().to_vec());
        Ok(Sheet { line, dimensions, records: reader.collect::<Result<_, _>>()? })
    }

    /// The table of records whose fields are codes.
    pub fn table(&self) -> Result<Table, Error> {
        let sizes: Vec<u16> = self.dimensions.iter().map(|dimension| dimension.size.unwrap_or(u16::MAX)).collect();
        let mut table = Table::new(&sizes).map_err(|error| Fault::Table(error).at(self.line))?;
        for record in &self.records {
            record.add(&mut table).map_err(|fault| fault.at(record.line))?;
        }
        let open = self.dimensions.iter().zip(1..).filter(|(dimension, _)| dimension.size.is_none());
        open.for_each(|(_, number)| table.narrow(number));
        Ok(table)
    }
}

impl Record {
    fn add(&self, table: &mut Table) -> Result<(), Fault> {
        let codes = self.fields.iter().map(|field| code(field)).collect::<Result<Vec<_>, _>>()?;
        Ok(table.push(&codes, self.reading)?)
    }
}

/// The text that bytes are.
pub fn text_of(bytes: &[u8]) -> Result<&str, Error> {
    let line = |valid: usize| 1 + bytes[..valid].iter().filter(|&&byte| byte == b'\n').count();
    std::str::from_utf8(bytes).map_err(|error| Fault::NotText.at(line(error.valid_up_to())))
}

/// The table of CSV text with codes and the reading in the last column, or a fault in it.
pub fn table_of(text: &str) -> Result<Table, Error> {
    Sheet::read(text, None)?.table()
}

fn code(field: &str) -> Result<u16, Fault> {
    unsigned(field).filter(|&code| code < u16::MAX).ok_or_else(|| Fault::Code(field.into()))
}

fn unsigned(field: &str) -> Option<u16> {
    field.parse().ok().filter(|_| !field.starts_with('+'))
}
