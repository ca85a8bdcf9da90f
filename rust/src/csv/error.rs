//! What can be wrong with CSV text, and where.
use super::RECORD_BYTES;
use crate::quoted::quoted;
use crate::records::{RecordError, TooMany};
use crate::table::TableError;
use std::fmt;

/// A fault and the number of its line, counted from 1.
#[derive(Clone, Debug, PartialEq, Eq)]
pub struct Error {
    pub line: usize,
    pub fault: Fault,
}

/// What is wrong; a text is that of the field.
#[derive(Clone, Debug, PartialEq, Eq)]
pub enum Fault {
    /// The text could not be read on, for this reason.
    Unread(String),
    /// Bytes that are no UTF-8 text.
    NotText,
    /// All lines are blank, or there is none.
    NoHeader,
    /// A column's name that is empty, begins with a digit or a sign, or has a `=`, a comma or a control character.
    Name(String),
    /// A name that two columns have.
    Twice(String),
    /// No column has the name that was given for the reading's.
    NoColumn(String),
    /// A size that is not a number from 1 to 65,535.
    Size(String),
    /// The reading's column has a size.
    ReadingWithSize,
    /// A field with a double quote, or text beside a quoted field.
    Quote(String),
    /// A quoted field without its closing quote.
    OpenQuote,
    /// A quoted field without its closing quote where the bytes that a record may have are at an end.
    LongQuote,
    /// A record with more bytes than it may have.
    Long,
    /// A carriage return within a line.
    CarriageReturn,
    /// A record with more or fewer fields than there are columns.
    Fields { fields: usize, columns: usize },
    /// A code that is not a number from 0 to 65,534.
    Code(String),
    /// A reading that is not a number of 32 bits.
    Reading(String),
    /// What no table can have: too many or no dimensions, too many rows, a code that is not below a given size.
    Table(TableError),
    /// What no archive can have: too many records, or too many different combinations of codes.
    TooMany(TooMany),
}

impl Fault {
    pub(super) fn at(self, line: usize) -> Error {
        Error { line, fault: self }
    }
}

impl RecordError {
    /// The error in CSV text at a record's line, or for too many records at that of the first too many.
    pub fn at(self, line: usize) -> Error {
        match self {
            RecordError::Table(error) => Fault::Table(error).at(line),
            RecordError::TooMany(many) => many.into(),
        }
    }
}

impl From<TooMany> for Error {
    fn from(many: TooMany) -> Error {
        Fault::TooMany(many).at(many.place)
    }
}

impl From<TableError> for Fault {
    fn from(error: TableError) -> Fault {
        Fault::Table(error)
    }
}

impl fmt::Display for Fault {
    fn fmt(&self, f: &mut fmt::Formatter) -> fmt::Result {
        match self {
            Fault::Unread(why) => f.write_str(why),
            Fault::NotText => write!(f, "this is no UTF-8 text: save the records as CSV in UTF-8"),
            Fault::NoHeader => write!(f, "there is no header: the first line names the columns"),
            Fault::Name(text) => {
                let what = "is no column name: the header names each column, without '=' and commas, and not beginning with a number";
                write!(f, "{} {what}", quoted(text))
            }
            Fault::Twice(name) => write!(f, "two columns are named {}: give each a name of its own", quoted(name)),
            Fault::NoColumn(name) => write!(f, "no column is named {}, which was to be the reading", quoted(name)),
            Fault::Size(text) => write!(f, "{} is no size: a size is a number from 1 to {}", quoted(text), u16::MAX),
            Fault::ReadingWithSize => write!(f, "the reading's column has no size: only dimensions have one"),
            Fault::Quote(text) => {
                write!(f, "a quote or text beside one, {}: put the whole field in quotes, and write each quote in it twice", quoted(text))
            }
            Fault::OpenQuote => write!(f, "a quoted field has no closing quote"),
            Fault::LongQuote => write!(f, "a quoted field has no closing quote within the {RECORD_BYTES} bytes that a record may have"),
            Fault::Long => write!(f, "this record has more than the {RECORD_BYTES} bytes that a record may have"),
            Fault::CarriageReturn => write!(f, "a carriage return within a line: lines end with LF or CRLF"),
            Fault::Fields { fields, columns } => write!(f, "expected {columns} fields parted by commas, found {fields}"),
            Fault::Code(text) => write!(f, "{} is no code: a code is a number from 0 to {}", quoted(text), u16::MAX - 1),
            Fault::Reading(text) => write!(f, "{} is no reading: a reading is a number from {} to {}", quoted(text), i32::MIN, i32::MAX),
            Fault::Table(TableError::Dimensions(0)) => {
                write!(f, "there is one column only: commas part the columns, one to eight dimensions and the reading")
            }
            Fault::Table(error) => error.fmt(f),
            Fault::TooMany(many) => many.fmt(f),
        }
    }
}

impl fmt::Display for Error {
    fn fmt(&self, f: &mut fmt::Formatter) -> fmt::Result {
        write!(f, "line {}: {}", self.line, self.fault)
    }
}

impl std::error::Error for Error {}
