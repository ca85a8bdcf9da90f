//! The header of CSV text: which column is the reading, and what the dimensions' columns are.
use super::{unsigned, Error, Fault, Record};
use crate::table::TableError;

/// A dimension's column.
#[derive(Clone, Debug, PartialEq, Eq)]
pub struct Column {
    pub name: String,
    /// The size that the header gives, 1 to 65,535.
    pub size: Option<u16>,
}

pub(super) struct Header {
    /// The place of the reading among all columns.
    reading: usize,
    pub dimensions: Vec<Column>,
}

impl Header {
    pub fn read(headings: &[String], reading: Option<&str>) -> Result<Header, Fault> {
        let mut columns = headings.iter().map(|heading| column(heading)).collect::<Result<Vec<_>, _>>()?;
        if let Some(i) = (0..columns.len()).find(|&i| columns[..i].iter().any(|column| column.name == columns[i].name)) {
            return Err(Fault::Twice(columns[i].name.clone()));
        }
        let place = match reading {
            None => columns.len() - 1,
            Some(name) => columns.iter().position(|column| column.name == name).ok_or_else(|| Fault::NoColumn(name.into()))?,
        };
        if columns.remove(place).size.is_some() {
            return Err(Fault::ReadingWithSize);
        }
        match columns.len() {
            1..=8 => Ok(Header { reading: place, dimensions: columns }),
            dims => Err(TableError::Dimensions(dims).into()),
        }
    }

    /// The record of a line's fields.
    pub fn record(&self, line: usize, mut fields: Vec<String>) -> Result<Record, Error> {
        let columns = self.dimensions.len() + 1;
        if fields.len() != columns {
            return Err(Fault::Fields { fields: fields.len(), columns }.at(line));
        }
        let reading = fields.remove(self.reading);
        match reading.parse() {
            Ok(reading) => Ok(Record { line, fields, reading }),
            Err(_) => Err(Fault::Reading(reading).at(line)),
        }
    }
}

/// The column of a heading, which is `name` or `name:size`.
fn column(heading: &str) -> Result<Column, Fault> {
    let (name, size) = heading.rsplit_once(':').map_or((heading, None), |(name, size)| (name, Some(size.trim())));
    let name = name.trim();
    if !is_name(name) {
        return Err(Fault::Name(name.into()));
    }
    let size = size.map(|size| unsigned(size).filter(|&n| n > 0).ok_or_else(|| Fault::Size(size.into()))).transpose()?;
    Ok(Column { name: name.into(), size })
}

/// Whether a column, and so a dimension, may have this name: it begins with neither a digit nor a sign, and has no `=`, comma or
/// control character, nor a space at either end.
pub fn is_name(name: &str) -> bool {
    let number = |c: char| c.is_ascii_digit() || c == '+' || c == '-';
    !name.is_empty() && !name.starts_with(number) && !name.contains(|c: char| c == '=' || c == ',' || c.is_control()) && name.trim() == name
}
