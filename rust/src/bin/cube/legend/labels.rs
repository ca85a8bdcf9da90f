//! Records whose fields are labels, read before a legend is looked at.
use cube_archive::csv::{Column, Reader, Record};
use cube_archive::{RecordError, Records};
use std::collections::HashMap;
use std::io::BufRead;

/// The columns, the labels of each, numbered as they come, and the records by these numbers.
pub struct Labels {
    /// The line of the header.
    pub line: usize,
    pub columns: Vec<Column>,
    pub numbers: Vec<HashMap<String, u16>>,
    pub records: Records,
}

impl Labels {
    /// Reads records. For each `seen` is told how many there are.
    pub fn read<R: BufRead>(reader: Reader<R>, mut seen: impl FnMut(usize)) -> Result<Labels, String> {
        let (line, columns) = (reader.line(), reader.dimensions().to_vec());
        let mut numbers = vec![HashMap::new(); columns.len()];
        let mut records = Records::new(&vec![u16::MAX; columns.len()]).map_err(|error| error.to_string())?;
        for record in reader {
            let Record { line, fields, reading } = record.map_err(|error| error.to_string())?;
            if fields.iter().any(|label| label == "*") {
                return Err(format!("line {line}: the label \"*\" stands for ALL: use another"));
            }
            let row: Option<Vec<u16>> = fields.into_iter().zip(&mut numbers).map(|(label, numbers)| number(numbers, label)).collect();
            let pushed = match row {
                Some(row) => records.push(line, &row, reading),
                // So many labels are too many combinations too.
                None => Err(RecordError::TooMany(records.too_many(Some(line)))),
            };
            pushed.map_err(|error| error.at(line).to_string())?;
            seen(records.len());
        }
        Ok(Labels { line, columns, numbers, records })
    }

    /// The labels of a column.
    pub fn of(&self, column: usize) -> impl Iterator<Item = &str> {
        self.numbers[column].keys().map(String::as_str)
    }
}

/// The number of a label, which may be the next one, up to 65,534.
fn number(numbers: &mut HashMap<String, u16>, label: String) -> Option<u16> {
    let next = numbers.len();
    match numbers.get(&label) {
        Some(&number) => Some(number),
        None => {
            let number = u16::try_from(next).ok().filter(|&number| number < u16::MAX)?;
            numbers.insert(label, number);
            Some(number)
        }
    }
}
