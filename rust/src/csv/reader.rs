//! CSV text read record by record.
use super::header::Header;
use super::lines::Lines;
use super::{code, Column, Error, Fault};
use crate::records::Records;
use std::io::BufRead;

/// CSV text whose header has been read; its records follow as they are asked for.
///
/// ```
/// use cube_archive::csv::Reader;
///
/// let text = "ticks,chip,port\n50,\"A7\",left\n".as_bytes();
/// let mut reader = Reader::new(text, Some("ticks"))?;
/// assert_eq!(reader.dimensions()[1].name, "port");
/// let record = reader.next().expect("there is one")?;
/// assert_eq!((record.line, &record.fields[..], record.reading), (2, &["A7".to_string(), "left".to_string()][..], 50));
/// assert!(reader.next().is_none());
/// # Ok::<(), cube_archive::csv::Error>(())
/// ```
pub struct Reader<R> {
    lines: Lines<R>,
    line: usize,
    header: Header,
}

/// A record: a field for each dimension, and the reading.
#[derive(Clone, Debug, PartialEq, Eq)]
pub struct Record {
    /// The record's first line, counted from 1.
    pub line: usize,
    pub fields: Vec<String>,
    pub reading: i32,
}

impl<R: BufRead> Reader<R> {
    /// Reads the header. The reading's column is the one of this name, or the last.
    pub fn new(source: R, reading: Option<&str>) -> Result<Reader<R>, Error> {
        let mut lines = Lines::of(source);
        let (line, header) = lines.next().unwrap_or(Err(Fault::NoHeader.at(1)))?;
        let header = Header::read(&header, reading).map_err(|fault| fault.at(line))?;
        Ok(Reader { lines, line, header })
    }

    /// The line of the header, counted from 1.
    pub fn line(&self) -> usize {
        self.line
    }

    /// The columns but for the reading's.
    pub fn dimensions(&self) -> &[Column] {
        &self.header.dimensions
    }

    /// All records, whose fields are codes, as many as an archive holds. A size that the header does not give is the least that
    /// the codes allow. For each record `seen` is told how many there are.
    ///
    /// ```
    /// let text = "chip:7,port,reading\n".to_string() + &"0,1,50\n6,5,-80\n".repeat(1_000);
    /// let mut records = cube_archive::csv::Reader::new(text.as_bytes(), None)?.codes(|_| ())?;
    /// assert_eq!((records.len(), records.sizes()), (2_000, &[7, 6][..]));
    /// assert_eq!(records.archive()?.check()?.bases, 2);
    /// # Ok::<(), Box<dyn std::error::Error>>(())
    /// ```
    pub fn codes(self, mut seen: impl FnMut(usize)) -> Result<Records, Error> {
        let open: Vec<usize> = (0..self.dimensions().len()).filter(|&i| self.dimensions()[i].size.is_none()).collect();
        let sizes: Vec<u16> = self.dimensions().iter().map(|dimension| dimension.size.unwrap_or(u16::MAX)).collect();
        let mut records = Records::new(&sizes).map_err(|error| Fault::Table(error).at(self.line))?;
        for record in self {
            let Record { line, fields, reading } = record?;
            let codes = fields.iter().map(|field| code(field)).collect::<Result<Vec<_>, _>>().map_err(|fault| fault.at(line))?;
            records.push(line, &codes, reading).map_err(|error| error.at(line))?;
            seen(records.len());
        }
        open.into_iter().for_each(|i| records.narrow(i + 1));
        Ok(records)
    }
}

impl<R: BufRead> Iterator for Reader<R> {
    type Item = Result<Record, Error>;

    fn next(&mut self) -> Option<Self::Item> {
        self.lines.next().map(|record| record.and_then(|(line, fields)| self.header.record(line, fields)))
    }
}
