//! Lines of CSV text and their fields.
use super::{text_of, Error, Fault, RECORD_BYTES};
use std::io::{BufRead, Read};

/// The lines of a source, read as they are asked for.
pub(super) struct Lines<R> {
    source: R,
    /// How many lines have been read.
    count: usize,
    /// The bytes that were read last.
    bytes: Vec<u8>,
    /// Whether they are the beginning of a record that is too long. Nothing is read behind it.
    cut: bool,
}

impl<R: BufRead> Lines<R> {
    pub fn of(source: R) -> Lines<R> {
        Lines { source, count: 0, bytes: vec![], cut: false }
    }

    /// Reads a line, and those to which a field in quotes goes on: there the quotes so far are odd in number. Nothing is left to
    /// read if the bytes are none. What is too long is read no further, and cut.
    fn read(&mut self) -> Result<(), Error> {
        self.bytes.clear();
        let mut quotes = 0;
        loop {
            let before = self.bytes.len();
            let line = self.count + 1;
            let room = RECORD_BYTES + 1 - before;
            let source = &mut self.source.by_ref().take(room as u64);
            source.read_until(b'\n', &mut self.bytes).map_err(|error| Fault::Unread(error.to_string()).at(line))?;
            let read = &self.bytes[before..];
            self.count += usize::from(!read.is_empty());
            quotes += read.iter().filter(|&&byte| byte == b'"').count();
            if read.len() == room {
                self.cut = true;
                // One byte more may be the second of two quotes.
                self.bytes.truncate(whole(&self.bytes[..RECORD_BYTES + quotes % 2]));
                return Ok(());
            }
            if quotes % 2 == 0 || read.is_empty() {
                return Ok(());
            }
        }
    }
}

/// Each line that is not blank: its number, and its fields or what is wrong with them.
impl<R: BufRead> Iterator for Lines<R> {
    type Item = Result<(usize, Vec<String>), Error>;

    fn next(&mut self) -> Option<Self::Item> {
        while !self.cut {
            let line = self.count + 1;
            if let Err(error) = self.read() {
                return Some(Err(error));
            }
            if self.bytes.is_empty() {
                return None;
            }
            let text = match text_of(&self.bytes) {
                Ok(text) => text,
                Err(error) => return Some(Err(error.fault.at(line + error.line - 1))),
            };
            let text = text.strip_prefix('\u{FEFF}').filter(|_| line == 1).unwrap_or(text);
            if self.cut {
                return Some(Err(too_long(text, line)));
            }
            if !text.trim().is_empty() {
                let mut text = Text { rest: text, line };
                return Some(text.fields().map(|fields| (line, fields)).map_err(|fault| fault.at(text.line)));
            }
        }
        None
    }
}

/// How many bytes there are without a character at the end that was cut.
fn whole(bytes: &[u8]) -> usize {
    match std::str::from_utf8(bytes) {
        Err(error) if error.error_len().is_none() => error.valid_up_to(),
        _ => bytes.len(),
    }
}

/// What is wrong with a record that is too long, by its beginning: the first fault there, or its length.
fn too_long(beginning: &str, line: usize) -> Error {
    let mut text = Text { rest: beginning, line };
    match text.fields() {
        Ok(_) => Fault::Long.at(line),
        Err(Fault::OpenQuote) => Fault::LongQuote.at(text.line),
        Err(fault) => fault.at(text.line),
    }
}

/// What is left of the text, and the number of its first line.
struct Text<'a> {
    rest: &'a str,
    line: usize,
}

impl<'a> Text<'a> {
    fn fields(&mut self) -> Result<Vec<String>, Fault> {
        let mut fields = vec![self.field()?];
        while let Some(rest) = self.rest.strip_prefix(',') {
            self.rest = rest;
            fields.push(self.field()?);
        }
        Ok(fields)
    }

    /// A field; the rest then begins with a comma or a line end, or is empty.
    fn field(&mut self) -> Result<String, Fault> {
        let quoted = self.rest.trim_start_matches([' ', '\t']).strip_prefix('"');
        let (text, rest) = match quoted {
            Some(inside) => unquoted(inside)?,
            None => (String::new(), self.rest),
        };
        let end = rest.find([',', '\n']).unwrap_or(rest.len());
        let (plain, rest) = (rest[..end].trim(), &rest[end..]);
        self.pass(rest);
        match plain {
            "" if quoted.is_some() => Ok(text),
            _ if quoted.is_some() || plain.contains('"') => Err(Fault::Quote(plain.into())),
            _ if plain.contains('\r') => Err(Fault::CarriageReturn),
            _ => Ok(plain.into()),
        }
    }

    /// Goes on to the rest.
    fn pass(&mut self, rest: &'a str) {
        self.line += self.rest[..self.rest.len() - rest.len()].matches('\n').count();
        self.rest = rest;
    }
}

/// The text of a quoted field, and what follows its closing quote.
fn unquoted(mut inside: &str) -> Result<(String, &str), Fault> {
    let mut text = String::new();
    loop {
        let (part, rest) = inside.split_once('"').ok_or(Fault::OpenQuote)?;
        text += part;
        match rest.strip_prefix('"') {
            None => return Ok((text, rest)),
            Some(more) => {
                text.push('"');
                inside = more;
            }
        }
    }
}
