//! A file that a command reads, whole or as it goes; `-` is standard input.
use crate::failure::{Failure, Outcome};
use cube_archive::Archive;
use std::ffi::OsStr;
use std::fs::{self, File};
use std::io::{self, BufRead, BufReader, Read};
use std::path::{Path, PathBuf};

/// A file that was read whole.
pub struct Input {
    /// The file's name in messages.
    pub name: String,
    /// The file, if it has a name.
    pub path: Option<PathBuf>,
    pub bytes: Vec<u8>,
}

/// A file of which only so much is read as is asked for.
pub struct Stream {
    pub name: String,
    path: Option<PathBuf>,
    pub text: Box<dyn BufRead>,
}

impl Input {
    pub fn read(word: &OsStr) -> Outcome<Input> {
        let (name, path) = named(word);
        let bytes = path.as_ref().map_or_else(from_standard_input, fs::read).map_err(|error| Failure::of(&name, error))?;
        Ok(Input { name, path, bytes })
    }

    /// Where the bytes came from, to be told from an output.
    pub fn source(&self) -> &Path {
        source(&self.path)
    }

    pub fn archive(&self) -> Outcome<Archive> {
        Archive::open(self.bytes.clone()).map_err(|stop| Failure::stop(&self.name, stop))
    }
}

impl Stream {
    pub fn open(word: &OsStr) -> Outcome<Stream> {
        let (name, path) = named(word);
        let text: Box<dyn BufRead> = match &path {
            Some(path) => Box::new(BufReader::new(File::open(path).map_err(|error| Failure::of(&name, error))?)),
            None => Box::new(io::stdin().lock()),
        };
        Ok(Stream { name, path, text })
    }

    /// Where the bytes come from, to be told from an output.
    pub fn source(&self) -> PathBuf {
        source(&self.path).into()
    }
}

/// The name and the path of the file that a word is.
fn named(word: &OsStr) -> (String, Option<PathBuf>) {
    let path = (word != "-").then(|| PathBuf::from(word));
    (path.as_ref().map_or("standard input".into(), |path| path.display().to_string()), path)
}

fn source(path: &Option<PathBuf>) -> &Path {
    path.as_deref().unwrap_or(Path::new("/dev/stdin"))
}

fn from_standard_input() -> io::Result<Vec<u8>> {
    let mut bytes = vec![];
    io::stdin().read_to_end(&mut bytes)?;
    Ok(bytes)
}
