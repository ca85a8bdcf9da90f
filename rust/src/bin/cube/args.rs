//! The words behind a command, and its options.
use crate::failure::{Failure, Outcome};
use crate::opened::number;
use std::ffi::{OsStr, OsString};
use std::path::PathBuf;

#[derive(Default)]
pub struct Args {
    words: Vec<OsString>,
    pub output: Option<PathBuf>,
    pub legend: Option<PathBuf>,
    pub reading: Option<String>,
    pub csv: bool,
    pub table: bool,
}

impl Args {
    /// The words and options of a command that has these options; each has `-o`. A number below zero is a word.
    pub fn parse(words: &[OsString], options: &[&str]) -> Outcome<Args> {
        let mut args = Args::default();
        let mut rest = words.iter();
        while let Some(word) = rest.next() {
            match word.to_str() {
                Some("--") => args.words.extend(rest.by_ref().cloned()),
                Some(option) if option.len() > 1 && option.starts_with('-') && number(&option[1..]).is_none() => {
                    if option != "-o" && !options.contains(&option) {
                        return Err(Failure::Usage(format!("there is no option {option} here")));
                    }
                    args.take(option, &mut rest)?;
                }
                _ => args.words.push(word.clone()),
            }
        }
        Ok(args)
    }

    fn take<'a>(&mut self, option: &str, rest: &mut impl Iterator<Item = &'a OsString>) -> Outcome<()> {
        let mut value = || rest.next().cloned().ok_or_else(|| Failure::Usage(format!("{option} needs a word behind it")));
        let twice = match option {
            "-o" => self.output.replace(value()?.into()).is_some(),
            "--legend" => self.legend.replace(value()?.into()).is_some(),
            "--reading" => self.reading.replace(text(&value()?)?.into()).is_some(),
            "--table" => std::mem::replace(&mut self.table, true),
            _ => std::mem::replace(&mut self.csv, true),
        };
        match twice {
            true => Err(Failure::Usage(format!("{option} is given twice"))),
            false => Ok(()),
        }
    }

    /// The first word, which is a file, and those behind it, which are text.
    pub fn file_and_texts(&self) -> Outcome<(&OsStr, Vec<&str>)> {
        let (file, rest) = self.words.split_first().ok_or_else(|| Failure::Usage("a file is missing".into()))?;
        Ok((file, rest.iter().map(|word| text(word)).collect::<Outcome<_>>()?))
    }

    /// The only word, which is a file.
    pub fn file(&self) -> Outcome<&OsStr> {
        match &self.words[..] {
            [file] => Ok(file),
            words => Err(Failure::Usage(format!("expected 1 file, found {}", words.len()))),
        }
    }

    /// So many words or more, each of them a file.
    pub fn files(&self, least: usize) -> Outcome<Vec<&OsStr>> {
        match self.words.len() {
            count if count < least => Err(Failure::Usage(format!("expected {least} files or more, found {count}"))),
            _ => Ok(self.words.iter().map(OsString::as_os_str).collect()),
        }
    }
}

fn text(word: &OsStr) -> Outcome<&str> {
    word.to_str().ok_or_else(|| Failure::Usage(format!("{word:?} is no text")))
}
