//! An archive that is asked, with its legend: dimensions and codes by the words that people use.
use crate::args::Args;
use crate::failure::{Failure, Outcome};
use crate::input::Input;
use crate::legend::{beside, Legend};
use crate::output;
use cube_archive::{Archive, Code, Stop};
use std::ffi::OsStr;
use std::path::{Path, PathBuf};

pub struct Opened {
    pub input: Input,
    pub archive: Archive,
    /// The legend and its file: the one of `--legend`, or else the one beside the archive.
    pub legend: Option<(PathBuf, Legend)>,
}

impl Opened {
    pub fn read(file: &OsStr, args: &Args) -> Outcome<Opened> {
        let input = Input::read(file)?;
        let archive = input.archive()?;
        let path = args.legend.clone().or_else(|| input.path.as_deref().and_then(beside));
        let legend = path.map(|path| Legend::read(&path).map(|legend| (path, legend))).transpose()?;
        if let Some((path, legend)) = &legend {
            legend.fits(&archive).map_err(|what| {
                Failure::of(path.display(), format!("not the legend of {}: {what}; name its own with --legend", input.name))
            })?;
        }
        Ok(Opened { input, archive, legend })
    }

    /// Delivers an answer.
    pub fn deliver(&self, args: &Args, answer: &str) -> Outcome<()> {
        output::deliver(args.output.as_deref(), &self.sources().collect::<Vec<_>>(), answer.as_bytes())
    }

    /// The files that were read.
    pub fn sources(&self) -> impl Iterator<Item = &Path> {
        std::iter::once(self.input.source()).chain(self.legend.as_ref().map(|(path, _)| path.as_path()))
    }

    /// What a call answered, or the failure that its stop is.
    pub fn ask<T>(&self, answer: Result<T, Stop>) -> Outcome<T> {
        answer.map_err(|stop| self.stop(stop))
    }

    /// The failure that a stop is. A wrong question is answered with the sizes.
    fn stop(&self, stop: Stop) -> Failure {
        match stop {
            Stop::Question => {
                let sizes: Vec<String> = self.archive.sizes().iter().map(u16::to_string).collect();
                Failure::of(&self.input.name, format!("refused 13: {}; the sizes are {}", stop.words(), sizes.join(", ")))
            }
            _ => Failure::stop(&self.input.name, stop),
        }
    }

    pub fn dims(&self) -> usize {
        self.archive.sizes().len()
    }

    /// The name of a dimension, or without a legend its number. Places count from 0.
    pub fn name(&self, place: usize) -> String {
        self.legend.as_ref().map_or((place + 1).to_string(), |(_, legend)| legend.dimensions[place].name.clone())
    }

    pub fn names(&self) -> Vec<String> {
        (0..self.dims()).map(|place| self.name(place)).collect()
    }

    /// The label of a code, or without a legend the code; `*` for ALL. Only a code that no record has can be without a label.
    pub fn label(&self, place: usize, code: Code) -> String {
        match (code, &self.legend) {
            (None, _) => "*".into(),
            (Some(code), None) => code.to_string(),
            (Some(code), Some((_, legend))) => legend.dimensions[place].label(code).map_or(format!("(code {code})"), String::from),
        }
    }

    /// The labels of a cell.
    pub fn labels(&self, codes: &[Code]) -> Vec<String> {
        codes.iter().enumerate().map(|(place, &code)| self.label(place, code)).collect()
    }

    /// The place of a dimension, by name or by number from 1.
    pub fn place(&self, word: &str) -> Outcome<usize> {
        let place = match number(word) {
            Some(number) => (number as usize).checked_sub(1).filter(|&place| place < self.dims()),
            None => self.legend.as_ref().and_then(|(_, legend)| legend.dimensions.iter().position(|dimension| dimension.name == word)),
        };
        place.ok_or_else(|| {
            let known = match &self.legend {
                Some(_) => format!("{}, or 1 to {}", self.names().join(", "), self.dims()),
                None => format!("1 to {}; names are in a legend, --legend FILE", self.dims()),
            };
            Failure::of(&self.input.name, format!("there is no dimension {word:?}: the dimensions are {known}"))
        })
    }

    /// The number of a set, by its dimensions with commas between; an empty word is the empty set.
    pub fn set(&self, word: &str) -> Outcome<u32> {
        let dimensions = word.split(',').filter(|_| !word.is_empty());
        dimensions.map(|dimension| self.place(dimension)).try_fold(0, |set, place| Ok(set | 1 << place?))
    }

    /// The dimensions of a set with commas between.
    pub fn set_names(&self, set: u32) -> String {
        places(set).map(|place| self.name(place)).collect::<Vec<_>>().join(",")
    }

    /// A question by `DIMENSION=CODE` for each dimension that is not ALL.
    pub fn question(&self, words: &[&str]) -> Outcome<Vec<Code>> {
        let mut question = vec![None; self.dims()];
        let mut asked = 0;
        for word in words {
            let (dimension, code) = word.split_once('=').ok_or_else(|| Failure::Usage(format!("{word:?} is not DIMENSION=CODE")))?;
            let place = self.place(dimension)?;
            if asked >> place & 1 == 1 {
                return Err(Failure::Usage(format!("dimension {dimension:?} is asked for twice")));
            }
            asked |= 1 << place;
            question[place] = if code == "*" { None } else { Some(self.code(dimension, place, code)?) };
        }
        Ok(question)
    }

    /// A code: a number behind a dimension's number, a label behind its name.
    fn code(&self, dimension: &str, place: usize, word: &str) -> Outcome<u16> {
        let legend = self.legend.as_ref().filter(|_| number(dimension).is_none());
        match legend {
            Some((path, legend)) => match legend.dimensions[place].code(word) {
                Some(code) if code < self.archive.sizes()[place] => Ok(code),
                Some(_) => {
                    Err(Failure::of(&self.input.name, format!("label {word:?} is newer than this archive, which has no record of it")))
                }
                None => {
                    let what = format!("dimension {dimension:?} has no label {word:?}; to ask for a code, write {}=CODE", place + 1);
                    Err(Failure::of(path.display(), what))
                }
            },
            None => number(word).map(|code| code.try_into().unwrap_or(u16::MAX)).ok_or_else(|| {
                Failure::Usage(format!("{word:?} is no code: behind a dimension's number comes a number, behind its name a label"))
            }),
        }
    }
}

/// The places of a set's dimensions, counted from 0.
pub fn places(set: u32) -> impl Iterator<Item = usize> {
    (0..8).filter(move |place| set >> place & 1 == 1)
}

/// An unsigned decimal number. One beyond 32 bits becomes the largest, which is no code, no dimension and no fee either.
pub fn number(word: &str) -> Option<u32> {
    let digits = !word.is_empty() && word.bytes().all(|byte| byte.is_ascii_digit());
    digits.then(|| word.parse().unwrap_or(u32::MAX))
}
