//! The legend: each dimension's name and sizes, and the label of each code. docs/LEGEND.md has its form.
mod extend;
mod fit;
mod labels;
mod text;

use crate::failure::{Failure, Outcome};
use cube_archive::quoted;
use std::collections::HashMap;
use std::fs;
use std::path::{Path, PathBuf};

pub use labels::Labels;

#[derive(Clone, Debug, PartialEq, Eq)]
pub struct Legend {
    /// The title and the notes above the first dimension, as they are.
    head: String,
    pub dimensions: Vec<Dimension>,
}

#[derive(Clone, Debug, PartialEq, Eq)]
pub struct Dimension {
    pub name: String,
    /// The sizes it has had, rising; the last one is its size.
    sizes: Vec<u16>,
    /// The label of each code, from 0 on.
    labels: Vec<String>,
    /// The code of each label.
    codes: HashMap<String, u16>,
}

impl Legend {
    pub fn read(path: &Path) -> Outcome<Legend> {
        let bytes = fs::read(path).map_err(|error| Failure::of(path.display(), error))?;
        Legend::parse(&bytes).map_err(|fault| Failure::of(path.display(), fault))
    }

    /// The size of each dimension.
    pub fn sizes(&self) -> Vec<u16> {
        self.dimensions.iter().map(Dimension::size).collect()
    }
}

impl Dimension {
    /// A dimension that has no label yet.
    fn new(name: String) -> Dimension {
        Dimension { name, sizes: vec![], labels: vec![], codes: HashMap::new() }
    }

    /// Gives the next code to a new label, if there is one.
    fn push(&mut self, label: &str) -> Result<(), String> {
        let code = u16::try_from(self.labels.len()).ok().filter(|&code| code < u16::MAX);
        let code = code.ok_or_else(|| {
            format!("dimension {} has no code left for {}: it has {} labels", quoted(&self.name), quoted(label), u16::MAX)
        })?;
        self.labels.push(label.into());
        self.codes.insert(label.into(), code);
        Ok(())
    }

    pub fn size(&self) -> u16 {
        self.sizes.last().copied().unwrap_or(1)
    }

    pub fn label(&self, code: u16) -> Option<&str> {
        self.labels.get(usize::from(code)).map(String::as_str)
    }

    pub fn code(&self, label: &str) -> Option<u16> {
        self.codes.get(label).copied()
    }
}

/// The legend that stands beside an archive, under its name with the ending `.legend`, if there is one.
pub fn beside(archive: &Path) -> Option<PathBuf> {
    Some(archive.with_extension("legend")).filter(|path| path != archive && path.exists())
}

/// A legend beside a new archive will be taken for its own, so it must agree with the one that the archive has.
pub fn agree_beside(archive: &Path, legend: Option<&Legend>) -> Outcome<()> {
    let Some(path) = beside(archive) else { return Ok(()) };
    match legend {
        Some(legend) if Legend::read(&path)?.agrees(legend) => Ok(()),
        Some(_) => {
            Err(Failure::of(path.display(), "it stands beside the new archive, but has other labels: give the archive another name"))
        }
        None => {
            let what = "it would be taken for the legend of the new archive: give it with --legend, or give the archive another name";
            Err(Failure::of(path.display(), what))
        }
    }
}
