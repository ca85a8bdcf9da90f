//! Where a result goes: to standard output, or whole into a file that replaces the old one.
use crate::failure::{Failure, Outcome};
use std::ffi::OsString;
use std::fs::{self, File, OpenOptions};
use std::io::{self, ErrorKind, IsTerminal, Write};
use std::os::unix::fs::MetadataExt;
use std::path::{Path, PathBuf};

/// Writes to standard output. A reader that has gone away wants no more.
pub fn print(bytes: &[u8]) -> Outcome<()> {
    let mut out = io::stdout();
    match out.write_all(bytes).and_then(|()| out.flush()) {
        Err(error) if error.kind() != ErrorKind::BrokenPipe => Err(Failure::of("standard output", error)),
        _ => Ok(()),
    }
}

/// An archive must not go to a terminal.
pub fn not_to_a_terminal(output: Option<&Path>) -> Outcome<()> {
    match output {
        None if io::stdout().is_terminal() => Err(Failure::Usage("an archive is no text: give it a file, -o FILE".into())),
        _ => Ok(()),
    }
}

/// Writes a result to the file of `-o`, which must be none of the inputs, or else to standard output.
pub fn deliver(output: Option<&Path>, inputs: &[&Path], bytes: &[u8]) -> Outcome<()> {
    match output {
        Some(path) => Draft::write(path, inputs, bytes)?.put(),
        None => print(bytes),
    }
}

/// A file that is whole, on the disk and not yet in its place: it stands beside it, under a name that ends in `.part`.
/// Unless it is put there, it is removed. A process that is killed leaves it behind, and the old file as it was.
pub struct Draft {
    path: PathBuf,
    part: PathBuf,
}

impl Draft {
    pub fn write(path: &Path, inputs: &[&Path], bytes: &[u8]) -> Outcome<Draft> {
        let failed = |error: io::Error| Failure::of(path.display(), error);
        let place = resolved(path).map_err(failed)?;
        if inputs.iter().any(|input| same(input, &place)) {
            return Err(Failure::of(path.display(), "this file is an input and stays as it is: write to another one"));
        }
        let old = fs::metadata(&place).ok();
        if old.as_ref().is_some_and(|old| !old.is_file()) {
            return Err(Failure::of(path.display(), "this is no plain file; without -o the result goes to standard output"));
        }
        let part = part_of(&place);
        let mut file = OpenOptions::new().write(true).create_new(true).open(&part).map_err(|error| Failure::of(part.display(), error))?;
        let draft = Draft { path: place, part };
        old.map_or(Ok(()), |old| file.set_permissions(old.permissions())).map_err(failed)?;
        file.write_all(bytes).and_then(|()| file.sync_all()).map_err(failed)?;
        Ok(draft)
    }

    /// Puts the file into its place.
    pub fn put(self) -> Outcome<()> {
        fs::rename(&self.part, &self.path).map_err(|error| Failure::of(self.path.display(), error))?;
        // The new name goes to the disk too, where the file system can do that for a folder.
        let _ = File::open(folder(&self.path)).and_then(|folder| folder.sync_all());
        Ok(())
    }
}

impl Drop for Draft {
    /// Does nothing for a file that was put into its place, which has left this name.
    fn drop(&mut self) {
        let _ = fs::remove_file(&self.part);
    }
}

/// The path without links. What is not there yet is in a folder that is.
fn resolved(path: &Path) -> io::Result<PathBuf> {
    match (fs::canonicalize(path), path.file_name()) {
        (Err(error), Some(name)) if error.kind() == ErrorKind::NotFound => Ok(folder(path).canonicalize()?.join(name)),
        (found, _) => found,
    }
}

/// Whether a path is this resolved one, or another name of the same file.
fn same(path: &Path, place: &Path) -> bool {
    let file = |path: &Path| fs::metadata(path).map(|file| (file.dev(), file.ino())).ok();
    resolved(path).is_ok_and(|path| path == place) || file(path).is_some_and(|one| Some(one) == file(place))
}

/// Holds back every other process that locks the folder of this file, until the lock is dropped.
pub fn lock(path: &Path) -> Outcome<File> {
    let locked = resolved(path).and_then(|place| File::open(folder(&place))).and_then(|folder| folder.lock().map(|()| folder));
    locked.map_err(|error| Failure::of(path.display(), error))
}

fn folder(path: &Path) -> &Path {
    path.parent().filter(|folder| !folder.as_os_str().is_empty()).unwrap_or(Path::new("."))
}

fn part_of(path: &Path) -> PathBuf {
    let mut name = OsString::from(path);
    name.push(format!(".{}.part", std::process::id()));
    name.into()
}
