//! The condensed cube archive, from Rust.
//!
//! A bench record is one to eight codes and a reading. A table of records becomes an archive: the exact sum and count for
//! every grouping of the codes, stored without any cell for which one base row already stands. This crate wraps the
//! calls of `libcube_archive.a`, whose results are proved; the crate itself only passes bytes to them and decodes theirs.
//!
//! ```
//! use cube_archive::{Archive, Table};
//!
//! let mut table = Table::new(&[7, 6, 3])?;
//! table.push(&[0, 1, 1], 50)?;
//! table.push(&[1, 1, 1], 100)?;
//! table.push(&[2, 3, 1], 60)?;
//!
//! let archive = Archive::build(&table.to_bytes())?;
//! let cell = archive.look_up(&[None, Some(1), None])?.expect("two records have code 1 there");
//! assert_eq!((cell.sum, cell.count), (150, 2));
//! assert_eq!(archive.look_up(&[Some(0), Some(3), None])?, None, "no record");
//! # Ok::<(), Box<dyn std::error::Error>>(())
//! ```
//!
//! * [`Table`]: the bytes of a table; [`csv`]: a table from CSV text
//! * [`Records`]: the archive of more records than a table holds, built in parts and joined
//! * [`Archive`]: build, open, check, entries, look up, list a cuboid, expand, list the smallest keys, tell what a set fixes, share a fee, join two, add a record, look through a window
//! * [`Stop`]: why a call refuses its input, with the documents' numbers
//! * the command `cube` (`src/bin/cube`), for a person: docs/COMMAND.md
//! * [`raw`]: the calls on slices, into an output of the caller's; [`room`]: how long an output is enough
//!
//! # Stack
//!
//! The library allocates nothing: a call works on the stack, and [`STACK`] bytes of it are enough. The main thread and the
//! threads of [`std::thread::spawn`] have more; a thread with a stack size of its own must leave room for it.
//!
//! # Linking
//!
//! The build script takes `libcube_archive.a` from the folder that the environment variable `CUBE_LIB` names, or from
//! `target/staticlib` of the repository.

mod archive;
mod cell;
mod code;
pub mod csv;
mod entries;
mod fields;
mod head;
mod quoted;
pub mod raw;
mod records;
pub mod room;
mod stop;
mod table;

pub use archive::Archive;
pub use cell::{Cell, Cuboid};
pub use code::{Code, Codes, ALL};
pub use entries::{Base, Entries};
pub use quoted::quoted;
pub use raw::{Counts, Found, Seen};
pub use records::{RecordError, Records, TooMany};
pub use stop::Stop;
pub use table::{Table, TableError};

/// Stack that is enough for a call, in bytes: measured in the compiled library, not proved.
pub const STACK: usize = 1_048_576;
