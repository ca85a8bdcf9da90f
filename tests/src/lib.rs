//! The calls of the library, called from Rust, the programs, run through pipes, and what the tests hold both to.
//!
//! * `calls`: the calls as a trait
//! * `landed`: the requests of document 02 that the library may lack
//! * `library`: the calls through the C interface of libcube_archive.a
//! * `good`: the calls as fast plain Rust, for times
//! * `program`: the builder, the lister and the program of the small tables
//! * `model`: the calls and the programs done naively, written from documents 01 and 02
//! * `write`: tables, archives and listings as bytes
//! * `lent`: an output between guards
//! * `compare`: the library and `good` held to the model; `printed`: the programs held to it
//! * `cases`: inputs for each stop, and inputs that just miss it
//! * `random`: a repeatable generator; random tables and archives
//! * `kinds`: large tables of several kinds
//! * `damage`: wrong files made from right ones

pub mod calls;
pub mod cases;
pub mod compare;
pub mod damage;
pub mod good;
pub mod kinds;
pub mod landed;
pub mod lent;
pub mod library;
pub mod model;
pub mod printed;
pub mod program;
pub mod random;
pub mod write;

/// The most rows or base entries.
pub const ROWS: usize = 1024;
