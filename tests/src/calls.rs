//! The calls, as tests and times see them. Each implementation of them answers in the same way.
use crate::landed::Request;

/// A stop's number in documents 01 and 02.
pub type Stop = u32;

/// What a looked-up cell returns.
#[derive(Clone, Copy, Debug, PartialEq, Eq)]
pub struct Found {
    pub sum: i64,
    pub count: u32,
    pub entry: u32,
}

/// The least and the greatest reading.
#[derive(Clone, Copy, Debug, PartialEq, Eq)]
pub struct Extremes {
    pub least: i32,
    pub greatest: i32,
}

/// A cell with its extremes, or none if they are unknown.
#[derive(Clone, Copy, Debug, PartialEq, Eq)]
pub struct Cell {
    pub sum: i64,
    pub count: u32,
    pub extremes: Option<Extremes>,
}

/// The answer of a call that is not there.
fn lacking(request: Request) -> ! {
    panic!("{request:?} is not landed")
}

/// The calls that came with a request of document 02 which the library may lack have a default.
pub trait Calls: Sync {
    /// Writes the archive of a table; its length.
    fn build(&self, table: &[u8], out: &mut [u8]) -> Result<usize, Stop>;

    /// The base count and the normal count of an archive.
    fn check(&self, archive: &[u8]) -> Result<(u32, u32), Stop>;

    /// The cell that a question names, or none for 'no record'.
    fn look_up(&self, archive: &[u8], question: &[u32]) -> Result<Option<Found>, Stop>;

    /// Writes the cells of one set; the length.
    fn list_cuboid(&self, archive: &[u8], set: u32, out: &mut [u8]) -> Result<usize, Stop>;

    /// Writes the complete cube; its length.
    fn expand(&self, archive: &[u8], out: &mut [u8]) -> Result<usize, Stop>;

    /// Writes the smallest keys; the length.
    fn smallest_keys(&self, archive: &[u8], out: &mut [u8]) -> Result<usize, Stop>;

    /// Whether a set fixes a dimension, counted from 1.
    fn fixes(&self, archive: &[u8], set: u32, dimension: u32) -> Result<bool, Stop>;

    /// Writes the number of cells of one set, then each cell's cents of a fee; the length.
    fn share_fee(&self, archive: &[u8], fee: u32, set: u32, out: &mut [u8]) -> Result<usize, Stop>;

    /// Writes the archive of the base rows of two archives; its length.
    fn join(&self, first: &[u8], second: &[u8], out: &mut [u8]) -> Result<usize, Stop>;

    /// Writes the archive of edition two of a table; its length.
    fn build_two(&self, _table: &[u8], _out: &mut [u8]) -> Result<usize, Stop> {
        lacking(Request::C17)
    }

    /// Writes an archive of edition one as edition two; its length.
    fn convert(&self, _archive: &[u8], _out: &mut [u8]) -> Result<usize, Stop> {
        lacking(Request::C17)
    }

    /// The cell that a question names with its extremes, and its entry's number; or none for 'no record'.
    fn look_up_extremes(&self, _archive: &[u8], _question: &[u32]) -> Result<Option<(Cell, u32)>, Stop> {
        lacking(Request::C17)
    }

    /// Writes the archive with one record added; its length.
    fn add(&self, _archive: &[u8], _codes: &[u32], _reading: i32, _out: &mut [u8]) -> Result<usize, Stop> {
        lacking(Request::C18)
    }

    /// The cell that a question through a window names, or none for 'no record'. The window is a dimension, counted from 1, and a code.
    fn window(&self, _archive: &[u8], _dimension: u32, _code: u32, _question: &[u32]) -> Result<Option<Cell>, Stop> {
        lacking(Request::C19)
    }

    /// Writes the archive with families of a table with families; its length.
    fn family_build(&self, _table: &[u8], _out: &mut [u8]) -> Result<usize, Stop> {
        lacking(Request::C20)
    }

    /// The base count and the normal count of an archive with families.
    fn family_check(&self, _archive: &[u8]) -> Result<(u32, u32), Stop> {
        lacking(Request::C20)
    }

    /// The cell of a node that a question names, and its entry's number; or none for 'no record'.
    fn family_look_up(&self, _archive: &[u8], _node: u32, _question: &[u32]) -> Result<Option<(Cell, u32)>, Stop> {
        lacking(Request::C20)
    }

    /// Writes the cells of one node; the length.
    fn family_list(&self, _archive: &[u8], _node: u32, _out: &mut [u8]) -> Result<usize, Stop> {
        lacking(Request::C20)
    }

    /// Writes the cells of all nodes; the length.
    fn family_expand(&self, _archive: &[u8], _out: &mut [u8]) -> Result<usize, Stop> {
        lacking(Request::C20)
    }
}
