//! The calls on slices. Those that write take an output of the caller's and return the length of the result.
//!
//! A call reads and checks its whole input each time. A stop leaves every byte of the output as it was, and so do bytes
//! beyond the result. [`room`](crate::room) says how long an output is always enough.
//!
//! ```
//! use cube_archive::{raw, Stop, Table};
//!
//! let table = Table::new(&[1])?.to_bytes();
//! let mut out = [0xEE; 41];
//! assert_eq!(raw::build(&table, &mut out), Ok(40));
//! assert_eq!(out[40], 0xEE);
//! assert_eq!(raw::build(&table, &mut out[..39]), Err(Stop::Output));
//! # Ok::<(), cube_archive::TableError>(())
//! ```
use crate::stop::Stop;

/// The functions of `include/cube_archive.h`.
mod ffi {
    extern "C" {
        pub fn cube_build(table: *const u8, table_len: usize, out: *mut u8, out_len: usize) -> u64;
        pub fn cube_check(archive: *const u8, archive_len: usize) -> u64;
        pub fn cube_look_up(
            archive: *const u8,
            archive_len: usize,
            question: *const u32,
            question_len: usize,
            sum: *mut i64,
            count: *mut u32,
            entry: *mut u32,
        ) -> u64;
        pub fn cube_list_cuboid(archive: *const u8, archive_len: usize, set: u32, out: *mut u8, out_len: usize) -> u64;
        pub fn cube_expand(archive: *const u8, archive_len: usize, out: *mut u8, out_len: usize) -> u64;
        pub fn cube_smallest_keys(archive: *const u8, archive_len: usize, out: *mut u8, out_len: usize) -> u64;
        pub fn cube_fixes(archive: *const u8, archive_len: usize, set: u32, dimension: u32) -> u64;
        pub fn cube_share_fee(archive: *const u8, archive_len: usize, fee: u32, set: u32, out: *mut u8, out_len: usize) -> u64;
        pub fn cube_join(first: *const u8, first_len: usize, second: *const u8, second_len: usize, out: *mut u8, out_len: usize) -> u64;
        pub fn cube_add(
            archive: *const u8,
            archive_len: usize,
            codes: *const u32,
            count: usize,
            reading: i32,
            out: *mut u8,
            out_len: usize,
        ) -> u64;
        pub fn cube_window(
            archive: *const u8,
            archive_len: usize,
            dimension: u32,
            code: u32,
            question: *const u32,
            count: usize,
            sum: *mut i64,
            n: *mut u32,
        ) -> u64;
    }
}

/// How many entries an archive has.
#[derive(Clone, Copy, Debug, PartialEq, Eq)]
pub struct Counts {
    pub bases: u32,
    pub normals: u32,
}

/// What a cell that exists answers.
#[derive(Clone, Copy, Debug, Default, PartialEq, Eq)]
pub struct Found {
    pub sum: i64,
    pub count: u32,
    /// The number of the entry that carries them, from 0 through base, then normal entries.
    pub entry: u32,
}

/// What a cell that exists answers through a window: no entry's number, which would tell of rows outside.
#[derive(Clone, Copy, Debug, Default, PartialEq, Eq)]
pub struct Seen {
    pub sum: i64,
    pub count: u32,
}

/// Builds the archive of a table; its length.
pub fn build(table: &[u8], out: &mut [u8]) -> Result<usize, Stop> {
    // SAFETY: two slices, and the output is apart from the input.
    length(unsafe { ffi::cube_build(table.as_ptr(), table.len(), out.as_mut_ptr(), out.len()) })
}

/// Checks an archive; its base count and normal count.
pub fn check(archive: &[u8]) -> Result<Counts, Stop> {
    // SAFETY: a slice.
    let answer = answer(unsafe { ffi::cube_check(archive.as_ptr(), archive.len()) })?;
    Ok(Counts { bases: answer as u32, normals: (answer >> 32) as u32 })
}

/// Looks up a cell, by a code or [`ALL`](crate::ALL) for each dimension; `None` is 'no record'.
pub fn look_up(archive: &[u8], question: &[u32]) -> Result<Option<Found>, Stop> {
    let mut found = Found::default();
    let Found { sum, count, entry } = &mut found;
    // SAFETY: two slices, and three numbers of this function's own.
    let answer =
        answer(unsafe { ffi::cube_look_up(archive.as_ptr(), archive.len(), question.as_ptr(), question.len(), sum, count, entry) })?;
    Ok((answer == 1).then_some(found))
}

/// Lists the cuboid of a set; its length. Dimension i, counted from 1, adds 2 to the power i-1 to a set's number.
pub fn list_cuboid(archive: &[u8], set: u32, out: &mut [u8]) -> Result<usize, Stop> {
    // SAFETY: two slices, and the output is apart from the input.
    length(unsafe { ffi::cube_list_cuboid(archive.as_ptr(), archive.len(), set, out.as_mut_ptr(), out.len()) })
}

/// Expands an archive to the complete cube; the length of the expansion.
pub fn expand(archive: &[u8], out: &mut [u8]) -> Result<usize, Stop> {
    // SAFETY: two slices, and the output is apart from the input.
    length(unsafe { ffi::cube_expand(archive.as_ptr(), archive.len(), out.as_mut_ptr(), out.len()) })
}

/// Lists the smallest keys; the length of the list. No two base rows agree on a key, and a smallest one holds no other key.
pub fn smallest_keys(archive: &[u8], out: &mut [u8]) -> Result<usize, Stop> {
    // SAFETY: two slices, and the output is apart from the input.
    length(unsafe { ffi::cube_smallest_keys(archive.as_ptr(), archive.len(), out.as_mut_ptr(), out.len()) })
}

/// Whether a set fixes a dimension, counted from 1: base rows that agree on the set agree on the dimension too.
pub fn fixes(archive: &[u8], set: u32, dimension: u32) -> Result<bool, Stop> {
    // SAFETY: a slice.
    Ok(answer(unsafe { ffi::cube_fixes(archive.as_ptr(), archive.len(), set, dimension) })? == 1)
}

/// Shares a fee in cents over the cells of a set by their counts; the length of the number of cells and each cell's cents.
pub fn share_fee(archive: &[u8], fee: u32, set: u32, out: &mut [u8]) -> Result<usize, Stop> {
    // SAFETY: two slices, and the output is apart from the input.
    length(unsafe { ffi::cube_share_fee(archive.as_ptr(), archive.len(), fee, set, out.as_mut_ptr(), out.len()) })
}

/// Joins two archives of the same dimensions and sizes; the length of the archive of both lists of base rows, folded.
pub fn join(first: &[u8], second: &[u8], out: &mut [u8]) -> Result<usize, Stop> {
    // SAFETY: three slices, and the output is apart from the inputs.
    length(unsafe { ffi::cube_join(first.as_ptr(), first.len(), second.as_ptr(), second.len(), out.as_mut_ptr(), out.len()) })
}

/// Adds one record, a code for each dimension and a reading; the length of the archive of the base rows with this record folded in.
pub fn add(archive: &[u8], codes: &[u32], reading: i32, out: &mut [u8]) -> Result<usize, Stop> {
    // SAFETY: three slices, and the output is apart from the inputs.
    length(unsafe { ffi::cube_add(archive.as_ptr(), archive.len(), codes.as_ptr(), codes.len(), reading, out.as_mut_ptr(), out.len()) })
}

/// Looks up a cell through the window of a dimension, counted from 1, and a code, which the question must have there; `None` is 'no record'.
pub fn window(archive: &[u8], dimension: u32, code: u32, question: &[u32]) -> Result<Option<Seen>, Stop> {
    let mut seen = Seen::default();
    let Seen { sum, count } = &mut seen;
    // SAFETY: two slices, and two numbers of this function's own.
    let answer = answer(unsafe {
        ffi::cube_window(archive.as_ptr(), archive.len(), dimension, code, question.as_ptr(), question.len(), sum, count)
    })?;
    Ok((answer == 1).then_some(seen))
}

/// The answer, or the stop: 2 to the power 63 plus its number.
fn answer(answer: u64) -> Result<u64, Stop> {
    match answer.checked_sub(1 << 63) {
        None => Ok(answer),
        Some(number) => Err(Stop::numbered(number)),
    }
}

fn length(number: u64) -> Result<usize, Stop> {
    Ok(answer(number)? as usize)
}
