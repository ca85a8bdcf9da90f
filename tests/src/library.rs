//! The library's functions, declared as C sees them, and a safe wrapper over each. Those of a request that it may lack come with its feature.
mod slots;

#[cfg(feature = "c17")]
use crate::calls::Cell;
use crate::calls::{Calls, Found, Stop};
#[cfg(feature = "c17")]
use slots::CellSlots;
use slots::Slot;

// A slice is a pointer and a length; the pointer of an empty slice is not null.
extern "C" {
    fn cube_build(table: *const u8, table_len: usize, out: *mut u8, out_len: usize) -> u64;
    fn cube_check(archive: *const u8, archive_len: usize) -> u64;
    fn cube_look_up(
        archive: *const u8,
        archive_len: usize,
        question: *const u32,
        question_len: usize,
        sum: *mut i64,
        count: *mut u32,
        entry: *mut u32,
    ) -> u64;
    fn cube_list_cuboid(archive: *const u8, archive_len: usize, set: u32, out: *mut u8, out_len: usize) -> u64;
    fn cube_expand(archive: *const u8, archive_len: usize, out: *mut u8, out_len: usize) -> u64;
    fn cube_smallest_keys(archive: *const u8, archive_len: usize, out: *mut u8, out_len: usize) -> u64;
    fn cube_fixes(archive: *const u8, archive_len: usize, set: u32, dimension: u32) -> u64;
    fn cube_share_fee(archive: *const u8, archive_len: usize, fee: u32, set: u32, out: *mut u8, out_len: usize) -> u64;
    fn cube_join(first: *const u8, first_len: usize, second: *const u8, second_len: usize, out: *mut u8, out_len: usize) -> u64;
}

#[cfg(feature = "c17")]
extern "C" {
    fn cube_build_two(table: *const u8, table_len: usize, out: *mut u8, out_len: usize) -> u64;
    fn cube_convert(archive: *const u8, archive_len: usize, out: *mut u8, out_len: usize) -> u64;
    fn cube_look_up_extremes(
        archive: *const u8,
        archive_len: usize,
        question: *const u32,
        question_len: usize,
        sum: *mut i64,
        count: *mut u32,
        entry: *mut u32,
        known: *mut u32,
        least: *mut i32,
        greatest: *mut i32,
    ) -> u64;
}

#[cfg(feature = "c18")]
extern "C" {
    fn cube_add(
        archive: *const u8,
        archive_len: usize,
        codes: *const u32,
        codes_len: usize,
        reading: i32,
        out: *mut u8,
        out_len: usize,
    ) -> u64;
}

#[cfg(feature = "c19")]
extern "C" {
    fn cube_window(
        archive: *const u8,
        archive_len: usize,
        dimension: u32,
        code: u32,
        question: *const u32,
        question_len: usize,
        sum: *mut i64,
        count: *mut u32,
        known: *mut u32,
        least: *mut i32,
        greatest: *mut i32,
    ) -> u64;
}

#[cfg(feature = "c20")]
extern "C" {
    fn cube_family_build(table: *const u8, table_len: usize, out: *mut u8, out_len: usize) -> u64;
    fn cube_family_check(archive: *const u8, archive_len: usize) -> u64;
    fn cube_family_look_up(
        archive: *const u8,
        archive_len: usize,
        node: u32,
        question: *const u32,
        question_len: usize,
        sum: *mut i64,
        count: *mut u32,
        entry: *mut u32,
        known: *mut u32,
        least: *mut i32,
        greatest: *mut i32,
    ) -> u64;
    fn cube_family_list(archive: *const u8, archive_len: usize, node: u32, out: *mut u8, out_len: usize) -> u64;
    fn cube_family_expand(archive: *const u8, archive_len: usize, out: *mut u8, out_len: usize) -> u64;
}

const STOP: u64 = 1 << 63;

/// The stop in a bare answer, or the answer.
fn split(answer: u64) -> Result<u64, Stop> {
    if answer < STOP {
        return Ok(answer);
    }
    let stop = answer - STOP;
    assert!(matches!(stop, 1..=18 | 23 | 24), "the stop {stop} is none of documents 01 and 02");
    Err(stop as Stop)
}

/// Whether a cell was found: a look-up answers 0, 1 or a stop.
fn found(answer: u64) -> Result<bool, Stop> {
    let answer = split(answer)?;
    assert!(answer < 2, "{answer}: a cell is there (1) or not (0)");
    Ok(answer == 1)
}

/// The calls through libcube_archive.a.
pub struct Library;

impl Calls for Library {
    fn build(&self, table: &[u8], out: &mut [u8]) -> Result<usize, Stop> {
        // SAFETY: both are slices, and apart.
        let answer = unsafe { cube_build(table.as_ptr(), table.len(), out.as_mut_ptr(), out.len()) };
        Ok(split(answer)? as usize)
    }

    fn check(&self, archive: &[u8]) -> Result<(u32, u32), Stop> {
        // SAFETY: a slice.
        let answer = split(unsafe { cube_check(archive.as_ptr(), archive.len()) })?;
        Ok((answer as u32, (answer >> 32) as u32))
    }

    fn look_up(&self, archive: &[u8], question: &[u32]) -> Result<Option<Found>, Stop> {
        let (mut sum, mut count, mut entry) = (Slot::new(), Slot::new(), Slot::new());
        // SAFETY: two slices, and three numbers of this function's own.
        let answer = unsafe {
            cube_look_up(
                archive.as_ptr(),
                archive.len(),
                question.as_ptr(),
                question.len(),
                &mut sum.number,
                &mut count.number,
                &mut entry.number,
            )
        };
        let found = found(answer);
        let there = found == Ok(true);
        let (sum, count, entry) = (sum.told(there), count.told(there), entry.told(there));
        found.map(|_| Some(Found { sum: sum?, count: count?, entry: entry? }))
    }

    fn list_cuboid(&self, archive: &[u8], set: u32, out: &mut [u8]) -> Result<usize, Stop> {
        // SAFETY: both are slices, and apart.
        let answer = unsafe { cube_list_cuboid(archive.as_ptr(), archive.len(), set, out.as_mut_ptr(), out.len()) };
        Ok(split(answer)? as usize)
    }

    fn expand(&self, archive: &[u8], out: &mut [u8]) -> Result<usize, Stop> {
        // SAFETY: both are slices, and apart.
        let answer = unsafe { cube_expand(archive.as_ptr(), archive.len(), out.as_mut_ptr(), out.len()) };
        Ok(split(answer)? as usize)
    }

    fn smallest_keys(&self, archive: &[u8], out: &mut [u8]) -> Result<usize, Stop> {
        // SAFETY: both are slices, and apart.
        let answer = unsafe { cube_smallest_keys(archive.as_ptr(), archive.len(), out.as_mut_ptr(), out.len()) };
        Ok(split(answer)? as usize)
    }

    fn fixes(&self, archive: &[u8], set: u32, dimension: u32) -> Result<bool, Stop> {
        // SAFETY: a slice.
        let answer = split(unsafe { cube_fixes(archive.as_ptr(), archive.len(), set, dimension) })?;
        assert!(answer < 2, "{answer}: a set fixes a dimension (1) or does not (0)");
        Ok(answer == 1)
    }

    fn share_fee(&self, archive: &[u8], fee: u32, set: u32, out: &mut [u8]) -> Result<usize, Stop> {
        // SAFETY: both are slices, and apart.
        let answer = unsafe { cube_share_fee(archive.as_ptr(), archive.len(), fee, set, out.as_mut_ptr(), out.len()) };
        Ok(split(answer)? as usize)
    }

    fn join(&self, first: &[u8], second: &[u8], out: &mut [u8]) -> Result<usize, Stop> {
        // SAFETY: all are slices, and the output is apart from the inputs.
        let answer = unsafe { cube_join(first.as_ptr(), first.len(), second.as_ptr(), second.len(), out.as_mut_ptr(), out.len()) };
        Ok(split(answer)? as usize)
    }

    #[cfg(feature = "c17")]
    fn build_two(&self, table: &[u8], out: &mut [u8]) -> Result<usize, Stop> {
        // SAFETY: both are slices, and apart.
        let answer = unsafe { cube_build_two(table.as_ptr(), table.len(), out.as_mut_ptr(), out.len()) };
        Ok(split(answer)? as usize)
    }

    #[cfg(feature = "c17")]
    fn convert(&self, archive: &[u8], out: &mut [u8]) -> Result<usize, Stop> {
        // SAFETY: both are slices, and apart.
        let answer = unsafe { cube_convert(archive.as_ptr(), archive.len(), out.as_mut_ptr(), out.len()) };
        Ok(split(answer)? as usize)
    }

    #[cfg(feature = "c17")]
    fn look_up_extremes(&self, archive: &[u8], question: &[u32]) -> Result<Option<(Cell, u32)>, Stop> {
        let (mut cell, mut entry) = (CellSlots::new(), Slot::new());
        // SAFETY: two slices, and six numbers of this function's own.
        let answer = unsafe {
            cube_look_up_extremes(
                archive.as_ptr(),
                archive.len(),
                question.as_ptr(),
                question.len(),
                &mut cell.sum.number,
                &mut cell.count.number,
                &mut entry.number,
                &mut cell.known.number,
                &mut cell.least.number,
                &mut cell.greatest.number,
            )
        };
        let found = found(answer);
        let there = found == Ok(true);
        let (cell, entry) = (cell.told(there), entry.told(there));
        found.map(|_| cell.zip(entry))
    }

    #[cfg(feature = "c18")]
    fn add(&self, archive: &[u8], codes: &[u32], reading: i32, out: &mut [u8]) -> Result<usize, Stop> {
        // SAFETY: three slices, and the output is apart from the inputs.
        let answer =
            unsafe { cube_add(archive.as_ptr(), archive.len(), codes.as_ptr(), codes.len(), reading, out.as_mut_ptr(), out.len()) };
        Ok(split(answer)? as usize)
    }

    #[cfg(feature = "c19")]
    fn window(&self, archive: &[u8], dimension: u32, code: u32, question: &[u32]) -> Result<Option<Cell>, Stop> {
        let mut cell = CellSlots::new();
        // SAFETY: two slices, and five numbers of this function's own.
        let answer = unsafe {
            cube_window(
                archive.as_ptr(),
                archive.len(),
                dimension,
                code,
                question.as_ptr(),
                question.len(),
                &mut cell.sum.number,
                &mut cell.count.number,
                &mut cell.known.number,
                &mut cell.least.number,
                &mut cell.greatest.number,
            )
        };
        let found = found(answer);
        let cell = cell.told(found == Ok(true));
        found.map(|_| cell)
    }

    #[cfg(feature = "c20")]
    fn family_build(&self, table: &[u8], out: &mut [u8]) -> Result<usize, Stop> {
        // SAFETY: both are slices, and apart.
        let answer = unsafe { cube_family_build(table.as_ptr(), table.len(), out.as_mut_ptr(), out.len()) };
        Ok(split(answer)? as usize)
    }

    #[cfg(feature = "c20")]
    fn family_check(&self, archive: &[u8]) -> Result<(u32, u32), Stop> {
        // SAFETY: a slice.
        let answer = split(unsafe { cube_family_check(archive.as_ptr(), archive.len()) })?;
        Ok((answer as u32, (answer >> 32) as u32))
    }

    #[cfg(feature = "c20")]
    fn family_look_up(&self, archive: &[u8], node: u32, question: &[u32]) -> Result<Option<(Cell, u32)>, Stop> {
        let (mut cell, mut entry) = (CellSlots::new(), Slot::new());
        // SAFETY: two slices, and six numbers of this function's own.
        let answer = unsafe {
            cube_family_look_up(
                archive.as_ptr(),
                archive.len(),
                node,
                question.as_ptr(),
                question.len(),
                &mut cell.sum.number,
                &mut cell.count.number,
                &mut entry.number,
                &mut cell.known.number,
                &mut cell.least.number,
                &mut cell.greatest.number,
            )
        };
        let found = found(answer);
        let there = found == Ok(true);
        let (cell, entry) = (cell.told(there), entry.told(there));
        found.map(|_| cell.zip(entry))
    }

    #[cfg(feature = "c20")]
    fn family_list(&self, archive: &[u8], node: u32, out: &mut [u8]) -> Result<usize, Stop> {
        // SAFETY: both are slices, and apart.
        let answer = unsafe { cube_family_list(archive.as_ptr(), archive.len(), node, out.as_mut_ptr(), out.len()) };
        Ok(split(answer)? as usize)
    }

    #[cfg(feature = "c20")]
    fn family_expand(&self, archive: &[u8], out: &mut [u8]) -> Result<usize, Stop> {
        // SAFETY: both are slices, and apart.
        let answer = unsafe { cube_family_expand(archive.as_ptr(), archive.len(), out.as_mut_ptr(), out.len()) };
        Ok(split(answer)? as usize)
    }
}
