//! The entry that stands for a cell.
use super::codes::{cell, missing, Codes};
use super::measure::Measure;
use super::read::le;
use super::rows::Rows;
use super::Checked;
use crate::calls::Stop;
use std::cmp::Ordering;
use std::ops::Range;

/// The cell that a question names, and its set.
pub fn question(sizes: &[u32], question: &[u32]) -> Result<(usize, Codes), Stop> {
    if question.len() != sizes.len() {
        return Err(13);
    }
    let (mut set, mut cell) = (0, [u16::MAX; 8]);
    for (dim, (&code, &size)) in question.iter().zip(sizes).enumerate() {
        if code < size {
            set |= 1 << dim;
            cell[dim] = code as u16;
        } else if code != 65_535 {
            return Err(13);
        }
    }
    Ok((set, cell))
}

/// What the cell holds, and its entry.
pub fn found<M: Measure>(checked: &Checked<M>, set: usize, wanted: &Codes) -> Option<(M, u32)> {
    normal(checked, set, wanted).or_else(|| base(checked, set, wanted))
}

/// The base entry whose row alone falls in a cell.
fn base<M: Measure>(checked: &Checked<M>, set: usize, wanted: &Codes) -> Option<(M, u32)> {
    let rows = &checked.read.rows;
    let missing = missing(set);
    let i = rows.codes.iter().position(|row| cell(row, &missing) == *wanted)?;
    Some((rows.totals[i], i as u32))
}

/// The total of the rows that fall in a cell, if there are any.
pub fn total<M: Measure>(rows: &Rows<M>, set: usize, wanted: &Codes) -> Option<M> {
    let missing = missing(set);
    let mut falling = rows.codes.iter().zip(&rows.totals).filter(|(row, _)| cell(row, &missing) == *wanted).map(|(_, total)| total);
    let mut sum = *falling.next()?;
    falling.for_each(|total| sum.add(total));
    Some(sum)
}

/// The normal entry at a cell.
fn normal<M: Measure>(checked: &Checked<M>, set: usize, wanted: &Codes) -> Option<(M, u32)> {
    let rows = &checked.read.rows;
    let entry = |i: usize| checked.read.normals[i * rows.width()..(i + 1) * rows.width()].split_at(4 * rows.dims);
    let codes = |i: usize| entry(i).0.chunks_exact(4).map(|code| le(code) as u16);
    let i = find(checked.condensed.range(rows.dims, set), |i| codes(i).cmp(wanted[..rows.dims].iter().copied()))?;
    Some((M::accepted(entry(i).1), (rows.len() + i) as u32))
}

/// Binary search.
pub fn find(mut range: Range<usize>, order: impl Fn(usize) -> Ordering) -> Option<usize> {
    while !range.is_empty() {
        let middle = range.start + range.len() / 2;
        match order(middle) {
            Ordering::Less => range.start = middle + 1,
            Ordering::Greater => range.end = middle,
            Ordering::Equal => return Some(middle),
        }
    }
    None
}
