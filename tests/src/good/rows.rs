//! Base rows.
use super::codes::Codes;
use super::measure::{Measure, Ranged, Total};

/// The base rows of a table or an archive, rising by codes.
pub struct Rows<M> {
    pub dims: usize,
    pub sizes: [u32; 8],
    pub codes: Vec<Codes>,
    pub totals: Vec<M>,
}

impl<M: Measure> Rows<M> {
    pub fn new(dims: usize, sizes: [u32; 8], most: usize) -> Rows<M> {
        Rows { dims, sizes, codes: Vec::with_capacity(most), totals: Vec::with_capacity(most) }
    }

    pub fn len(&self) -> usize {
        self.codes.len()
    }

    pub fn push(&mut self, codes: Codes, total: M) {
        self.codes.push(codes);
        self.totals.push(total);
    }

    /// The total of the counts.
    pub fn readings(&self) -> u32 {
        self.totals.iter().map(|total| total.total().count).sum()
    }

    /// The set with all dimensions.
    pub fn full(&self) -> usize {
        (1 << self.dims) - 1
    }

    /// The bytes of a cell or normal entry.
    pub fn width(&self) -> usize {
        4 * self.dims + M::BYTES
    }
}

impl Rows<Total> {
    pub fn converted(self) -> Rows<Ranged> {
        Rows { dims: self.dims, sizes: self.sizes, codes: self.codes, totals: self.totals.iter().map(Ranged::converted).collect() }
    }
}

/// A bit for each of 1,024 rows.
#[derive(Clone, Copy, Default)]
pub struct RowSet([u64; 16]);

impl RowSet {
    pub fn has(&self, row: usize) -> bool {
        self.0[row / 64] >> (row % 64) & 1 == 1
    }

    pub fn is_empty(&self) -> bool {
        self.0.iter().all(|&word| word == 0)
    }

    pub fn add(&mut self, row: usize) {
        self.0[row / 64] |= 1 << (row % 64);
    }

    pub fn join(&mut self, other: &RowSet) {
        self.0.iter_mut().zip(&other.0).for_each(|(a, b)| *a |= b);
    }
}
