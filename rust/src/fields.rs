//! Fields of a file or a listing, taken off the front: little-endian.

pub(crate) struct Fields<'a>(pub &'a [u8]);

impl Fields<'_> {
    /// The next 32 bits, if they are there.
    pub fn word(&mut self) -> Option<u32> {
        self.take().map(u32::from_le_bytes)
    }

    /// The next 64 bits, if they are there.
    pub fn sum(&mut self) -> Option<i64> {
        self.take().map(i64::from_le_bytes)
    }

    fn take<const N: usize>(&mut self) -> Option<[u8; N]> {
        let (field, rest) = self.0.split_first_chunk()?;
        self.0 = rest;
        Some(*field)
    }
}
