//! An output that is lent to a call: a pattern in it and round it shows which bytes were written.

/// Bytes before and behind the output.
const GUARD: usize = 64;

pub struct Lent {
    bytes: Vec<u8>,
    start: usize,
    room: usize,
}

fn pattern(at: usize) -> u8 {
    (at as u8).wrapping_mul(29) ^ 0x5A
}

impl Lent {
    /// So many bytes at an address that is moved by `shift`.
    pub fn new(room: usize, shift: usize) -> Lent {
        let start = GUARD + shift;
        Lent { bytes: (0..start + room + GUARD).map(pattern).collect(), start, room }
    }

    pub fn out(&mut self) -> &mut [u8] {
        &mut self.bytes[self.start..self.start + self.room]
    }

    /// The first bytes of the output, if all others kept their values.
    pub fn written(&self, length: usize) -> Result<&[u8], String> {
        let end = self.start + length;
        let changed = |&at: &usize| self.bytes[at] != pattern(at);
        match (0..self.start).chain(end..self.bytes.len()).find(changed) {
            Some(at) => Err(format!("byte {} of an output of {} was written", at as isize - self.start as isize, self.room)),
            None => Ok(&self.bytes[self.start..end]),
        }
    }
}
