//! What rows and cells carry: sum and count in edition one, extremes too in edition two.
use super::read::{le, word};
use crate::calls::{Cell, Extremes, Stop};

pub trait Measure: Copy {
    /// The opening of an archive.
    const OPENING: &'static [u8; 4];
    /// The bytes of a cell behind its codes.
    const BYTES: usize;
    /// What a total starts from.
    const START: Self;
    /// The empty table's total.
    const EMPTY: Self;

    fn record(reading: i32) -> Self;
    fn add(&mut self, other: &Self);
    fn total(&self) -> Total;

    /// That of a base entry whose sum and count, before `at`, are read.
    fn read(total: Total, s: &[u8], at: usize) -> Result<Self, Stop>;

    /// That of an accepted entry, from the bytes behind its codes.
    fn accepted(bytes: &[u8]) -> Self;

    /// Writes it into bytes that just hold it.
    fn write(&self, out: &mut [u8]);

    /// Whether the bytes hold it.
    fn is(&self, bytes: &[u8]) -> bool;
}

#[derive(Clone, Copy, PartialEq, Eq)]
pub struct Total {
    pub sum: i64,
    pub count: u32,
}

impl Measure for Total {
    const OPENING: &'static [u8; 4] = b"CUBE";
    const BYTES: usize = 12;
    const START: Total = Total { sum: 0, count: 0 };
    const EMPTY: Total = Total::START;

    fn record(reading: i32) -> Total {
        Total { sum: reading as i64, count: 1 }
    }

    fn add(&mut self, other: &Total) {
        self.sum += other.sum;
        self.count += other.count;
    }

    fn total(&self) -> Total {
        *self
    }

    fn read(total: Total, _: &[u8], _: usize) -> Result<Total, Stop> {
        Ok(total)
    }

    fn accepted(bytes: &[u8]) -> Total {
        Total { sum: i64::from_le_bytes(bytes[..8].try_into().unwrap()), count: le(&bytes[8..12]) }
    }

    fn write(&self, out: &mut [u8]) {
        out[..8].copy_from_slice(&self.sum.to_le_bytes());
        out[8..].copy_from_slice(&self.count.to_le_bytes());
    }

    fn is(&self, bytes: &[u8]) -> bool {
        bytes[..8] == self.sum.to_le_bytes() && bytes[8..] == self.count.to_le_bytes()
    }
}

/// With extremes, which mean nothing where they are unknown.
#[derive(Clone, Copy)]
pub struct Ranged {
    total: Total,
    known: bool,
    least: i32,
    greatest: i32,
}

impl Ranged {
    /// What edition one tells of a base row.
    pub fn converted(total: &Total) -> Ranged {
        let reading = total.sum as i32;
        Ranged { total: *total, known: total.count == 1, least: reading, greatest: reading }
    }

    pub fn cell(&self) -> Cell {
        let extremes = Extremes { least: self.least, greatest: self.greatest };
        Cell { sum: self.total.sum, count: self.total.count, extremes: self.known.then_some(extremes) }
    }

    /// Known, least and greatest as they are written.
    fn fields(&self) -> [u32; 3] {
        if self.known {
            [1, self.least as u32, self.greatest as u32]
        } else {
            [0; 3]
        }
    }
}

impl Measure for Ranged {
    const OPENING: &'static [u8; 4] = b"CUB2";
    const BYTES: usize = 24;
    const START: Ranged = Ranged { total: Total::START, known: true, least: i32::MAX, greatest: i32::MIN };
    const EMPTY: Ranged = Ranged { known: false, ..Ranged::START };

    fn record(reading: i32) -> Ranged {
        Ranged { total: Total::record(reading), known: true, least: reading, greatest: reading }
    }

    fn add(&mut self, other: &Ranged) {
        self.total.add(&other.total);
        self.known &= other.known;
        self.least = self.least.min(other.least);
        self.greatest = self.greatest.max(other.greatest);
    }

    fn total(&self) -> Total {
        self.total
    }

    fn read(total: Total, s: &[u8], at: usize) -> Result<Ranged, Stop> {
        let (known, least, greatest) = (word(s, at)?, word(s, at + 4)? as i32, word(s, at + 8)? as i32);
        let (low, high, others) = (least as i64, greatest as i64, total.count as i64 - 1);
        let fair = match known {
            0 => (least, greatest) == (0, 0),
            1 => low <= high && (high + others * low..=low + others * high).contains(&total.sum),
            _ => false,
        };
        if !fair {
            return Err(19);
        }
        Ok(Ranged { total, known: known == 1, least, greatest })
    }

    fn accepted(bytes: &[u8]) -> Ranged {
        let field = |i: usize| le(&bytes[12 + 4 * i..16 + 4 * i]);
        Ranged { total: Total::accepted(bytes), known: field(0) == 1, least: field(1) as i32, greatest: field(2) as i32 }
    }

    fn write(&self, out: &mut [u8]) {
        let (front, back) = out.split_at_mut(12);
        self.total.write(front);
        back.chunks_exact_mut(4).zip(self.fields()).for_each(|(place, field)| place.copy_from_slice(&field.to_le_bytes()));
    }

    fn is(&self, bytes: &[u8]) -> bool {
        self.total.is(&bytes[..12]) && bytes[12..].chunks_exact(4).map(le).eq(self.fields())
    }
}
