//! The fields of the files, read from the left: at each field number 2 first, then its own stops. Stops 1 to 11, 19, 21 and 22.
mod families;

use super::editions::{fit, Edition};
use super::{Base, Row};
use crate::calls::{Extremes, Stop};
pub use families::{family_archive, family_table, FamilyArchive, FamilyTable};

/// The sizes and the rows of a table, as its bytes have them.
pub struct Table {
    pub sizes: Vec<u32>,
    pub rows: Vec<(Vec<u32>, i32)>,
}

/// All that an archive's fields hold. In edition one, which has no field for them, extremes are unknown.
#[derive(Clone, Debug, PartialEq, Eq)]
pub struct Archive {
    pub edition: Edition,
    pub sizes: Vec<u32>,
    pub bases: Vec<Base>,
    pub normals: Vec<Row>,
}

/// A table, or the first of its stops.
pub fn table(s: &[u8]) -> Result<Table, Stop> {
    let mut f = Fields::open(s, &[0x46, 0x41, 0x43, 0x54])?;
    let sizes = f.sizes()?;
    let rows = f.rows(&sizes)?;
    f.close()?;
    Ok(Table { sizes, rows })
}

/// An archive of either edition, or the first of the stops 1 to 11 and 19.
pub fn archive(s: &[u8]) -> Result<Archive, Stop> {
    let edition = Edition::of(s);
    let mut f = Fields::open(s, &edition.opening())?;
    let sizes = f.sizes()?;
    let bases = f.bases(edition, &sizes, 70)?;
    let normals = f.normals(edition, sizes.len())?;
    f.close()?;
    Ok(Archive { edition, sizes, bases, normals })
}

/// The bytes, and the place of the next field.
struct Fields<'a> {
    all: &'a [u8],
    at: usize,
}

impl<'a> Fields<'a> {
    fn open(all: &'a [u8], opening: &[u8]) -> Result<Fields<'a>, Stop> {
        match all.get(..4) {
            Some(first) if first == opening => Ok(Fields { all, at: 4 }),
            _ => Err(1),
        }
    }

    fn take<const N: usize>(&mut self) -> Result<[u8; N], Stop> {
        let field = self.all.get(self.at..self.at + N).ok_or(2u32)?;
        self.at += N;
        Ok(field.try_into().unwrap())
    }

    fn word(&mut self) -> Result<u32, Stop> {
        Ok(u32::from_le_bytes(self.take()?))
    }

    fn sum(&mut self) -> Result<i64, Stop> {
        Ok(i64::from_le_bytes(self.take()?))
    }

    fn reading(&mut self) -> Result<i32, Stop> {
        Ok(i32::from_le_bytes(self.take()?))
    }

    fn sizes(&mut self) -> Result<Vec<u32>, Stop> {
        let dims = self.word()?;
        if !(1..=8).contains(&dims) {
            return Err(3);
        }
        let mut sizes = Vec::new();
        for _ in 0..dims {
            let size = self.word()?;
            if !(1..=65_535).contains(&size) {
                return Err(4);
            }
            sizes.push(size);
        }
        Ok(sizes)
    }

    fn row_count(&mut self) -> Result<u32, Stop> {
        let count = self.word()?;
        if count > 1_024 {
            return Err(5);
        }
        Ok(count)
    }

    fn codes(&mut self, sizes: &[u32]) -> Result<Vec<u32>, Stop> {
        let mut codes = Vec::new();
        for &size in sizes {
            let code = self.word()?;
            if code >= size {
                return Err(6);
            }
            codes.push(code);
        }
        Ok(codes)
    }

    fn rows(&mut self, sizes: &[u32]) -> Result<Vec<(Vec<u32>, i32)>, Stop> {
        let count = self.row_count()?;
        let mut rows = Vec::new();
        for _ in 0..count {
            let codes = self.codes(sizes)?;
            rows.push((codes, self.reading()?));
        }
        Ok(rows)
    }

    /// Base entries whose lists are at most so long.
    fn bases(&mut self, edition: Edition, sizes: &[u32], longest: u32) -> Result<Vec<Base>, Stop> {
        let count = self.row_count()?;
        let mut bases: Vec<Base> = Vec::new();
        let mut total = 0;
        for _ in 0..count {
            let codes = self.codes(sizes)?;
            if bases.last().is_some_and(|before| before.row.codes >= codes) {
                return Err(7);
            }
            let (sum, count) = (self.sum()?, self.word()?);
            total += count as u64;
            if count == 0 || !can_make(count, sum) || total > 1_048_576 {
                return Err(8);
            }
            let (known, extremes) = self.extremes(edition)?;
            let fair = if known == 1 { fit(extremes, sum, count) } else { known == 0 && extremes == ZERO };
            if edition == Edition::Two && !fair {
                return Err(19);
            }
            let extremes = (known == 1).then_some(extremes);
            bases.push(Base { row: Row { codes, sum, count, extremes }, list: self.list(longest)? });
        }
        Ok(bases)
    }

    /// What edition two has after a count: 1 or 0 for known or unknown, least and greatest.
    fn extremes(&mut self, edition: Edition) -> Result<(u32, Extremes), Stop> {
        match edition {
            Edition::One => Ok((0, ZERO)),
            Edition::Two => Ok((self.word()?, Extremes { least: self.reading()?, greatest: self.reading()? })),
        }
    }

    fn list(&mut self, longest: u32) -> Result<Vec<u32>, Stop> {
        let count = self.word()?;
        if count > longest {
            return Err(9);
        }
        (0..count).map(|_| self.word()).collect()
    }

    fn normals(&mut self, edition: Edition, dims: usize) -> Result<Vec<Row>, Stop> {
        let count = self.word()?;
        (0..count).map(|_| self.normal(edition, dims)).collect()
    }

    /// Whatever it holds: a fault is seen when the bytes are compared (12).
    fn normal(&mut self, edition: Edition, dims: usize) -> Result<Row, Stop> {
        let codes = (0..dims).map(|_| self.word()).collect::<Result<_, _>>()?;
        let (sum, count) = (self.sum()?, self.word()?);
        let (known, extremes) = self.extremes(edition)?;
        Ok(Row { codes, sum, count, extremes: (known == 1).then_some(extremes) })
    }

    fn close(&mut self) -> Result<(), Stop> {
        let before = &self.all[..self.at];
        let check = self.word()?;
        if self.at < self.all.len() {
            return Err(10);
        }
        let words = before.chunks(4).map(|w| u32::from_le_bytes(w.try_into().unwrap()) as u64);
        if words.sum::<u64>() % (1 << 32) != check as u64 {
            return Err(11);
        }
        Ok(())
    }
}

/// The extremes that are written where they are unknown.
const ZERO: Extremes = Extremes { least: 0, greatest: 0 };

/// Whether so many readings can make the sum.
fn can_make(count: u32, sum: i64) -> bool {
    let (count, sum) = (count as i128, sum as i128);
    count * -2_147_483_648 <= sum && sum <= count * 2_147_483_647
}
