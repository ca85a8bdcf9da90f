//! Tables, archives and listings as bytes.
use crate::calls::Extremes;
use crate::model::editions::Edition;
use crate::model::families::Families;
use crate::model::{Base, Row, ALL};

/// A file that grows field by field.
#[derive(Clone)]
pub struct File(Vec<u8>);

impl File {
    pub fn table() -> File {
        File(vec![0x46, 0x41, 0x43, 0x54])
    }

    /// An archive of edition one.
    pub fn archive() -> File {
        File::edition(Edition::One)
    }

    pub fn edition(edition: Edition) -> File {
        File(edition.opening().to_vec())
    }

    pub fn family_table() -> File {
        File(vec![0x46, 0x41, 0x4D, 0x54])
    }

    pub fn family_archive() -> File {
        File(vec![0x43, 0x55, 0x42, 0x46])
    }

    pub fn word(self, w: u32) -> File {
        self.raw(&w.to_le_bytes())
    }

    pub fn words(self, ws: &[u32]) -> File {
        ws.iter().fold(self, |f, &w| f.word(w))
    }

    pub fn sum(self, z: i64) -> File {
        self.raw(&z.to_le_bytes())
    }

    pub fn reading(self, z: i32) -> File {
        self.raw(&z.to_le_bytes())
    }

    pub fn raw(mut self, bytes: &[u8]) -> File {
        self.0.extend_from_slice(bytes);
        self
    }

    /// D, the sizes and the row count or base count.
    pub fn head(self, sizes: &[u32], count: u32) -> File {
        self.word(sizes.len() as u32).words(sizes).word(count)
    }

    pub fn base(self, codes: &[u32], sum: i64, count: u32, list: &[u32]) -> File {
        self.words(codes).sum(sum).word(count).word(list.len() as u32).words(list)
    }

    pub fn normal(self, codes: &[u32], sum: i64, count: u32) -> File {
        self.words(codes).sum(sum).word(count)
    }

    /// What edition two has after a count.
    pub fn extremes(self, extremes: Option<Extremes>) -> File {
        let Extremes { least, greatest } = extremes.unwrap_or(Extremes { least: 0, greatest: 0 });
        self.word(extremes.is_some() as u32).reading(least).reading(greatest)
    }

    /// A cell, a normal entry, or what a base entry has before its list.
    pub fn entry(self, edition: Edition, row: &Row) -> File {
        let f = self.normal(&row.codes, row.sum, row.count);
        match edition {
            Edition::One => f,
            Edition::Two => f.extremes(row.extremes),
        }
    }

    /// D, the sizes, the level counts, and each next level's size and table.
    pub fn families(self, families: &Families) -> File {
        let dimensions = &families.0;
        let f = self.word(dimensions.len() as u32).words(&families.sizes());
        let f = dimensions.iter().fold(f, |f, dimension| f.word(dimension.levels() as u32));
        let next = dimensions.iter().flat_map(|dimension| dimension.sizes[1..].iter().zip(&dimension.tables));
        next.fold(f, |f, (&size, table)| f.word(size).words(table))
    }

    /// The row count and a table's rows.
    pub fn rows(self, rows: &[(Vec<u32>, i32)]) -> File {
        rows.iter().fold(self.word(rows.len() as u32), |f, (codes, reading)| f.words(codes).reading(*reading))
    }

    /// The base count and the base entries.
    pub fn bases(self, edition: Edition, bases: &[Base]) -> File {
        let base = |f: File, b: &Base| f.entry(edition, &b.row).word(b.list.len() as u32).words(&b.list);
        bases.iter().fold(self.word(bases.len() as u32), base)
    }

    /// The normal count and the normal entry of an archive without rows.
    pub fn no_rows(self, dims: usize) -> File {
        self.word(1).normal(&vec![ALL; dims], 0, 0)
    }

    /// The file as it is, without a check word.
    pub fn cut(self) -> Vec<u8> {
        self.0
    }

    /// The file with its check word behind it.
    pub fn closed(self) -> Vec<u8> {
        let check = check_word(&self.0);
        self.word(check).0
    }
}

/// The sum of the 32-bit words, modulo 2 to the power 32.
pub fn check_word(bytes: &[u8]) -> u32 {
    bytes.chunks_exact(4).fold(0u32, |a, w| a.wrapping_add(u32::from_le_bytes(w.try_into().unwrap())))
}

/// The last four bytes made the check word of those before.
pub fn mend(bytes: &mut [u8]) {
    if bytes.len() >= 4 {
        let at = bytes.len() - 4;
        let check = check_word(&bytes[..at]);
        bytes[at..].copy_from_slice(&check.to_le_bytes());
    }
}

pub fn table_bytes(sizes: &[u32], rows: &[(Vec<u32>, i32)]) -> Vec<u8> {
    File::table().word(sizes.len() as u32).words(sizes).rows(rows).closed()
}

pub fn family_table_bytes(families: &Families, rows: &[(Vec<u32>, i32)]) -> Vec<u8> {
    File::family_table().families(families).rows(rows).closed()
}

pub fn archive_bytes(edition: Edition, sizes: &[u32], bases: &[Base], normals: &[Row]) -> Vec<u8> {
    let front = File::edition(edition).word(sizes.len() as u32).words(sizes).bases(edition, bases);
    normals.iter().fold(front.word(normals.len() as u32), |f, normal| f.entry(edition, normal)).closed()
}

/// A listed cuboid: the count, then the cells.
pub fn cuboid_bytes(edition: Edition, cells: &[Row]) -> Vec<u8> {
    let count = File(vec![]).word(cells.len() as u32);
    cells.iter().fold(count, |f, cell| f.entry(edition, cell)).cut()
}

pub fn family_archive_bytes(families: &Families, bases: &[Base], normals: &[(u32, Row)]) -> Vec<u8> {
    let front = File::family_archive().families(families).bases(Edition::Two, bases);
    normals.iter().fold(front.word(normals.len() as u32), |f, (node, normal)| f.word(*node).entry(Edition::Two, normal)).closed()
}

/// A listed node: the count, then the cells.
pub fn node_bytes(node: u32, cells: &[Row]) -> Vec<u8> {
    let count = File(vec![]).word(cells.len() as u32);
    cells.iter().fold(count, |f, cell| f.word(node).entry(Edition::Two, cell)).cut()
}

/// A list of numbers: the count, then the numbers.
pub fn list_bytes(numbers: &[u32]) -> Vec<u8> {
    File(vec![]).word(numbers.len() as u32).words(numbers).cut()
}
