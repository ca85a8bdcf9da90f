//! The fields of a table and an archive with families.
use super::{Edition, Fields};
use crate::calls::Stop;
use crate::model::families::{Dimension, Families};
use crate::model::Base;

/// A table with families, as its bytes have it.
pub struct FamilyTable {
    pub families: Families,
    pub rows: Vec<(Vec<u32>, i32)>,
}

/// What the fields of an archive with families hold, but for its normal entries.
pub struct FamilyArchive {
    pub families: Families,
    pub bases: Vec<Base>,
}

/// A table with families, or the first of its stops.
pub fn family_table(s: &[u8]) -> Result<FamilyTable, Stop> {
    let mut f = Fields::open(s, &[0x46, 0x41, 0x4D, 0x54])?;
    let families = f.families()?;
    let rows = f.rows(&families.sizes())?;
    f.close()?;
    Ok(FamilyTable { families, rows })
}

/// An archive with families, or the first of its stops but 12.
pub fn family_archive(s: &[u8]) -> Result<FamilyArchive, Stop> {
    let mut f = Fields::open(s, &[0x43, 0x55, 0x42, 0x46])?;
    let families = f.families()?;
    let sizes = families.sizes();
    let bases = f.bases(Edition::Two, &sizes, 4_096)?;
    for _ in 0..f.word()? {
        f.word()?;
        f.normal(Edition::Two, sizes.len())?;
    }
    f.close()?;
    Ok(FamilyArchive { families, bases })
}

impl Fields<'_> {
    /// "After the sizes come all D level counts, then, dimension by dimension, for each next level its size and the table." "21 comes first, both
    /// after 4, and 22 waits for the last table."
    fn families(&mut self) -> Result<Families, Stop> {
        let sizes = self.sizes()?;
        let mut counts = Vec::new();
        for _ in &sizes {
            counts.push(self.between(1, 4)?);
        }
        let mut dimensions: Vec<Dimension> = sizes.into_iter().map(Dimension::flat).collect();
        for (dimension, count) in dimensions.iter_mut().zip(counts) {
            for level in 1..count as usize {
                let size = self.between(1, 65_535)?;
                let below = dimension.sizes[level - 1];
                dimension.tables.push((0..below).map(|_| self.between(0, size - 1)).collect::<Result<_, _>>()?);
                dimension.sizes.push(size);
            }
        }
        let families = Families(dimensions);
        if families.nodes() > 4_096 {
            return Err(22);
        }
        Ok(families)
    }

    /// A level count, a level's size or an entry of its table.
    fn between(&mut self, from: u32, to: u32) -> Result<u32, Stop> {
        let word = self.word()?;
        if !(from..=to).contains(&word) {
            return Err(21);
        }
        Ok(word)
    }
}
