//! Which archives a legend is for, and whether two legends can be of one archive.
use super::{Dimension, Legend};
use cube_archive::{quoted, Archive};

impl Legend {
    /// A legend fits an archive that has as many dimensions, each of a size that the legend's has had, and no code without a label.
    /// The error says what does not fit.
    pub fn fits(&self, archive: &Archive) -> Result<(), String> {
        let sizes = archive.sizes();
        if sizes.len() != self.dimensions.len() {
            return Err(format!("it has {} dimensions, the archive {}", self.dimensions.len(), sizes.len()));
        }
        if let Some((dimension, size)) = self.dimensions.iter().zip(&sizes).find(|(dimension, size)| !dimension.sizes.contains(size)) {
            return Err(format!("dimension {} has never had the archive's size {size}", quoted(&dimension.name)));
        }
        let rows = archive.list_cuboid((1 << sizes.len()) - 1).map_err(|stop| stop.to_string())?.cells;
        for (dimension, i) in self.dimensions.iter().zip(0..) {
            if let Some(code) = rows.iter().filter_map(|row| row.codes[i]).find(|&code| dimension.label(code).is_none()) {
                return Err(format!("dimension {} has no label for code {code}", quoted(&dimension.name)));
            }
        }
        Ok(())
    }

    /// Two legends agree if each gives every code that both have the same label, in dimensions of the same names.
    pub fn agrees(&self, other: &Legend) -> bool {
        let alike = |(a, b): (&Dimension, &Dimension)| a.name == b.name && a.labels.iter().zip(&b.labels).all(|(a, b)| a == b);
        self.dimensions.len() == other.dimensions.len() && self.dimensions.iter().zip(&other.dimensions).all(alike)
    }
}
