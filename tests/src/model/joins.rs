//! Two archives into one (document 02, C-15 and C-17), and one late reading (C-18).
use super::{archive_of, cube, open, Accepted, Row};
use crate::calls::Stop;

/// "From two archives of the same dimensions and sizes, write the archive that 01's definitions give for both sets of base rows, folded." "A joined
/// archive has edition two if either operand has, an empty one too." "The first file is checked whole, then the second, then 17, 18 and 15."
pub fn join(first: &[u8], second: &[u8]) -> Result<Vec<u8>, Stop> {
    let (first, second) = (open(first)?, open(second)?);
    if first.sizes != second.sizes {
        return Err(17);
    }
    let edition = first.edition.max(second.edition);
    let rows = cube::fold([first.rows, second.rows].concat());
    if !cube::few_enough(&rows) {
        return Err(18);
    }
    Ok(archive_of(edition, &first.sizes, &rows))
}

impl Accepted {
    /// "The archive with this record added, of the same edition. It equals the one built afresh from the base rows with this record folded in."
    pub fn add(&self, codes: &[u32], reading: i32) -> Result<Vec<u8>, Stop> {
        if codes.len() != self.dims() || codes.iter().zip(&self.sizes).any(|(code, size)| code >= size) {
            return Err(13);
        }
        let record = Row::record(codes.to_vec(), reading);
        let rows = cube::fold(self.rows.iter().cloned().chain([record]));
        if !cube::few_enough(&rows) {
            return Err(18);
        }
        Ok(archive_of(self.edition, &self.sizes, &rows))
    }
}
