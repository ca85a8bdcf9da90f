//! The bytes of an archive.
use super::cells;
use super::condense::{Condensed, List};
use super::measure::Measure;
use super::read::check_word;
use super::rows::Rows;
use crate::calls::Stop;

/// The rest of the lent output.
pub struct Rest<'a>(pub &'a mut [u8]);

impl<'a> Rest<'a> {
    pub fn take(&mut self, length: usize) -> &'a mut [u8] {
        let (front, rest) = std::mem::take(&mut self.0).split_at_mut(length);
        self.0 = rest;
        front
    }

    pub fn word(&mut self, word: u32) {
        self.take(4).copy_from_slice(&word.to_le_bytes());
    }

    fn base<M: Measure>(&mut self, rows: &Rows<M>, i: usize, list: &List) {
        cells::write(&rows.codes[i], rows.totals[i], self.take(rows.width()));
        self.word(list.sets().len() as u32);
        list.sets().iter().for_each(|&set| self.word(set as u32));
    }
}

/// Writes our archive; its length.
pub fn archive<M: Measure>(rows: &Rows<M>, condensed: &Condensed, out: &mut [u8]) -> Result<usize, Stop> {
    let listed: usize = condensed.lists.iter().map(|list| list.sets().len()).sum();
    let normals = condensed.normals();
    let length = 20 + 4 * rows.dims + rows.len() * (rows.width() + 4) + 4 * listed + normals * rows.width();
    let out = out.get_mut(..length).ok_or(15u32)?;
    let mut rest = Rest(out);
    rest.take(4).copy_from_slice(M::OPENING);
    rest.word(rows.dims as u32);
    rows.sizes[..rows.dims].iter().for_each(|&size| rest.word(size));
    rest.word(rows.len() as u32);
    condensed.lists.iter().enumerate().for_each(|(i, list)| rest.base(rows, i, list));
    rest.word(normals as u32);
    cells::write_normals(rows, condensed, rest.take(normals * rows.width()));
    let check = check_word(&out[..length - 4]);
    out[length - 4..].copy_from_slice(&check.to_le_bytes());
    Ok(length)
}
