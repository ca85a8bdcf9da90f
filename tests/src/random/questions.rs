//! Random questions on an archive.
use super::Random;
use crate::model::{cube, Accepted, ALL};

impl Random {
    /// A question for a cell that may exist: a row's codes on a set, now and then mixed with another row's or with any code; without rows
    /// often all ALL.
    pub fn question(&mut self, archive: &Accepted) -> Vec<u32> {
        let mut codes = self.codes(&archive.sizes);
        if !archive.rows.is_empty() && !self.one_in(8) {
            codes = archive.rows[self.place(archive.rows.len())].codes.clone();
            let other = archive.rows[self.place(archive.rows.len())].codes.clone();
            let i = self.place(codes.len());
            match self.below(4) {
                0 => codes[i..].copy_from_slice(&other[i..]),
                1 => codes[i] = self.code(archive.sizes[i]),
                _ => {}
            }
        }
        let grand = archive.rows.is_empty() && self.one_in(2);
        let set = if grand { 0 } else { self.below(1 << codes.len()) as u32 };
        cube::cell(&codes, set)
    }

    /// A question that is changed in one place or in its length: often a stop.
    pub fn odd_question(&mut self, archive: &Accepted) -> Vec<u32> {
        let mut question = self.question(archive);
        let i = self.place(question.len());
        let size = archive.sizes[i];
        match self.below(6) {
            0 => question.truncate(i),
            1 => question.push(self.pick(&[0, ALL])),
            2 => question[i] = size,
            3 => question[i] = size - 1,
            4 => question[i] = self.pick(&[65_534, ALL, 65_536, 65_536 + size - 1, 1 << 31, u32::MAX]),
            _ => question.extend(vec![ALL; self.place(300)]),
        }
        question
    }
}
