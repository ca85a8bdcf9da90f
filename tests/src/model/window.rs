//! The chip supplier's window (document 02, C-19).
use super::Accepted;
use crate::calls::{Cell, Stop};

impl Accepted {
    /// "The window is a dimension and a code; a question must carry this code there. It gets sum, count, extremes or 'no record', and no entry
    /// number." "A window dimension outside 1 to D stops with 16, then its code not below its size with 13, then the question with 13"; "20 ..,
    /// checked last".
    pub fn window(&self, dimension: u32, code: u32, question: &[u32]) -> Result<Option<Cell>, Stop> {
        if !(1..=self.dims()).contains(&(dimension as usize)) {
            return Err(16);
        }
        let i = dimension as usize - 1;
        if code >= self.sizes[i] {
            return Err(13);
        }
        self.question(question)?;
        if question[i] != code {
            return Err(20);
        }
        Ok(self.look_up_extremes(question)?.map(|(cell, _)| cell))
    }
}
