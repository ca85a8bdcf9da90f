//! The calls on families.
use super::{Compare, FAMILY_BUILD, FAMILY_CHECK, FAMILY_EXPAND, FAMILY_LIST, FAMILY_LOOK_UP};
use crate::calls::Stop;
use crate::model::families::{build, open, Accepted};
use crate::model::ALL;

impl Compare {
    /// A table with families built. The model's archive.
    pub fn family_table(&mut self, s: &[u8], what: &str) -> Result<Vec<u8>, Stop> {
        let model = build(s);
        self.output(FAMILY_BUILD, &[s], &model, what, |calls, out| calls.family_build(s, out));
        model
    }

    /// An archive with families checked, and another call on it if it is refused. What the model reads.
    pub fn family_archive(&mut self, s: &[u8], what: &str) -> Result<Accepted, Stop> {
        let model = open(s);
        let want = model.as_ref().map(Accepted::counts).map_err(|&stop| stop);
        self.answer(FAMILY_CHECK, s, want, what, |calls| calls.family_check(s));
        if let Err(stop) = model {
            self.family_refused(s, stop, what);
        }
        model
    }

    /// One of the other calls on a refused archive, by turns, with arguments that are right or have a stop of their own.
    fn family_refused(&mut self, s: &[u8], stop: Stop, what: &str) {
        let dims = s.get(4).map_or(0, |&d| d as usize % 9);
        match self.seen(FAMILY_CHECK).iter().sum::<u64>() % 5 {
            0 => self.answer(FAMILY_LOOK_UP, s, Err(stop), what, |calls| calls.family_look_up(s, 0, &vec![0; dims])),
            1 => self.answer(FAMILY_LOOK_UP, s, Err(stop), what, |calls| calls.family_look_up(s, u32::MAX, &[ALL])),
            2 => self.output(FAMILY_LIST, &[s], &Err(stop), what, |calls, out| calls.family_list(s, 0, out)),
            3 => self.output(FAMILY_LIST, &[s], &Err(stop), what, |calls, out| calls.family_list(s, u32::MAX, out)),
            _ => self.output(FAMILY_EXPAND, &[s], &Err(stop), what, |calls, out| calls.family_expand(s, out)),
        }
    }

    pub fn family_look_up(&mut self, s: &[u8], accepted: &Accepted, node: u32, question: &[u32], what: &str) {
        let what = format!("{what}, node {node}, question {question:?}");
        self.answer(FAMILY_LOOK_UP, s, accepted.look_up(node, question), &what, |calls| calls.family_look_up(s, node, question));
    }

    pub fn family_list(&mut self, s: &[u8], accepted: &Accepted, node: u32, what: &str) {
        let what = format!("{what}, node {node}");
        self.output(FAMILY_LIST, &[s], &accepted.list(node), &what, |calls, out| calls.family_list(s, node, out));
    }

    pub fn family_expand(&mut self, s: &[u8], accepted: &Accepted, what: &str) {
        self.output(FAMILY_EXPAND, &[s], &Ok(accepted.expand()), what, |calls, out| calls.family_expand(s, out));
    }
}
