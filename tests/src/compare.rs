//! The library and `good` held to the model: the same stop, or the same numbers and bytes; inputs and unwritten bytes keep their values.
mod families;
mod table;

use crate::calls::{Calls, Stop};
use crate::good::Good;
use crate::landed::Request;
use crate::lent::Lent;
use crate::library::Library;
use crate::model::editions::{convert, Edition};
use crate::model::{self, joins, Accepted};
use std::collections::BTreeMap;
use std::fmt::Debug;
use std::hint::black_box;
pub use table::*;

/// What is tested, with a name for messages.
pub fn subjects() -> Vec<(&'static str, &'static dyn Calls)> {
    having(&[])
}

/// What is tested of those that have these requests.
pub fn having(requests: &[Request]) -> Vec<(&'static str, &'static dyn Calls)> {
    let good: (_, &dyn Calls) = ("good", &Good);
    match requests.iter().all(|request| request.landed()) {
        true => vec![("library", &Library), good],
        false => vec![good],
    }
}

fn all_hex(files: &[&[u8]]) -> String {
    files.iter().map(|s| hex(s) + "\n").collect()
}

/// The request that a file is of.
fn request_of(s: &[u8]) -> Request {
    match Edition::of(s) {
        Edition::One => Request::Before,
        Edition::Two => Request::C17,
    }
}

/// The bytes in hexadecimal, at most the first 2,000.
pub fn hex(s: &[u8]) -> String {
    let shown: String = s.iter().take(2_000).map(|b| format!("{b:02x}")).collect();
    format!("{} bytes: {shown}", s.len())
}

/// The greatest number of a stop.
const LAST: usize = 24;

/// What was compared so far.
#[derive(Default)]
pub struct Compare {
    /// How often each call, by its name, had each answer: place 0 for answers without a stop.
    seen: BTreeMap<&'static str, [u64; LAST + 1]>,
    /// How many results were written, or refused, in a call with an output.
    outputs: usize,
}

impl Compare {
    pub fn new() -> Compare {
        Compare::default()
    }

    /// How often a call had each answer: place 0 for answers without a stop.
    pub fn seen(&self, call: Call) -> [u64; LAST + 1] {
        self.seen.get(call.name).copied().unwrap_or([0; LAST + 1])
    }

    fn count(&mut self, call: Call, stop: Option<Stop>) {
        self.seen.entry(call.name).or_insert([0; LAST + 1])[stop.unwrap_or(0) as usize] += 1;
    }

    /// A table built. The model's archive.
    pub fn table(&mut self, s: &[u8], what: &str) -> Result<Vec<u8>, Stop> {
        let model = model::build(s);
        self.output(BUILD, &[s], &model, what, |calls, out| calls.build(s, out));
        model
    }

    /// A table built in edition two. The model's archive.
    pub fn table_two(&mut self, s: &[u8], what: &str) -> Result<Vec<u8>, Stop> {
        let model = model::build_edition(Edition::Two, s);
        self.output(BUILD_TWO, &[s], &model, what, |calls, out| calls.build_two(s, out));
        model
    }

    /// An archive converted. The model's archive.
    pub fn convert(&mut self, s: &[u8], what: &str) -> Result<Vec<u8>, Stop> {
        let model = convert(s);
        self.output(CONVERT, &[s], &model, what, |calls, out| calls.convert(s, out));
        model
    }

    /// An archive checked, and another call on it if it is refused. What the model reads.
    pub fn archive(&mut self, s: &[u8], what: &str) -> Result<Accepted, Stop> {
        let model = model::open(s);
        let want = model.as_ref().map(Accepted::counts).map_err(|&stop| stop);
        self.answer(CHECK, s, want, what, |calls| calls.check(s));
        if let Err(stop) = model {
            self.refused(s, stop, what);
        }
        model
    }

    /// One of the other calls on a refused archive, by turns, with arguments that are right or have a stop of their own.
    fn refused(&mut self, s: &[u8], stop: Stop, what: &str) {
        // If the file says D, the question fits it.
        let dims = s.get(4).map_or(0, |&d| d as usize % 9);
        match self.seen(CHECK).iter().sum::<u64>() % 18 {
            0 => self.answer(LOOK_UP, s, Err(stop), what, |calls| calls.look_up(s, &vec![model::ALL; dims])),
            1 => self.answer(LOOK_UP, s, Err(stop), what, |calls| calls.look_up(s, &[])),
            2 => self.output(LIST, &[s], &Err(stop), what, |calls, out| calls.list_cuboid(s, 0, out)),
            3 => self.output(LIST, &[s], &Err(stop), what, |calls, out| calls.list_cuboid(s, u32::MAX, out)),
            4 => self.output(KEYS, &[s], &Err(stop), what, |calls, out| calls.smallest_keys(s, out)),
            5 => self.answer(FIXES, s, Err(stop), what, |calls| calls.fixes(s, 0, 1)),
            6 => self.answer(FIXES, s, Err(stop), what, |calls| calls.fixes(s, u32::MAX, 0)),
            7 => self.output(SHARE, &[s], &Err(stop), what, |calls, out| calls.share_fee(s, 100, 0, out)),
            8 => self.output(SHARE, &[s], &Err(stop), what, |calls, out| calls.share_fee(s, u32::MAX, u32::MAX, out)),
            9 => self.output(JOIN, &[s], &Err(stop), what, |calls, out| calls.join(s, b"CUBE", out)),
            10 => self.output(JOIN, &[s], &Err(stop), what, |calls, out| calls.join(s, s, out)),
            11 => self.answer(LOOK_UP_EXTREMES, s, Err(stop), what, |calls| calls.look_up_extremes(s, &vec![model::ALL; dims])),
            12 => self.output(ADD, &[s], &Err(stop), what, |calls, out| calls.add(s, &vec![0; dims], -1, out)),
            13 => self.output(ADD, &[s], &Err(stop), what, |calls, out| calls.add(s, &[], 0, out)),
            14 => self.answer(WINDOW, s, Err(stop), what, |calls| calls.window(s, 1, 0, &vec![0; dims])),
            15 => self.answer(WINDOW, s, Err(stop), what, |calls| calls.window(s, 0, u32::MAX, &[])),
            16 => drop(self.convert(s, what)),
            _ => self.output(EXPAND, &[s], &Err(stop), what, |calls, out| calls.expand(s, out)),
        }
    }

    /// A question, with and without extremes.
    pub fn look_up(&mut self, s: &[u8], accepted: &Accepted, question: &[u32], what: &str) {
        let what = format!("{what}, question {question:?}");
        self.answer(LOOK_UP, s, accepted.look_up(question), &what, |calls| calls.look_up(s, question));
        self.answer(LOOK_UP_EXTREMES, s, accepted.look_up_extremes(question), &what, |calls| calls.look_up_extremes(s, question));
    }

    pub fn list(&mut self, s: &[u8], accepted: &Accepted, set: u32, what: &str) {
        let want = accepted.list_cuboid(set);
        self.output(LIST, &[s], &want, &format!("{what}, set {set}"), |calls, out| calls.list_cuboid(s, set, out));
    }

    pub fn expand(&mut self, s: &[u8], accepted: &Accepted, what: &str) {
        self.output(EXPAND, &[s], &Ok(accepted.expand()), what, |calls, out| calls.expand(s, out));
    }

    pub fn keys(&mut self, s: &[u8], accepted: &Accepted, what: &str) {
        self.output(KEYS, &[s], &Ok(accepted.smallest_keys()), what, |calls, out| calls.smallest_keys(s, out));
    }

    pub fn fixes(&mut self, s: &[u8], accepted: &Accepted, set: u32, dimension: u32, what: &str) {
        let want = accepted.fixes(set, dimension);
        self.answer(FIXES, s, want, &format!("{what}, set {set}, dimension {dimension}"), |calls| calls.fixes(s, set, dimension));
    }

    pub fn share(&mut self, s: &[u8], accepted: &Accepted, fee: u32, set: u32, what: &str) {
        let want = accepted.share_fee(fee, set);
        self.output(SHARE, &[s], &want, &format!("{what}, fee {fee}, set {set}"), |calls, out| calls.share_fee(s, fee, set, out));
    }

    /// Two archives joined. The model's archive.
    pub fn join(&mut self, first: &[u8], second: &[u8], what: &str) -> Result<Vec<u8>, Stop> {
        let want = joins::join(first, second);
        self.output(JOIN, &[first, second], &want, what, |calls, out| calls.join(first, second, out));
        want
    }

    /// A record added. The model's archive.
    pub fn add(&mut self, s: &[u8], accepted: &Accepted, codes: &[u32], reading: i32, what: &str) -> Result<Vec<u8>, Stop> {
        let want = accepted.add(codes, reading);
        self.output(ADD, &[s], &want, &format!("{what}, codes {codes:?}, reading {reading}"), |calls, out| {
            calls.add(s, codes, reading, out)
        });
        want
    }

    pub fn window(&mut self, s: &[u8], accepted: &Accepted, dimension: u32, code: u32, question: &[u32], what: &str) {
        let want = accepted.window(dimension, code, question);
        let what = format!("{what}, window {dimension} {code}, question {question:?}");
        self.answer(WINDOW, s, want, &what, |calls| calls.window(s, dimension, code, question));
    }

    /// A call that answers with numbers alone.
    fn answer<T: PartialEq + Debug>(
        &mut self,
        call: Call,
        s: &[u8],
        want: Result<T, Stop>,
        what: &str,
        run: impl Fn(&dyn Calls) -> Result<T, Stop>,
    ) {
        self.count(call, want.as_ref().err().copied());
        for (name, calls) in having(&[call.request, request_of(s)]) {
            let got = keeping(&[s], || run(calls));
            assert!(got == want, "{}, {what}\n{name} {got:?}\nmodel {want:?}\n{}", call.name, hex(s));
        }
    }

    /// A call that writes, with outputs of two lengths, or of one if it stops.
    fn output(
        &mut self,
        call: Call,
        files: &[&[u8]],
        model: &Result<Vec<u8>, Stop>,
        what: &str,
        run: impl Fn(&dyn Calls, &mut [u8]) -> Result<usize, Stop>,
    ) {
        self.outputs += 1;
        let requests: Vec<Request> = files.iter().map(|s| request_of(s)).chain([call.request]).collect();
        for room in rooms(model, self.outputs) {
            let want = model.as_deref().map_err(|&stop| stop).and_then(|bytes| model::fit(bytes, room));
            self.count(call, want.err());
            for (name, calls) in having(&requests) {
                let mut lent = Lent::new(room, files[0].len() % 8 + room % 3);
                let got = keeping(files, || run(calls, lent.out()));
                let wrong = difference(got, &lent, want);
                assert!(wrong.is_none(), "{}, {what}, output of {room}\n{name}: {}\n{}", call.name, wrong.unwrap(), all_hex(files));
            }
        }
    }

    /// The call had each of these answers, and none that it cannot have.
    pub fn had(&self, call: Call, answers: &[usize]) {
        let (name, seen) = (call.name, self.seen(call));
        println!("{name}, answers 0 (no stop) to {LAST}: {seen:?}");
        for answer in 0..=LAST {
            assert!(seen[answer] > 0 || !answers.contains(&answer), "{name}: no answer {answer} in {seen:?}");
            assert!(seen[answer] == 0 || answer == 0 || call.can_stop_with(answer), "{name}: answer {answer} in {seen:?}");
        }
    }
}

/// Lengths of the output, by turns: one too short and just enough, or none and more than enough; for a stop none or some.
fn rooms(model: &Result<Vec<u8>, Stop>, turn: usize) -> Vec<usize> {
    match (model, turn % 2) {
        (Ok(bytes), 0) => vec![bytes.len() - 1, bytes.len()],
        (Ok(bytes), _) => vec![0, bytes.len() + 9],
        (Err(_), 0) => vec![0],
        (Err(_), _) => vec![100],
    }
}

/// Runs a call and sees that its inputs keep every byte.
fn keeping<T>(files: &[&[u8]], run: impl FnOnce() -> T) -> T {
    let before: Vec<Vec<u8>> = files.iter().map(|s| s.to_vec()).collect();
    let got = run();
    assert!(black_box(files) == before, "a call changed an input: {}", all_hex(files));
    got
}

/// What is wrong in an answer and the output, if anything is.
fn difference(got: Result<usize, Stop>, lent: &Lent, want: Result<&[u8], Stop>) -> Option<String> {
    if got != want.map(<[u8]>::len) {
        return Some(format!("{got:?}, model {:?}", want.map(<[u8]>::len)));
    }
    let bytes = want.unwrap_or_default();
    match lent.written(bytes.len()) {
        Err(kept) => Some(kept),
        Ok(written) if written == bytes => None,
        Ok(written) => {
            let at = written.iter().zip(bytes).position(|(a, b)| a != b).unwrap();
            let from = at / 4 * 4;
            Some(format!("byte {at} of {}: {}\nmodel, from {from} on: {}", bytes.len(), hex(&written[from..]), hex(&bytes[from..])))
        }
    }
}
