//! For each stop on a file's own bytes: files that reach it, and files that just miss it.
mod amounts;
mod archives;
mod both;
mod condensed;
mod editions;
mod entries;
mod families;
mod tables;

use crate::calls::Stop;
use crate::model::editions::Edition;
use crate::model::ALL;
use crate::write::{table_bytes, File};

pub struct Case {
    /// The stop that the case is about.
    pub about: Stop,
    pub name: String,
    pub bytes: Vec<u8>,
    /// The stop; or of an archive the base count and the normal count, of a table D and the base count of its archive.
    pub want: Result<(u32, u32), Stop>,
}

/// Cases that are being gathered.
struct Cases {
    about: Stop,
    all: Vec<Case>,
}

impl Cases {
    fn add(&mut self, name: &str, bytes: Vec<u8>, want: Result<(u32, u32), Stop>) {
        self.all.push(Case { about: self.about, name: name.to_string(), bytes, want });
    }

    fn stop(&mut self, name: &str, bytes: Vec<u8>, stop: Stop) {
        self.add(name, bytes, Err(stop));
    }

    fn pass(&mut self, name: &str, bytes: Vec<u8>, a: u32, b: u32) {
        self.add(name, bytes, Ok((a, b)));
    }
}

fn gathered(add: impl FnOnce(&mut Cases)) -> Vec<Case> {
    let mut cases = Cases { about: 0, all: vec![] };
    add(&mut cases);
    cases.all
}

/// Tables: stops 1 to 6, 10 and 11.
pub fn tables() -> Vec<Case> {
    gathered(|cases| {
        both::add(cases, &both::TABLE);
        tables::add(cases);
    })
}

/// Archives: stops 1 to 12.
pub fn archives() -> Vec<Case> {
    gathered(|cases| {
        both::add(cases, &both::ARCHIVE);
        archives::add(cases);
        entries::add(cases, Edition::One);
        amounts::add(cases, Edition::One);
        condensed::add(cases);
    })
}

/// Archives of edition two: stops 1 to 12 and 19.
pub fn archives_two() -> Vec<Case> {
    gathered(|cases| {
        both::add(cases, &both::EDITION_TWO);
        entries::add(cases, Edition::Two);
        amounts::add(cases, Edition::Two);
        editions::add(cases);
    })
}

/// Tables with families: stops 1 to 6, 10, 11, 21 and 22.
pub fn family_tables() -> Vec<Case> {
    gathered(|cases| {
        both::add(cases, &both::FAMILY_TABLE);
        families::add_tables(cases);
    })
}

/// Archives with families: stops 1 to 12, 19, 21 and 22.
pub fn family_archives() -> Vec<Case> {
    gathered(|cases| {
        both::add(cases, &both::FAMILY_ARCHIVE);
        families::add_archives(cases);
    })
}

/// The rows of the five-row example.
pub fn five_rows() -> Vec<(Vec<u32>, i32)> {
    vec![(vec![0, 1, 1], 50), (vec![1, 1, 1], 100), (vec![2, 3, 1], 60), (vec![4, 5, 1], 70), (vec![6, 5, 2], 80)]
}

/// Their table.
pub fn five_table() -> Vec<u8> {
    table_bytes(&[7, 6, 3], &five_rows())
}

/// What the lister prints of their archive.
pub const FIVE_TEXT: &str = "3 5 5
0 1 1 50 1 : 1
1 1 1 100 1 : 1
2 3 1 60 1 : 1 2
4 5 1 70 1 : 1 6
6 5 2 80 1 : 1 4
* * * 360 5
* 1 * 150 2
* 5 * 150 2
* * 1 280 4
* 1 1 150 2
";

/// Their archive, from that text.
pub fn five_archive() -> Vec<u8> {
    let f = File::archive().head(&[7, 6, 3], 5);
    let f = f.base(&[0, 1, 1], 50, 1, &[1]).base(&[1, 1, 1], 100, 1, &[1]).base(&[2, 3, 1], 60, 1, &[1, 2]);
    let f = f.base(&[4, 5, 1], 70, 1, &[1, 6]).base(&[6, 5, 2], 80, 1, &[1, 4]).word(5);
    let f = f.normal(&[ALL, ALL, ALL], 360, 5).normal(&[ALL, 1, ALL], 150, 2).normal(&[ALL, 5, ALL], 150, 2);
    f.normal(&[ALL, ALL, 1], 280, 4).normal(&[ALL, 1, 1], 150, 2).closed()
}
