//! Stops in the rows of a table.
use super::{five_archive, five_table, Cases};
use crate::write::File;

pub fn add(c: &mut Cases) {
    openings_and_cuts(c);
    row_counts(c);
    codes(c);
    order(c);
    ends(c);
    check_words(c);
}

fn openings_and_cuts(c: &mut Cases) {
    let t = File::table;
    c.about = 1;
    c.stop("the five-row archive", five_archive(), 1);
    c.pass("the five-row table", five_table(), 3, 5);
    c.about = 2;
    let five = five_table();
    for end in 4..five.len() {
        c.stop(&format!("the five-row table cut to {end} bytes"), five[..end].to_vec(), 2);
    }
    for n in 0..4 {
        c.stop(&format!("{n} bytes of a reading"), t().head(&[5], 1).word(4).raw(&[255; 4][..n]).cut(), 2);
        c.stop(&format!("{n} bytes of a second reading"), t().head(&[5], 2).word(4).reading(1).word(4).raw(&[255; 4][..n]).cut(), 2);
        c.stop(&format!("{n} bytes of a second row's code"), t().head(&[5], 2).word(4).reading(1).raw(&[255; 4][..n]).cut(), 2);
    }
    let few = t().head(&[5], 3).word(4).reading(1).word(3).reading(1);
    c.stop("a row too few, and nothing behind the rows", few.clone().cut(), 2);
    c.stop("the same: the check word is a code that is too large", few.closed(), 6);
}

fn row_counts(c: &mut Cases) {
    c.about = 5;
    let rows = |n: u32| (0..n).fold(File::table().head(&[65_535], n), |f, i| f.word(i).reading(1)).closed();
    c.pass("1,024 rows", rows(1_024), 1, 1_024);
    c.stop("1,025 rows", rows(1_025), 5);
    c.pass("1,023 rows", rows(1_023), 1, 1_023);
    let wide = |n: u32| (0..n).fold(File::table().head(&[65_535; 8], n), |f, i| f.words(&[65_534 - i; 8]).reading(-1)).closed();
    c.pass("1,024 rows at D 8", wide(1_024), 8, 1_024);
    c.stop("1,025 rows at D 8", wide(1_025), 5);
}

fn codes(c: &mut Cases) {
    c.about = 6;
    let one = |size: u32, code: u32| File::table().head(&[size], 1).word(code).reading(0).closed();
    c.pass("code 65,534 at size 65,535", one(65_535, 65_534), 1, 1);
    c.stop("code 65,535 at size 65,535", one(65_535, 65_535), 6);
    c.stop("code 65,534 at size 65,534", one(65_534, 65_534), 6);
    c.pass("code 0 at size 1", one(1, 0), 1, 1);
    c.stop("code 1 at size 1", one(1, 1), 6);
    let last = |z: u32| File::table().head(&[3, 4], 2).words(&[2, 3]).reading(9).words(&[2, z]);
    c.stop("the last code of the last row is too large", last(4).reading(9).closed(), 6);
    c.stop("the same, and the reading cut off", last(4).cut(), 6);
    c.pass("the last code of the last row is right", last(3).reading(9).closed(), 2, 1);
    c.stop("the same, and the reading cut off", last(3).cut(), 2);
    c.pass("a reading that is no code", File::table().head(&[2], 1).word(1).reading(-1).closed(), 1, 1);
}

/// A table has no stop on the order of its rows.
fn order(c: &mut Cases) {
    c.about = 7;
    let two = |x: &[u32], y: &[u32]| File::table().head(&vec![5; x.len()], 2).words(x).reading(1).words(y).reading(2).closed();
    c.pass("equal codes: no stop in a table", two(&[3], &[3]), 1, 1);
    c.pass("falling codes: no stop in a table", two(&[3], &[2]), 1, 2);
    c.pass("codes that differ only in the first", two(&[1, 1], &[0, 1]), 2, 2);
    c.pass("codes that differ only in the last", two(&[1, 1], &[1, 0]), 2, 2);
}

fn ends(c: &mut Cases) {
    c.about = 10;
    c.stop("a row too many", File::table().head(&[5], 1).word(4).reading(1).word(3).reading(1).closed(), 10);
    c.stop("a byte behind the five-row table", [five_table(), vec![0]].concat(), 10);
}

fn check_words(c: &mut Cases) {
    c.about = 11;
    // A size or a reading that is one higher: no other stop sees it.
    for at in [8, 12, 16].into_iter().chain((36..104).step_by(16)) {
        let mut b = five_table();
        b[at] += 1;
        c.stop(&format!("the word at {at} of the five-row table one higher, the check word left"), b, 11);
    }
    let two = File::table().head(&[5], 2);
    let first = two.clone().word(3).reading(1).word(2).reading(7).closed();
    c.pass("two rows", first.clone(), 1, 2);
    let mut b = two.word(2).reading(7).word(3).reading(1).closed();
    c.pass("the same rows swapped", b.clone(), 1, 2);
    let end = b.len() - 4;
    b[end..].copy_from_slice(&first[end..]);
    c.pass("the same rows swapped, with the check word of the first", b, 1, 2);
    let high = File::table().head(&[5], 3).word(0).reading(-1).word(1).reading(-1).word(2).reading(i32::MIN).closed();
    c.pass("words far beyond 2 to the power 32", high, 1, 3);
}
