//! Edition two: number 19 in base entries, what comes before and behind it, and the same faults in normal entries. One dimension.
use super::Cases;
use crate::model::editions::Edition;
use crate::model::ALL;
use crate::write::{mend, File};

const LOW: i64 = i32::MIN as i64;
const HIGH: i64 = i32::MAX as i64;
const MANY: u32 = 1_048_576;

/// Known, least and greatest, whatever they are.
type Fields = (u32, i32, i32);

fn open(count: u32) -> File {
    File::edition(Edition::Two).head(&[9], count)
}

/// A base entry up to its greatest.
fn entry(f: File, code: u32, sum: i64, count: u32, (known, least, greatest): Fields) -> File {
    f.word(code).sum(sum).word(count).word(known).reading(least).reading(greatest)
}

/// An archive of one entry.
fn one(sum: i64, count: u32, fields: Fields) -> Vec<u8> {
    entry(open(1), 3, sum, count, fields).words(&[1, 0, 0]).closed()
}

/// An archive of two readings, whose total has these fields.
fn two(fields: Fields) -> File {
    let bases = entry(entry(open(2), 3, -5, 1, (1, -5, -5)).word(0), 4, 7, 1, (1, 7, 7)).word(0);
    entry(bases.word(1), ALL, 2, 2, fields)
}

pub fn add(c: &mut Cases) {
    c.about = 19;
    known(c);
    unknown(c);
    extremes_that_do_not_fit(c);
    extremes_that_fit(c);
    order(c);
    in_a_second_entry(c);
    normal_entries(c);
    cuts(c);
}

fn known(c: &mut Cases) {
    for known in [2, 3, 7, 255, 256, 257, 65_536, 65_537, 1 << 31, (1 << 31) + 1, u32::MAX] {
        c.stop(&format!("known {known}, extremes that fit"), one(5, 1, (known, 5, 5)), 19);
        c.stop(&format!("known {known}, extremes of zero"), one(0, 2, (known, 0, 0)), 19);
    }
}

fn unknown(c: &mut Cases) {
    for (least, greatest) in [(1, 0), (0, 1), (-1, 0), (0, -1), (5, 5), (i32::MIN, 0), (0, i32::MIN), (i32::MIN, i32::MAX), (1 << 16, 0)] {
        c.stop(&format!("unknown, and {least} to {greatest}"), one(5, 1, (0, least, greatest)), 19);
        c.stop(&format!("unknown of two, and {least} to {greatest}"), one(0, 2, (0, least, greatest)), 19);
    }
    for (sum, count) in [(0, 1), (5, 1), (-5, 1), (LOW, 1), (0, 2), (7, 2), (MANY as i64 * HIGH, MANY)] {
        c.pass(&format!("unknown, sum {sum} of {count}"), one(sum, count, (0, 0, 0)), 1, 0);
    }
}

fn extremes_that_do_not_fit(c: &mut Cases) {
    for (sum, count, least, greatest) in [
        (5, 1, 5, 6),
        (5, 1, 4, 5),
        (5, 1, 4, 4),
        (5, 1, 6, 6),
        (5, 1, 6, 4),
        (0, 1, 0, i32::MIN),
        (8, 2, 5, 3),
        (7, 2, 3, 5),
        (9, 2, 3, 5),
        (8, 2, 4, 5),
        (0, 2, 1, 0),
        (10, 3, 3, 5),
        (14, 3, 3, 5),
        (-1, 2, i32::MIN, i32::MAX - 1),
        (0, 2, i32::MIN, i32::MAX),
        (2 * HIGH, 2, i32::MAX - 1, i32::MAX),
        (2 * LOW, 2, i32::MIN, i32::MIN + 1),
        (HIGH + (MANY as i64 - 1) * LOW - 1, MANY, i32::MIN, i32::MAX),
        (LOW + (MANY as i64 - 1) * HIGH + 1, MANY, i32::MIN, i32::MAX),
        (MANY as i64 * HIGH, MANY, i32::MIN, i32::MAX),
        (1 << 32, 3, 0, 0),
        (-1 << 32, 3, 0, 0),
    ] {
        c.stop(&format!("{least} to {greatest}, sum {sum} of {count}"), one(sum, count, (1, least, greatest)), 19);
    }
}

fn extremes_that_fit(c: &mut Cases) {
    for (sum, count, least, greatest) in [
        (5, 1, 5, 5),
        (0, 1, 0, 0),
        (LOW, 1, i32::MIN, i32::MIN),
        (HIGH, 1, i32::MAX, i32::MAX),
        (8, 2, 3, 5),
        (0, 2, 0, 0),
        (-1, 2, i32::MIN, i32::MAX),
        (11, 3, 3, 5),
        (12, 3, 3, 5),
        (13, 3, 3, 5),
        (2 * HIGH, 2, i32::MAX, i32::MAX),
        (HIGH + (MANY as i64 - 1) * LOW, MANY, i32::MIN, i32::MAX),
        (LOW + (MANY as i64 - 1) * HIGH, MANY, i32::MIN, i32::MAX),
        (MANY as i64 * HIGH, MANY, i32::MAX, i32::MAX),
        (MANY as i64 * LOW, MANY, i32::MIN, i32::MIN),
    ] {
        c.pass(&format!("{least} to {greatest}, sum {sum} of {count}"), one(sum, count, (1, least, greatest)), 1, 0);
    }
}

/// 8, then 2 up to the last byte of greatest, then 19, then the list.
fn order(c: &mut Cases) {
    let counted = |count: u32| open(1).word(3).sum(5).word(count);
    c.stop("count 0, and nothing behind", counted(0).cut(), 8);
    c.stop("count 0, known 7", counted(0).word(7).cut(), 8);
    let whole = counted(1).word(7).reading(1).reading(2).cut();
    for end in whole.len() - 12..whole.len() {
        c.stop(&format!("known 7, cut to {end} bytes"), whole[..end].to_vec(), 2);
    }
    c.stop("known 7, and no list count", whole.clone(), 19);
    c.stop("known 7, and a byte of the list count", [&whole[..], &[0]].concat(), 19);
    c.stop("known 7 before a list count of 71", [&whole[..], &71u32.to_le_bytes()].concat(), 19);
    let right = counted(1).word(1).reading(5).reading(5);
    c.stop("extremes that fit, and no list count", right.clone().cut(), 2);
    c.stop("extremes that fit, and a list count of 71", right.word(71).cut(), 9);
    let mut wrong = one(5, 1, (1, 5, 6));
    let last = wrong.len() - 1;
    wrong[last] ^= 1;
    c.stop("extremes that do not fit before a wrong check word", wrong.clone(), 19);
    c.stop("extremes that do not fit before a byte too many", [wrong, vec![0]].concat(), 19);
}

fn in_a_second_entry(c: &mut Cases) {
    let second = |code: u32, fields: Fields| entry(entry(open(2), 3, -5, 1, (1, -5, -5)).word(0), code, 7, 1, fields).word(0).cut();
    c.stop("extremes of the entry before", second(4, (1, -5, -5)), 19);
    c.stop("equal codes before extremes that do not fit", second(3, (1, -5, -5)), 7);
    c.stop("extremes that fit, and no normal count", second(4, (1, 7, 7)), 2);
}

/// In a normal entry such a fault is 12, once the check word has passed.
fn normal_entries(c: &mut Cases) {
    c.about = 12;
    c.pass("the extremes of both readings", two((1, -5, 7)).closed(), 2, 1);
    for fields in [(0, 0, 0), (0, -5, 7), (2, -5, 7), (1, -5, 6), (1, -4, 7), (1, 7, -5), (1, 0, 0), (u32::MAX, 0, 0), (257, -5, 7)] {
        c.stop(&format!("a total with {fields:?}"), two(fields).closed(), 12);
        let mut wrong = two(fields).word(0).cut();
        c.stop(&format!("a total with {fields:?}, and a wrong check word"), wrong.clone(), 11);
        wrong.push(0);
        c.stop(&format!("a total with {fields:?}, and a byte behind"), wrong, 10);
    }
    let unknown = entry(entry(open(2), 3, -5, 1, (0, 0, 0)).word(0), 4, 7, 1, (1, 7, 7)).word(0).word(1);
    c.pass("an unknown row makes the total unknown", entry(unknown.clone(), ALL, 2, 2, (0, 0, 0)).closed(), 2, 1);
    c.stop("a total known beside an unknown row", entry(unknown.clone(), ALL, 2, 2, (1, -5, 7)).closed(), 12);
    c.stop("the known row's extremes as the total's", entry(unknown, ALL, 2, 2, (1, 7, 7)).closed(), 12);
}

fn cuts(c: &mut Cases) {
    c.about = 2;
    let whole = two((9, 1, 0)).closed();
    for end in 4..whole.len() {
        c.stop(&format!("an archive of two readings cut to {end} bytes"), whole[..end].to_vec(), 2);
    }
    c.about = 9;
    let listed = |n: u32| entry(open(1), 3, 5, 1, (1, 5, 5)).word(n).words(&vec![0; n as usize]).word(0);
    c.stop("71 sets", listed(71).closed(), 9);
    c.stop("70 sets, which are not required", listed(70).closed(), 12);
    c.pass("the one set that is required", listed(1).closed(), 1, 0);
    c.about = 1;
    let mut one = super::five_archive();
    one[..4].copy_from_slice(&Edition::Two.opening());
    mend(&mut one);
    c.stop("the five-row archive of edition one with the opening of edition two", one, 19);
}
