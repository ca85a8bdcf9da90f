//! Stop 8: counts, sums and the total count of base entries. The archives have one dimension.
use super::Cases;
use crate::model::editions::Edition;
use crate::model::{Row, ALL};
use crate::write::File;

const LOW: i64 = i32::MIN as i64;
const HIGH: i64 = i32::MAX as i64;

/// What an edition has of one entry, extremes unknown.
fn entry(f: File, edition: Edition, code: u32, sum: i64, count: u32) -> File {
    f.entry(edition, &Row::new(vec![code], sum, count))
}

/// A right archive of one entry.
fn one(edition: Edition, sum: i64, count: u32) -> Vec<u8> {
    entry(File::edition(edition).head(&[9], 1), edition, 3, sum, count).words(&[1, 0, 0]).closed()
}

/// The same entry up to its count.
fn one_cut(edition: Edition, sum: i64, count: u32) -> Vec<u8> {
    File::edition(edition).head(&[9], 1).word(3).sum(sum).word(count).cut()
}

/// A right archive of two or more entries with these counts and sums of 0, if no total is too high.
fn counts(edition: Edition, counts: &[u32]) -> Vec<u8> {
    let f = File::edition(edition).head(&[65_535], counts.len() as u32);
    let f = counts.iter().enumerate().fold(f, |f, (i, &n)| entry(f, edition, i as u32, 0, n).word(0));
    entry(f.word(1), edition, ALL, 0, counts.iter().fold(0, |a, &n| a.wrapping_add(n))).closed()
}

pub fn add(c: &mut Cases, edition: Edition) {
    c.about = 8;
    amounts_that_stop(c, edition);
    amounts_that_pass(c, edition);
    totals(c, edition);
    totals_of_1024(c, edition);
    order(c, edition);
}

fn amounts_that_stop(c: &mut Cases, edition: Edition) {
    for (name, sum, count) in [
        ("count 0", 0, 0),
        ("count 0, sum 1", 1, 0),
        ("one above one reading", HIGH + 1, 1),
        ("one below one reading", LOW - 1, 1),
        ("one above two readings", 2 * HIGH + 1, 2),
        ("two above two readings", -2 * LOW, 2),
        ("one below two readings", 2 * LOW - 1, 2),
        ("one above three readings", 3 * HIGH + 1, 3),
        ("one below three readings", 3 * LOW - 1, 3),
        ("a reading of -1 in 32 bits", 0xFFFF_FFFF, 1),
        ("a least reading in 32 bits", 0x8000_0000, 1),
        ("the greatest sum of 64 bits", i64::MAX, 1),
        ("the least sum of 64 bits", i64::MIN, 1),
        ("a sum of 2^32", 1 << 32, 1),
        ("a sum of -2^32", -1 << 32, 1),
        ("a sum with a zero low word", 5 << 32, 2),
        ("one above 1,048,576 readings", 1_048_576 * HIGH + 1, 1_048_576),
        ("one below 1,048,576 readings", 1_048_576 * LOW - 1, 1_048_576),
        ("the greatest sum and the greatest count", i64::MAX, 1_048_576),
        ("the least sum and the greatest count", i64::MIN, 1_048_576),
        ("count 1,048,577", 0, 1_048_577),
        ("count 2^31", 0, 1 << 31),
        ("count 4,294,967,295", 0, u32::MAX),
        ("count 4,294,967,295, sum -1", -1, u32::MAX),
        ("count 4,294,967,295, its greatest sum", u32::MAX as i64 * HIGH, u32::MAX),
        ("count 4,294,967,295, its least sum", u32::MAX as i64 * LOW, u32::MAX),
    ] {
        c.stop(name, one(edition, sum, count), 8);
        c.stop(&format!("{name}, and nothing behind"), one_cut(edition, sum, count), 8);
    }
}

fn amounts_that_pass(c: &mut Cases, edition: Edition) {
    for (name, sum, count) in [
        ("the greatest of one reading", HIGH, 1),
        ("the least of one reading", LOW, 1),
        ("the greatest of two readings", 2 * HIGH, 2),
        ("the least of two readings", 2 * LOW, 2),
        ("the greatest of three readings", 3 * HIGH, 3),
        ("the least of three readings", 3 * LOW, 3),
        ("-1", -1, 1),
        ("two readings, 2^31", 1 << 31, 2),
        ("three readings, 2^32", 1 << 32, 3),
        ("the greatest of 1,048,576 readings", 1_048_576 * HIGH, 1_048_576),
        ("the least of 1,048,576 readings", 1_048_576 * LOW, 1_048_576),
        ("count 1,048,576", 0, 1_048_576),
        ("count 1,048,575", 0, 1_048_575),
        ("count 1, sum 0", 0, 1),
    ] {
        c.pass(name, one(edition, sum, count), 1, 0);
        c.stop(&format!("{name}, and nothing behind"), one_cut(edition, sum, count), 2);
    }
}

fn totals(c: &mut Cases, edition: Edition) {
    c.pass("total 1,048,575 + 1", counts(edition, &[1_048_575, 1]), 2, 1);
    c.stop("total 1,048,575 + 2", counts(edition, &[1_048_575, 2]), 8);
    c.pass("total 1 + 1,048,575", counts(edition, &[1, 1_048_575]), 2, 1);
    c.stop("total 1 + 1,048,576", counts(edition, &[1, 1_048_576]), 8);
    c.stop("total 1,048,576 + 1", counts(edition, &[1_048_576, 1]), 8);
    c.stop("total 1 + 4,294,967,295, which is 0 in 32 bits", counts(edition, &[1, u32::MAX]), 8);
    c.stop("total 2 + 4,294,967,295, which is 1 in 32 bits", counts(edition, &[2, u32::MAX, 1]), 8);
    c.stop("total 1,048,576 + 4,294,967,295", counts(edition, &[1_048_576, u32::MAX]), 8);
    c.stop("count 0 behind a full total", counts(edition, &[1_048_576, 0]), 8);
    c.stop("count 0 second", counts(edition, &[1, 0]), 8);
    c.stop("count 0 first", counts(edition, &[0, 1]), 8);
}

fn totals_of_1024(c: &mut Cases, edition: Edition) {
    let mut ns = [1_024; 1_024];
    c.pass("1,024 counts of 1,024", counts(edition, &ns), 1_024, 1);
    ns[1_023] = 1_025;
    c.stop("1,023 counts of 1,024 and one of 1,025", counts(edition, &ns), 8);
    ns[1_023] = 1_024;
    ns[0] = 1_025;
    c.stop("one count of 1,025 and 1,023 of 1,024", counts(edition, &ns), 8);
    ns[1_023] = 1_023;
    c.pass("counts of 1,025, 1,024 and last 1,023", counts(edition, &ns), 1_024, 1);
}

fn order(c: &mut Cases, edition: Edition) {
    let open = |count: u32| File::edition(edition).head(&[9], count);
    let three = |first: u32| {
        let front = entry(open(3), edition, 0, 0, first).word(0);
        entry(front, edition, 1, 0, 1).word(0).word(9).cut()
    };
    c.stop("the total is passed before a code that is too large", three(1_048_576), 8);
    c.stop("the total is not passed before a code that is too large", three(1_048_575), 6);
    c.stop("8 before 9: count 0 and list count 71", entry(open(1), edition, 3, 0, 0).word(71).cut(), 8);
    let normal = |sum: i64, count: u32| entry(open(0).word(1), edition, 1, sum, count).closed();
    c.stop("a normal entry's count 0 is no 8", normal(0, 0), 12);
    c.stop("a normal entry's sum is no 8", normal(i64::MIN, 1), 12);
}
