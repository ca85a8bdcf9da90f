//! What the builder and the lister print: the model's, byte for byte.
use calls::calls::Stop;
use calls::cases::{archives, archives_two, family_archives, family_tables, five_archive, five_table, tables, Case, FIVE_TEXT};
use calls::landed::Request;
use calls::model::editions::Edition;
use calls::model::programs::{edition, refused, MOST};
use calls::model::{build_edition, ALL};
use calls::printed::{check, same};
use calls::program::Program::{self, Builder, Lister};
use calls::random::Random;
use calls::write::{table_bytes, File};
use calls::ROWS;
use std::collections::BTreeSet;

/// The builder makes the model's archive of a table, and the lister prints this text of it. The archive.
fn listed(sizes: &[u32], rows: &[(&[u32], i32)], text: &str) -> Vec<u8> {
    let rows: Vec<_> = rows.iter().map(|(codes, reading)| (codes.to_vec(), *reading)).collect();
    let archive = check(Builder, &table_bytes(sizes, &rows), "an example");
    same(Lister, &Lister.prints(&archive), text.as_bytes(), "an example");
    archive
}

#[test]
fn the_five_rows() {
    let archive = check(Builder, &five_table(), "the five rows");
    same(Lister, &Lister.prints(&archive), FIVE_TEXT.as_bytes(), "the five rows");
    match edition() {
        Edition::One => assert_eq!((archive.len(), &archive), (324, &five_archive())),
        Edition::Two => assert_eq!((archive.len(), &archive[..4]), (444, &b"CUB2"[..])),
    }
}

/// "The lister prints both editions in 01's columns."
#[test]
fn the_lister_takes_both_editions() {
    let same_text = |s: &[u8]| same(Lister, &Lister.prints(s), FIVE_TEXT.as_bytes(), "the five rows");
    same_text(&five_archive());
    if Request::C17.landed() {
        same_text(&build_edition(Edition::Two, &five_table()).unwrap());
        let mut random = Random::seeded(604);
        for i in 0..200 {
            let count = random.row_count().min(40);
            check(Lister, &random.our_archive_two(1 + i % 8, count), &format!("archive {i}"));
        }
        stops(Lister, archives_two(), &[1, 2, 3, 4, 5, 6, 7, 8, 9, 10, 11, 12, 19]);
    }
}

/// "Every other call, and both programs, stop on either file with 1."
#[test]
fn families_are_refused() {
    for case in family_tables().into_iter().chain(family_archives()).filter(|case| case.want.is_ok() && case.bytes.len() <= MOST) {
        for program in [Builder, Lister] {
            same(program, &program.prints(&case.bytes), &refused(1), &case.name);
        }
    }
}

#[test]
fn the_further_examples() {
    assert_eq!(listed(&[1], &[], "1 0 1\n* 0 0\n").len(), if edition() == Edition::One { 40 } else { 52 });
    listed(&[3; 8], &[], "8 0 1\n* * * * * * * * 0 0\n");
    listed(&[3; 8], &[(&[2, 0, 1, 2, 0, 1, 2, 0], -7)], "8 1 0\n2 0 1 2 0 1 2 0 -7 1 : 0\n");
    listed(&[1], &[(&[0], 5), (&[0], -5)], "1 1 0\n0 0 2 : 0\n");
    listed(&[1, 2], &[(&[0, 0], 5), (&[0, 1], 0)], "2 2 2\n0 0 5 1 : 2\n0 1 0 1 : 2\n* * 5 2\n0 * 5 2\n");
    let four: [(&[u32], i32); 4] = [(&[1, 1], -4), (&[0, 1], 2), (&[1, 0], 3), (&[0, 0], -9)];
    let text = "2 4 5\n0 0 -9 1 :\n0 1 2 1 :\n1 0 3 1 :\n1 1 -4 1 :\n* * -8 4\n0 * -7 2\n1 * -1 2\n* 0 -6 2\n* 1 -2 2\n";
    listed(&[2, 2], &four, text);
}

/// An archive of one entry.
fn one(code: u32, sum: i64, count: u32) -> Vec<u8> {
    File::archive().head(&[65_535], 1).base(&[code], sum, count, &[0]).word(0).closed()
}

#[test]
fn sums_and_counts_at_their_limits() {
    for (sum, count, line) in [
        (-2_251_799_813_685_248, 1_048_576, "65534 -2251799813685248 1048576 : 0"),
        (2_251_799_812_636_672, 1_048_576, "65534 2251799812636672 1048576 : 0"),
        (-2_147_483_648, 1, "65534 -2147483648 1 : 0"),
        (2_147_483_647, 1, "65534 2147483647 1 : 0"),
        (-4_294_967_296, 2, "65534 -4294967296 2 : 0"),
        (4_294_967_296, 3, "65534 4294967296 3 : 0"),
        (0, 1_048_576, "65534 0 1048576 : 0"),
        (-1, 1, "65534 -1 1 : 0"),
    ] {
        same(Lister, &Lister.prints(&one(65_534, sum, count)), format!("1 1 0\n{line}\n").as_bytes(), line);
    }
}

#[test]
fn a_normal_entry_at_the_limits() {
    for (sum, text) in [
        (-1_125_899_906_842_624, "1 2 1\n0 -1125899906842624 524288 :\n9 -1125899906842624 524288 :\n* -2251799813685248 1048576\n"),
        (1_125_899_906_318_336, "1 2 1\n0 1125899906318336 524288 :\n9 1125899906318336 524288 :\n* 2251799812636672 1048576\n"),
    ] {
        let bases = File::archive().head(&[10], 2).base(&[0], sum, 524_288, &[]).base(&[9], sum, 524_288, &[]);
        let archive = bases.word(1).normal(&[ALL], 2 * sum, 1_048_576).closed();
        same(Lister, &Lister.prints(&archive), text.as_bytes(), text);
    }
}

/// The numbers round each power of ten, as sums, counts and codes.
#[test]
fn numbers_of_every_length() {
    for power in (0..=15).map(|n| 10i64.pow(n)) {
        for sum in [power, power - 1, -power, 1 - power] {
            check(Lister, &one(0, sum, 1_048_576), "a sum");
        }
    }
    for power in (0..=6).map(|n| 10u32.pow(n)) {
        for n in [power, power + 1, 2 * power - 1] {
            check(Lister, &one(n % 65_535, 0, n.min(1_048_576)), "a code and a count");
        }
    }
}

/// A table through the builder, and what that prints through the lister. Whether it is an archive.
fn both(table: &[u8], what: &str) -> bool {
    let archive = check(Builder, table, what);
    check(Lister, &archive, what);
    archive != refused(15)
}

#[test]
fn random_tables() {
    let mut random = Random::seeded(601);
    for i in 0..300 {
        let count = random.row_count();
        let table = random.table(1 + i % 8, count);
        both(&table, &format!("table {i}"));
    }
}

#[test]
fn random_tables_of_up_to_1024_rows() {
    let mut random = Random::seeded(602);
    let mut built = [0; 2];
    for i in 0..24 {
        let count = random.pick(&[ROWS, ROWS - 1, 700, 300]);
        let table = random.table(1 + i % 8, count);
        built[both(&table, &format!("table {i}")) as usize] += 1;
    }
    assert!(built[0] > 0 && built[1] > 0, "{} tables are refused, {} are not", built[0], built[1]);
}

#[test]
fn random_archives() {
    let mut random = Random::seeded(603);
    for i in 0..200 {
        let count = random.row_count().min(60);
        let archive = random.our_archive(1 + i % 8, count);
        check(Lister, &archive, &format!("archive {i}"));
    }
}

/// A program on the cases for each stop. It prints the lines of these stops and of no others.
fn stops(program: Program, cases: Vec<Case>, stops: &[Stop]) {
    let printed: BTreeSet<_> = cases.iter().map(|case| check(program, &case.bytes, &case.name)).collect();
    let lines: BTreeSet<_> = printed.into_iter().filter(|text| text.starts_with(b"refused")).collect();
    assert_eq!(lines, stops.iter().map(|&stop| refused(stop)).collect());
}

#[test]
fn the_stops_of_the_builder() {
    stops(Builder, tables(), &[1, 2, 3, 4, 5, 6, 10, 11, 15]);
}

#[test]
fn the_stops_of_the_lister() {
    stops(Lister, archives(), &[1, 2, 3, 4, 5, 6, 7, 8, 9, 10, 11, 12]);
}
