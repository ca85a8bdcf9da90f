//! Random tables, right and damaged, through the call that builds: base rows, stops and bytes are the model's.
use calls::calls::{Calls, Stop};
use calls::compare::{having, hex, subjects, Compare, BUILD};
use calls::damage;
use calls::landed::Request;
use calls::model::cube::folded;
use calls::model::{fields, Row};
use calls::random::Random;
use calls::write::{mend, table_bytes};
use calls::ROWS;

/// Base rows of large tables, in both editions.
fn base_rows(sizes: &[u32], rows: &[(Vec<u32>, i32)], what: &str) -> usize {
    let ranged = folded(rows);
    let bare: Vec<Row> = ranged.iter().map(|row| Row::new(row.codes.clone(), row.sum, row.count)).collect();
    built(subjects(), sizes, rows, &bare, &format!("{what}, edition one"), |calls, table, out| calls.build(table, out));
    built(having(&[Request::C17]), sizes, rows, &ranged, &format!("{what}, edition two"), |calls, table, out| calls.build_two(table, out));
    ranged.len()
}

/// Those of each archive are the model's, and the whole archives are equal.
fn built(
    subjects: Vec<(&str, &dyn Calls)>,
    sizes: &[u32],
    rows: &[(Vec<u32>, i32)],
    want: &[Row],
    what: &str,
    build: impl Fn(&dyn Calls, &[u8], &mut [u8]) -> Result<usize, Stop>,
) {
    let table = table_bytes(sizes, rows);
    let mut first: Option<Vec<u8>> = None;
    for (name, calls) in subjects {
        let mut out = vec![0; 8_000_000 >> (8 - sizes.len())];
        let length = build(calls, &table, &mut out).unwrap_or_else(|stop| panic!("{name}, {what}: stop {stop}"));
        out.truncate(length);
        let read = fields::archive(&out).unwrap_or_else(|stop| panic!("{name}, {what}: the archive has stop {stop}"));
        assert!(read.bases.iter().map(|base| &base.row).eq(want), "{name}, {what}: other base rows\n{}", hex(&table));
        assert!(*first.get_or_insert(out.clone()) == out, "{name}, {what}: another archive\n{}", hex(&table));
    }
}

#[test]
fn tables_of_up_to_1024_rows() {
    let mut random = Random::seeded(203);
    let mut most = 0;
    for i in 0..60 {
        let sizes = random.sizes(1 + i % 8);
        let count = random.pick(&[ROWS, ROWS, ROWS - 1, 513, 512]);
        let rows = random.table_rows(&sizes, count);
        most = most.max(base_rows(&sizes, &rows, &format!("table {i}")));
    }
    assert_eq!(most, ROWS, "some table has 1,024 base rows");
}

/// Codes below 1, 2, 4, 32, 65,535; in order, backwards, all equal: what a sort meets.
#[test]
fn tables_that_are_hard_to_sort() {
    let mut random = Random::seeded(204);
    for (dims, size) in [1, 2, 3].into_iter().flat_map(|dims| [1, 2, 3, 4, 32, 256, 65_535].map(|size| (dims, size))) {
        for count in [2, 3, 31, 32, 33, 255, 256, 257, 1_023, 1_024] {
            let mut rows: Vec<(Vec<u32>, i32)> =
                (0..count).map(|_| ((0..dims).map(|_| random.below(size) as u32).collect(), random.reading())).collect();
            let see = |rows: &[(Vec<u32>, i32)], how: &str| {
                base_rows(&vec![size as u32; dims], rows, &format!("{count} rows, D {dims}, size {size}, {how}"));
            };
            see(&rows, "random");
            rows.sort();
            see(&rows, "rising");
            rows.reverse();
            see(&rows, "falling");
            let half = rows.len() / 2;
            rows[..half].reverse();
            see(&rows, "up and down");
            rows.rotate_left(1);
            see(&rows, "one out of place");
        }
    }
}

#[test]
fn cut_at_every_byte() {
    let mut random = Random::seeded(205);
    let mut compare = Compare::new();
    for i in 0..200 {
        let count = random.row_count().min(40);
        let s = random.table(1 + i % 8, count);
        damage::cuts(&s, |b, done| drop(compare.table(b, &format!("table {i}: {done}"))));
    }
    let s = random.table(1, ROWS);
    damage::cuts(&s, |b, done| drop(compare.table(b, &format!("1,024 rows: {done}"))));
    compare.had(BUILD, &[0, 1, 2, 15]);
}

#[test]
fn each_field_changed() {
    let mut random = Random::seeded(206);
    let mut compare = Compare::new();
    for i in 0..40 {
        let count = random.row_count().min(5);
        let s = random.table(1 + i % 8, count);
        damage::fields(&s, &mut random.part(), |b, done| drop(compare.table(b, &format!("table {i}: {done}"))));
    }
    compare.had(BUILD, &[0, 1, 2, 3, 4, 5, 6, 10, 11, 15]);
}

#[test]
fn bytes_and_words_changed() {
    let mut random = Random::seeded(207);
    let mut compare = Compare::new();
    for i in 0..600 {
        let count = random.row_count().min(40);
        let s = random.table(1 + i % 8, count);
        damage::bytes(&s, 20, &mut random.part(), |b, done| drop(compare.table(b, &format!("table {i}: {done}"))));
    }
    compare.had(BUILD, &[0, 1, 2, 3, 4, 5, 6, 10, 11, 15]);
}

#[test]
fn bytes_of_no_table() {
    let mut random = Random::seeded(209);
    let mut compare = Compare::new();
    for i in 0..30_000 {
        let mut s = random.words(b"FACT", 20);
        drop(compare.table(&s, &format!("words {i}")));
        mend(&mut s);
        drop(compare.table(&s, &format!("words {i}, check word mended")));
    }
    compare.had(BUILD, &[0, 1, 2, 3, 4, 5, 6, 10, 11, 15]);
}
