//! Random tables through all five calls: the archive's bytes, its counts, cells, cuboids and the complete cube are the model's.
use calls::compare::{Compare, BUILD, CHECK, EXPAND, LIST, LOOK_UP};
use calls::model::{cube, our_archive, Accepted, ALL};
use calls::random::Random;
use calls::write::table_bytes;

/// An archive checked and expanded.
fn opened(compare: &mut Compare, archive: &[u8], what: &str) -> Accepted {
    let accepted = compare.archive(archive, what).unwrap();
    compare.expand(archive, &accepted, what);
    accepted
}

/// The same, with so many questions and cuboids.
fn asked(compare: &mut Compare, archive: &[u8], what: &str, questions: usize, cuboids: usize, random: &mut Random) {
    let accepted = opened(compare, archive, what);
    for _ in 0..questions {
        let question = random.question(&accepted);
        compare.look_up(archive, &accepted, &question, what);
    }
    for _ in 0..cuboids {
        compare.list(archive, &accepted, random.below(1 << accepted.dims()) as u32, what);
    }
}

/// A table built, and its archive through the other calls.
fn all_calls(compare: &mut Compare, table: &[u8], what: &str, questions: usize, cuboids: usize, random: &mut Random) {
    let archive = compare.table(table, what).unwrap();
    asked(compare, &archive, what, questions, cuboids, random);
}

/// A table built, its archive expanded and every cuboid listed.
fn every_set(compare: &mut Compare, table: &[u8], what: &str) {
    let archive = compare.table(table, what).unwrap();
    let accepted = opened(compare, &archive, what);
    for set in cube::lattice(accepted.dims()) {
        compare.list(&archive, &accepted, set, what);
    }
}

/// Each call was made, with success and, where there is an output, without room.
fn had_all(compare: &Compare) {
    compare.had(BUILD, &[0, 15]);
    compare.had(CHECK, &[0]);
    compare.had(LOOK_UP, &[0]);
    compare.had(LIST, &[0, 15]);
    compare.had(EXPAND, &[0, 15]);
}

#[test]
fn small_tables() {
    let mut random = Random::seeded(401);
    let mut compare = Compare::new();
    for i in 0..2_000 {
        let count = random.row_count().min(12);
        let table = random.table(1 + i % 8, count);
        all_calls(&mut compare, &table, &format!("table {i}"), 4, 1, &mut random.part());
    }
    had_all(&compare);
}

#[test]
fn middle_tables() {
    let mut random = Random::seeded(402);
    let mut compare = Compare::new();
    for i in 0..120 {
        let count = 13 + random.place(130);
        let table = random.table(1 + i % 8, count);
        all_calls(&mut compare, &table, &format!("table {i}"), 6, 1, &mut random.part());
    }
    had_all(&compare);
}

/// Few codes in each dimension: cells with many rows, long lists.
#[test]
fn few_codes() {
    let mut random = Random::seeded(403);
    let mut compare = Compare::new();
    for i in 0..240 {
        let (dims, size) = (1 + i % 8, 2 + random.below(3) as u32);
        let count = random.place(60);
        let rows = random.table_rows(&vec![size; dims], count);
        all_calls(&mut compare, &table_bytes(&vec![size; dims], &rows), &format!("table {i}"), 6, 1, &mut random.part());
    }
    had_all(&compare);
}

/// Readings of which many are 0 or cancel: a cell's sum is often that of one of its rows.
#[test]
fn sums_that_are_equal() {
    let mut random = Random::seeded(404);
    let mut compare = Compare::new();
    for i in 0..400 {
        let dims = 1 + i % 6;
        let sizes = vec![3; dims];
        let count = random.place(15);
        let rows: Vec<_> = (0..count).map(|_| (random.codes(&sizes), random.pick(&[0, 0, 1, -1, i32::MAX, i32::MIN]))).collect();
        all_calls(&mut compare, &table_bytes(&sizes, &rows), &format!("table {i}"), 8, 3, &mut random.part());
    }
    had_all(&compare);
}

/// Archives whose counts and sums go up to their limits, as no table of 1,024 rows makes them.
#[test]
fn high_counts_and_sums() {
    let mut random = Random::seeded(407);
    let mut compare = Compare::new();
    for i in 0..240 {
        let sizes = random.sizes(1 + i % 8);
        let count = random.row_count().min(30);
        let rows = random.base_rows(&sizes, count);
        asked(&mut compare, &our_archive(&sizes, &rows), &format!("archive {i}"), 4, 1, &mut random.part());
    }
    compare.had(LOOK_UP, &[0]);
    compare.had(LIST, &[0, 15]);
    compare.had(EXPAND, &[0, 15]);
}

/// All questions: each code of each dimension, and ALL.
#[test]
fn every_question() {
    let mut random = Random::seeded(405);
    let mut compare = Compare::new();
    for i in 0..120 {
        let sizes: Vec<u32> = (0..1 + i % 4).map(|_| 1 + random.below(3) as u32).collect();
        let count = random.place(9);
        let rows = random.table_rows(&sizes, count);
        let what = format!("table {i}");
        let archive = compare.table(&table_bytes(&sizes, &rows), &what).unwrap();
        let accepted = opened(&mut compare, &archive, &what);
        let mut question = vec![0; sizes.len()];
        while let Some(dim) = (0..sizes.len()).find(|&dim| question[dim] != ALL) {
            compare.look_up(&archive, &accepted, &question, &what);
            question[dim] = if question[dim] + 1 < sizes[dim] { question[dim] + 1 } else { ALL };
            question[..dim].fill(0);
        }
        compare.look_up(&archive, &accepted, &question, &what);
    }
    compare.had(LOOK_UP, &[0]);
}

#[test]
fn every_set_of_small_tables() {
    let mut random = Random::seeded(406);
    let mut compare = Compare::new();
    for i in 0..24 {
        let count = random.row_count().min(12);
        let table = random.table(1 + i % 8, count);
        every_set(&mut compare, &table, &format!("table {i}"));
    }
    compare.had(LIST, &[0, 15]);
}

/// All tables whose rows are some of those with small codes, each row once.
#[test]
fn every_choice_of_rows() {
    let mut compare = Compare::new();
    for sizes in [vec![4], vec![2, 2], vec![3, 3], vec![2, 2, 2]] {
        let all = sizes.iter().fold(vec![vec![]], |rows: Vec<Vec<u32>>, &size| {
            rows.iter().flat_map(|row| (0..size).map(move |code| [&row[..], &[code]].concat())).collect()
        });
        for choice in 0..1u32 << all.len() {
            let chosen = (0..all.len()).filter(|i| choice >> i & 1 == 1);
            let rows: Vec<_> = chosen.map(|i| (all[i].clone(), 1 << (3 * i))).collect();
            every_set(&mut compare, &table_bytes(&sizes, &rows), &format!("rows {rows:?}"));
        }
    }
    assert_eq!(compare.seen(CHECK)[0], 16 + 16 + 512 + 256);
}

/// All tables of up to three rows with two codes in two dimensions and readings -1, 0 and 1.
#[test]
fn every_small_table() {
    let mut compare = Compare::new();
    let any: Vec<_> = (0..12).map(|i| (vec![i & 1, i >> 1 & 1], (i >> 2) as i32 - 1)).collect();
    let mut tables = vec![vec![]];
    let mut at = 0;
    while at < tables.len() {
        let rows: Vec<(Vec<u32>, i32)> = tables[at].clone();
        let what = format!("rows {rows:?}");
        let archive = compare.table(&table_bytes(&[2, 2], &rows), &what).unwrap();
        opened(&mut compare, &archive, &what);
        if rows.len() < 3 {
            tables.extend(any.iter().map(|row| [&rows[..], std::slice::from_ref(row)].concat()));
        }
        at += 1;
    }
    assert_eq!(compare.seen(CHECK)[0], 1 + 12 + 144 + 1_728);
}
