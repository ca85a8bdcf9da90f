//! Random archives, right and damaged, of ours and of any writer: the stop or the counts are the model's.
use calls::compare::{Compare, CHECK};
use calls::damage;
use calls::model::our_archive;
use calls::random::Random;
use calls::write::mend;
use calls::ROWS;

/// The stops that a check can have, and none.
const ALL_STOPS: [usize; 13] = [0, 1, 2, 3, 4, 5, 6, 7, 8, 9, 10, 11, 12];

/// An archive of ours, or now and then one with any lists and normal entries.
fn archive(random: &mut Random, i: usize, count: usize) -> Vec<u8> {
    match i % 3 {
        0 => random.any_archive(1 + i % 8, count),
        _ => random.our_archive(1 + i % 8, count),
    }
}

#[test]
fn archives_of_ours() {
    let mut random = Random::seeded(101);
    let mut compare = Compare::new();
    for i in 0..2_000 {
        let count = random.row_count().min(40);
        let s = random.our_archive(1 + i % 8, count);
        compare.archive(&s, &format!("our archive {i}")).unwrap();
    }
    compare.had(CHECK, &[0]);
}

#[test]
fn archives_with_any_lists_and_normal_entries() {
    let mut random = Random::seeded(102);
    let mut compare = Compare::new();
    for i in 0..5_000 {
        let count = random.row_count();
        let s = random.any_archive(1 + i % 8, count);
        drop(compare.archive(&s, &format!("archive {i}")));
    }
    compare.had(CHECK, &[0, 12]);
}

/// Archives without rows, each with everything that can be changed in it changed.
#[test]
fn archives_without_rows() {
    let mut random = Random::seeded(109);
    let mut compare = Compare::new();
    for i in 0..160 {
        let s = random.our_archive(1 + i % 8, 0);
        let what = format!("archive {i}");
        let accepted = compare.archive(&s, &what).unwrap();
        assert_eq!(accepted.counts(), (0, 1));
        let mut see = |b: &[u8], done: &str| drop(compare.archive(b, &format!("{what}: {done}")));
        damage::cuts(&s, &mut see);
        damage::fields(&s, &mut random.part(), &mut see);
        damage::bytes(&s, 20, &mut random.part(), &mut see);
        damage::entries(&accepted, 30, &mut random.part(), &mut see);
    }
    compare.had(CHECK, &[0, 1, 2, 3, 4, 5, 6, 8, 10, 11, 12]);
}

#[test]
fn archives_of_up_to_1024_rows() {
    let mut random = Random::seeded(103);
    let mut compare = Compare::new();
    for i in 0..50 {
        let count = random.pick(&[ROWS, ROWS, ROWS - 1, 700]);
        let s = random.any_archive(1 + i % 8, count);
        drop(compare.archive(&s, &format!("archive {i}")));
    }
    compare.had(CHECK, &[12]);
}

#[test]
fn cut_at_every_byte() {
    let mut random = Random::seeded(104);
    let mut compare = Compare::new();
    for i in 0..100 {
        let count = random.row_count().min(12);
        let s = archive(&mut random, i, count);
        let s = &s[..s.len().min(3_000)];
        damage::cuts(s, |b, done| drop(compare.archive(b, &format!("archive {i}: {done}"))));
    }
    let rows = random.base_rows(&[65_535], ROWS);
    damage::cuts(&our_archive(&[65_535], &rows), |b, done| drop(compare.archive(b, &format!("1,024 rows: {done}"))));
    assert!(compare.seen(CHECK)[2] > 20_000);
}

#[test]
fn each_field_changed() {
    let mut random = Random::seeded(105);
    let mut compare = Compare::new();
    for i in 0..64 {
        let count = random.row_count().min(6);
        let s = archive(&mut random, i, count);
        if s.len() < 1_000 {
            damage::fields(&s, &mut random.part(), |b, done| drop(compare.archive(b, &format!("archive {i}: {done}"))));
        }
    }
    compare.had(CHECK, &ALL_STOPS);
}

#[test]
fn bytes_and_words_changed() {
    let mut random = Random::seeded(106);
    let mut compare = Compare::new();
    for i in 0..600 {
        let count = random.row_count().min(30);
        let s = archive(&mut random, i, count);
        damage::bytes(&s, 20, &mut random.part(), |b, done| drop(compare.archive(b, &format!("archive {i}: {done}"))));
    }
    compare.had(CHECK, &ALL_STOPS);
}

/// Entries swapped, repeated, left out and added; lists, codes, sums, counts and sizes changed. The check word is right.
#[test]
fn entries_changed() {
    let mut random = Random::seeded(107);
    let mut compare = Compare::new();
    for i in 0..320 {
        let count = random.row_count().min(30);
        let s = random.our_archive(1 + i % 8, count);
        let accepted = compare.archive(&s, &format!("archive {i}")).unwrap();
        damage::entries(&accepted, 30, &mut random.part(), |b, done| drop(compare.archive(b, &format!("archive {i}: {done}"))));
    }
    compare.had(CHECK, &[0, 4, 6, 7, 8, 12]);
}

#[test]
fn bytes_of_no_archive() {
    let mut random = Random::seeded(108);
    let mut compare = Compare::new();
    for i in 0..30_000 {
        let mut s = random.words(b"CUBE", 24);
        drop(compare.archive(&s, &format!("words {i}")));
        mend(&mut s);
        drop(compare.archive(&s, &format!("words {i}, check word mended")));
    }
    compare.had(CHECK, &[1, 2, 3, 4, 5, 6, 7, 8, 10, 11, 12]);
}
