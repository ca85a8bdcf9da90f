//! C-17: edition two with the least and the greatest reading, built, converted, looked up, listed, joined and checked; number 19.
use calls::calls::{Cell, Extremes};
use calls::cases::{five_archive, five_table, FIVE_TEXT};
use calls::compare::*;
use calls::damage;
use calls::kinds::{kinds, SIZES};
use calls::model::editions::{convert, fit, Edition};
use calls::model::{self, archive_of, build_edition, cube, listing, our_archive, Accepted, Row, ALL};
use calls::random::Random;
use calls::write::{mend, table_bytes, File};

fn known(least: i32, greatest: i32) -> Option<Extremes> {
    Some(Extremes { least, greatest })
}

fn ranged(codes: &[u32], sum: i64, count: u32, extremes: Option<Extremes>) -> Row {
    Row { codes: codes.to_vec(), sum, count, extremes }
}

/// The archive of the five rows, from its fields.
fn five_two() -> Vec<u8> {
    let base = |f: File, codes: [u32; 3], reading: i32, list: &[u32]| {
        let f = f.words(&codes).sum(reading as i64).word(1).word(1).reading(reading).reading(reading);
        f.word(list.len() as u32).words(list)
    };
    let normal = |f: File, codes: [u32; 3], sum: i64, count: u32, least: i32, greatest: i32| {
        f.words(&codes).sum(sum).word(count).word(1).reading(least).reading(greatest)
    };
    let f = File::edition(Edition::Two).head(&[7, 6, 3], 5);
    let f = base(base(f, [0, 1, 1], 50, &[1]), [1, 1, 1], 100, &[1]);
    let f = base(base(base(f, [2, 3, 1], 60, &[1, 2]), [4, 5, 1], 70, &[1, 6]), [6, 5, 2], 80, &[1, 4]).word(5);
    let f = normal(normal(f, [ALL, ALL, ALL], 360, 5, 50, 100), [ALL, 1, ALL], 150, 2, 50, 100);
    normal(normal(normal(f, [ALL, 5, ALL], 150, 2, 70, 80), [ALL, ALL, 1], 280, 4, 50, 100), [ALL, 1, 1], 150, 2, 50, 100).closed()
}

#[test]
fn the_five_rows_have_444_bytes() {
    let mut compare = Compare::new();
    let archive = compare.table_two(&five_table(), "the five rows").unwrap();
    assert_eq!((archive.len(), &archive[..4], &archive), (444, &[0x43, 0x55, 0x42, 0x32][..], &five_two()));
    let accepted = compare.archive(&archive, "the five rows").unwrap();
    assert_eq!(accepted.counts(), (5, 5));
    assert_eq!(listing(&accepted), FIVE_TEXT);
    assert_eq!(compare.convert(&five_archive(), "the five rows").unwrap(), archive);
    let cell = |sum, count, least, greatest| Cell { sum, count, extremes: known(least, greatest) };
    for s in [archive, five_archive()] {
        let accepted = compare.archive(&s, "the five rows").unwrap();
        for (question, want) in [
            ([ALL, 5, 1], Some((cell(70, 1, 70, 70), 3))),
            ([0, 3, ALL], None),
            ([ALL, 1, ALL], Some((cell(150, 2, 50, 100), 6))),
            ([ALL, ALL, ALL], Some((cell(360, 5, 50, 100), 5))),
        ] {
            compare.look_up(&s, &accepted, &question, "the five rows");
            assert_eq!(accepted.look_up_extremes(&question), Ok(want));
        }
    }
}

/// The empty table: "52 for C-14's", with extremes unknown.
#[test]
fn the_empty_table_has_52_bytes() {
    let mut compare = Compare::new();
    let empty = compare.table_two(&table_bytes(&[1], &[]), "no rows").unwrap();
    // The opening, D, the size, no base entry, one normal entry: ALL and six zero words. The check word is 32425543 + 1 + 1 + 1 + FFFF.
    let front = [0x43, 0x55, 0x42, 0x32, 1, 0, 0, 0, 1, 0, 0, 0, 0, 0, 0, 0, 1, 0, 0, 0, 0xFF, 0xFF, 0, 0];
    let bytes = [&front[..], &[0; 24], &[0x45, 0x55, 0x43, 0x32]].concat();
    assert_eq!((empty.len(), &empty), (52, &bytes));
    assert_eq!(compare.convert(&our_archive(&[1], &[]), "no rows"), Ok(empty));
    for dims in 1..=8 {
        let s = archive_of(Edition::Two, &vec![3; dims], &[]);
        assert_eq!(s.len(), 44 + 8 * dims);
        let accepted = compare.archive(&s, "no rows").unwrap();
        compare.expand(&s, &accepted, "no rows");
        for question in [vec![ALL; dims], vec![0; dims]] {
            compare.look_up(&s, &accepted, &question, "no rows");
        }
        let zero = Cell { sum: 0, count: 0, extremes: None };
        assert_eq!(accepted.look_up_extremes(&vec![ALL; dims]), Ok(Some((zero, 0))));
        let mut wrong = s.clone();
        wrong[s.len() - 16] = 1;
        mend(&mut wrong);
        assert_eq!(compare.archive(&wrong, "a total of no rows whose extremes are known").err(), Some(12));
    }
}

/// A call converts edition one alone; a row of two readings is unknown, and so is every cell that it falls in.
#[test]
fn rows_of_more_readings_are_converted_to_unknown() {
    let mut compare = Compare::new();
    let rows = [(vec![0, 0], 5), (vec![0, 0], -5), (vec![0, 1], 7), (vec![1, 1], 9)];
    let table = table_bytes(&[2, 2], &rows);
    let one = compare.table(&table, "edition one").unwrap();
    let two = compare.table_two(&table, "edition two").unwrap();
    let converted = compare.convert(&one, "edition one").unwrap();
    let read = |s: &[u8]| model::open(s).unwrap();
    assert_eq!(read(&two).rows[0], ranged(&[0, 0], 0, 2, known(-5, 5)));
    assert_eq!(read(&converted).rows[0], ranged(&[0, 0], 0, 2, None));
    assert_eq!(read(&converted).rows[1], ranged(&[0, 1], 7, 1, known(7, 7)));
    let cells = |s: &[u8]| read(s).normals.iter().map(|cell| cell.extremes).collect::<Vec<_>>();
    assert_eq!(cells(&two), [known(-5, 9), known(-5, 7), known(7, 9)]);
    assert_eq!(cells(&converted), [None, None, known(7, 9)]);
    assert_eq!(compare.convert(&two, "edition two"), Err(1));
    assert_eq!(compare.convert(&converted, "edition two"), Err(1));
    compare.had(CONVERT, &[0, 1, 15]);
}

/// An archive through every call that takes both editions, with a few questions, sets, records and windows.
fn all_calls(compare: &mut Compare, s: &[u8], what: &str, random: &mut Random) -> Accepted {
    let accepted = compare.archive(s, what).unwrap();
    let _ = compare.convert(s, what);
    compare.expand(s, &accepted, what);
    compare.keys(s, &accepted, what);
    for _ in 0..3 {
        let question = random.question(&accepted);
        compare.look_up(s, &accepted, &question, what);
        let odd = random.odd_question(&accepted);
        compare.look_up(s, &accepted, &odd, what);
        let set = random.below((1 << accepted.dims()) + 1) as u32;
        compare.list(s, &accepted, set, what);
        compare.fixes(s, &accepted, set, random.below(9) as u32, what);
        compare.share(s, &accepted, random.pick(&[0, 100, 999_999_937]), set, what);
    }
    accepted
}

#[test]
fn random_archives() {
    let mut random = Random::seeded(1_701);
    let mut compare = Compare::new();
    for i in 0..1_500 {
        let count = random.row_count().min(40);
        let s = match i % 4 {
            0 => random.our_archive(1 + i % 8, count),
            _ => random.our_archive_two(1 + i % 8, count),
        };
        all_calls(&mut compare, &s, &format!("archive {i}"), &mut random.part());
    }
    compare.had(CONVERT, &[0, 1, 15]);
    compare.had(LOOK_UP_EXTREMES, &[0, 13]);
    compare.had(EXPAND, &[0, 15]);
    compare.had(LIST, &[0, 14, 15]);
    compare.had(KEYS, &[0, 15]);
    compare.had(FIXES, &[0, 14, 16]);
    compare.had(SHARE, &[0, 14, 15, 24]);
}

/// Both editions of the same base rows have the same keys, shares and sums; a listed cell of edition two has twelve bytes more.
#[test]
fn both_editions_of_the_same_rows() {
    let mut random = Random::seeded(1_702);
    let mut compare = Compare::new();
    for i in 0..400 {
        let sizes = random.sizes(1 + i % 8);
        let count = random.row_count().min(30);
        let rows = random.ranged_rows(&sizes, count);
        let files = [Edition::One, Edition::Two].map(|edition| archive_of(edition, &sizes, &rows));
        let what = format!("rows {i}");
        let [one, two] = [0, 1].map(|i| compare.archive(&files[i], &what).unwrap());
        let (set, question) = (random.below(1 << sizes.len()) as u32, random.question(&one));
        for (s, accepted) in files.iter().zip([&one, &two]) {
            compare.keys(s, accepted, &what);
            compare.share(s, accepted, 12_345, set, &what);
            compare.list(s, accepted, set, &what);
            compare.look_up(s, accepted, &question, &what);
        }
        assert_eq!(one.counts(), two.counts());
        assert_eq!(one.smallest_keys(), two.smallest_keys());
        assert_eq!(one.share_fee(12_345, set), two.share_fee(12_345, set));
        assert_eq!(one.look_up(&question), two.look_up(&question));
        let (narrow, wide) = (one.list_cuboid(set).unwrap(), two.list_cuboid(set).unwrap());
        let width = 4 * sizes.len() + 12;
        let cut: Vec<u8> = wide[4..].chunks(width + 12).flat_map(|cell| cell[..width].to_vec()).collect();
        assert_eq!((&narrow[..4], &narrow[4..]), (&wide[..4], &cut[..]));
    }
}

#[test]
fn random_tables() {
    let mut random = Random::seeded(1_703);
    let mut compare = Compare::new();
    for i in 0..1_500 {
        let count = random.row_count();
        let table = random.table(1 + i % 8, count.min(60));
        let archive = compare.table_two(&table, &format!("table {i}")).unwrap();
        let accepted = compare.archive(&archive, &format!("table {i}")).unwrap();
        assert!(accepted.rows.iter().all(|row| row.extremes.is_some()));
    }
    for i in 0..60 {
        let s = random.table(1 + i % 8, i % 9);
        damage::cuts(&s, |b, done| drop(compare.table_two(b, &format!("table {i}: {done}"))));
        damage::bytes(&s, 30, &mut random.part(), |b, done| drop(compare.table_two(b, &format!("table {i}: {done}"))));
    }
    compare.had(BUILD_TWO, &[0, 1, 2, 3, 4, 5, 6, 10, 11, 15]);
}

#[test]
fn damaged_archives() {
    let mut random = Random::seeded(1_704);
    let mut compare = Compare::new();
    for i in 0..200 {
        let count = random.row_count().min(12);
        let s = match i % 4 {
            0 => random.any_archive_two(1 + i % 8, count),
            _ => random.our_archive_two(1 + i % 8, count),
        };
        let mut see = |b: &[u8], done: &str| drop(compare.archive(b, &format!("archive {i}: {done}")));
        if s.len() < 800 {
            damage::cuts(&s, &mut see);
            damage::fields(&s, &mut random.part(), &mut see);
        }
        damage::bytes(&s, 20, &mut random.part(), &mut see);
        if let Ok(accepted) = model::open(&s) {
            damage::entries(&accepted, 30, &mut random.part(), &mut see);
        }
    }
    compare.had(CHECK, &[0, 1, 2, 3, 4, 5, 6, 7, 8, 9, 10, 11, 12, 19]);
    compare.had(LOOK_UP_EXTREMES, &[2, 11, 12, 19]);
    compare.had(CONVERT, &[1]);
}

/// The opening of the other edition on the same fields: the width of an entry is another.
#[test]
fn the_other_opening() {
    let mut random = Random::seeded(1_705);
    let mut compare = Compare::new();
    for i in 0..400 {
        let count = random.row_count().min(20);
        let (edition, other) = if i % 2 == 0 { (Edition::One, Edition::Two) } else { (Edition::Two, Edition::One) };
        let sizes = random.sizes(1 + i % 8);
        let mut s = random.archive_of(edition, &sizes, count);
        s[..4].copy_from_slice(&other.opening());
        mend(&mut s);
        drop(compare.archive(&s, &format!("archive {i}")));
    }
    compare.had(CHECK, &[2, 19]);
}

/// Base rows of one dimension, each with a code of its own, through a join.
fn one_row(edition: Edition, code: u32, sum: i64, count: u32, extremes: Option<Extremes>) -> Vec<u8> {
    archive_of(edition, &[9], &[ranged(&[code], sum, count, extremes)])
}

/// "A joined row's extremes are known just if both parts' are."
#[test]
fn joined_extremes() {
    use Edition::{One, Two};
    let mut compare = Compare::new();
    let mut joined = |a: &[u8], b: &[u8]| {
        let (ab, ba) = (compare.join(a, b, "joined").unwrap(), compare.join(b, a, "joined").unwrap());
        assert_eq!(ab, ba);
        model::open(&ab).unwrap()
    };
    for (a, b, want) in [
        (known(3, 5), known(-2, 4), known(-2, 5)),
        (known(3, 5), known(4, 4), known(3, 5)),
        (known(0, 0), None, None),
        (None, None, None),
        (known(i32::MIN, 0), known(0, i32::MAX), known(i32::MIN, i32::MAX)),
    ] {
        let sum = |extremes: Option<Extremes>| extremes.map_or(0, |e| e.least as i64 + e.greatest as i64);
        let both = joined(&one_row(Two, 1, sum(a), 2, a), &one_row(Two, 1, sum(b), 2, b));
        assert_eq!(both.rows, [ranged(&[1], sum(a) + sum(b), 4, want)]);
        let apart = joined(&one_row(Two, 1, sum(a), 2, a), &one_row(Two, 2, sum(b), 2, b));
        assert_eq!(apart.rows, [ranged(&[1], sum(a), 2, a), ranged(&[2], sum(b), 2, b)]);
    }
    let mixed = joined(&one_row(One, 1, 7, 1, None), &one_row(Two, 1, -3, 1, known(-3, -3)));
    assert_eq!((mixed.edition, &mixed.rows[..]), (Two, &[ranged(&[1], 4, 2, known(-3, 7))][..]));
    let mixed = joined(&one_row(One, 1, 7, 2, None), &one_row(Two, 1, -3, 1, known(-3, -3)));
    assert_eq!((mixed.edition, &mixed.rows[..]), (Two, &[ranged(&[1], 4, 3, None)][..]));
    assert_eq!(joined(&one_row(One, 1, 7, 1, None), &one_row(One, 1, 7, 1, None)).edition, One);
}

/// "An archive without rows leaves the other's bytes unless it alone has edition two."
#[test]
fn joined_with_no_rows() {
    let mut random = Random::seeded(1_706);
    let mut compare = Compare::new();
    for i in 0..120 {
        let sizes = random.sizes(1 + i % 8);
        let s = random.archive_of(if i % 2 == 0 { Edition::One } else { Edition::Two }, &sizes, i % 25);
        for edition in [Edition::One, Edition::Two] {
            let empty = archive_of(edition, &sizes, &[]);
            let want = if edition > Edition::of(&s) { convert(&s).unwrap() } else { s.clone() };
            assert_eq!(compare.join(&s, &empty, "no rows").as_ref(), Ok(&want));
            assert_eq!(compare.join(&empty, &s, "no rows"), Ok(want));
        }
    }
}

#[test]
fn joined_at_random() {
    let mut random = Random::seeded(1_707);
    let mut compare = Compare::new();
    for i in 0..400 {
        let sizes = random.sizes(1 + i % 8);
        let [a, b, c] = [0; 3].map(|_| {
            let (count, edition) = (random.row_count().min(40), random.edition());
            random.archive_of(edition, &sizes, count)
        });
        let what = format!("archives {i}");
        let (ab, bc) = (compare.join(&a, &b, &what), compare.join(&b, &c, &what));
        assert_eq!(ab, compare.join(&b, &a, &what));
        if let (Ok(ab), Ok(bc)) = (&ab, &bc) {
            let (left, right) = (compare.join(ab, &c, &what), compare.join(&a, bc, &what));
            if [&a, &b, &c].iter().all(|s| Edition::of(s) == Edition::of(&a)) {
                assert_eq!(left, right);
            }
        }
        if i % 8 == 0 {
            damage::bytes(&a, 6, &mut random.part(), |wrong, done| {
                drop(compare.join(wrong, &b, &format!("{what}: {done}")));
                drop(compare.join(&b, wrong, &format!("{what}: {done}")));
            });
        }
        let other = random.archive_of(Edition::Two, &[&sizes[1..], &[7][..]].concat(), 3);
        drop(compare.join(&a, &other, &what));
    }
    compare.had(JOIN, &[0, 2, 11, 15, 17, 18, 19]);
}

/// Tables of 1,024 rows: built in edition two, checked, converted from edition one, and in halves joined again.
#[test]
fn tables_of_1024_rows() {
    let mut random = Random::seeded(1_708);
    let mut compare = Compare::new();
    for (name, rows) in kinds(&mut random).into_iter().step_by(5) {
        let table = table_bytes(&SIZES, &rows);
        let archive = compare.table_two(&table, name).unwrap();
        let accepted = all_calls(&mut compare, &archive, name, &mut random);
        let converted = compare.convert(&our_archive(&SIZES, &accepted.rows), name).unwrap();
        assert_eq!(converted.len(), archive.len());
        let half = |part: &[(Vec<u32>, i32)]| build_edition(Edition::Two, &table_bytes(&SIZES, part)).unwrap();
        let (front, back) = rows.split_at(400);
        assert_eq!(compare.join(&half(front), &half(back), name), Ok(archive));
    }
}

/// What can be made of two or three readings, by trying them all: just those sums fit their extremes.
#[test]
fn extremes_that_fit() {
    let small = -3..=3;
    for (least, greatest, sum) in small.clone().flat_map(|l| small.clone().flat_map(move |g| (-9..=9).map(move |sum| (l, g, sum)))) {
        let readings = || least..=greatest;
        let two = readings().any(|a| readings().any(|b| a + b == sum && a.min(b) == least && a.max(b) == greatest));
        let made = |a: i32, b: i32, c: i32| a + b + c == sum && a.min(b).min(c) == least && a.max(b).max(c) == greatest;
        let three = readings().any(|a| readings().any(|b| readings().any(|c| made(a, b, c))));
        let extremes = Extremes { least, greatest };
        assert_eq!(fit(extremes, sum as i64, 1), least == sum && greatest == sum);
        assert_eq!(fit(extremes, sum as i64, 2), two, "{extremes:?}, sum {sum}");
        assert_eq!(fit(extremes, sum as i64, 3), three, "{extremes:?}, sum {sum}");
    }
}

/// Edition one forgets: joined and then converted is not converted and then joined.
#[test]
fn conversion_does_not_go_through_a_join() {
    let mut compare = Compare::new();
    let s = one_row(Edition::One, 1, 7, 1, None);
    let (two, twice) = (compare.convert(&s, "one row").unwrap(), compare.join(&s, &s, "one row").unwrap());
    let after = compare.convert(&twice, "one row twice").unwrap();
    let before = compare.join(&two, &two, "one row, converted").unwrap();
    assert_eq!(model::open(&after).unwrap().rows, [ranged(&[1], 14, 2, None)]);
    assert_eq!(model::open(&before).unwrap().rows, [ranged(&[1], 14, 2, known(7, 7))]);
}

/// The least and the greatest are those of all readings of a cell, by the table itself.
#[test]
fn extremes_are_those_of_the_readings() {
    let mut random = Random::seeded(1_709);
    let mut compare = Compare::new();
    for i in 0..200 {
        let sizes = vec![3; 1 + i % 4];
        let rows = random.table_rows(&sizes, 1 + i % 30);
        let what = format!("table {i}");
        let s = compare.table_two(&table_bytes(&sizes, &rows), &what).unwrap();
        let accepted = compare.archive(&s, &what).unwrap();
        let question = random.question(&accepted);
        compare.look_up(&s, &accepted, &question, &what);
        let set = (0..sizes.len()).filter(|&i| question[i] != ALL).map(|i| 1 << i).sum();
        let readings: Vec<i32> = rows.iter().filter(|row| cube::agree(&row.0, &question, set)).map(|row| row.1).collect();
        let extremes = readings.iter().min().zip(readings.iter().max()).map(|(&least, &greatest)| Extremes { least, greatest });
        let found = accepted.look_up_extremes(&question).unwrap();
        assert_eq!(found.map(|(cell, _)| cell.extremes), extremes.map(Some));
    }
}
