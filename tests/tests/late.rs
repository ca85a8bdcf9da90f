//! C-18: one late reading added to an archive of either edition.
use calls::calls::Extremes;
use calls::cases::{five_rows, five_table};
use calls::compare::{having, Compare, ADD};
use calls::damage;
use calls::kinds::{kinds, SIZES};
use calls::landed::Request;
use calls::model::editions::Edition;
use calls::model::{self, archive_of, build_edition, cube, Accepted, Row, ALL};
use calls::random::Random;
use calls::write::table_bytes;
use calls::ROWS;

const EDITIONS: [Edition; 2] = [Edition::One, Edition::Two];

/// A record: a row's codes, those with one changed, or any.
fn record(random: &mut Random, accepted: &Accepted) -> Vec<u32> {
    let mut codes = random.codes(&accepted.sizes);
    if !accepted.rows.is_empty() && !random.one_in(3) {
        codes = accepted.rows[random.place(accepted.rows.len())].codes.clone();
        if random.one_in(2) {
            let i = random.place(codes.len());
            codes[i] = random.code(accepted.sizes[i]);
        }
    }
    codes
}

/// How many entries an archive has.
fn entries(accepted: &Accepted) -> usize {
    accepted.bases.len() + accepted.normals.len()
}

/// "Just the 2 to the power D cells over the row gain it, each by that reading and one in count (from 0 and 0 where there was no record), and every
/// other cell keeps its values."
fn gains(before: &Accepted, after: &Accepted, codes: &[u32], reading: i32) {
    for set in cube::lattice(before.dims()) {
        let (old, new) = (cube::cells(before.dims(), &before.rows, set), cube::cells(before.dims(), &after.rows, set));
        let over = cube::cell(codes, set);
        for (cell, total) in &new {
            let was = old.get(cell).copied().unwrap_or_default();
            let gain = if *cell == over { (reading as i64, 1) } else { (0, 0) };
            assert_eq!((total.sum - was.sum, total.count - was.count), gain, "{cell:?}");
            assert!(*cell == over || total.extremes == was.extremes, "{cell:?}");
        }
        assert_eq!(old.keys().chain([&over]).collect::<std::collections::BTreeSet<_>>().len(), new.len());
    }
}

/// "Entries do not grow if the row's codes are known. Otherwise, with at least one base row before, they grow by 1 at least and 2 to the power D at
/// most; from no base row they stay at one."
fn growth(before: &Accepted, after: &Accepted, codes: &[u32]) {
    let grown = entries(after) - entries(before);
    if before.rows.is_empty() {
        assert_eq!((entries(before), entries(after)), (1, 1));
    } else if before.rows.iter().any(|row| row.codes == codes) {
        assert_eq!(grown, 0);
        let lists = |accepted: &Accepted| accepted.bases.iter().map(|base| base.list.clone()).collect::<Vec<_>>();
        assert_eq!(lists(before), lists(after));
    } else {
        assert!((1..=1 << before.dims()).contains(&grown), "{grown} entries more");
    }
}

#[test]
fn the_five_rows() {
    let mut compare = Compare::new();
    for edition in EDITIONS {
        let s = build_edition(edition, &five_table()).unwrap();
        let accepted = compare.archive(&s, "the five rows").unwrap();
        for (codes, reading) in [(vec![0, 1, 1], 7), (vec![3, 0, 0], -7), (vec![6, 5, 2], i32::MIN)] {
            let late = compare.add(&s, &accepted, &codes, reading, "the five rows").unwrap();
            let rows = [&five_rows()[..], &[(codes, reading)]].concat();
            assert_eq!(build_edition(edition, &table_bytes(&[7, 6, 3], &rows)), Ok(late));
        }
    }
}

/// The archive of a table with a row more, and the same read by its own sentences.
#[test]
fn random_archives() {
    let mut random = Random::seeded(1_801);
    let mut compare = Compare::new();
    let mut known = [0; 2];
    for i in 0..1_200 {
        let (edition, count) = (random.edition(), random.row_count().min(25));
        let sizes = random.sizes(1 + i % 8);
        let s = random.archive_of(edition, &sizes, count);
        let what = format!("archive {i}");
        let accepted = compare.archive(&s, &what).unwrap();
        for _ in 0..3 {
            let (codes, reading) = (record(&mut random, &accepted), random.reading());
            let Ok(late) = compare.add(&s, &accepted, &codes, reading, &what) else { continue };
            let after = compare.archive(&late, &what).unwrap();
            assert_eq!(after.edition, edition);
            growth(&accepted, &after, &codes);
            if i % 10 == 0 {
                gains(&accepted, &after, &codes, reading);
            }
            known[accepted.rows.iter().any(|row| row.codes == codes) as usize] += 1;
        }
    }
    assert!(known[0] > 500 && known[1] > 500, "{known:?}");
    compare.had(ADD, &[0, 15, 18]);
}

/// Record by record, in any order, from the archive without rows: the archive of the table.
#[test]
fn one_by_one() {
    let mut random = Random::seeded(1_802);
    let mut compare = Compare::new();
    for i in 0..60 {
        let (edition, sizes) = (random.edition(), random.sizes(1 + i % 6));
        let rows = random.table_rows(&sizes, i % 20);
        let mut s = archive_of(edition, &sizes, &[]);
        for (codes, reading) in &rows {
            let accepted = model::open(&s).unwrap();
            s = compare.add(&s, &accepted, codes, *reading, &format!("table {i}")).unwrap();
        }
        assert_eq!(build_edition(edition, &table_bytes(&sizes, &rows)), Ok(s));
    }
}

/// A new row's extremes are the reading; a known row's take it in; "a base row's unknown extremes stay unknown".
#[test]
fn extremes() {
    let mut compare = Compare::new();
    let known = |least, greatest| Some(Extremes { least, greatest });
    let row = |code: u32, sum, count, extremes| Row { codes: vec![code], sum, count, extremes };
    for (before, reading, after) in
        [(known(-2, 5), 3, known(-2, 5)), (known(-2, 5), 9, known(-2, 9)), (known(-2, 5), i32::MIN, known(i32::MIN, 5)), (None, 0, None)]
    {
        let s = archive_of(Edition::Two, &[9], &[row(4, 3, 2, before)]);
        let accepted = compare.archive(&s, "one row").unwrap();
        let late = compare.add(&s, &accepted, &[4], reading, "one row").unwrap();
        assert_eq!(model::open(&late).unwrap().rows, [row(4, 3 + reading as i64, 3, after)]);
        let late = compare.add(&s, &accepted, &[2], reading, "one row").unwrap();
        assert_eq!(model::open(&late).unwrap().rows, [row(2, reading as i64, 1, known(reading, reading)), row(4, 3, 2, before)]);
    }
}

/// 1,024 rows: one of them may be added, another may not; a total of 1,048,576 readings takes none.
#[test]
fn as_much_as_there_can_be() {
    let mut compare = Compare::new();
    let counted = |edition, rows: u32, count: u32| {
        archive_of(edition, &[65_535], &(0..rows).map(|code| Row::new(vec![code], 0, count)).collect::<Vec<_>>())
    };
    for edition in EDITIONS {
        for (rows, count, code, want) in [
            (1_024, 1, 1_023, None),
            (1_024, 1, 1_024, Some(18)),
            (1_023, 1, 1_023, None),
            (1_024, 1_024, 0, Some(18)),
            (1, 1_048_576, 0, Some(18)),
            (1, 1_048_576, 1, Some(18)),
            (1, 1_048_575, 0, None),
            (1, 1_048_575, 65_534, None),
            (1_024, 1_024, 65_535, Some(13)),
        ] {
            let s = counted(edition, rows, count);
            let accepted = compare.archive(&s, "many").unwrap();
            assert_eq!(compare.add(&s, &accepted, &[code], -1, "many").err(), want, "{rows} rows of {count}, code {code}");
        }
    }
    compare.had(ADD, &[0, 13, 15, 18]);
}

/// "Other than D codes, or one not below its size, ALL too, stops with 13"; then 18, then 15.
#[test]
fn codes_that_stop() {
    let mut random = Random::seeded(1_803);
    let mut compare = Compare::new();
    for i in 0..300 {
        let (edition, sizes) = (random.edition(), random.sizes(1 + i % 8));
        let s = random.archive_of(edition, &sizes, i % 12);
        let accepted = compare.archive(&s, &format!("archive {i}")).unwrap();
        let (right, dim) = (random.codes(&sizes), random.place(sizes.len()));
        for code in [sizes[dim] - 1, sizes[dim], 65_534, ALL, 65_536, u32::MAX] {
            let mut codes = right.clone();
            codes[dim] = code;
            let stop = compare.add(&s, &accepted, &codes, 1, "a code").err();
            assert_eq!(stop == Some(13), code >= sizes[dim], "code {code}, size {}", sizes[dim]);
        }
        for length in (0..12).chain([300]).filter(|&length| length != sizes.len()) {
            assert_eq!(compare.add(&s, &accepted, &vec![0; length], 1, "a length").err(), Some(13));
        }
    }
    compare.had(ADD, &[0, 13, 15]);
}

#[test]
fn damaged_archives() {
    let mut random = Random::seeded(1_804);
    for i in 0..60 {
        let (edition, sizes) = (random.edition(), random.sizes(1 + i % 8));
        let s = random.archive_of(edition, &sizes, 1 + i % 9);
        let requests = if edition == Edition::Two { vec![Request::C17, Request::C18] } else { vec![Request::C18] };
        damage::bytes(&s, 20, &mut random.part(), |wrong, done| {
            let Err(stop) = model::open(wrong) else { return };
            for (name, calls) in having(&requests) {
                let mut lent = [7; 64];
                assert_eq!(calls.add(wrong, &vec![0; sizes.len()], 5, &mut lent), Err(stop), "{name}, archive {i}: {done}");
                assert_eq!(calls.add(wrong, &[ALL; 9], 5, &mut []), Err(stop), "{name}, archive {i}: {done}");
                assert_eq!(lent, [7; 64]);
            }
        });
    }
}

#[test]
fn archives_of_about_1024_rows() {
    let mut random = Random::seeded(1_805);
    let mut compare = Compare::new();
    for (i, (name, mut rows)) in kinds(&mut random).into_iter().enumerate().filter(|(i, _)| [0, 2, 6].contains(i)) {
        let (codes, reading) = rows.pop().unwrap();
        assert_eq!(rows.len(), ROWS - 1);
        let s = build_edition(EDITIONS[i % 2], &table_bytes(&SIZES, &rows)).unwrap();
        let accepted = compare.archive(&s, name).unwrap();
        compare.add(&s, &accepted, &codes, reading, name).unwrap();
        compare.add(&s, &accepted, &rows[500].0, reading, name).unwrap();
    }
}
