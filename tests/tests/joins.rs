//! C-15: two archives into one, and the stops of the first, of the second, 17, 18 and 15 in their order.
use calls::cases::{archives, five_archive, five_rows};
use calls::compare::{subjects, Compare, JOIN};
use calls::damage;
use calls::kinds::{kinds, SIZES};
use calls::model::{self, our_archive, Row};
use calls::random::Random;
use calls::write::table_bytes;
use calls::ROWS;

/// What both subjects write, and nothing else.
fn joined(first: &[u8], second: &[u8]) -> Vec<u8> {
    Compare::new().join(first, second, "joined").unwrap()
}

/// Base rows of one dimension: so many from a code on, each with this count.
fn counted(from: u32, rows: u32, count: u32) -> Vec<u8> {
    let row = |code| Row::new(vec![code], code as i64, count);
    our_archive(&[65_535], &(from..from + rows).map(row).collect::<Vec<_>>())
}

/// An archive of random base rows of these sizes, with small counts that join well or counts up to the limit.
fn some_archive(random: &mut Random, sizes: &[u32], count: usize) -> Vec<u8> {
    our_archive(sizes, &random.base_rows(sizes, count))
}

/// "An archive joined with itself doubles every sum and count": the same lists and cells, number by number.
#[test]
fn itself() {
    let mut random = Random::seeded(801);
    let mut compare = Compare::new();
    for i in 0..200 {
        let sizes = random.sizes(1 + i % 8);
        let count = random.row_count().min(40);
        let s = some_archive(&mut random, &sizes, count);
        let Ok(twice) = compare.join(&s, &s, &format!("archive {i}")) else { continue };
        let (once, twice) = (model::open(&s).unwrap(), model::open(&twice).unwrap());
        let double = |row: &Row| Row::new(row.codes.clone(), 2 * row.sum, 2 * row.count);
        assert_eq!(twice.sizes, once.sizes);
        assert_eq!(twice.rows, once.rows.iter().map(double).collect::<Vec<_>>());
        assert_eq!(twice.normals, once.normals.iter().map(double).collect::<Vec<_>>());
        let lists = |accepted: &model::Accepted| accepted.bases.iter().map(|base| base.list.clone()).collect::<Vec<_>>();
        assert_eq!(lists(&twice), lists(&once));
    }
    compare.had(JOIN, &[0, 15, 18]);
}

/// The five rows with themselves: 324 bytes as before.
#[test]
fn the_five_rows() {
    let twice = joined(&five_archive(), &five_archive());
    assert_eq!(twice.len(), 324);
    let rows: Vec<_> = five_rows().into_iter().flat_map(|row| [row.clone(), row]).collect();
    assert_eq!(Ok(twice), model::build(&table_bytes(&[7, 6, 3], &rows)));
}

/// "Joining an archive without rows leaves the other's bytes"; two of them leave one with its one zero total.
#[test]
fn no_rows() {
    let mut random = Random::seeded(802);
    for i in 0..100 {
        let sizes = random.sizes(1 + i % 8);
        let empty = our_archive(&sizes, &[]);
        let s = some_archive(&mut random, &sizes, i % 30);
        assert_eq!(joined(&s, &empty), s);
        assert_eq!(joined(&empty, &s), s);
        assert_eq!(joined(&empty, &empty), empty);
    }
}

/// The archives of two tables are joined to the archive of one table with the rows of both.
#[test]
fn two_tables() {
    let mut random = Random::seeded(803);
    for i in 0..200 {
        let sizes = random.sizes(1 + i % 8);
        let (count, other) = (random.row_count(), random.row_count());
        let (first, second) = (random.table_rows(&sizes, count), random.table_rows(&sizes, other));
        let built = |rows: &[(Vec<u32>, i32)]| model::build(&table_bytes(&sizes, rows)).unwrap();
        assert_eq!(joined(&built(&first), &built(&second)), built(&[first, second].concat()));
    }
}

/// Random pairs with rows in common, either way round, and three either way.
#[test]
fn order_and_grouping() {
    let mut random = Random::seeded(804);
    let mut compare = Compare::new();
    for i in 0..150 {
        let sizes = random.sizes(1 + i % 8);
        let [a, b, c] = [0; 3].map(|_| {
            let count = random.row_count().min(50);
            some_archive(&mut random, &sizes, count)
        });
        let what = format!("archives {i}");
        let (ab, bc) = (compare.join(&a, &b, &what), compare.join(&b, &c, &what));
        assert_eq!(ab, compare.join(&b, &a, &what));
        if let (Ok(ab), Ok(bc)) = (ab, bc) {
            assert_eq!(compare.join(&ab, &c, &what), compare.join(&a, &bc, &what));
        }
    }
    compare.had(JOIN, &[0, 15, 18]);
}

/// Dimensions and sizes that differ, in each place.
#[test]
fn other_sizes() {
    let mut random = Random::seeded(805);
    let mut compare = Compare::new();
    for i in 0..200 {
        let sizes = random.sizes(1 + i % 8);
        let mut other = sizes.clone();
        match i % 3 {
            0 if other.len() < 8 => other.push(2),
            1 if other.len() > 1 => drop(other.pop()),
            _ => {
                let place = random.place(other.len());
                other[place] = if other[place] == 65_535 { 65_534 } else { other[place] + 1 };
            }
        }
        let (s, t) = (some_archive(&mut random, &sizes, i % 9), some_archive(&mut random, &other, i % 7));
        assert_eq!(compare.join(&s, &t, &format!("{sizes:?} and {other:?}")), Err(17));
    }
    compare.had(JOIN, &[17]);
}

/// 1,024 base rows after folding pass, 1,025 do not; rows in common count once.
#[test]
fn as_many_rows_as_there_can_be() {
    let mut compare = Compare::new();
    for (from, rows, want) in [
        (0, 1_024, Ok(1_024)),
        (512, 512, Ok(1_024)),
        (512, 513, Err(18)),
        (600, 424, Ok(1_024)),
        (600, 425, Err(18)),
        (1_024, 1, Err(18)),
        (2_000, 1_024, Err(18)),
    ] {
        let first = counted(0, if from == 512 || from == 600 { from } else { 1_024 }, 1);
        let answer = compare.join(&first, &counted(from, rows, 1), &format!("rows {from} to {}", from + rows));
        assert_eq!(answer.map(|bytes| model::open(&bytes).unwrap().rows.len()), want);
    }
    let full = compare.join(&counted(0, 1_024, 3), &counted(0, 1_024, 4), "the same 1,024 rows").unwrap();
    assert_eq!(compare.join(&full, &counted(1_023, 1, 1), "a row of the 1,024").map(|_| ()), Ok(()));
    assert_eq!(compare.join(&full, &counted(1_024, 1, 1), "a row beyond the 1,024"), Err(18));
    compare.had(JOIN, &[0, 15, 18]);
}

/// A total count of 1,048,576 passes, one more does not, and none wraps.
#[test]
fn as_many_readings_as_there_can_be() {
    let mut compare = Compare::new();
    for (first, second, want) in [
        (524_288, 524_288, true),
        (524_288, 524_289, false),
        (1_048_575, 1, true),
        (1_048_576, 1, false),
        (1_048_576, 1_048_576, false),
        (1, 1_048_576, false),
    ] {
        for code in [0, 1] {
            let answer = compare.join(&counted(0, 1, first), &counted(code, 1, second), &format!("{first} and {second}"));
            assert_eq!(answer.is_ok(), want, "{first} and {second}");
        }
    }
    let most = counted(0, 1_024, 1_024);
    assert_eq!(compare.join(&most, &counted(0, 1, 1), "all readings"), Err(18));
    assert!(compare.join(&most, &our_archive(&[65_535], &[]), "all readings and none").is_ok());
    compare.had(JOIN, &[0, 15, 18]);
}

/// The greatest and the least sums: they stay such as so many readings can make.
#[test]
fn the_widest_sums() {
    let wide = |sum: i64| our_archive(&[1], &[Row::new(vec![0], sum, 524_288)]);
    let (low, high) = (524_288 * i32::MIN as i64, 524_288 * i32::MAX as i64);
    for (first, second) in [(low, low), (high, high), (low, high), (high, low)] {
        let both = model::open(&joined(&wide(first), &wide(second))).unwrap();
        assert_eq!(both.rows, [Row::new(vec![0], first + second, 1_048_576)]);
    }
}

/// Large archives of each kind, with themselves and cut in two.
#[test]
fn tables_of_1024_rows() {
    let mut random = Random::seeded(806);
    let mut compare = Compare::new();
    for (name, rows) in kinds(&mut random).into_iter().step_by(2) {
        let built = |rows: &[(Vec<u32>, i32)]| model::build(&table_bytes(&SIZES, rows)).unwrap();
        let (front, back) = rows.split_at(ROWS / 3);
        let whole = built(&rows);
        assert_eq!(compare.join(&built(front), &built(back), name).as_ref(), Ok(&whole));
        assert!(compare.join(&whole, &whole, name).is_ok());
    }
    compare.had(JOIN, &[0, 15]);
}

/// Either file damaged, or both: the first's stop if it has one, then the second's.
#[test]
fn damaged_archives() {
    let mut random = Random::seeded(807);
    let mut compare = Compare::new();
    for i in 0..50 {
        let sizes = random.sizes(1 + i % 8);
        let (s, t) = (some_archive(&mut random, &sizes, 1 + i % 7), some_archive(&mut random, &sizes, 1 + i % 5));
        let mut last = t.clone();
        damage::bytes(&s, 12, &mut random.part(), |wrong, done| {
            let what = format!("archives {i}: {done}");
            let _ = compare.join(wrong, &t, &what);
            let _ = compare.join(&t, wrong, &what);
            let _ = compare.join(&last, wrong, &what);
            last = wrong.to_vec();
        });
    }
    compare.had(JOIN, &[0, 2, 10, 11, 12, 15]);
}

/// Every case of every stop, in front of, behind and beside a right archive.
#[test]
fn every_stop_of_either_file() {
    let mut compare = Compare::new();
    let five = five_archive();
    let mut before = five.clone();
    for case in archives() {
        let want = case.want.err();
        let first = compare.join(&case.bytes, &five, &case.name);
        let second = compare.join(&five, &case.bytes, &case.name);
        if want.is_some() {
            assert_eq!((first.err(), second.err()), (want, want), "{}", case.name);
        }
        let both = compare.join(&case.bytes, &before, &case.name);
        assert!(want.is_none() || both.err() == want, "{}", case.name);
        before = case.bytes;
    }
    compare.had(JOIN, &[1, 2, 3, 4, 5, 6, 7, 8, 9, 10, 11, 12, 15, 17]);
}

/// The first file's stops, the second's, 17, 18, 15: each is seen with everything wrong that comes after it.
#[test]
fn stops_in_their_order() {
    let mut twelve = five_archive();
    twelve[8 + 12 + 4 + 12 + 12 + 4] = 2;
    calls::write::mend(&mut twelve);
    let (many, more) = (counted(0, 1_024, 1), counted(1_024, 1, 1));
    let wide = our_archive(&[65_534], &[]);
    for (name, calls) in subjects() {
        let mut lent = [7; 340];
        for (first, second, stop) in [
            (&twelve[..], &b""[..], 12),
            (b"", &twelve[..], 1),
            (&many, &twelve[..], 12),
            (&twelve, &many, 12),
            (&many, &five_archive(), 17),
            (&five_archive(), &many, 17),
            (&many, &wide, 17),
            (&many, &more, 18),
        ] {
            assert_eq!(calls.join(first, second, &mut []), Err(stop), "{name}");
            assert_eq!(calls.join(first, second, &mut lent), Err(stop), "{name}");
        }
        assert_eq!(calls.join(&five_archive(), &five_archive(), &mut []), Err(15), "{name}");
        assert_eq!(calls.join(&five_archive(), &five_archive(), &mut lent[..323]), Err(15), "{name}");
        assert_eq!(lent, [7; 340], "{name}");
        assert_eq!(calls.join(&five_archive(), &five_archive(), &mut lent[..324]), Ok(324), "{name}");
        assert_eq!(lent[324..], [7; 16], "{name}");
    }
}
