//! Keys and what a set fixes (document 02, C-12): examples, random, extreme and damaged archives, stops 14, 15 and 16.
use calls::calls::Stop;
use calls::cases::{five_archive, five_rows};
use calls::compare::{subjects, Compare, FIXES, KEYS};
use calls::damage;
use calls::kinds::{kinds, SIZES};
use calls::lent::Lent;
use calls::model::{self, cube, keys, Accepted};
use calls::random::Random;
use calls::write::{list_bytes, table_bytes};
use calls::ROWS;

/// What a call writes.
fn written(run: impl Fn(&mut [u8]) -> Result<usize, Stop>) -> Result<Vec<u8>, Stop> {
    let mut out = vec![0xEE; 400_000];
    run(&mut out).map(|length| out[..length].to_vec())
}

/// The smallest keys of a table, which are the same of each subject's archive.
fn keys_of(sizes: &[u32], rows: &[(Vec<u32>, i32)], want: &[u32]) {
    let table = table_bytes(sizes, rows);
    for (name, calls) in subjects() {
        let archive = written(|out| calls.build(&table, out)).unwrap();
        assert_eq!(written(|out| calls.smallest_keys(&archive, out)), Ok(list_bytes(want)), "{name}, {rows:?}");
    }
}

/// Rows with these codes and reading 1.
fn rows(codes: &[&[u32]]) -> Vec<(Vec<u32>, i32)> {
    codes.iter().map(|codes| (codes.to_vec(), 1)).collect()
}

#[test]
fn the_five_rows_have_the_key_1_alone() {
    for (name, calls) in subjects() {
        let keys = written(|out| calls.smallest_keys(&five_archive(), out));
        assert_eq!(keys, Ok(vec![1, 0, 0, 0, 1, 0, 0, 0]), "{name}");
    }
    keys_of(&[7, 6, 3], &five_rows(), &[1]);
}

/// Sets 0, 1, 2, 3, 4, 5, 6, 7 by dimensions 1, 2, 3.
#[test]
fn what_the_sets_of_the_five_rows_fix() {
    let want = ["nnn", "yyy", "nyn", "yyy", "nny", "yyy", "nyy", "yyy"];
    for (name, calls) in subjects() {
        for (set, want) in (0..).zip(want) {
            let told = [1, 2, 3].map(|i| if calls.fixes(&five_archive(), set, i).unwrap() { 'y' } else { 'n' });
            assert_eq!(String::from_iter(told), want, "{name}, set {set}");
        }
    }
}

/// Rows with equal codes are one base row, so they spoil no key.
#[test]
fn repeated_rows() {
    keys_of(&[2, 1], &rows(&[&[0, 0], &[1, 0], &[0, 0], &[1, 0]]), &[1]);
    keys_of(&[2, 2], &rows(&[&[0, 1], &[0, 1], &[0, 1]]), &[0]);
}

#[test]
fn no_base_row_or_one() {
    for dims in 1..=8 {
        keys_of(&vec![3; dims], &[], &[0]);
        keys_of(&vec![3; dims], &[(vec![2; dims], -5)], &[0]);
        keys_of(&vec![3; dims], &[(vec![0; dims], 0), (vec![0; dims], 0)], &[0]);
    }
}

/// Keys of several sizes: one dimension, two, and the full set alone.
#[test]
fn smallest_by_inclusion() {
    keys_of(&[4, 2, 2], &rows(&[&[0, 0, 0], &[1, 0, 1], &[2, 1, 0], &[3, 1, 1]]), &[1, 6]);
    keys_of(&[2, 2], &rows(&[&[0, 0], &[0, 1], &[1, 0], &[1, 1]]), &[3]);
    for dims in 1..=8u32 {
        let codes = |n: u32| (0..dims).map(|i| n >> i & 1).collect::<Vec<u32>>();
        let all: Vec<_> = (0..1 << dims).map(|n| (codes(n), 1)).collect();
        keys_of(&vec![2; dims as usize], &all, &[(1 << dims) - 1]);
    }
}

/// Two rows for each three dimensions, which agree on these alone: no three dimensions are a key, and each four are. There can be no more keys.
fn seventy() -> Vec<u8> {
    let threes = cube::lattice(8).into_iter().filter(|set| set.count_ones() == 3);
    let side = |row: u32, set: u32, side: u32| (0..8).map(|i| 2 * row + if set >> i & 1 == 1 { 0 } else { side }).collect();
    let pairs = (0..).zip(threes).flat_map(|(row, set)| [0, 1].map(|other| (side(row, set, other), 1)));
    model::build(&table_bytes(&[112; 8], &pairs.collect::<Vec<_>>())).unwrap()
}

/// Outputs of every length: too short, they keep every byte; otherwise the list stands in front and the bytes behind it keep their values.
#[test]
fn outputs_of_every_length() {
    for (archive, count) in [(five_archive(), 1), (seventy(), 70)] {
        let keys = model::open(&archive).unwrap().smallest_keys();
        assert_eq!(keys.len(), 4 + 4 * count);
        for (room, (name, calls)) in (0..keys.len() + 40).flat_map(|room| subjects().into_iter().map(move |s| (room, s))) {
            let want = model::fit(&keys, room);
            let mut lent = Lent::new(room, room % 9);
            let got = calls.smallest_keys(&archive, lent.out());
            assert_eq!(got, want.map(<[u8]>::len), "{name}, output of {room}");
            assert_eq!(lent.written(got.unwrap_or(0)), Ok(want.unwrap_or_default()), "{name}, output of {room}");
        }
    }
}

/// The set number goes before the dimension.
#[test]
fn sets_and_dimensions_at_the_limits() {
    let mut compare = Compare::new();
    for dims in 1..=8 {
        let s = model::our_archive(&vec![3; dims], &[cube::Row::new(vec![1; dims], 5, 1)]);
        let accepted = compare.archive(&s, "one row").unwrap();
        for set in (0..=1 << dims).chain([256, 257, 65_536, 1 << 31, u32::MAX]) {
            for dimension in (0..11).chain([31, 32, 33, 256, 257, 1 << 31, u32::MAX]) {
                compare.fixes(&s, &accepted, set, dimension, &format!("D {dims}"));
                let want = if set >> dims > 0 { Err(14) } else { Err(16) };
                let inside = set >> dims == 0 && (1..=dims as u32).contains(&dimension);
                assert_eq!(accepted.fixes(set, dimension), if inside { Ok(true) } else { want });
            }
        }
    }
    compare.had(FIXES, &[0, 14, 16]);
}

/// Both calls on an archive, with every set and dimension or with so many.
fn asked(compare: &mut Compare, s: &[u8], accepted: &Accepted, what: &str, questions: Option<usize>, random: &mut Random) {
    compare.keys(s, accepted, what);
    let (sets, dims) = (1u64 << accepted.dims(), accepted.dims() as u64);
    match questions {
        None => (0..sets).for_each(|set| (1..=dims).for_each(|i| compare.fixes(s, accepted, set as u32, i as u32, what))),
        Some(n) => (0..n).for_each(|_| compare.fixes(s, accepted, random.below(sets) as u32, 1 + random.below(dims) as u32, what)),
    }
}

/// A set is a key just if it holds a listed one, and just if it fixes every dimension: by the library's answers.
fn as_promised(s: &[u8], accepted: &Accepted, what: &str) {
    for (name, calls) in subjects() {
        let keys = written(|out| calls.smallest_keys(s, out)).unwrap();
        let listed: Vec<u32> = keys[4..].chunks(4).map(|w| u32::from_le_bytes(w.try_into().unwrap())).collect();
        for set in cube::lattice(accepted.dims()) {
            let fixed = |i: usize| calls.fixes(s, set, i as u32).unwrap();
            let key = keys::key(&accepted.rows, set);
            assert_eq!(key, listed.iter().any(|&least| cube::holds(set, least)), "{name}, {what}, set {set}");
            assert_eq!(key, (1..=accepted.dims()).all(fixed), "{name}, {what}, set {set}");
            assert!((0..accepted.dims()).all(|i| set >> i & 1 == 0 || fixed(i + 1)), "{name}, {what}, set {set}");
        }
    }
}

#[test]
fn random_archives() {
    let mut random = Random::seeded(601);
    let mut compare = Compare::new();
    for i in 0..320 {
        let count = 1 + random.row_count().min(30);
        let s = random.our_archive(1 + i % 8, count);
        let what = format!("archive {i}");
        let accepted = compare.archive(&s, &what).unwrap();
        asked(&mut compare, &s, &accepted, &what, if i % 8 < 4 { None } else { Some(20) }, &mut random.part());
        if i % 8 < 4 {
            as_promised(&s, &accepted, &what);
        }
    }
    compare.had(KEYS, &[0, 15]);
    compare.had(FIXES, &[0]);
}

/// Few codes in each dimension, so that rows agree on many sets: keys of many sizes.
#[test]
fn few_codes() {
    let mut random = Random::seeded(602);
    let mut compare = Compare::new();
    let mut counts = [0; 71];
    for i in 0..240 {
        let (dims, size) = (1 + i % 8, 2 + random.below(4) as u32);
        let rows: Vec<(Vec<u32>, i32)> =
            (0..1 + random.place(60)).map(|_| ((0..dims).map(|_| random.below(size.into()) as u32).collect(), random.reading())).collect();
        let s = model::build(&table_bytes(&vec![size; dims], &rows)).unwrap();
        let accepted = compare.archive(&s, &format!("table {i}")).unwrap();
        asked(&mut compare, &s, &accepted, &format!("table {i}"), Some(30), &mut random.part());
        counts[accepted.smallest_keys().len() / 4 - 1] += 1;
    }
    println!("tables by their number of smallest keys: {counts:?}");
    assert!(counts.iter().filter(|&&n| n > 0).count() > 6, "{counts:?}");
    compare.had(KEYS, &[0, 15]);
}

/// 1,024 rows of several kinds with eight dimensions, and the most keys that there can be.
#[test]
fn large_archives() {
    let mut random = Random::seeded(603);
    let mut compare = Compare::new();
    let tables: Vec<_> = kinds(&mut random).into_iter().map(|(name, rows)| (name, table_bytes(&SIZES, &rows))).collect();
    for (name, table) in tables {
        let mut out = vec![0; 7_000_000];
        let length = subjects()[0].1.build(&table, &mut out).unwrap();
        let s = &out[..length];
        let bases = model::fields::archive(s).unwrap();
        let rows: Vec<cube::Row> = bases.bases.iter().map(|base| base.row.clone()).collect();
        assert!(rows.len() <= ROWS);
        let accepted = Accepted { edition: bases.edition, sizes: bases.sizes, rows, bases: bases.bases, normals: bases.normals };
        asked(&mut compare, s, &accepted, name, Some(12), &mut random.part());
    }
    let s = seventy();
    let accepted = compare.archive(&s, "70 keys").unwrap();
    asked(&mut compare, &s, &accepted, "70 keys", Some(200), &mut random);
    compare.had(KEYS, &[0, 15]);
    compare.had(FIXES, &[0]);
}

/// A file that is not accepted has the same stop in both calls as in a check.
#[test]
fn damaged_archives() {
    let mut random = Random::seeded(604);
    let mut seen = [0; 13];
    for i in 0..120 {
        let count = 1 + random.row_count().min(12);
        let s = random.our_archive(1 + i % 8, count);
        damage::bytes(&s, 10, &mut random.part(), |b, done| {
            for (name, calls) in subjects() {
                let (mut lent, check) = ([9; 300], calls.check(b));
                if let Err(stop) = check {
                    seen[stop as usize] += 1;
                    assert_eq!(calls.smallest_keys(b, &mut lent), Err(stop), "{name}, archive {i}: {done}");
                    assert_eq!(calls.smallest_keys(b, &mut []), Err(stop), "{name}, archive {i}: {done}");
                    assert_eq!(calls.fixes(b, u32::MAX, 0), Err(stop), "{name}, archive {i}: {done}");
                    assert_eq!(lent, [9; 300], "{name}, archive {i}: {done}");
                }
            }
        });
    }
    assert!((1..=12).filter(|&stop| seen[stop] > 0).count() > 9, "{seen:?}");
}
