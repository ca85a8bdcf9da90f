//! Keys and what a set fixes, against brute force.
mod cube;

use cube::Records;
use cube_archive::{raw, room, Archive, Stop};

/// Whether two rows agree on a set.
fn agree(a: &[u16], b: &[u16], set: u32) -> bool {
    (0..a.len()).all(|i| set >> i & 1 == 0 || a[i] == b[i])
}

/// Whether rows that agree on a set are alike in the eyes of a test.
fn alike(records: &Records, set: u32, test: impl Fn(&[u16], &[u16]) -> bool) -> bool {
    records.rows.iter().all(|(a, _)| records.rows.iter().all(|(b, _)| !agree(a, b, set) || test(a, b)))
}

/// Rows with equal codes are one base row.
fn is_key(records: &Records, set: u32) -> bool {
    alike(records, set, |a, b| a == b)
}

fn smallest_keys(records: &Records) -> Vec<u32> {
    let mut keys: Vec<u32> = (0..1 << records.dims()).filter(|&set| is_key(records, set)).collect();
    keys.sort_by_key(|set| (set.count_ones(), *set));
    let least = |set: &u32| !keys.iter().any(|other| other != set && set & other == *other);
    keys.iter().copied().filter(least).collect()
}

/// What the two calls tell of a table, of all sets or some; a key is a set that holds a listed one, and one that fixes every dimension.
fn hold(records: &Records) -> Archive {
    let archive = records.archive();
    let keys = archive.smallest_keys().unwrap();
    assert_eq!(keys, smallest_keys(records));
    for set in (0..1 << records.dims()).step_by((1 << records.dims()) / 64 + 1) {
        let fixed: Vec<bool> = (1..=records.dims() as u32).map(|i| archive.fixes(set, i).unwrap()).collect();
        for (i, &fixes) in fixed.iter().enumerate() {
            assert_eq!(fixes, alike(records, set, |a, b| a[i] == b[i]), "set {set}, dimension {}", i + 1);
            assert!(fixes || set >> i & 1 == 0, "set {set} fixes its own dimension {}", i + 1);
        }
        assert_eq!(is_key(records, set), keys.iter().any(|key| set & key == *key), "set {set}");
        assert_eq!(is_key(records, set), fixed.iter().all(|&fixes| fixes), "set {set}");
    }
    archive
}

#[test]
fn the_five_rows() {
    let archive = hold(&Records::five());
    assert_eq!(archive.smallest_keys(), Ok(vec![1]));
    assert_eq!(archive.fixes(0b010, 3), Ok(false));
    let mut out = [0; 8];
    assert_eq!(raw::smallest_keys(archive.as_bytes(), &mut out), Ok(8));
    assert_eq!(out, [1, 0, 0, 0, 1, 0, 0, 0]);
}

/// A key is a property of base rows: rows with equal codes are one.
#[test]
fn repeated_rows_do_not_spoil_a_key() {
    let rows = [(0, 5), (1, 6), (0, 7), (1, 8), (2, 9)].map(|(code, reading)| (vec![code, 0], reading));
    let archive = hold(&Records { sizes: vec![3, 1], rows: rows.to_vec() });
    assert_eq!(archive.smallest_keys(), Ok(vec![1]));
    assert_eq!([archive.fixes(0, 1), archive.fixes(0, 2)], [Ok(false), Ok(true)]);
}

/// One row, or one that is repeated: the empty set is the only smallest key, and every set fixes every dimension.
#[test]
fn one_base_row() {
    for rows in 1..3 {
        let archive = hold(&Records { sizes: vec![3; 8], rows: vec![(vec![2; 8], -7); rows] });
        assert_eq!(archive.smallest_keys(), Ok(vec![0]));
    }
}

#[test]
fn no_base_row() {
    for dims in 1..=8 {
        let mut out = [0; 200];
        let length = raw::build(&Records { sizes: vec![1; dims], rows: vec![] }.table(), &mut out).unwrap();
        let archive = Archive::open(out[..length].to_vec()).unwrap();
        assert_eq!(archive.smallest_keys(), Ok(vec![0]));
        assert!((1..=dims as u32).all(|i| archive.fixes(0, i) == Ok(true)));
        assert_eq!(archive.fixes(0, dims as u32 + 1), Err(Stop::Dimension));
    }
}

/// Tables with few codes: every table of three rows with two dimensions of size 3, then random ones with up to eight.
#[test]
fn small_tables() {
    for n in 0..729u16 {
        let code = |place: u32| n / 3u16.pow(place) % 3;
        hold(&Records { sizes: vec![3; 2], rows: (0..3).map(|row| (vec![code(2 * row), code(2 * row + 1)], 1)).collect() });
    }
    let mut state = 9u64;
    let mut below = |n: u64| {
        state = state.wrapping_mul(6_364_136_223_846_793_005).wrapping_add(1_442_695_040_888_963_407);
        (state >> 33) % n
    };
    for i in 0..80 {
        let (dims, size) = (1 + i % 8, 2 + below(6));
        let rows = (0..1 + below(40)).map(|_| ((0..dims).map(|_| below(size) as u16).collect(), 1)).collect();
        hold(&Records { sizes: vec![8; dims], rows });
    }
}

/// Two rows for each three dimensions, which agree on these alone: the keys are the 70 sets of four dimensions, as many as there can be.
#[test]
fn the_room_for_keys_is_no_longer_than_needed() {
    let threes = (0..256u32).filter(|set| set.count_ones() == 3);
    let pairs = (0..).step_by(2).zip(threes).flat_map(|(row, set)| {
        [0, 1].map(|other| ((0..8).map(|i| row + if set >> i & 1 == 1 { 0 } else { other }).collect::<Vec<u16>>(), 1))
    });
    let archive = Records { sizes: vec![200; 8], rows: pairs.collect() }.archive();
    let fours: Vec<u32> = (0..256u32).filter(|set| set.count_ones() == 4).collect();
    assert_eq!(archive.smallest_keys(), Ok(fours));
    let mut out = [0xEE; room::KEYS + 1];
    assert_eq!(raw::smallest_keys(archive.as_bytes(), &mut out[..room::KEYS - 1]), Err(Stop::Output));
    assert_eq!(out, [0xEE; room::KEYS + 1]);
    assert_eq!(raw::smallest_keys(archive.as_bytes(), &mut out), Ok(room::KEYS));
    assert_eq!(out[room::KEYS], 0xEE);
}

/// 1,024 rows that agree on seven dimensions, and rows that differ in each.
#[test]
fn many_rows() {
    for (steps, keys) in [(vec![1, 0, 0, 0, 0, 0, 0, 0], vec![1]), (vec![1; 8], (0..8).map(|i| 1 << i).collect())] {
        let rows = (0..1_024).map(|n| (steps.iter().map(|step| n * step).collect(), 1)).collect();
        let archive = Records { sizes: vec![1_024; 8], rows }.archive();
        assert_eq!(archive.smallest_keys(), Ok(keys));
        assert_eq!(archive.fixes(1, 8), Ok(true));
    }
}
