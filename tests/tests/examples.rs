//! The examples of document 01, its empty table as document 02 has it (C-14), and the places where builders of cubes go astray.
use calls::calls::{Found, Stop};
use calls::cases::{five_archive, five_rows, five_table, FIVE_TEXT};
use calls::compare::subjects;
use calls::model::{fields, listing, open, Base, Row, ALL};
use calls::write::{table_bytes, File};

type TableRow = (Vec<u32>, i32);

/// What a call writes.
fn written(run: impl Fn(&mut [u8]) -> Result<usize, Stop>) -> Result<Vec<u8>, Stop> {
    let mut out = vec![0xEE; 200_000];
    run(&mut out).map(|length| out[..length].to_vec())
}

/// The archive that each subject builds, which is the same.
fn build(sizes: &[u32], rows: &[TableRow]) -> Result<Vec<u8>, Stop> {
    let table = table_bytes(sizes, rows);
    let built: Vec<_> = subjects().iter().map(|(_, calls)| written(|out| calls.build(&table, out))).collect();
    assert!(built.iter().all(|b| *b == built[0]), "{rows:?}");
    built[0].clone()
}

/// The entries of an archive that was built, which each subject accepts.
fn entries(sizes: &[u32], rows: &[TableRow]) -> (Vec<Base>, Vec<Row>) {
    let archive = build(sizes, rows).unwrap();
    let read = fields::archive(&archive).unwrap();
    for (name, calls) in subjects() {
        assert_eq!(calls.check(&archive), Ok((read.bases.len() as u32, read.normals.len() as u32)), "{name}");
    }
    (read.bases, read.normals)
}

fn row(codes: &[u32], sum: i64, count: u32) -> Row {
    Row::new(codes.to_vec(), sum, count)
}

fn base(codes: &[u32], sum: i64, count: u32, list: &[u32]) -> Base {
    Base { row: row(codes, sum, count), list: list.to_vec() }
}

#[test]
fn the_five_row_table_has_108_bytes_and_its_archive_324() {
    assert_eq!(five_table().len(), 108);
    let archive = build(&[7, 6, 3], &five_rows()).unwrap();
    assert_eq!(archive.len(), 324);
    assert_eq!(archive, five_archive());
}

#[test]
fn the_five_row_table_gives_the_ten_entries() {
    let archive = build(&[7, 6, 3], &five_rows()).unwrap();
    assert_eq!(listing(&open(&archive).unwrap()), FIVE_TEXT);
    for (name, calls) in subjects() {
        assert_eq!(calls.check(&five_archive()), Ok((5, 5)), "{name}");
    }
}

#[test]
fn the_five_rows_in_every_order() {
    for order in 0..120 {
        let (mut left, mut order, mut turned) = (five_rows(), order, vec![]);
        for n in (1..=5).rev() {
            turned.push(left.remove(order % n));
            order /= n;
        }
        assert_eq!(build(&[7, 6, 3], &turned), Ok(five_archive()), "{turned:?}");
    }
}

/// How many cells the cuboids of an expansion have, in lattice order.
fn cells(dims: usize, expansion: &[u8]) -> Vec<u32> {
    let mut at = 0;
    let mut counts = vec![];
    while at < expansion.len() {
        let count = u32::from_le_bytes(expansion[at..at + 4].try_into().unwrap());
        counts.push(count);
        at += 4 + count as usize * (4 * dims + 12);
    }
    assert_eq!((at, counts.len()), (expansion.len(), 1 << dims));
    counts
}

#[test]
fn the_complete_cube_of_the_five_rows_has_30_cells() {
    for (name, calls) in subjects() {
        let expansion = written(|out| calls.expand(&five_archive(), out)).unwrap();
        assert_eq!(expansion.len(), 8 * 4 + 30 * 24, "{name}");
        assert_eq!(cells(3, &expansion), [1, 5, 3, 2, 5, 5, 4, 5], "{name}");
    }
}

#[test]
fn the_cuboids_of_the_five_rows() {
    let second = File::table().word(3).normal(&[ALL, 1, ALL], 150, 2).normal(&[ALL, 3, ALL], 60, 1).normal(&[ALL, 5, ALL], 150, 2);
    let sixth = File::table().word(4).normal(&[ALL, 1, 1], 150, 2).normal(&[ALL, 3, 1], 60, 1);
    let sixth = sixth.normal(&[ALL, 5, 1], 70, 1).normal(&[ALL, 5, 2], 80, 1);
    let full = five_rows().iter().fold(File::table().word(5), |f, (codes, reading)| f.normal(codes, *reading as i64, 1));
    for (name, calls) in subjects() {
        let list = |set: u32| written(|out| calls.list_cuboid(&five_archive(), set, out));
        assert_eq!(list(0), Ok(File::table().word(1).normal(&[ALL; 3], 360, 5).cut()[4..].to_vec()), "{name}");
        assert_eq!(list(2), Ok(second.clone().cut()[4..].to_vec()), "{name}");
        assert_eq!(list(6), Ok(sixth.clone().cut()[4..].to_vec()), "{name}");
        assert_eq!(list(7), Ok(full.clone().cut()[4..].to_vec()), "{name}");
        assert_eq!(list(8), Err(14), "{name}");
    }
}

#[test]
fn the_three_questions() {
    for (name, calls) in subjects() {
        let ask = |question: [u32; 3]| calls.look_up(&five_archive(), &question);
        assert_eq!(ask([ALL, 5, 1]), Ok(Some(Found { sum: 70, count: 1, entry: 3 })), "{name}");
        assert_eq!(ask([0, 3, ALL]), Ok(None), "{name}");
        assert_eq!(ask([ALL, 1, ALL]), Ok(Some(Found { sum: 150, count: 2, entry: 6 })), "{name}");
        assert_eq!(ask([6, 5, 2]), Ok(Some(Found { sum: 80, count: 1, entry: 4 })), "{name}");
        assert_eq!(ask([ALL, ALL, ALL]), Ok(Some(Found { sum: 360, count: 5, entry: 5 })), "{name}");
        assert_eq!(ask([ALL, 1, 1]), Ok(Some(Found { sum: 150, count: 2, entry: 9 })), "{name}");
    }
}

#[test]
fn equal_rows_that_cancel() {
    assert_eq!(entries(&[1], &[(vec![0], 5), (vec![0], -5)]), (vec![base(&[0], 0, 2, &[0])], vec![]));
}

#[test]
fn a_reading_of_0_makes_no_single_cell() {
    let (bases, normals) = entries(&[1, 2], &[(vec![0, 0], 5), (vec![0, 1], 0)]);
    assert_eq!(bases, [base(&[0, 0], 5, 1, &[2]), base(&[0, 1], 0, 1, &[2])]);
    assert_eq!(normals, [row(&[ALL, ALL], 5, 2), row(&[0, ALL], 5, 2)]);
}

#[test]
fn all_four_rows_of_two_codes() {
    let (bases, normals) = entries(&[2, 2], &[(vec![0, 0], 1), (vec![0, 1], 2), (vec![1, 0], 3), (vec![1, 1], 4)]);
    assert!(bases.len() == 4 && bases.iter().all(|b| b.list.is_empty()));
    let cells = [row(&[ALL, ALL], 10, 4), row(&[0, ALL], 3, 2), row(&[1, ALL], 7, 2), row(&[ALL, 0], 4, 2), row(&[ALL, 1], 6, 2)];
    assert_eq!(normals, cells);
}

/// 43 55 42 45, D 1, size 1, no base entry, one normal entry: all ALL, sum 0, count 0; the check word 45435545 (hexadecimal).
const EMPTY: [u8; 40] = [
    0x43, 0x55, 0x42, 0x45, 1, 0, 0, 0, 1, 0, 0, 0, 0, 0, 0, 0, 1, 0, 0, 0, 0xFF, 0xFF, 0, 0, 0, 0, 0, 0, 0, 0, 0, 0, 0, 0, 0, 0, 0x45,
    0x55, 0x43, 0x45,
];

/// The same without its normal entry, as document 01 had it before document 02: check word 45425545 (hexadecimal).
const BEFORE: [u8; 24] = [0x43, 0x55, 0x42, 0x45, 1, 0, 0, 0, 1, 0, 0, 0, 0, 0, 0, 0, 0, 0, 0, 0, 0x45, 0x55, 0x42, 0x45];

#[test]
fn no_rows_make_40_bytes() {
    assert_eq!(build(&[1], &[]), Ok(EMPTY.to_vec()));
    assert_eq!(u32::from_le_bytes(EMPTY[36..].try_into().unwrap()), 0x4543_5545);
    for (name, calls) in subjects() {
        assert_eq!(calls.check(&EMPTY), Ok((0, 1)), "{name}");
        assert_eq!(calls.look_up(&EMPTY, &[ALL]), Ok(Some(Found { sum: 0, count: 0, entry: 0 })), "{name}");
        assert_eq!(calls.look_up(&EMPTY, &[0]), Ok(None), "{name}");
        let all = File::table().word(1).normal(&[ALL], 0, 0).cut()[4..].to_vec();
        assert_eq!(written(|out| calls.list_cuboid(&EMPTY, 0, out)), Ok(all.clone()), "{name}");
        assert_eq!(written(|out| calls.list_cuboid(&EMPTY, 1, out)), Ok(vec![0; 4]), "{name}");
        assert_eq!(written(|out| calls.expand(&EMPTY, out)), Ok([&all[..], &[0; 4]].concat()), "{name}");
    }
}

#[test]
fn the_24_bytes_without_the_total_stop_with_12() {
    assert_eq!(u32::from_le_bytes(BEFORE[20..].try_into().unwrap()), 0x4542_5545);
    for (name, calls) in subjects() {
        assert_eq!(calls.check(&BEFORE), Err(12), "{name}");
        assert_eq!(calls.look_up(&BEFORE, &[ALL]), Err(12), "{name}");
        assert_eq!(written(|out| calls.list_cuboid(&BEFORE, 0, out)), Err(12), "{name}");
        assert_eq!(written(|out| calls.expand(&BEFORE, out)), Err(12), "{name}");
    }
}

#[test]
fn each_bit_of_the_empty_archive_is_checked() {
    for (bit, (name, calls)) in (0..8 * EMPTY.len()).flat_map(|bit| subjects().into_iter().map(move |s| (bit, s))) {
        let mut b = EMPTY;
        b[bit / 8] ^= 1 << (bit % 8);
        assert!(calls.check(&b).is_err(), "{name}: bit {bit}");
    }
}

#[test]
fn one_row_at_d_8_is_one_entry_and_256_cells() {
    let rows = [(vec![2; 8], -7)];
    assert_eq!(entries(&[3; 8], &rows), (vec![base(&[2; 8], -7, 1, &[0])], vec![]));
    let archive = build(&[3; 8], &rows).unwrap();
    for (name, calls) in subjects() {
        let expansion = written(|out| calls.expand(&archive, out)).unwrap();
        assert_eq!(cells(8, &expansion), [1; 256], "{name}");
        for set in 0..256 {
            let question: Vec<u32> = (0..8).map(|i| if set >> i & 1 == 1 { 2 } else { ALL }).collect();
            assert_eq!(calls.look_up(&archive, &question), Ok(Some(Found { sum: -7, count: 1, entry: 0 })), "{name}: {question:?}");
        }
    }
}

#[test]
fn the_limits() {
    let length = |sizes: &[u32], rows: u32| {
        let rows: Vec<_> = (0..rows).map(|i| (vec![i; sizes.len()], 1)).collect();
        build(sizes, &rows).map(|archive| archive.len())
    };
    assert_eq!(length(&[5; 8], 1), Ok(44 + 52 + 8));
    assert_eq!(length(&[5; 9], 1), Err(3));
    assert_eq!(length(&[65_535], 1), Ok(16 + 24 + 8));
    assert_eq!(length(&[65_536], 1), Err(4));
    // Each row lists the sets 1 and 2; the one normal cell has all rows.
    assert_eq!(length(&[2_000, 2_000], 1_024), Ok(20 + 1_024 * 32 + 20 + 8));
    assert_eq!(length(&[2_000, 2_000], 1_025), Err(5));
}

#[test]
fn an_output_of_324_bytes_suffices_and_323_stop() {
    for (name, calls) in subjects() {
        assert_eq!(calls.build(&five_table(), &mut [0; 324]), Ok(324), "{name}");
        assert_eq!(calls.build(&five_table(), &mut [0; 323]), Err(15), "{name}");
    }
}

#[test]
fn extreme_readings_are_folded() {
    for (reading, sum) in [(i32::MAX, 1_024 * 2_147_483_647i64), (i32::MIN, 1_024 * -2_147_483_648i64)] {
        let rows = vec![(vec![8; 8], reading); 1_024];
        assert_eq!(entries(&[9; 8], &rows), (vec![base(&[8; 8], sum, 1_024, &[0])], vec![]));
    }
}

/// Rows that are folded first are single; tested before, they would not be.
#[test]
fn singles_are_sought_among_folded_rows() {
    let rows = [(vec![0, 0], 1), (vec![0, 0], 2), (vec![1, 1], 3)];
    let (bases, normals) = entries(&[2, 2], &rows);
    assert_eq!(bases, [base(&[0, 0], 3, 2, &[1, 2]), base(&[1, 1], 3, 1, &[1, 2])]);
    assert_eq!(normals, [row(&[ALL, ALL], 6, 3)]);
}

/// A row that shares its codes on each three dimensions with another, but on no four: the longest list there is.
#[test]
fn a_list_of_70() {
    let threes = (0..256u32).filter(|set| set.count_ones() == 3);
    let others = threes.enumerate().map(|(n, set)| (0..8).map(|i| if set >> i & 1 == 1 { 0 } else { 1 + n as u32 }).collect());
    let rows: Vec<TableRow> = std::iter::once(vec![0; 8]).chain(others).map(|codes| (codes, 1)).collect();
    let (bases, _) = entries(&[57; 8], &rows);
    let fours: Vec<u32> = (0..256).filter(|set: &u32| set.count_ones() == 4).collect();
    assert_eq!((bases.len(), bases[0].list.len()), (57, 70));
    assert_eq!(bases[0].list, fours);
}
