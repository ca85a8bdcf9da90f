//! Empty tables, single rows, and numbers at their limits.
mod cube;

use cube::Records;
use cube_archive::{Archive, Cell, Code, Counts, Found, Stop, Table, TableError};

/// One cell, all ALL, with sum 0 and count 0; every other needs a row.
#[test]
fn no_rows() {
    for (dims, size) in (1..=8).flat_map(|dims| [(dims, 1), (dims, 65_535)]) {
        let empty = Records { sizes: vec![size; dims], rows: vec![] };
        let archive = empty.archive();
        assert_eq!(archive.as_bytes().len(), 32 + 8 * dims);
        assert_eq!(Archive::open(archive.as_bytes().to_vec()).as_ref(), Ok(&archive));
        assert_eq!(archive.check(), Ok(Counts { bases: 0, normals: 1 }));
        assert_eq!(archive.look_up(&vec![None; dims]), Ok(Some(Found { sum: 0, count: 0, entry: 0 })));
        for set in 1..1 << dims {
            let question: Vec<Code> = (0..dims).map(|i| (set >> i & 1 == 1).then_some(size - 1)).collect();
            assert_eq!(archive.look_up(&question), Ok(None), "{question:?}");
        }
        let all = Cell { codes: vec![None; dims], sum: 0, count: 0 };
        assert_eq!(archive.list_cuboid(0).unwrap().cells, std::slice::from_ref(&all));
        let cube = archive.expand().unwrap();
        assert!(cube.len() == 1 << dims && cube[0].cells == [all] && cube[1..].iter().all(|cuboid| cuboid.cells.is_empty()));
        assert_eq!(cube, empty.cube());
    }
}

/// The archive of an empty table has 40 bytes at D 1; the 24 that lack the cell are refused.
#[test]
fn no_rows_and_no_cell() {
    let empty = Records { sizes: vec![1], rows: vec![] }.archive().into_bytes();
    assert_eq!((empty.len(), &empty[36..]), (40, &0x4543_5545u32.to_le_bytes()[..]));
    let before: Vec<u8> = [0x4542_5543, 1, 1, 0, 0, 0x4542_5545u32].into_iter().flat_map(u32::to_le_bytes).collect();
    assert_eq!((before.len(), Archive::open(before)), (24, Err(Stop::Entries)));
}

#[test]
fn one_row() {
    for dims in 1..=8 {
        let one = Records { sizes: vec![3; dims], rows: vec![(vec![2; dims], -7)] };
        let archive = one.archive();
        assert_eq!(archive.check(), Ok(Counts { bases: 1, normals: 0 }));
        for cell in archive.expand().unwrap().iter().flat_map(|cuboid| &cuboid.cells) {
            assert_eq!((cell.sum, cell.count), (-7, 1));
            assert_eq!(archive.look_up(&cell.codes), Ok(Some(Found { sum: -7, count: 1, entry: 0 })));
        }
        assert_eq!(archive.expand().unwrap(), one.cube());
    }
}

#[test]
fn the_largest_code_is_no_all() {
    let rows = [(65_534, 1), (0, 2), (65_534, 4)].map(|(code, reading)| (vec![code, 9], reading));
    let records = Records { sizes: vec![65_535, 10], rows: rows.to_vec() };
    let archive = records.archive();
    assert_eq!(archive.sizes(), [65_535, 10]);
    assert_eq!(archive.expand().unwrap(), records.cube());
    let found = |code: Code| archive.look_up(&[code, None]).map(|found| found.map(|f| f.sum));
    assert_eq!(found(Some(65_534)), Ok(Some(5)));
    assert_eq!(found(None), Ok(Some(7)));
    assert_eq!(found(Some(1)), Ok(None));
    assert_eq!(found(Some(65_535)), Err(Stop::Question));
}

#[test]
fn extreme_readings() {
    for (reading, sum) in [(i32::MAX, 1_024 * 2_147_483_647i64), (i32::MIN, 1_024 * -2_147_483_648i64)] {
        let records = Records { sizes: vec![2, 2], rows: (0..1_024).map(|i| (vec![i % 2, 0], reading)).collect() };
        let all = records.archive().look_up(&[None, None]).unwrap().unwrap();
        assert_eq!((all.sum, all.count), (sum, 1_024));
    }
}

#[test]
fn a_table_takes_1024_rows() {
    let mut table = Table::new(&[1]).unwrap();
    for _ in 0..1_024 {
        table.push(&[0], 1).unwrap();
    }
    assert_eq!(table.push(&[0], 1), Err(TableError::Rows));
    assert_eq!(table.to_bytes().len(), 16 + 4 + 1_024 * 8);
}

#[test]
fn a_table_has_1_to_8_sizes_from_1() {
    assert_eq!(Table::new(&[]), Err(TableError::Dimensions(0)));
    assert_eq!(Table::new(&[5; 9]), Err(TableError::Dimensions(9)));
    assert_eq!(Table::new(&[5, 0, 0]), Err(TableError::Size { dimension: 2 }));
    assert_eq!(Table::new(&[65_535; 8]).unwrap().sizes(), [65_535; 8]);
}

#[test]
fn a_row_fits_its_table() {
    let mut table = Table::new(&[7, 65_535]).unwrap();
    let before = table.clone();
    assert_eq!(table.push(&[6], 1), Err(TableError::Codes { codes: 1, dimensions: 2 }));
    assert_eq!(table.push(&[6, 0, 0], 1), Err(TableError::Codes { codes: 3, dimensions: 2 }));
    assert_eq!(table.push(&[7, 0], 1), Err(TableError::Code { dimension: 1, code: 7, size: 7 }));
    assert_eq!(table.push(&[6, 65_535], 1), Err(TableError::Code { dimension: 2, code: 65_535, size: 65_535 }));
    assert_eq!(table, before);
    assert_eq!(table.push(&[6, 65_534], 1), Ok(()));
}

#[test]
fn what_is_wrong_with_a_table_in_words() {
    let words = |error: TableError| error.to_string();
    assert_eq!(words(TableError::Dimensions(9)), "9 dimensions: a table has 1 to 8");
    assert_eq!(words(TableError::Size { dimension: 2 }), "the size of dimension 2 is 0");
    assert_eq!(words(TableError::Rows), "a table has at most 1024 rows");
    assert_eq!(words(TableError::Codes { codes: 1, dimensions: 2 }), "expected 2 codes, found 1");
    assert_eq!(words(TableError::Code { dimension: 1, code: 7, size: 6 }), "code 7 of dimension 1 is not below its size 6");
}
