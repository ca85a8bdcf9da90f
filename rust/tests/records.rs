//! Records of any number, and their archive.
mod cube;

use cube::random::Random;
use cube_archive::{Archive, RecordError, Records, Table, TableError, TooMany};

fn records(sizes: &[u16], rows: impl Iterator<Item = (Vec<u16>, i32)>) -> Records {
    let mut records = Records::new(sizes).unwrap();
    rows.enumerate().for_each(|(i, (codes, reading))| records.push(10 * i, &codes, reading).unwrap());
    records
}

/// Up to 1,024 records it is the archive of their table.
#[test]
fn the_archive_of_a_table() {
    for seed in 0..30 {
        println!("seed {seed}");
        let cube::Records { sizes, rows } = Random(seed).records(1 + seed as usize % 8, 1_024);
        let mut many = records(&sizes, rows.iter().cloned());
        assert_eq!((many.len(), many.is_empty(), many.sizes()), (rows.len(), rows.is_empty(), &sizes[..]));
        let one = cube::Records { sizes, rows };
        assert_eq!(many.table().unwrap().to_bytes(), one.table());
        assert_eq!(many.archive().unwrap(), one.archive());
    }
}

/// Beyond 1,024 it is that of parts joined, however they are cut.
#[test]
fn parts_in_any_cut() {
    let random = &mut Random(77);
    let sizes = [3, 4, 5, 2];
    let mut draw = || (sizes.iter().map(|&size| random.code(size)).collect::<Vec<u16>>(), random.reading());
    let rows: Vec<(Vec<u16>, i32)> = (0..4_000).map(|_| draw()).collect();
    let part = |rows: &[(Vec<u16>, i32)]| {
        let mut table = Table::new(&sizes).unwrap();
        rows.iter().for_each(|(codes, reading)| table.push(codes, *reading).unwrap());
        Archive::build(&table.to_bytes()).unwrap()
    };
    let wanted = records(&sizes, rows.iter().cloned()).archive().unwrap();
    for length in [100, 777, 1_024] {
        let parts = rows.chunks(length).map(part);
        assert_eq!(parts.reduce(|all, part| all.join(&part).unwrap()).unwrap(), wanted);
    }
}

#[test]
fn what_is_no_record() {
    let mut many = Records::new(&[3, 65_535]).unwrap();
    assert_eq!(many.push(0, &[1], 5), Err(RecordError::Table(TableError::Codes { codes: 1, dimensions: 2 })));
    assert_eq!(many.push(0, &[3, 0], 5), Err(RecordError::Table(TableError::Code { dimension: 1, code: 3, size: 3 })));
    assert_eq!(many.push(0, &[0, 65_535], 5), Err(RecordError::Table(TableError::Code { dimension: 2, code: 65_535, size: 65_535 })));
    assert_eq!((many.len(), many.push(0, &[2, 65_534], 5)), (0, Ok(())));
    assert_eq!(Records::new(&[]), Err(TableError::Dimensions(0)));
    assert_eq!(Records::new(&[1, 0]), Err(TableError::Size { dimension: 2 }));
}

#[test]
fn other_codes() {
    let mut many = records(&[3, 9], [(vec![2, 7], 5), (vec![0, 1], 6)].into_iter());
    assert_eq!(many.recode(&[10, 3], |place, codes| codes[1 - place]), Ok(()));
    let wanted = records(&[10, 3], [(vec![7, 2], 5), (vec![1, 0], 6)].into_iter());
    assert_eq!(many, wanted);
    assert_eq!(many.recode(&[7, 3], |place, codes| codes[place]), Err(TableError::Code { dimension: 1, code: 7, size: 7 }));
    many = wanted;
    (1..=2).for_each(|dimension| many.narrow(dimension));
    assert_eq!(many.sizes(), [8, 3]);
}

/// The place is that of the first record with the 1,025th combination, in the order of places.
#[test]
fn too_many_combinations() {
    let rows = |count: u16| (0..2 * count).map(move |i| (vec![count - 1 - i / 2], 1));
    assert_eq!(records(&[2_000], rows(1_024)).archive().map(|archive| archive.check().unwrap().bases), Ok(1_024));
    let error = TooMany { place: 10 * 2_048, combinations: 1_500, all: true };
    assert_eq!(records(&[2_000], rows(1_500)).archive(), Err(error));
}
