//! The five-row example of document 01 through every call.
mod cube;

use cube::Records;
use cube_archive::{Archive, Code, Counts, Found};

/// What the entries are, in their order: codes, sum and count.
const ENTRIES: [([Code; 3], i64, u32); 10] = [
    ([Some(0), Some(1), Some(1)], 50, 1),
    ([Some(1), Some(1), Some(1)], 100, 1),
    ([Some(2), Some(3), Some(1)], 60, 1),
    ([Some(4), Some(5), Some(1)], 70, 1),
    ([Some(6), Some(5), Some(2)], 80, 1),
    ([None, None, None], 360, 5),
    ([None, Some(1), None], 150, 2),
    ([None, Some(5), None], 150, 2),
    ([None, None, Some(1)], 280, 4),
    ([None, Some(1), Some(1)], 150, 2),
];

#[test]
fn the_table_has_108_bytes_and_the_archive_324() {
    assert_eq!(Records::five().table().len(), 108);
    let archive = Records::five().archive();
    assert_eq!(archive.as_bytes().len(), 324);
    assert_eq!(archive.sizes(), [7, 6, 3]);
    assert_eq!(archive.check(), Ok(Counts { bases: 5, normals: 5 }));
}

#[test]
fn the_archive_is_opened_from_its_bytes() {
    let archive = Records::five().archive();
    assert_eq!(Archive::open(archive.clone().into_bytes()), Ok(archive));
}

#[test]
fn each_entry_answers_for_its_own_cell() {
    for (entry, (codes, sum, count)) in (0..).zip(ENTRIES) {
        assert_eq!(Records::five().archive().look_up(&codes), Ok(Some(Found { sum, count, entry })));
    }
}

#[test]
fn the_three_questions() {
    let archive = Records::five().archive();
    assert_eq!(archive.look_up(&[None, Some(5), Some(1)]), Ok(Some(Found { sum: 70, count: 1, entry: 3 })));
    assert_eq!(archive.look_up(&[Some(0), Some(3), None]), Ok(None));
    assert_eq!(archive.look_up(&[None, Some(1), None]), Ok(Some(Found { sum: 150, count: 2, entry: 6 })));
}

/// Every question that fits: a total over the rows, or 'no record'.
#[test]
fn all_questions() {
    let (five, archive) = (Records::five(), Records::five().archive());
    let codes = |size: u16| (0..size).map(Some).chain([None]);
    let mut cells = 0;
    for question in codes(7).flat_map(|a| codes(6).flat_map(move |b| codes(3).map(move |c| [a, b, c]))) {
        let found = archive.look_up(&question).unwrap();
        assert_eq!(found.map(|f| (f.sum, f.count)), five.total(&question), "{question:?}");
        cells += found.iter().len();
    }
    assert_eq!(cells, 30);
}

#[test]
fn the_expansion_is_the_complete_cube_of_30_cells() {
    let cube = Records::five().archive().expand().unwrap();
    assert_eq!(cube, Records::five().cube());
    assert_eq!(cube.iter().map(|cuboid| cuboid.set).collect::<Vec<_>>(), [0, 1, 2, 4, 3, 5, 6, 7]);
    assert_eq!(cube.iter().map(|cuboid| cuboid.cells.len()).collect::<Vec<_>>(), [1, 5, 3, 2, 5, 5, 4, 5]);
}

/// Cells of counts 2, 1 and 2; one cell; five cells of count 1.
#[test]
fn a_fee() {
    let archive = Records::five().archive();
    assert_eq!(archive.share_fee(101, 2), Ok(vec![41, 20, 40]));
    assert_eq!(archive.share_fee(1_000_000_000, 0), Ok(vec![1_000_000_000]));
    assert_eq!(archive.share_fee(99, 7), Ok(vec![20, 20, 20, 20, 19]));
}

#[test]
fn each_cuboid() {
    for set in 0..8 {
        assert_eq!(Records::five().archive().list_cuboid(set), Ok(Records::five().cuboid(set)));
    }
}
