//! Random tables against brute force.
mod cube;

use cube::random::Random;
use cube::Records;
use cube_archive::Archive;
use std::collections::BTreeSet;

/// All calls on one table.
fn hold(records: &Records, random: &mut Random) {
    let archive = records.archive();
    assert_eq!(archive.sizes(), records.sizes);
    assert_eq!(Archive::open(archive.as_bytes().to_vec()).as_ref(), Ok(&archive));
    assert_eq!(archive.expand().unwrap(), records.cube());
    let set = random.below(1 << records.dims()) as u32;
    assert_eq!(archive.list_cuboid(set), Ok(records.cuboid(set)));
    if !records.rows.is_empty() {
        let fee = random.below(1_000_000_001) as u32;
        let shares = archive.share_fee(fee, set).unwrap();
        assert_eq!((shares.len(), shares.iter().sum::<u32>()), (records.cuboid(set).cells.len(), fee));
    }
    for _ in 0..8 {
        let question = random.question(&records.sizes);
        let found = archive.look_up(&question).unwrap();
        assert_eq!(found.map(|f| (f.sum, f.count)), records.total(&question), "{question:?}");
    }
}

#[test]
fn tables_of_every_number_of_dimensions() {
    for seed in 0..320 {
        println!("seed {seed}");
        let random = &mut Random(seed);
        let records = random.records(1 + seed as usize % 8, 40);
        hold(&records, random);
    }
}

#[test]
fn tables_with_many_rows() {
    for seed in 1_000..1_016 {
        println!("seed {seed}");
        let random = &mut Random(seed);
        let records = random.records(1 + seed as usize % 5, 1_024);
        hold(&records, random);
    }
}

/// Looked up one by one, the cells of the cube name every entry, and only entries that there are.
#[test]
fn every_entry_carries_a_cell() {
    for seed in 2_000..2_100 {
        println!("seed {seed}");
        let random = &mut Random(seed);
        let archive = random.records(1 + seed as usize % 4, 12).archive();
        let mut entries = BTreeSet::new();
        for cell in archive.expand().unwrap().iter().flat_map(|cuboid| &cuboid.cells) {
            let found = archive.look_up(&cell.codes).unwrap().expect("a cell that is listed has a record");
            assert_eq!((found.sum, found.count), (cell.sum, cell.count));
            entries.insert(found.entry);
        }
        let counts = archive.check().unwrap();
        assert_eq!(entries, (0..counts.bases + counts.normals).collect());
    }
}
