//! Tables of 1,024 rows through all five calls.
use calls::compare::{Compare, BUILD, EXPAND};
use calls::kinds::{kinds, SIZES};
use calls::random::Random;
use calls::write::table_bytes;
use calls::ROWS;

/// A table through all five calls, with a few questions and cuboids.
fn all_calls(compare: &mut Compare, table: &[u8], what: &str, random: &mut Random) {
    let archive = compare.table(table, what).unwrap();
    let accepted = compare.archive(&archive, what).unwrap();
    compare.expand(&archive, &accepted, what);
    for _ in 0..6 {
        let question = random.question(&accepted);
        compare.look_up(&archive, &accepted, &question, what);
    }
    compare.list(&archive, &accepted, random.below(1 << accepted.dims()) as u32, what);
}

/// One test for each kind of table with eight dimensions, so that they run side by side.
macro_rules! kind {
    ($($name:ident $place:literal)*) => { $(
        #[test]
        fn $name() {
            let mut random = Random::seeded(501);
            let (name, rows) = kinds(&mut random).swap_remove($place);
            let mut compare = Compare::new();
            all_calls(&mut compare, &table_bytes(&SIZES, &rows), name, &mut random);
            compare.had(BUILD, &[0, 15]);
            compare.had(EXPAND, &[0, 15]);
        }
    )* };
}

kind! {
    sparse_codes 0
    codes_below_32 1
    codes_below_4 2
    codes_below_3 3
    codes_below_2 4
    clustered 5
    far_pairs 6
    far_eights 7
    one_long_dimension 8
    grid_32_by_32 9
    four_codes_by_seven_twos 10
}

#[test]
fn one_to_four_dimensions() {
    let mut random = Random::seeded(502);
    let mut compare = Compare::new();
    for i in 0..16 {
        let table = random.table(1 + i % 4, ROWS - i / 8);
        all_calls(&mut compare, &table, &format!("table {i}"), &mut random.part());
    }
    compare.had(BUILD, &[0, 15]);
}

#[test]
fn five_to_seven_dimensions() {
    let mut random = Random::seeded(503);
    let mut compare = Compare::new();
    for dims in 5..=7 {
        let table = random.table(dims, ROWS);
        all_calls(&mut compare, &table, &format!("D {dims}"), &mut random.part());
    }
    compare.had(BUILD, &[0, 15]);
}
