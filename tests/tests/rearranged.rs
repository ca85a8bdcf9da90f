//! C-11: a table's bytes with its rows' bytes in another order give the same archive, repeated rows too.
use calls::compare::{hex, subjects, Compare};
use calls::kinds::{kinds, SIZES};
use calls::lent::Lent;
use calls::random::Random;
use calls::write::table_bytes;
use calls::ROWS;

/// The table with its rows' bytes in another order; header and check word stay as they are.
fn rearranged(table: &[u8], dims: usize, random: &mut Random) -> Vec<u8> {
    let (front, last) = (12 + 4 * dims, table.len() - 4);
    let mut rows: Vec<&[u8]> = table[front..last].chunks_exact(4 * dims + 4).collect();
    match random.below(4) {
        0 => rows.reverse(),
        1 => rows.sort(),
        _ => (1..rows.len()).rev().for_each(|at| rows.swap(at, random.place(at + 1))),
    }
    [&table[..front], &rows.concat(), &table[last..]].concat()
}

/// Whatever output is lent, both tables get the same answer and leave the same bytes.
fn alike(table: &[u8], other: &[u8], length: usize, what: &str) {
    for (name, calls) in subjects() {
        for room in [0, length / 2, length - 1, length, length + 1, length + 77] {
            let answer = |s: &[u8]| {
                let mut lent = Lent::new(room, 1);
                let answer = calls.build(s, lent.out());
                let written = lent.written(answer.unwrap_or(0)).unwrap_or_else(|why| panic!("{name}, {what}: {why}")).to_vec();
                (answer, written)
            };
            let first = answer(table);
            assert_eq!(first.0, if length <= room { Ok(length) } else { Err(15) }, "{name}, {what}, an output of {room}");
            assert!(first == answer(other), "{name}, {what}, an output of {room}: another answer\n{}\n{}", hex(table), hex(other));
        }
    }
}

#[test]
fn random_tables_in_other_orders() {
    let mut random = Random::seeded(601);
    let mut compare = Compare::new();
    let mut moved = 0;
    for i in 0..300 {
        let dims = 1 + i % 8;
        let count = random.row_count().min(60);
        let table = random.table(dims, count);
        let archive = compare.table(&table, &format!("table {i}")).unwrap();
        for _ in 0..3 {
            let other = rearranged(&table, dims, &mut random.part());
            moved += usize::from(other != table);
            alike(&table, &other, archive.len(), &format!("table {i} in another order"));
        }
    }
    assert!(moved > 500, "only {moved} tables had another order");
}

#[test]
fn tables_of_1024_rows_in_other_orders() {
    let mut random = Random::seeded(602);
    for (name, rows) in kinds(&mut random) {
        let table = table_bytes(&SIZES, &rows);
        let length = subjects()[0].1.build(&table, &mut vec![0; 7_000_000]).unwrap();
        let other = rearranged(&table, 8, &mut random.part());
        assert_ne!(table, other);
        alike(&table, &other, length, name);
    }
}

/// All rows have the same codes: one base row, and sums at both ends of what 1,024 readings can make.
#[test]
fn one_row_repeated() {
    let mut random = Random::seeded(603);
    let readings: [fn(usize) -> i32; 3] = [|_| i32::MIN, |_| i32::MAX, |i| if i < ROWS / 2 { i32::MAX } else { i32::MIN }];
    for reading in readings {
        let rows: Vec<_> = (0..ROWS).map(|i| (vec![0, 6], reading(i))).collect();
        let table = table_bytes(&[1, 7], &rows);
        let length = subjects()[0].1.build(&table, &mut [0; 200]).unwrap();
        for _ in 0..4 {
            alike(&table, &rearranged(&table, 2, &mut random), length, "one row repeated");
        }
    }
}
