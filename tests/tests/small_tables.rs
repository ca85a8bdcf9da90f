//! C-23: the program's tallies of all the small tables, held to the model's and to the library's.
use calls::calls::Calls;
use calls::compare::subjects;
use calls::model::small::{codes, count, line};
use calls::printed::{check, same};
use calls::program::Program::SmallTables;
use std::collections::BTreeSet;

/// By hand for D 1 and 2: the lines of document 02.
const FIRST: &str = "1 1 3 3 1\n2 1 5 3 2 4 4 6 4 9 1\n";

#[test]
fn the_program_prints_the_tallies_of_the_model() {
    let printed = check(SmallTables, &[], "no input");
    assert!(printed.starts_with(FIRST.as_bytes()));
    assert_eq!(printed.iter().filter(|&&byte| byte == b'\n').count(), 3);
}

/// Each table built, and its entries counted by a check.
#[test]
fn the_library_counts_the_same_entries() {
    let printed = SmallTables.prints(&[]);
    for (name, calls) in subjects() {
        let lines: String = (1..=3).map(|dims| line(dims, |table| entries(calls, table))).collect();
        same(SmallTables, &printed, lines.as_bytes(), name);
    }
}

fn entries(calls: &dyn Calls, table: &[u8]) -> u32 {
    let mut out = [0; 1_000];
    let length = calls.build(table, &mut out).unwrap();
    let (bases, normals) = calls.check(&out[..length]).unwrap();
    bases + normals
}

/// Whatever stands on standard input stays unread.
#[test]
fn the_input_does_not_matter() {
    let printed = SmallTables.prints(&[]);
    for input in [&b"3\n"[..], b"FACT", &[0; 100_000]] {
        same(SmallTables, &SmallTables.prints(input), &printed, "some input");
    }
    same(SmallTables, &SmallTables.prints_with_stack(1_024, &[]), &printed, "a stack of 1 MiB");
}

/// All rows of so many codes below 2.
fn digits(dims: usize) -> Vec<Vec<u32>> {
    match dims {
        0 => vec![vec![]],
        _ => digits(dims - 1).iter().flat_map(|row| [0, 1].map(|code| [&row[..], &[code]].concat())).collect(),
    }
}

/// All lists of such rows that rise strictly, found row by row, are the tables' codes, each once.
#[test]
fn no_table_is_missed() {
    for dims in 1..=3 {
        let mut rising: Vec<Vec<Vec<u32>>> = vec![vec![]];
        let mut at = 0;
        while at < rising.len() {
            let rows = rising[at].clone();
            let later = digits(dims).into_iter().filter(|row| rows.last().is_none_or(|last| last < row));
            rising.extend(later.map(|row| [&rows[..], &[row]].concat()));
            at += 1;
        }
        let tables: Vec<_> = (0..count(dims)).map(|t| codes(dims, t)).collect();
        assert_eq!(tables.len(), rising.len());
        assert_eq!(tables.into_iter().collect::<BTreeSet<_>>(), rising.into_iter().collect());
    }
}
