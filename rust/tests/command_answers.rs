//! What `cube` answers about archives, by numbers of dimensions and codes.
mod command;
mod cube;

use command::{folder, Folder};
use cube::Records;
use cube_archive::{Cell, Code};

fn five(name: &str) -> Folder {
    let folder = folder(name);
    folder.write("five.cube", Records::five().archive().into_bytes());
    folder
}

fn with(folder: &Folder, name: &str, records: &Records) {
    folder.write(name, records.archive().into_bytes());
}

/// Every pair of codes 0 and 1, with readings below zero at first code 0.
fn four() -> Records {
    let rows = [(0, 0, -5), (0, 1, -6), (1, 0, 7), (1, 1, 8)].map(|(a, b, reading)| (vec![a, b], reading));
    Records { sizes: vec![2, 2], rows: rows.to_vec() }
}

fn empty() -> Records {
    Records { sizes: vec![1, 1], rows: vec![] }
}

/// The cells as CSV, from the rows.
fn csv(dims: usize, cells: &[Cell]) -> String {
    let head: Vec<String> = (1..=dims).map(|i| i.to_string()).collect();
    let code = |code: &Code| code.map_or("*".into(), |code| code.to_string());
    let line = |cell: &Cell| format!("{},{},{}\n", cell.codes.iter().map(code).collect::<Vec<_>>().join(","), cell.sum, cell.count);
    format!("{},sum,count\n", head.join(",")) + &cells.iter().map(line).collect::<String>()
}

#[test]
fn the_entries_are_counted() {
    let folder = five("check");
    with(&folder, "four.cube", &four());
    with(&folder, "one.cube", &Records { sizes: vec![2], rows: vec![(vec![1], 5)] });
    with(&folder, "empty.cube", &empty());
    folder.answers("check five.cube", "5 base entries, 5 normal entries\n");
    folder.answers("check four.cube", "4 base entries, 5 normal entries\n");
    folder.answers("check one.cube", "1 base entry, 0 normal entries\n");
    folder.answers("check empty.cube", "0 base entries, 1 normal entry\n");
    folder.answers("check --csv five.cube", "base entries,normal entries\n5,5\n");
}

#[test]
fn a_cell_is_looked_up() {
    let folder = five("cell");
    with(&folder, "four.cube", &four());
    folder.answers("cell five.cube 2=5 3=1", "1  2  3  sum  count  entry\n*  5  1   70      1      3\n");
    folder.answers("cell five.cube 3=1 2=5 --csv", "1,2,3,sum,count,entry\n*,5,1,70,1,3\n");
    folder.answers("cell five.cube --csv 2=1", "1,2,3,sum,count,entry\n*,1,*,150,2,6\n");
    folder.answers("cell five.cube --csv", "1,2,3,sum,count,entry\n*,*,*,360,5,5\n");
    folder.answers("cell --csv five.cube 1=6 2=5 3=2", "1,2,3,sum,count,entry\n6,5,2,80,1,4\n");
    folder.answers("cell --csv five.cube 1=* 2=05 3=1", "1,2,3,sum,count,entry\n*,5,1,70,1,3\n");
    folder.answers("cell four.cube 1=0", "1  2  sum  count  entry\n0  *  -11      2      5\n");
}

#[test]
fn no_record_is_an_answer() {
    let folder = five("no_record");
    folder.answers("cell five.cube 1=0 2=3", "1  2  3\n0  3  *  no record\n");
    folder.answers("cell five.cube 1=6 2=5 3=1 --csv", "1,2,3,sum,count,entry\n6,5,1,,,\n");
}

#[test]
fn a_cuboid_has_a_line_for_each_cell() {
    let folder = five("cuboid");
    folder.answers("cuboid five.cube 2", "2  sum  count\n1  150      2\n3   60      1\n5  150      2\n");
    folder.answers("cuboid five.cube 3,2 --csv", "2,3,sum,count\n1,1,150,2\n3,1,60,1\n5,1,70,1\n5,2,80,1\n");
    folder.answers("cuboid five.cube 2,2,2 --csv", "2,sum,count\n1,150,2\n3,60,1\n5,150,2\n");
    folder.answers("cuboid five.cube", "sum  count\n360      5\n");
    assert_eq!(folder.run_words(&["cuboid", "five.cube", "", "--csv"], &[]), (Some(0), "sum,count\n360,5\n".into(), "".into()));
}

#[test]
fn the_expansion_has_a_line_for_each_of_30_cells() {
    let cells: Vec<Cell> = Records::five().cube().into_iter().flat_map(|cuboid| cuboid.cells).collect();
    assert_eq!(cells.len(), 30);
    let folder = five("expand");
    folder.answers("expand five.cube --csv", &csv(3, &cells));
    let (_, printed, _) = folder.run("expand five.cube");
    assert_eq!(printed.lines().count(), 31);
    assert!(printed.starts_with("1  2  3  sum  count\n*  *  *  360      5\n0  *  *   50      1\n"), "{printed}");
}

#[test]
fn a_key_is_a_list_of_dimensions() {
    let folder = five("keys");
    with(&folder, "four.cube", &four());
    with(&folder, "one.cube", &Records { sizes: vec![2, 2], rows: vec![(vec![1, 0], 5)] });
    let last = Records { sizes: vec![2; 8], rows: vec![(vec![0; 8], 5), ([vec![0; 7], vec![1]].concat(), 5)] };
    with(&folder, "last.cube", &last);
    folder.answers("keys five.cube", "key\n1\n");
    folder.answers("keys four.cube", "key\n1,2\n");
    folder.answers("keys four.cube --csv", "key\n\"1,2\"\n");
    folder.answers("keys one.cube", "key\n(none)\n");
    folder.answers("keys one.cube --csv", "key\n\n");
    folder.answers("keys last.cube", "key\n8\n");
}

#[test]
fn a_set_fixes_a_dimension_or_does_not() {
    let folder = five("fixes");
    folder.answers("fixes five.cube 2 3", "no\n");
    folder.answers("fixes five.cube 1 3", "yes\n");
    folder.answers("fixes five.cube 3,2 3 --csv", "set,dimension,fixes\n\"2,3\",3,yes\n");
    assert_eq!(folder.run_words(&["fixes", "five.cube", "", "1"], &[]), (Some(0), "no\n".into(), "".into()));
}

#[test]
fn totals_stand_beside_the_grand_total() {
    let folder = five("totals");
    let lone = Records { sizes: vec![2; 8], rows: vec![(vec![1; 8], i32::MIN); 1_024] };
    with(&folder, "lone.cube", &lone);
    with(&folder, "empty.cube", &empty());
    let head = "dimension  cells  sum  count  sum in all  count in all  equal\n";
    folder.answers("totals five.cube 2", &format!("{head}2              3  360      5         360             5    yes\n"));
    let csv = "dimension,cells,sum,count,sum in all,count in all,equal\n";
    folder.answers("totals five.cube --csv", &format!("{csv}1,5,360,5,360,5,yes\n2,3,360,5,360,5,yes\n3,2,360,5,360,5,yes\n"));
    folder.answers("totals five.cube --csv 3 1", &format!("{csv}3,2,360,5,360,5,yes\n1,5,360,5,360,5,yes\n"));
    folder.answers("totals lone.cube 8 --csv", &format!("{csv}8,1,-2199023255552,1024,-2199023255552,1024,yes\n"));
    folder.answers("totals empty.cube --csv", &format!("{csv}1,0,0,0,0,0,yes\n2,0,0,0,0,0,yes\n"));
}

#[test]
fn a_fee_is_shared() {
    let folder = five("fee");
    with(&folder, "empty.cube", &empty());
    folder.answers("fee five.cube 101 2", "2  count  cents\n1      2     41\n3      1     20\n5      2     40\n");
    folder.answers("fee five.cube 0 3 --csv", "3,count,cents\n1,4,0\n2,1,0\n");
    folder.answers("fee five.cube 1000000000 --csv", "count,cents\n5,1000000000\n");
    folder.answers("fee five.cube 99 1,2,3 --csv", "1,2,3,count,cents\n0,1,1,1,20\n1,1,1,1,20\n2,3,1,1,20\n4,5,1,1,20\n6,5,2,1,19\n");
    for cents in ["1000000001", "4294967295", "4294967296", "99999999999999999999"] {
        let stop = "five.cube: refused 23: the fee is above 1,000,000,000 cents; share a smaller fee";
        folder.fails(&format!("fee five.cube {cents} 2"), stop);
    }
    folder.fails("fee empty.cube 1", "empty.cube: refused 24: the archive has no base row; there is no record to share a fee by");
}

#[test]
fn an_archive_without_rows() {
    let folder = folder("without_rows");
    with(&folder, "empty.cube", &empty());
    folder.answers("cell empty.cube --csv", "1,2,sum,count,entry\n*,*,0,0,0\n");
    folder.answers("cell empty.cube 1=0", "1  2\n0  *  no record\n");
    folder.answers("cuboid empty.cube", "sum  count\n  0      0\n");
    folder.answers("cuboid empty.cube 1,2", "1  2  sum  count\n");
    folder.answers("expand empty.cube", "1  2  sum  count\n*  *    0      0\n");
}

/// The largest code is answered; the values above it are refused and neither become ALL nor a small code.
#[test]
fn the_largest_code() {
    let folder = folder("largest");
    with(&folder, "x.cube", &Records { sizes: vec![65_535], rows: vec![(vec![65_534], -7), (vec![0], 9)] });
    folder.answers("cell x.cube 1=65534 --csv", "1,sum,count,entry\n65534,-7,1,1\n");
    folder.answers("cell x.cube 1=* --csv", "1,sum,count,entry\n*,2,2,2\n");
    let what =
        "the question, record or window has not one code for each of its dimensions, or a code that is not below its dimension's size";
    for code in ["65535", "65536", "4294967295", "4294967296", "99999999999999999999"] {
        folder.fails(&format!("cell x.cube 1={code}"), &format!("x.cube: refused 13: {what}; the sizes are 65535"));
    }
}

#[test]
fn the_archive_comes_from_standard_input() {
    let archive = Records::five().archive().into_bytes();
    let folder = folder("standard_input");
    assert_eq!(folder.run_on("cuboid - 2", &archive), five("standard_input_file").run("cuboid five.cube 2"));
    let stop = "cube: standard input: refused 2: the file ends before the last byte of a field that its earlier fields demand; the file was cut short, take another copy\n";
    assert_eq!(folder.run_on("check -", &archive[..320]), (Some(1), "".into(), stop.into()));
}

#[test]
fn wrong_dimensions() {
    let folder = five("wrong_dimensions");
    for dimension in ["0", "00", "4", "8", "9", "33", "4294967297", "99999999999999999999", "chip", "-1", "1 "] {
        let error = format!(
            "cube: five.cube: there is no dimension {dimension:?}: the dimensions are 1 to 3; names are in a legend, --legend FILE\n"
        );
        let question = format!("{dimension}=1");
        for words in [vec!["cuboid", "five.cube", dimension], vec!["totals", "five.cube", dimension], vec!["cell", "five.cube", &question]]
        {
            if dimension != "-1" {
                assert_eq!(folder.run_words(&words, &[]), (Some(1), "".into(), error.clone()));
            }
        }
        for words in [["fixes", "--", "five.cube", "1", dimension], ["fixes", "--", "five.cube", dimension, "1"]] {
            assert_eq!(folder.run_words(&words, &[]), (Some(1), "".into(), error.clone()));
        }
    }
    assert!(folder.run("cuboid five.cube 1,").2.contains("there is no dimension \"\""));
}
