//! `cube build`: CSV to archives and tables, and how it ends.
mod command;
mod cube;

use command::folder;
use cube::Records;

const FIVE: &str = include_str!("../../examples/five-rows.csv");

#[test]
fn the_five_rows() {
    let folder = folder("build_five");
    folder.write("five.csv", FIVE).succeeds("build five.csv -o five.cube").succeeds("build --table five.csv -o five.table");
    assert_eq!(folder.read("five.cube"), Records::five().archive().as_bytes());
    assert_eq!(folder.read("five.table"), Records::five().table());
    assert_eq!(folder.text("five.csv"), FIVE);
    assert_eq!(folder.files(), ["five.csv", "five.cube", "five.table"]);
}

#[test]
fn between_pipes() {
    let folder = folder("build_pipes");
    let output = folder.started(std::process::Command::new(env!("CARGO_BIN_EXE_cube")).args(["build", "-"]), FIVE.as_bytes());
    assert_eq!((output.status.code(), output.stdout, output.stderr), (Some(0), Records::five().archive().into_bytes(), vec![]));
    assert_eq!(folder.run_on("build - -o five.cube", FIVE.as_bytes()), (Some(0), "".into(), "".into()));
    assert_eq!(folder.read("five.cube"), Records::five().archive().as_bytes());
}

/// A quarter without a record.
#[test]
fn a_header_alone() {
    let folder = folder("build_header");
    folder.write("x.csv", "chip:7,port,reading\n").succeeds("build x.csv -o x.cube");
    assert_eq!(folder.read("x.cube"), Records { sizes: vec![7, 1], rows: vec![] }.archive().as_bytes());
}

/// Rows in any order and the reading in any column.
#[test]
fn the_same_records_in_another_order() {
    let folder = folder("build_order");
    folder.write("a.csv", "a,b,r\n0,1,5\n2,0,-7\n0,1,9\n").write("b.csv", "r,a,b\n9,0,1\n5,0,1\n-7,2,0\n");
    folder.succeeds("build a.csv -o a.cube").succeeds("build b.csv --reading r -o b.cube");
    assert_eq!(folder.read("a.cube"), folder.read("b.cube"));
}

#[test]
fn faults_are_named_with_file_and_line() {
    let folder = folder("build_faults");
    for (text, what) in [
        (
            "chip,port,reading\n0,1,50\n0,one,50\n",
            "line 3: \"one\" is no code: a code is a number from 0 to 65534; --legend FILE keeps labels",
        ),
        ("chip,port,reading\n\n0,50\n", "line 3: expected 3 fields parted by commas, found 2"),
        ("chip,port,reading\n0,\"1,50\n", "line 2: a quoted field has no closing quote"),
        (
            "chip;port;reading\n0;1;50\n",
            "line 1: there is one column only: commas part the columns, one to eight dimensions and the reading",
        ),
        ("", "line 1: there is no header: the first line names the columns"),
    ] {
        folder.write("x.csv", text).write("x.cube", "old").fails("build x.csv -o x.cube", &format!("x.csv: {what}"));
        assert_eq!(folder.text("x.cube"), "old");
        assert_eq!(folder.run_on("build -", text.as_bytes()).2, format!("cube: standard input: {what}\n"));
    }
    folder.write("x.csv", b"a,r\n\xFF,1\n");
    folder.fails("build x.csv", "x.csv: line 2: this is no UTF-8 text: save the records as CSV in UTF-8");
    folder.fails("build .", ".: line 1: Is a directory (os error 21)");
    folder
        .write("x.csv", "a,b,r\n")
        .fails("build x.csv --reading c", "x.csv: line 1: no column is named \"c\", which was to be the reading");
}
