//! `cube join`: archives into one.
mod command;
mod cube;

use command::{folder, Folder};
use cube::random::Random;
use cube::Records;
use std::process::Command;

fn with(folder: &Folder, name: &str, records: &Records) {
    folder.write(name, records.archive().into_bytes());
}

/// Records of both, as one table.
fn both(a: &Records, b: &Records) -> Records {
    Records { sizes: a.sizes.clone(), rows: [&a.rows[..], &b.rows[..]].concat() }
}

#[test]
fn the_five_rows_in_two_parts() {
    let folder = folder("join_five");
    let Records { sizes, rows } = Records::five();
    let part = |rows: &[(Vec<u16>, i32)]| Records { sizes: sizes.clone(), rows: rows.to_vec() };
    with(&folder, "a.cube", &part(&rows[..2]));
    with(&folder, "b.cube", &part(&rows[2..]));
    with(&folder, "none.cube", &part(&[]));
    folder
        .succeeds("join a.cube b.cube -o ab.cube")
        .succeeds("join b.cube a.cube -o ba.cube")
        .succeeds("join ab.cube none.cube -o same.cube");
    for name in ["ab.cube", "ba.cube", "same.cube"] {
        assert_eq!(folder.read(name), Records::five().archive().as_bytes(), "{name}");
    }
    folder.succeeds("join ab.cube ab.cube -o twice.cube");
    assert_eq!(folder.read("twice.cube"), both(&Records::five(), &Records::five()).archive().as_bytes());
    assert_eq!(folder.run_on("join - b.cube -o piped.cube", &folder.read("a.cube")).0, Some(0));
    assert_eq!(folder.read("piped.cube"), folder.read("ab.cube"));
    let printed = folder.started(Command::new(env!("CARGO_BIN_EXE_cube")).args(["join", "a.cube", "-"]), &folder.read("b.cube"));
    assert_eq!((printed.status.code(), printed.stdout, printed.stderr), (Some(0), folder.read("ab.cube"), vec![]));
}

#[test]
fn random_tables() {
    let folder = folder("join_random");
    for seed in 0..60 {
        println!("seed {seed}");
        let random = &mut Random(seed);
        let a = random.records(1 + seed as usize % 8, 30);
        let rows = (0..random.below(30)).map(|_| (a.sizes.iter().map(|&size| random.code(size)).collect(), random.reading())).collect();
        let b = Records { sizes: a.sizes.clone(), rows };
        with(&folder, "a.cube", &a);
        with(&folder, "b.cube", &b);
        folder.succeeds("join a.cube b.cube -o ab.cube");
        assert_eq!(folder.read("ab.cube"), both(&a, &b).archive().as_bytes());
    }
}

/// Many parts of one table, in any order.
#[test]
fn many_archives() {
    let folder = folder("join_many");
    for seed in 0..12 {
        println!("seed {seed}");
        let random = &mut Random(seed);
        let all = random.records(1 + seed as usize % 8, 200);
        let mut names: Vec<String> = vec![];
        for part in all.rows.chunks(7) {
            names.insert(random.below(names.len() as u64 + 1) as usize, format!("{}.cube", names.len()));
            with(&folder, &format!("{}.cube", names.len() - 1), &Records { sizes: all.sizes.clone(), rows: part.to_vec() });
        }
        with(&folder, "none.cube", &Records { sizes: all.sizes.clone(), rows: vec![] });
        folder.succeeds(&format!("join none.cube none.cube {} -o all", names.join(" ")));
        assert_eq!(folder.read("all"), all.archive().as_bytes());
    }
}

/// As many records as an archive holds, and one more.
#[test]
fn too_many_records() {
    let folder = folder("join_records");
    let records = |count: usize| Records { sizes: vec![3], rows: vec![(vec![2], -5); count] };
    let full = (0..10).fold(records(1_024).archive(), |half, _| half.join(&half).unwrap());
    folder.write("full.cube", full.as_bytes());
    with(&folder, "none.cube", &records(0));
    with(&folder, "one.cube", &records(1));
    folder.succeeds("join none.cube full.cube none.cube -o same.cube");
    assert_eq!(folder.read("same.cube"), full.as_bytes());
    let what = "there are 1048577 records, and an archive holds 1,048,576; keep it apart";
    folder.fails("join full.cube one.cube", &format!("one.cube: refused 18: together with full.cube {what}"));
    folder.fails(
        "join one.cube none.cube none.cube full.cube",
        &format!("full.cube: refused 18: together with the 3 archives before it {what}"),
    );
}

#[test]
fn refusals() {
    let folder = folder("join_refusals");
    let one = |sizes: &[u16]| Records { sizes: sizes.to_vec(), rows: vec![(vec![0; sizes.len()], 1)] };
    with(&folder, "a.cube", &one(&[2, 2]));
    with(&folder, "b.cube", &one(&[2, 3]));
    with(&folder, "c.cube", &one(&[2, 2, 1]));
    folder.write("old", "old").write("bad.cube", "CUBE");
    let advice = "build both with one legend that already has all labels, or give both headers the same sizes (NAME:SIZE)";
    for (files, other, sizes) in
        [("a.cube b.cube", "b.cube", "2, 3"), ("a.cube c.cube", "c.cube", "2, 2, 1"), ("a.cube a.cube b.cube c.cube", "b.cube", "2, 3")]
    {
        let what = format!("{other}: refused 17: its sizes are {sizes}, those of a.cube are 2, 2; {advice}");
        folder.fails(&format!("join {files} -o old"), &what);
    }
    let row = |i: u16| (vec![i], 1);
    let rows = |codes: std::ops::Range<u16>| Records { sizes: vec![1_025], rows: codes.map(row).collect() };
    with(&folder, "d.cube", &rows(0..1_000));
    with(&folder, "e.cube", &rows(990..1_024));
    with(&folder, "f.cube", &rows(1_024..1_025));
    folder.succeeds("join d.cube e.cube d.cube e.cube -o de.cube");
    let what = "more than the 1,024 different combinations of codes that an archive holds; keep it apart";
    folder.fails("join de.cube f.cube -o old", &format!("f.cube: refused 18: together with de.cube there are {what}"));
    folder.fails(
        "join d.cube f.cube e.cube d.cube -o old",
        &format!("e.cube: refused 18: together with the 2 archives before it there are {what}"),
    );
    for words in ["join bad.cube a.cube -o old", "join a.cube bad.cube -o old", "join a.cube b.cube bad.cube -o old"] {
        let (status, out, error) = folder.run(words);
        assert_eq!((status, &out[..]), (Some(1), ""), "{words}");
        assert!(error.starts_with("cube: bad.cube: refused 2: "), "{words}: {error}");
    }
    let what = "this file is an input and stays as it is: write to another one";
    folder.fails("join a.cube a.cube -o a.cube", &format!("a.cube: {what}"));
    folder.fails("join a.cube a.cube -o ./a.cube", &format!("./a.cube: {what}"));
    assert_eq!(folder.text("old"), "old");
}

/// A legend with room is extended twice, at one site after the other; the archives are joined and read with it.
#[test]
fn legends_extended_twice_and_joined() {
    let folder = folder("join_legends");
    let header = "chip:9,port:9,late\n";
    let sites = ["A,x,1\nB,y,2\n", "C,x,3\nB,y,4\n", "A,z,5\nD,y,6\n"];
    for (lines, site) in sites.iter().zip(1..) {
        folder.write("x.csv", format!("{header}{lines}"));
        assert_eq!(folder.run(&format!("build x.csv --legend l -o {site}.cube")).0, Some(0));
    }
    folder.succeeds("join 1.cube 2.cube --legend l -o 12.cube").succeeds("join 12.cube 3.cube --legend l -o 123.cube");
    folder.answers("cuboid 123.cube --legend l chip --csv", "chip,sum,count\nA,6,2\nB,6,2\nC,3,1\nD,6,1\n");
    folder.write("x.csv", format!("{header}{}", sites.concat())).succeeds("build x.csv --legend l -o all.cube");
    assert_eq!(folder.read("123.cube"), folder.read("all.cube"));
    folder.succeeds("join 3.cube 1.cube 2.cube --legend l -o 312.cube");
    assert_eq!(folder.read("312.cube"), folder.read("all.cube"));
}

/// A legend that grew from one part to the next: the parts have other sizes, until they are built with all its labels.
#[test]
fn a_legend_that_grew_between_the_parts() {
    let folder = folder("join_grew");
    folder.write("1.csv", "chip,late\nA,1\n").write("2.csv", "chip,late\nB,2\n");
    folder.succeeds("build 1.csv --legend l -o 1.cube");
    assert_eq!(folder.run("build 2.csv --legend l -o 2.cube").0, Some(0));
    let advice = "build both with one legend that already has all labels, or give both headers the same sizes (NAME:SIZE)";
    folder.fails(
        "join 1.cube 2.cube --legend l -o 12.cube",
        &format!("2.cube: refused 17: its sizes are 2, those of 1.cube are 1; {advice}"),
    );
    folder.succeeds("build 1.csv --legend l -o 1.cube").succeeds("join 1.cube 2.cube --legend l -o 12.cube");
    folder.answers("cuboid 12.cube --legend l chip --csv", "chip,sum,count\nA,1,1\nB,2,1\n");
}

/// Two copies of a legend that grew apart.
#[test]
fn legends_that_do_not_agree() {
    let folder = folder("join_apart");
    for (name, lines) in [("a", "A,1\nB,2\n"), ("b", "A,1\nC,2\n"), ("c", "A,3\n")] {
        folder.write("x.csv", format!("chip:5,late\n{lines}")).succeeds(&format!("build x.csv --legend {name}.legend -o {name}.cube"));
    }
    folder.fails(
        "join a.cube b.cube -o x.cube",
        "a.legend: its codes have other labels in b.legend: both archives need one legend, --legend FILE",
    );
    // c agrees with each of them.
    folder.fails(
        "join c.cube b.cube a.cube -o x.cube",
        "b.legend: its codes have other labels in a.legend: both archives need one legend, --legend FILE",
    );
    folder.succeeds("join a.cube c.cube -o ac.cube");
    folder.answers("cuboid ac.cube chip --legend a.legend --csv", "chip,sum,count\nA,4,2\nB,2,1\n");
    folder.write("y.csv", "chip:5,late\n0,1\n").succeeds("build y.csv -o y.cube");
    let what = "a.legend: y.cube has no legend beside it: both archives need one, --legend FILE";
    folder.fails("join a.cube y.cube -o x.cube", what);
    folder.fails("join y.cube a.cube -o x.cube", what);
    let what = "b.legend: it stands beside the new archive, but has other labels: give the archive another name";
    folder.fails("join a.cube c.cube -o b.cube", what);
    let what = "b.legend: it would be taken for the legend of the new archive: give it with --legend, or give the archive another name";
    folder.fails("join y.cube y.cube -o b.cube", what);
}
