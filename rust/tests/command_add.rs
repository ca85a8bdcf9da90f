//! `cube add`: a late record.
mod command;
mod cube;

use command::{folder, Folder};
use cube::random::Random;
use cube::Records;

fn with(folder: &Folder, name: &str, records: &Records) {
    folder.write(name, records.archive().into_bytes());
}

/// The five rows one by one, from no rows on.
#[test]
fn the_five_rows_one_by_one() {
    let folder = folder("add_five");
    let five = Records::five();
    with(&folder, "0.cube", &Records { sizes: five.sizes.clone(), rows: vec![] });
    for (i, (codes, reading)) in five.rows.iter().enumerate() {
        folder.succeeds(&format!("add {i}.cube {reading} 3={} 1={} 2={} -o {}.cube", codes[2], codes[0], codes[1], i + 1));
    }
    assert_eq!(folder.read("5.cube"), five.archive().as_bytes());
    folder.succeeds("add 5.cube -2147483648 1=0 2=1 3=1 -o 6.cube");
    folder.answers("cell 6.cube 1=0 --csv", "1,2,3,sum,count,entry\n0,*,*,-2147483598,2,0\n");
    assert_eq!(folder.run_on("add - 80 1=6 2=5 3=2 -o piped.cube", &folder.read("4.cube")).0, Some(0));
    assert_eq!(folder.read("piped.cube"), folder.read("5.cube"));
}

#[test]
fn random_records() {
    let folder = folder("add_random");
    for seed in 0..60 {
        println!("seed {seed}");
        let random = &mut Random(seed);
        let mut records = random.records(1 + seed as usize % 8, 30);
        with(&folder, "a.cube", &records);
        let codes: Vec<u16> = records.sizes.iter().map(|&size| random.code(size)).collect();
        let reading = random.reading();
        let words: Vec<String> = codes.iter().enumerate().map(|(i, code)| format!("{}={code}", i + 1)).collect();
        folder.succeeds(&format!("add a.cube {reading} {} -o b.cube", words.join(" ")));
        records.rows.push((codes, reading));
        assert_eq!(folder.read("b.cube"), records.archive().as_bytes());
    }
}

#[test]
fn refusals() {
    let folder = folder("add_refusals");
    with(&folder, "five.cube", &Records::five());
    with(&folder, "full.cube", &Records { sizes: vec![1_025], rows: (0..1_024).map(|code| (vec![code], 1)).collect() });
    folder.write("old", "old").write("bad.cube", "CUBE");
    for (words, start) in [
        ("add bad.cube 1 1=0 -o old", "bad.cube: refused 2: "),
        ("add five.cube 1 1=7 2=1 3=1 -o old", "five.cube: refused 13: "),
        ("add five.cube 1 1=65535 2=1 3=1 -o old", "five.cube: refused 13: "),
        ("add full.cube 1 1=1024 -o old", "full.cube: refused 18: the result has over 1,024 base rows"),
        ("add five.cube 1 1=0 2=1 3=1 -o five.cube", "five.cube: this file is an input"),
    ] {
        let (status, out, error) = folder.run(words);
        assert_eq!((status, &out[..]), (Some(1), ""), "{words}");
        assert!(error.starts_with(&format!("cube: {start}")), "{words}: {error}");
    }
    assert_eq!(folder.text("old"), "old");
}

/// Labels of the legend beside the archive, which the new archive must not lose.
#[test]
fn legends() {
    let folder = folder("add_legends");
    folder.write("x.csv", "chip,port,late\nA,x,1\nB,y,2\n").succeeds("build x.csv --legend x.legend -o x.cube");
    folder.succeeds("add x.cube 5 port=y chip=A --legend x.legend -o late.cube");
    folder.answers("cuboid late.cube chip --legend x.legend --csv", "chip,sum,count\nA,6,2\nB,2,1\n");
    folder
        .fails("add x.cube 5 chip=C port=y -o y.cube", "x.legend: dimension \"chip\" has no label \"C\"; to ask for a code, write 1=CODE");
    folder.write("z.csv", "chip:9,late\nA,1\n").succeeds("build z.csv --legend z.legend -o z.cube");
    folder.fails(
        "add z.cube 5 1=8 --legend z.legend -o late.cube",
        "z.legend: dimension \"chip\" has no label for code 8: a record has a label in each dimension",
    );
    folder.answers("cuboid late.cube chip --legend x.legend --csv", "chip,sum,count\nA,6,2\nB,2,1\n");
    folder.write("y.csv", "chip,port,late\nC,x,1\n").succeeds("build y.csv --legend y.legend -o y.cube");
    folder.fails(
        "add x.cube 5 chip=A port=y -o y.cube",
        "y.legend: it stands beside the new archive, but has other labels: give the archive another name",
    );
}
