//! Every command on random tables, against brute force over the rows; and CSV to archive.
mod command;
mod cube;

use command::{folder, Folder};
use cube::random::Random;
use cube::Records;
use cube_archive::{Code, Cuboid};

/// What a command prints.
fn printed(folder: &Folder, words: &str) -> String {
    let (status, out, error) = folder.run(words);
    assert_eq!((status, &error[..]), (Some(0), ""), "cube {words}");
    out
}

fn join(fields: impl Iterator<Item = String>) -> String {
    fields.collect::<Vec<_>>().join(",")
}

fn code(code: Code) -> String {
    code.map_or("*".into(), |code| code.to_string())
}

/// The dimensions of a set, by number.
fn dimensions(records: &Records, set: u32) -> impl Iterator<Item = usize> {
    (1..=records.dims()).filter(move |i| set >> (i - 1) & 1 == 1)
}

/// The records as CSV, with the reading in the first column.
fn csv(records: &Records) -> String {
    let head = join(records.sizes.iter().zip(1..).map(|(size, i)| format!("d{i}:{size}")));
    let line = |(codes, reading): &(Vec<u16>, i32)| format!("{reading},{}\n", join(codes.iter().map(u16::to_string)));
    format!("reading,{head}\n") + &records.rows.iter().map(line).collect::<String>()
}

fn cuboid_csv(records: &Records, cuboid: &Cuboid) -> String {
    let head = dimensions(records, cuboid.set).map(|i| i.to_string()).chain(["sum".into(), "count".into()]);
    let lines = cuboid.cells.iter().map(|cell| {
        let codes = cell.codes.iter().filter(|code| code.is_some()).map(|&one| code(one));
        join(codes.chain([cell.sum.to_string(), cell.count.to_string()])) + "\n"
    });
    join(head) + "\n" + &lines.collect::<String>()
}

fn hold(folder: &Folder, records: &Records, random: &mut Random) {
    folder.write("x.csv", csv(records)).succeeds("build x.csv --reading reading -o x.cube");
    let archive = records.archive();
    assert_eq!(folder.read("x.cube"), archive.as_bytes());
    let counts = archive.check().unwrap();
    assert_eq!(printed(folder, "check x.cube --csv"), format!("base entries,normal entries\n{},{}\n", counts.bases, counts.normals));
    let set = random.below(1 << records.dims()) as u32;
    let cuboid = records.cuboid(set);
    let word = join(dimensions(records, set).map(|i| i.to_string()));
    let words = |command: &str| format!("{command} {word} --csv");
    assert_eq!(printed(folder, &words("cuboid x.cube")), cuboid_csv(records, &cuboid));
    assert_eq!(
        printed(folder, "expand x.cube --csv").lines().count(),
        1 + records.cube().iter().map(|cuboid| cuboid.cells.len()).sum::<usize>()
    );
    if !records.rows.is_empty() {
        let fee = random.below(1_000_000_001);
        let shares = printed(folder, &words(&format!("fee x.cube {fee}")));
        let cents = shares.lines().skip(1).map(|line| line.rsplit(',').next().unwrap().parse::<u64>().unwrap());
        assert_eq!((shares.lines().count() - 1, cents.sum()), (cuboid.cells.len(), fee));
    }
    for _ in 0..3 {
        let question = random.question(&records.sizes);
        let asked = question.iter().zip(1..).filter_map(|(code, i)| code.map(|code| format!(" {i}={code}")));
        let line = printed(folder, &format!("cell x.cube --csv{}", asked.collect::<String>()));
        let answer = records.total(&question).map_or(",".into(), |(sum, count)| format!("{sum},{count}"));
        assert_eq!(line.lines().nth(1).unwrap().rsplit_once(',').unwrap().0, format!("{},{answer}", join(question.into_iter().map(code))));
    }
    for line in printed(folder, "totals x.cube --csv").lines().skip(1) {
        let (sum, count) = records.total(&vec![None; records.dims()]).unwrap();
        assert!(line.ends_with(&format!(",{sum},{count},{sum},{count},yes")), "{line}");
    }
    for key in archive.smallest_keys().unwrap() {
        let key = join(dimensions(records, key).map(|i| i.to_string()));
        assert!(printed(folder, "keys x.cube --csv").lines().any(|line| line.trim_matches('"') == key));
        for i in (1..=records.dims()).filter(|_| !key.is_empty()) {
            folder.answers(&format!("fixes x.cube {key} {i}"), "yes\n");
        }
    }
    let page = printed(folder, "report x.cube");
    assert!(page.contains("All five points are right.") && page.matches("&#10003; equal").count() == records.dims(), "{page}");
}

#[test]
fn random_tables() {
    let folder = folder("random_tables");
    for seed in 0..40 {
        println!("seed {seed}");
        let random = &mut Random(seed);
        let records = random.records(1 + seed as usize % 8, 30);
        hold(&folder, &records, random);
    }
}

#[test]
fn random_tables_with_many_rows() {
    let folder = folder("random_tables_with_many_rows");
    for seed in 100..104 {
        println!("seed {seed}");
        let random = &mut Random(seed);
        let records = random.records(2 + 2 * (seed as usize % 4), 1_024);
        hold(&folder, &records, random);
    }
}
