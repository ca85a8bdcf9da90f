//! `cube build` of more records than a table holds, against one naive fold of all of them.
mod command;
mod cube;

use command::{folder, Folder};
use cube::random::Random;
use cube_archive::{Archive, Cell};
use std::collections::BTreeMap;
use std::process::{Command, Stdio};
use std::thread::sleep;
use std::time::{Duration, Instant};

/// Codes and a reading.
type Row = (Vec<u16>, i32);

/// So many records over so many combinations of codes at most.
fn rows(random: &mut Random, count: usize, dims: usize, combinations: u64) -> Vec<Row> {
    let code = |combination: u64, i: usize| (combination >> (2 * i) & 3) as u16 + (combination % 7) as u16;
    let row = |random: &mut Random| {
        let combination = random.below(combinations);
        ((0..dims).map(|i| code(combination, i)).collect(), random.reading())
    };
    (0..count).map(|_| row(random)).collect()
}

fn csv(rows: &[Row], label: impl Fn(usize, u16) -> String) -> String {
    let dims = rows[0].0.len();
    let head: String = (0..dims).map(|i| format!("d{i},")).collect();
    let line = |(codes, reading): &Row| {
        let labels: String = codes.iter().enumerate().map(|(i, &code)| label(i, code) + ",").collect();
        format!("{labels}{reading}\n")
    };
    format!("{head}reading\n") + &rows.iter().map(line).collect::<String>()
}

fn codes(rows: &[Row]) -> String {
    csv(rows, |_, code| code.to_string())
}

/// The base rows: the records with the same codes added up.
fn folded(rows: &[Row]) -> Vec<Cell> {
    let mut folded: BTreeMap<&[u16], (i64, u32)> = BTreeMap::new();
    for (codes, reading) in rows {
        let (sum, count) = folded.entry(codes).or_default();
        (*sum, *count) = (*sum + i64::from(*reading), *count + 1);
    }
    let cell = |(codes, (sum, count)): (&[u16], (i64, u32))| Cell { codes: codes.iter().map(|&code| Some(code)).collect(), sum, count };
    folded.into_iter().map(cell).collect()
}

/// The archive is accepted, so that it is the one that its sizes and base rows give, and these are those of the records.
fn hold(folder: &Folder, name: &str, rows: &[Row]) {
    let archive = Archive::open(folder.read(name)).unwrap();
    let dims = rows[0].0.len();
    let sizes: Vec<u16> = (0..dims).map(|i| 1 + rows.iter().map(|(codes, _)| codes[i]).max().unwrap()).collect();
    assert_eq!(archive.sizes(), sizes);
    assert_eq!(archive.list_cuboid((1 << dims) - 1).unwrap().cells, folded(rows));
}

fn shuffled(random: &mut Random, rows: &[Row]) -> Vec<Row> {
    let mut rows = rows.to_vec();
    for i in (1..rows.len()).rev() {
        rows.swap(i, random.below(i as u64 + 1) as usize);
    }
    rows
}

#[test]
fn against_one_fold() {
    let folder = folder("many_fold");
    for (seed, count) in [1_023, 1_024, 1_025, 2_047, 2_048, 2_049, 5_000].into_iter().enumerate() {
        println!("{count} records");
        let random = &mut Random(seed as u64);
        let rows = rows(random, count, 1 + seed, 900);
        folder.write("x.csv", codes(&rows)).succeeds("build x.csv -o x.cube");
        hold(&folder, "x.cube", &rows);
        assert_eq!(folder.run_on("build - -o piped.cube", codes(&rows).as_bytes()), (Some(0), "".into(), "".into()));
        assert_eq!(folder.read("piped.cube"), folder.read("x.cube"));
    }
}

/// One combination, and as many as there can be.
#[test]
fn few_and_many_combinations() {
    let folder = folder("many_combinations");
    for (dims, combinations) in [(1, 1), (5, 1_024), (8, 1_024)] {
        let rows: Vec<Row> = (0..5_000).map(|i| ((0..dims).map(|d| (i % combinations) >> (2 * d) & 3).collect(), i.into())).collect();
        folder.write("x.csv", codes(&rows)).succeeds("build x.csv -o x.cube");
        assert_eq!(folded(&rows).len(), combinations.into());
        hold(&folder, "x.cube", &rows);
    }
}

#[test]
fn the_same_bytes_in_any_order() {
    let folder = folder("many_order");
    let random = &mut Random(3);
    let rows = rows(random, 5_000, 6, 1_000);
    let label = |i: usize, code: u16| {
        format!("{}{i}", ["x", "ä", "B", "\u{1f980}", "a b"][usize::from(code) % 5].repeat(1 + usize::from(code) / 5))
    };
    folder.write("x.csv", codes(&rows)).succeeds("build x.csv -o x.cube");
    folder.write("x.csv", csv(&rows, label)).succeeds("build x.csv --legend l -o l.cube");
    for i in 0..4 {
        let mut other = shuffled(random, &rows);
        if i == 3 {
            other.sort();
        }
        folder.write("y.csv", codes(&other)).succeeds("build y.csv -o y.cube");
        folder.write("y.csv", csv(&other, label)).succeeds(&format!("build y.csv --legend l{i} -o m.cube"));
        assert_eq!(folder.read("y.cube"), folder.read("x.cube"));
        assert_eq!((folder.read(&format!("l{i}")), folder.read("m.cube")), (folder.read("l"), folder.read("l.cube")));
    }
}

/// A label that comes first in the last part, and a legend that has some of the labels already.
#[test]
fn labels_in_parts() {
    let folder = folder("many_labels");
    folder.write("0.csv", "port:9,chip,late\np,c500,0\n").succeeds("build 0.csv --legend l -o 0.cube");
    let rows: Vec<Row> = (0..3_000).map(|i| (vec![if i == 2_999 { 0 } else { i % 900 + 1 }, i % 3], 1)).collect();
    let lines: String =
        rows.iter().map(|(codes, reading)| format!("c{:03},{},{reading}\n", codes[0], ["p", "q", "r"][usize::from(codes[1])])).collect();
    let (status, out, news) = folder.write("x.csv", format!("chip,port,late\n{lines}")).run("build x.csv --legend l -o x.cube");
    assert_eq!((status, &out[..]), (Some(0), ""));
    assert!(news.contains("new in port: \"q\", \"r\"\n") && news.contains("; its size was 1, now it is 901\n"), "{news}");
    // c500 has code 0, and those before it one more than their number.
    let code = |number: u16| if number == 500 { 0 } else { number + u16::from(number < 500) };
    let coded: Vec<Row> = rows.iter().map(|(codes, reading)| (vec![codes[1], code(codes[0])], *reading)).collect();
    let archive = Archive::open(folder.read("x.cube")).unwrap();
    assert_eq!(archive.sizes(), [9, 901]);
    assert_eq!(archive.list_cuboid(0b11).unwrap().cells, folded(&coded));
    folder.answers("cell x.cube --legend l chip=c000 --csv", "port,chip,sum,count,entry\n*,c000,1,1,600\n");
}

#[test]
fn too_many_combinations() {
    let folder = folder("many_too_many");
    let twice = |combinations: usize| (0..2 * combinations).map(|i| format!("{},{},1\n", i / 2 % 32, i / 64)).collect::<String>();
    folder.write("x.csv", format!("a,b,r\n{}", twice(1_024))).succeeds("build x.csv -o x.cube");
    for (combinations, legend) in [(1_025, ""), (1_025, " --legend l"), (3_000, ""), (3_000, " --legend l")] {
        folder.write("x.csv", format!("a,b,r\n{}", twice(combinations))).write("x.cube", "old");
        let what = "one different combination of codes more than the 1024 that an archive holds";
        folder.fails(&format!("build x.csv -o x.cube{legend}"), &format!("x.csv: line 2050: {what}; in all there are {combinations}"));
        assert_eq!((folder.text("x.cube"), folder.files()), ("old".into(), vec!["x.csv".into(), "x.cube".into()]));
    }
}

/// A column of times, say: there are more labels than codes.
#[test]
fn too_many_labels() {
    let folder = folder("many_times");
    let lines: String = (0..70_000).map(|i| format!("{i},1\n")).collect();
    let what = "one different combination of codes more than the 1024 that an archive holds; so far there are 65535";
    folder.write("x.csv", format!("time,r\n{lines}")).fails("build x.csv --legend l -o x.cube", &format!("x.csv: line 1026: {what}"));
    assert_eq!(folder.files(), ["x.csv"]);
}

#[test]
fn as_many_records_as_an_archive_holds_and_one_more() {
    let folder = folder("many_records");
    let text = |count: usize| format!("a,b,r\n{}", "0,1,2147483647\n1,0,-2147483648\n".repeat(count / 2));
    folder.write("x.csv", text(1_048_576)).succeeds("build x.csv -o x.cube");
    folder.answers("cuboid x.cube 1 --csv", "1,sum,count\n0,1125899906318336,524288\n1,-1125899906842624,524288\n");
    let old = folder.read("x.cube");
    let what = "one record more than the 1048576 that an archive holds; those before it have 2 different combinations of codes";
    let more = text(1_048_576) + "1,1,0\nno record at all\n";
    for legend in ["", " --legend l"] {
        folder.write("x.csv", &more).fails(&format!("build x.csv -o x.cube{legend}"), &format!("x.csv: line 1048578: {what}"));
    }
    let many: String = (0..2_000).map(|i| format!("{i},5,0\n")).collect();
    let what = "one different combination of codes more than the 1024 that an archive holds; so far there are 2002";
    let more = text(1_046_576) + &many + "1,1,0\n";
    folder.write("x.csv", more).fails("build x.csv -o x.cube", &format!("x.csv: line 1047600: {what}"));
    assert_eq!((folder.read("x.cube"), folder.files()), (old, vec!["x.csv".into(), "x.cube".into()]));
}

/// The text is not held, and each record in 32 bytes: 120 MB of addresses are enough, those of the program and of the calls' outputs too.
#[test]
fn a_million_records_in_little_memory() {
    let folder = folder("many_memory");
    let line = |i: u32| format!("{:030},{:030},{:030},{i}\n", i % 10, i / 10 % 10, i / 100 % 10);
    folder.write("x.csv", "a,b,c,r\n".to_string() + &(0..1_000_000).map(line).collect::<String>());
    for legend in ["", "--legend l"] {
        let line = format!("ulimit -v 120000; \"$cube\" build x.csv -o x.cube {legend}");
        let ended = folder.started(Command::new("sh").args(["-c", &line]).env("cube", env!("CARGO_BIN_EXE_cube")), &[]);
        assert_eq!((ended.status.code(), String::from_utf8(ended.stderr).unwrap()), (Some(0), "".into()));
    }
    folder.answers("cell x.cube --legend l --csv", "a,b,c,sum,count,entry\n*,*,*,499999500000,1000000,1000\n");
    std::fs::remove_file(folder.path("x.csv")).unwrap();
}

/// A quote that is never closed takes in neither a long file nor an input without end.
#[test]
fn an_open_quote_in_little_memory() {
    let folder = folder("many_quote");
    folder.write("x.csv", format!("a,r\n0,1\n\"0,1\n{}", "0,1\n".repeat(25_000_000))).write("x.cube", "old");
    let endless = |text: &str, more: &str| format!("{{ printf '{text}'; yes '{more}'; }} | ");
    let quote = "line 3: a quoted field has no closing quote within the 1048576 bytes that a record may have";
    let long = "line 1: this record has more than the 1048576 bytes that a record may have";
    for (input, file, what) in [
        (String::new(), "x.csv", quote),
        (endless("a,r\\n0,1\\n\"0,1\\n", "0,1"), "-", quote),
        (endless("a,r\\n0,1\\n\"0,1\\n", "\"\"\"\""), "-", quote),
        (endless("a", "a") + "tr -d '\\n' | ", "-", long),
    ] {
        for legend in ["", "--legend l"] {
            let line = format!("ulimit -v 30000; {input} \"$cube\" build {file} -o x.cube {legend}");
            let ended = folder.started(Command::new("sh").args(["-c", &line]).env("cube", env!("CARGO_BIN_EXE_cube")), &[]);
            let name = if file == "-" { "standard input" } else { file };
            assert_eq!(String::from_utf8(ended.stderr).unwrap(), format!("cube: {name}: {what}\n"), "{line}");
            assert_eq!(ended.status.code(), Some(1));
        }
    }
    assert_eq!((folder.text("x.cube"), folder.files()), ("old".into(), vec!["x.csv".into(), "x.cube".into()]));
    std::fs::remove_file(folder.path("x.csv")).unwrap();
}

#[test]
fn a_table_has_1024_records() {
    let folder = folder("many_table");
    let text = |count: usize| format!("a,r\n\n{}", "0,1\n".repeat(count));
    folder.write("x.csv", text(1_024)).succeeds("build x.csv --table -o x.table");
    assert_eq!(folder.read("x.table").len(), 20 + 1_024 * 8);
    let what = "a table has at most 1024 rows, and there are 1025; without --table they become an archive, which is built in parts";
    for legend in ["", " --legend l"] {
        folder.write("x.csv", text(1_025)).fails(&format!("build x.csv --table -o y{legend}"), &format!("x.csv: line 1027: {what}"));
    }
    assert_eq!(folder.files(), ["x.csv", "x.table"]);
}

#[test]
fn a_fault_behind_many_records() {
    let folder = folder("many_fault");
    let text = format!("a,b,r\n{}0,x,1\n", "0,1,5\n".repeat(4_000));
    let what = "x.csv: line 4002: \"x\" is no code: a code is a number from 0 to 65534; --legend FILE keeps labels";
    folder.write("x.csv", &text).fails("build x.csv -o x.cube", what);
    folder
        .write("x.csv", text.replace("0,x", "0,\"\n*\","))
        .fails("build x.csv --legend l -o x.cube", "x.csv: line 4002: expected 3 fields parted by commas, found 4");
    folder
        .write("x.csv", text.replace("0,x", "0,*"))
        .fails("build x.csv --legend l -o x.cube", "x.csv: line 4002: the label \"*\" stands for ALL: use another");
    folder
        .write("x.csv", [text.replace("0,x", "0,0").as_bytes(), b"\n0,\xFF,1"].concat())
        .fails("build x.csv -o x.cube", "x.csv: line 4004: this is no UTF-8 text: save the records as CSV in UTF-8");
    let text = text.replace("0,x,1", "0,\"1");
    folder.write("x.csv", text).fails("build x.csv -o x.cube", "x.csv: line 4002: a quoted field has no closing quote");
    assert_eq!(folder.files(), ["x.csv"]);
}

/// Killed while it reads, orders or joins: the file is the old one or the new one.
#[test]
fn a_long_build_that_is_killed_leaves_a_whole_file() {
    let folder = folder("many_killed");
    let rows = rows(&mut Random(9), 200_000, 8, 1_000);
    folder.write("x.csv", codes(&rows)).succeeds("build x.csv -o new.cube");
    let new = folder.read("new.cube");
    let mut old = 0;
    for i in 0..20 {
        folder.write("x.cube", "old");
        let command = &mut Command::new(env!("CARGO_BIN_EXE_cube"));
        let mut child =
            command.args(["build", "x.csv", "-o", "x.cube"]).current_dir(folder.path(".")).stdin(Stdio::null()).spawn().unwrap();
        sleep(Duration::from_millis(10 * i));
        child.kill().unwrap();
        child.wait().unwrap();
        let bytes = folder.read("x.cube");
        old += usize::from(bytes == b"old");
        assert!(bytes == b"old" || bytes == new, "{} bytes after {i} times 10 ms", bytes.len());
    }
    assert!(old > 0, "a build of 200,000 records takes some time");
    assert!(folder.files().iter().all(|name| ["x.csv", "x.cube", "new.cube"].contains(&&name[..]) || name.ends_with(".part")));
}

/// With `script` standard error is a terminal. The records come late, so that a line is due also if the command starts late.
#[test]
fn progress_is_told_on_a_terminal_after_a_second() {
    let folder = folder("many_progress");
    let records = "{ echo a,r; sleep 3; yes 0,1 | head -n 2000; }";
    let on_terminal = |line: &str| {
        let words = ["-qefc", line, "/dev/null"];
        folder.started(Command::new("script").args(words).env("cube", env!("CARGO_BIN_EXE_cube")).env("SHELL", "/bin/sh"), &[])
    };
    if Command::new("script").arg("--version").output().is_err() {
        println!("there is no program script: not tested");
        return;
    }
    let printed = on_terminal(&format!("{records} | \"$cube\" build - -o x.cube"));
    let printed = String::from_utf8(printed.stdout).unwrap();
    assert!(printed.contains("256 records read") && printed.ends_with("\r\u{1b}[K"), "{printed:?}");
    folder.write("x.csv", format!("a,r\n{}", "0,1\n".repeat(2_000)));
    let start = Instant::now();
    let printed = on_terminal("\"$cube\" build x.csv -o x.cube").stdout;
    assert!(printed.is_empty() || start.elapsed() >= Duration::from_secs(1), "{printed:?} in less than a second");
    let piped = folder.started(
        Command::new("sh").args(["-c", &format!("{records} | \"$cube\" build - -o x.cube")]).env("cube", env!("CARGO_BIN_EXE_cube")),
        &[],
    );
    assert_eq!((piped.status.code(), piped.stdout, piped.stderr), (Some(0), vec![], vec![]));
}
