//! Files that `cube` writes: whole or not at all, and never an input. The limit on a file's size stands in for a full disk: with
//! the signal ignored the write fails, and otherwise it kills the process in the middle of the write.
mod command;

use command::{folder, Folder};
use std::fs::{self, Permissions};
use std::os::unix::fs::{symlink, PermissionsExt};
use std::os::unix::process::ExitStatusExt;
use std::process::{Command, Output, Stdio};
use std::thread::sleep;
use std::time::Duration;

const CUBE: &str = env!("CARGO_BIN_EXE_cube");
const FIVE: &str = include_str!("../../examples/five-rows.csv");

/// 1,024 records whose codes all differ, and an archive of 84,112 bytes.
fn many() -> String {
    let line = |i: u32| format!("{}{}\n", format!("{i},").repeat(8), i * 1_000_000);
    "a,b,c,d,e,f,g,h,reading\n".to_string() + &(0..1_024).map(line).collect::<String>()
}

/// What a line of the shell does, in the folder; `$cube` is the command.
fn shell(folder: &Folder, line: &str) -> Output {
    folder.started(Command::new("sh").arg("-c").arg(line).env("cube", CUBE), &[])
}

fn archive(csv: &str, folder: &Folder) -> Vec<u8> {
    shell(folder.write("wanted.csv", csv), "\"$cube\" build wanted.csv; rm wanted.csv").stdout
}

#[test]
fn a_file_is_replaced() {
    let folder = folder("replaced");
    let wanted = archive(FIVE, &folder);
    folder.write("x.csv", FIVE).write("x.cube", "old").succeeds("build x.csv -o x.cube");
    assert_eq!(folder.read("x.cube"), wanted);
    folder.write("x.txt", "old").succeeds("cuboid x.cube 2 -o x.txt");
    assert_eq!(folder.text("x.txt"), "2  sum  count\n1  150      2\n3   60      1\n5  150      2\n");
    assert_eq!(folder.files(), ["x.csv", "x.cube", "x.txt"]);
}

#[test]
fn its_permissions_stay() {
    let folder = folder("permissions");
    folder.write("x.csv", FIVE).write("x.cube", "old");
    fs::set_permissions(folder.path("x.cube"), Permissions::from_mode(0o600)).unwrap();
    folder.succeeds("build x.csv -o x.cube");
    assert_eq!(fs::metadata(folder.path("x.cube")).unwrap().permissions().mode() & 0o777, 0o600);
}

#[test]
fn a_link_stays_and_its_file_is_replaced() {
    let folder = folder("links");
    symlink("x.cube", folder.path("link.cube")).unwrap();
    folder.write("x.csv", FIVE).write("x.cube", "old").succeeds("build x.csv -o link.cube");
    assert!(fs::symlink_metadata(folder.path("link.cube")).unwrap().is_symlink());
    assert_eq!(folder.read("x.cube"), archive(FIVE, &folder));
}

#[test]
fn an_input_is_never_written() {
    let folder = folder("inputs");
    folder.write("x.csv", FIVE).succeeds("build x.csv -o x.cube");
    let wanted = folder.read("x.cube");
    symlink("x.csv", folder.path("soft.csv")).unwrap();
    fs::hard_link(folder.path("x.csv"), folder.path("hard.csv")).unwrap();
    fs::create_dir(folder.path("sub")).unwrap();
    let what = "this file is an input and stays as it is: write to another one";
    for output in ["x.csv", "./x.csv", "sub/../x.csv", "soft.csv", "hard.csv"] {
        folder.fails(&format!("build x.csv -o {output}"), &format!("{output}: {what}"));
    }
    for words in
        ["cell x.cube", "check x.cube", "cuboid x.cube 1", "expand x.cube", "list x.cube", "keys x.cube", "totals x.cube", "report x.cube"]
    {
        folder.fails(&format!("{words} -o x.cube"), &format!("x.cube: {what}"));
    }
    let output = shell(&folder, "\"$cube\" build - -o x.csv <x.csv");
    assert_eq!((output.status.code(), String::from_utf8(output.stderr).unwrap()), (Some(1), format!("cube: x.csv: {what}\n")));
    assert_eq!((folder.text("x.csv"), folder.read("x.cube")), (FIVE.into(), wanted));
    assert_eq!(folder.files(), ["hard.csv", "soft.csv", "sub", "x.csv", "x.cube"]);
}

#[test]
fn what_is_no_plain_file_is_not_written() {
    let folder = folder("no_plain_file");
    fs::create_dir(folder.path("sub")).unwrap();
    for output in ["sub", "/dev/null", "/dev/full"] {
        let what = format!("{output}: this is no plain file; without -o the result goes to standard output");
        folder.write("x.csv", FIVE).fails(&format!("build x.csv -o {output}"), &what);
    }
    assert!(folder.run("build x.csv -o none/x.cube").2.starts_with("cube: none/x.cube: No such file"));
    assert_eq!(folder.files(), ["sub", "x.csv"]);
}

#[test]
fn a_full_disk_leaves_the_old_file() {
    let folder = folder("full_disk");
    folder.write("x.csv", many()).write("x.cube", "old");
    let output = shell(&folder, "trap '' XFSZ; ulimit -f 20; \"$cube\" build x.csv -o x.cube");
    assert_eq!(output.status.code(), Some(1));
    assert!(output.stderr.starts_with(b"cube: x.cube: File too large"), "{}", output.stderr.escape_ascii());
    assert_eq!((folder.text("x.cube"), folder.files()), ("old".into(), vec!["x.csv".into(), "x.cube".into()]));
    let output = shell(&folder, "\"$cube\" build x.csv >/dev/full");
    assert_eq!(output.status.code(), Some(1));
    assert!(output.stderr.starts_with(b"cube: standard output: No space left"), "{}", output.stderr.escape_ascii());
}

/// What was written so far stays behind, under a name that tells, and is in nobody's way.
#[test]
fn a_process_killed_while_it_writes_leaves_the_old_file() {
    let folder = folder("killed_writing");
    folder.write("x.csv", many()).write("x.cube", "old");
    let output = shell(&folder, "ulimit -c 0; ulimit -f 20; exec \"$cube\" build x.csv -o x.cube");
    assert_eq!(folder.text("x.cube"), "old");
    if output.status.signal().is_none() {
        // Whoever started the tests ignores the signal: the write fails, as on a full disk.
        assert_eq!(output.status.code(), Some(1));
        return;
    }
    let files = folder.files();
    let part = files.iter().find(|name| name.starts_with("x.cube.") && name.ends_with(".part")).expect("what was written");
    let wanted = archive(&many(), &folder);
    let part = folder.read(part);
    assert!(!part.is_empty() && part.len() < wanted.len() && wanted.starts_with(&part), "{} bytes", part.len());
    folder.succeeds("build x.csv -o x.cube");
    assert_eq!(folder.read("x.cube"), wanted);
}

/// Killed after 0 to 30 ms: the file is the old one or the new one.
#[test]
fn a_process_killed_at_any_moment_leaves_a_whole_file() {
    let folder = folder("killed");
    let new = archive(&many(), &folder);
    folder.write("x.csv", many());
    let (mut old, mut done) = (0, 0);
    for i in 0..60 {
        folder.write("x.cube", "old");
        let command = &mut Command::new(CUBE);
        let mut child =
            command.args(["build", "x.csv", "-o", "x.cube"]).current_dir(folder.path(".")).stdin(Stdio::null()).spawn().unwrap();
        sleep(Duration::from_micros(500 * i));
        child.kill().unwrap();
        child.wait().unwrap();
        match folder.read("x.cube") {
            bytes if bytes == b"old" => old += 1,
            bytes => {
                assert!(bytes == new, "{} bytes after {i} times 0.5 ms", bytes.len());
                done += 1;
            }
        }
    }
    println!("{old} times the old file, {done} times the new one");
    assert!(folder.files().iter().all(|name| name == "x.csv" || name == "x.cube" || name.ends_with(".part")));
}

/// A reader that goes away is no failure.
#[test]
fn a_broken_pipe() {
    let folder = folder("broken_pipe");
    folder.write("x.csv", many()).succeeds("build x.csv -o x.cube");
    let output = shell(&folder, "{ \"$cube\" expand x.cube; echo $? >status; } | head -c 1");
    assert_eq!((folder.text("status"), output.stderr), ("0\n".into(), vec![]));
}

/// A legend and its archive are written together: if one of them cannot be, both stay.
#[test]
fn a_full_disk_leaves_legend_and_archive() {
    let folder = folder("full_disk_legend");
    folder.write("a.csv", "chip,port,reading\nA,B,1\n").succeeds("build a.csv --legend x.legend -o x.cube");
    let (legend, archive) = (folder.read("x.legend"), folder.read("x.cube"));
    let long_labels = (0..300).map(|i| format!("{i}{},B,1\n", "x".repeat(100))).collect::<String>();
    let many_pairs = (0..1_024).map(|i| format!("{},{},1\n", i / 32, i % 32)).collect::<String>();
    for (lines, file) in [(long_labels, "x.legend"), (many_pairs, "x.cube")] {
        folder.write("b.csv", format!("chip,port,reading\n{lines}"));
        let output = shell(&folder, "trap '' XFSZ; ulimit -f 20; \"$cube\" build b.csv --legend x.legend -o x.cube");
        let error = String::from_utf8(output.stderr).unwrap();
        assert!(output.status.code() == Some(1) && error.starts_with(&format!("cube: {file}: File too large")), "{error}");
        assert_eq!((folder.read("x.legend"), folder.read("x.cube")), (legend.clone(), archive.clone()));
        assert_eq!(folder.files(), ["a.csv", "b.csv", "x.cube", "x.legend"]);
    }
}
