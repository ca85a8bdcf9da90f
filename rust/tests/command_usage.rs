//! Wrong usage, help and version.
mod command;
mod cube;

use command::folder;
use cube::Records;
use std::ffi::OsStr;
use std::os::unix::ffi::OsStrExt;

const NAMES: [&str; 14] =
    ["build", "check", "cell", "cuboid", "expand", "list", "keys", "fixes", "join", "add", "window", "totals", "fee", "report"];

#[test]
fn wrong_usage() {
    let folder = folder("usage");
    folder.write("five.cube", Records::five().archive().into_bytes()).write("five.csv", include_str!("../../examples/five-rows.csv"));
    for (words, reason) in [
        ("", "a command is missing"),
        ("chek five.cube", "there is no command \"chek\""),
        ("Check five.cube", "there is no command \"Check\""),
        ("five.cube", "there is no command \"five.cube\""),
        ("help chek", "there is no command \"chek\""),
        ("--csv check five.cube", "there is no command \"--csv\""),
        ("check", "expected 1 file, found 0"),
        ("check five.cube five.cube", "expected 1 file, found 2"),
        ("expand five.cube 1", "expected 1 file, found 2"),
        ("keys five.cube 1", "expected 1 file, found 2"),
        ("list five.cube 1", "expected 1 file, found 2"),
        ("report", "expected 1 file, found 0"),
        ("build", "expected 1 file, found 0"),
        ("build a.csv b.csv", "expected 1 file, found 2"),
        ("build five.csv --legend x.legend", "--legend needs -o FILE"),
        ("join", "expected 2 files or more, found 0"),
        ("join five.cube", "expected 2 files or more, found 1"),
        ("join - -", "standard input is one archive and not two"),
        ("join - five.cube five.cube -", "standard input is one archive and not two"),
        ("join --csv five.cube five.cube", "there is no option --csv here"),
        ("cell", "a file is missing"),
        ("cuboid", "a file is missing"),
        ("totals", "a file is missing"),
        ("cell five.cube 5", "\"5\" is not DIMENSION=CODE"),
        ("cell five.cube 1=x", "\"x\" is no code"),
        ("cell five.cube 1=-1", "\"-1\" is no code"),
        ("cell five.cube 1=+1", "\"+1\" is no code"),
        ("cell five.cube 1=0x1", "\"0x1\" is no code"),
        ("cell five.cube 1=**", "\"**\" is no code"),
        ("cell five.cube 1=", "\"\" is no code"),
        ("cell five.cube 1=1 01=2", "dimension \"01\" is asked for twice"),
        ("cell five.cube 1=1 1=*", "dimension \"1\" is asked for twice"),
        ("cuboid five.cube 1 2", "the dimensions are one word"),
        ("fixes five.cube", "expected a set of dimensions and a dimension"),
        ("fixes five.cube 1", "expected a set of dimensions and a dimension"),
        ("fixes five.cube 1 2 3", "expected a set of dimensions and a dimension"),
        ("fee five.cube", "expected a fee in cents"),
        ("fee five.cube 1 2 3", "expected a fee in cents"),
        ("fee five.cube 1.5 2", "\"1.5\" is no number of cents"),
        ("fee five.cube +1 2", "\"+1\" is no number of cents"),
        ("check --foo five.cube", "there is no option --foo here"),
        ("fee five.cube -1 2", "\"-1\" is no number of cents"),
        ("add five.cube", "a reading is missing"),
        ("add five.cube 1=0 2=1 3=1", "\"1=0\" is no reading: "),
        ("add five.cube 2147483648 1=0 2=1 3=1", "\"2147483648\" is no reading: a reading is a number from -2147483648 to 2147483647"),
        ("add five.cube -1x 1=0 2=1 3=1", "there is no option -1x here"),
        ("add five.cube 5 1=0 3=1", "dimension \"2\" is missing"),
        ("add five.cube 5 1=0 2=* 3=1", "dimension \"2\" is missing"),
        ("add --csv five.cube 5 1=0 2=1 3=1", "there is no option --csv here"),
        ("window five.cube", "a window is missing"),
        ("window five.cube 1", "\"1\" is not DIMENSION=CODE"),
        ("window five.cube 1=*", "\"1=*\" is no window"),
        ("window five.cube 1=4 2=5 2=5", "dimension \"2\" is asked for twice"),
        ("list --csv five.cube", "there is no option --csv here"),
        ("check --reading r five.cube", "there is no option --reading here"),
        ("build --csv five.csv", "there is no option --csv here"),
        ("check five.cube -o", "-o needs a word behind it"),
        ("check five.cube --legend", "--legend needs a word behind it"),
        ("check five.cube --csv --csv", "--csv is given twice"),
        ("check five.cube -o a -o b", "-o is given twice"),
    ] {
        folder.wrong_usage(words, reason);
    }
    assert_eq!(folder.files(), ["five.csv", "five.cube"]);
    for word in [b"\xFF".as_slice(), b"1=\xFF"] {
        let words = [OsStr::new("cell"), OsStr::new("five.cube"), OsStr::from_bytes(word)];
        assert_eq!(folder.run_words(&words, &[]).0, Some(2));
    }
}

#[test]
fn words_behind_two_dashes_are_no_options() {
    let folder = folder("usage_dashes");
    folder.write("-o", Records::five().archive().into_bytes());
    folder.answers("check --csv -- -o", "base entries,normal entries\n5,5\n");
}

#[test]
fn help_tells_of_every_command() {
    let folder = folder("help");
    let (status, overview, error) = folder.run("help");
    assert_eq!((status, &error[..]), (Some(0), ""));
    for name in NAMES {
        assert!(overview.contains(&format!("\n  {name} ")), "{name}");
        let (status, help, error) = folder.run(&format!("help {name}"));
        assert_eq!((status, &error[..]), (Some(0), ""));
        assert!(help.starts_with(&format!("usage: cube {name} ")) && help.contains("-o FILE"), "{help}");
        assert!(help.lines().all(|line| line.chars().count() <= 140), "{help}");
        assert_eq!(folder.run(&format!("{name} --help")).1, help);
    }
    assert_eq!(overview.lines().filter(|line| line.starts_with("  ")).count(), NAMES.len());
    assert_eq!(folder.run("--help").1, overview);
    assert_eq!(folder.run("-h").1, overview);
}

#[test]
fn the_version() {
    folder("version").answers("--version", concat!("cube ", env!("CARGO_PKG_VERSION"), "\n"));
}
