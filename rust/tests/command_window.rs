//! `cube window`: one cell of one chip.
mod command;
mod cube;

use command::{folder, Folder};
use cube::random::Random;
use cube::Records;

fn with(folder: &Folder, name: &str, records: &Records) {
    folder.write(name, records.archive().into_bytes());
}

/// The lines that a command prints with --csv, each without so many fields at its end.
fn lines(folder: &Folder, words: &str, fields: usize) -> Vec<String> {
    let (status, out, error) = folder.run(&format!("{words} --csv"));
    assert_eq!((status, &error[..]), (Some(0), ""), "{words}");
    out.lines().map(|line| line.rsplitn(fields + 1, ',').last().unwrap().into()).collect()
}

/// A question with the window's code is told what `cube cell` tells, but for the entry.
#[test]
fn cells_without_their_entry() {
    let folder = folder("window_cells");
    for seed in 0..40 {
        println!("seed {seed}");
        let random = &mut Random(seed);
        let records = random.records(1 + seed as usize % 8, 30);
        with(&folder, "x.cube", &records);
        let question: Vec<String> = records.sizes.iter().enumerate().map(|(i, &size)| format!("{}={}", i + 1, random.code(size))).collect();
        let place = random.below(question.len() as u64) as usize;
        let others: Vec<&str> = question.iter().map(|word| &word[..]).filter(|_| random.below(2) == 0).collect();
        let window = lines(&folder, &format!("window x.cube {} {}", question[place], others.join(" ")), 0);
        let named = if others.contains(&&question[place][..]) { "" } else { &question[place] };
        assert_eq!(window, lines(&folder, &format!("cell x.cube {named} {}", others.join(" ")), 1));
    }
}

#[test]
fn refusals() {
    let folder = folder("window_refusals");
    with(&folder, "five.cube", &Records::five());
    folder.write("bad.cube", "CUBE");
    for (words, start) in [
        ("window bad.cube 1=0", "bad.cube: refused 2: "),
        ("window five.cube 1=7", "five.cube: refused 13: "),
        ("window five.cube 1=4 2=6", "five.cube: refused 13: "),
        ("window five.cube 1=4 1=6", "five.cube: refused 20: "),
        ("window five.cube 1=4 1=*", "five.cube: refused 20: "),
        ("window five.cube 4=1", "five.cube: there is no dimension \"4\""),
    ] {
        let (status, out, error) = folder.run(words);
        assert_eq!((status, &out[..]), (Some(1), ""), "{words}");
        assert!(error.starts_with(&format!("cube: {start}")), "{words}: {error}");
    }
}

#[test]
fn legends() {
    let folder = folder("window_legends");
    folder.write("x.csv", "chip,port,late\nA,x,1\nB,y,2\n").succeeds("build x.csv --legend x.legend -o x.cube");
    folder.answers("window x.cube chip=B", "chip  port  sum  count\nB     *       2      1\n");
    folder.answers("window x.cube chip=B port=x", "chip  port\nB     x     no record\n");
    folder.answers("window x.cube chip=B port=x --csv", "chip,port,sum,count\nB,x,,\n");
    folder.answers("window x.cube port=y chip=B port=y", "chip  port  sum  count\nB     y       2      1\n");
}
