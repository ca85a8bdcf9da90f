//! Every command on files that are no archives: the stop goes before what is wrong with a question, and nothing is written.
mod command;
mod cube;

use command::folder;
use cube::Records;
use cube_archive::ALL;

const COMMANDS: [&str; 14] = [
    "check FILE",
    "cell FILE 2=5",
    "cell FILE 9=5",
    "cuboid FILE 2",
    "cuboid FILE 9",
    "expand FILE",
    "list FILE",
    "keys FILE",
    "fixes FILE 2 3",
    "fixes FILE 8 0",
    "join FILE five-rows.csv",
    "totals FILE",
    "fee FILE 4294967295 9",
    "report FILE",
];

#[test]
fn refused() {
    let five = Records::five().archive().into_bytes();
    let mut damaged = five.clone();
    damaged[36] ^= 1;
    let damage = "; the file is damaged, take another copy";
    let opening =
        "1: the first four bytes are missing or are not the opening of such a file; is it an archive? 'cube build' makes one from CSV";
    let files = [
        (vec![], opening.to_string()),
        (Records::five().table(), opening.to_string()),
        (b"chip,port,reading\n0,1,2\n".to_vec(), opening.to_string()),
        (
            five[..320].to_vec(),
            "2: the file ends before the last byte of a field that its earlier fields demand; the file was cut short, take another copy"
                .into(),
        ),
        ([&five[..], &[0]].concat(), format!("10: bytes follow the check word{damage}")),
        (damaged, format!("11: the check word is wrong{damage}")),
        (stored_twice(&five), format!("12: a list, the normal count or a normal entry is not what the base entries require{damage}")),
    ];
    let folder = folder("damaged");
    for (bytes, stop) in files {
        folder.write("x.cube", bytes).write("old", "old");
        for command in COMMANDS {
            folder.fails(&command.replace("FILE", "x.cube"), &format!("x.cube: refused {stop}"));
            folder.fails(&(command.replace("FILE", "x.cube") + " -o old"), &format!("x.cube: refused {stop}"));
            assert_eq!(folder.text("old"), "old");
        }
    }
    assert_eq!(folder.files(), ["old", "x.cube"]);
}

/// (*,3,*) stored between (*,1,*) and (*,5,*), with a right check word, although the row (2,3,1) stands for it.
fn stored_twice(five: &[u8]) -> Vec<u8> {
    let mut words: Vec<u32> = five.chunks(4).map(|word| u32::from_le_bytes(word.try_into().unwrap())).collect();
    words.splice(62..62, [ALL, 3, ALL, 60, 0, 1]);
    words[49] = 6;
    words.pop();
    words.push(words.iter().fold(0, |sum, word| sum.wrapping_add(*word)));
    words.into_iter().flat_map(u32::to_le_bytes).collect()
}

#[test]
fn a_file_that_is_not_there() {
    let folder = folder("not_there");
    for command in COMMANDS {
        let (status, out, error) = folder.run(&command.replace("FILE", "x.cube"));
        assert_eq!((status, &out[..]), (Some(1), ""));
        assert!(error.starts_with("cube: x.cube: "), "{error}");
    }
    assert!(folder.run("build x.csv").2.starts_with("cube: x.csv: "));
}
