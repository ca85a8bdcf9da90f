//! What the documents name is in the tree: must-fail edits, each in a crate that its line or its table's head names; theorems and
//! definitions, in the file that is named behind them; functions, in their crate; files and folders. A name stands between backticks.
use std::collections::BTreeMap;
use std::fs;
use std::path::Path;

const TOP: &str = "..";
/// Words of the language and of other programs.
const OTHERS: [&str; 6] = ["awk", "od", "read", "requires", "rt", "write"];

/// Files, and the files that each name stands in.
#[derive(Default)]
struct Tree {
    files: Vec<String>,
    names: BTreeMap<String, Vec<String>>,
}

/// The files of a folder and of those in it, but for what was built.
fn files(folder: &str, found: &mut Vec<String>) {
    for entry in fs::read_dir(Path::new(TOP).join(folder)).unwrap().map(Result::unwrap) {
        let name = entry.file_name().into_string().unwrap();
        match entry.file_type().unwrap().is_dir() {
            true if ["target", "out", ".git"].contains(&name.as_str()) => {}
            true => files(&format!("{folder}{name}/"), found),
            false => found.push(format!("{folder}{name}")),
        }
    }
}

fn words(text: &str) -> impl Iterator<Item = &str> {
    text.split(|c: char| !(c.is_alphanumeric() || c == '_')).filter(|word| !word.is_empty())
}

/// What a line of an .antt file defines: `name : ..`, a record or a data type.
fn definition(line: &str) -> Option<&str> {
    let mut words = line.split_whitespace().skip_while(|word| ["pub", "abbrev", "unfoldable"].contains(word));
    match (words.next()?, words.next()?) {
        ("record" | "data", name) | (name, ":") => Some(name),
        _ => None,
    }
}

/// The names that a file brings.
fn names(file: &str) -> Vec<String> {
    let text = || fs::read_to_string(Path::new(TOP).join(file)).unwrap();
    match file.split('/').collect::<Vec<&str>>()[..] {
        ["crates", _, "must-fail", edit] => vec![edit.trim_end_matches(".edit").into()],
        ["crates", _, "specs" | "proofs", ..] => text().lines().filter_map(definition).map(String::from).collect(),
        ["crates", name, "src", ..] | ["rust", name @ "src", ..] => {
            let text = text();
            let words: Vec<&str> = words(&text).collect();
            let named = words.windows(2).filter(|pair| ["fn", "const", "struct", "enum", "mod"].contains(&pair[0])).map(|pair| pair[1]);
            named.chain([name]).map(String::from).collect()
        }
        _ => vec![],
    }
}

fn tree() -> Tree {
    let mut tree = Tree::default();
    files("", &mut tree.files);
    for file in &tree.files {
        names(file).into_iter().for_each(|name| tree.names.entry(name).or_default().push(file.clone()));
    }
    tree
}

impl Tree {
    /// Whether a name stands in a file with these words in its path.
    fn stands(&self, name: &str, path: &str) -> bool {
        self.names.get(name).is_some_and(|all| all.iter().any(|file| format!("/{file}").contains(path)))
    }

    fn has_path(&self, path: &str) -> bool {
        let path = format!("/{}/", path.trim_start_matches("./").trim_matches('/'));
        path.starts_with("/target/") || self.files.iter().any(|file| format!("/{file}/").contains(&path))
    }

    /// What is wrong with a name. `parts` is its line from the name on; `near` the line and its table's head; `of` the crate of the
    /// function in front of it.
    fn wrong(&self, parts: &[&str], near: &str, of: Option<&str>) -> Option<String> {
        let name = parts[0];
        if self.stands(name, "/must-fail/") {
            let told = parts[1].strip_prefix(" (").and_then(|rest| rest.split_once(')')).map(|(told, _)| told);
            let told = told.filter(|told| self.has_path(&format!("crates/{told}/src")));
            let edit = |of: &str| self.stands(name, &format!("/{of}/must-fail/"));
            return (!told.map_or_else(|| words(near).any(edit), edit)).then(|| "is no edit of a crate named here".into());
        }
        if let Some(of) = of {
            return (!self.stands(name, &format!("/{of}/src/"))).then(|| format!("is no function of {of}"));
        }
        if !self.names.contains_key(name) && !OTHERS.contains(&name) {
            return Some("is nothing of the tree".into());
        }
        let behind = parts[1..].chunks(2).find(|pair| pair[0] != ", ")?;
        let file = behind.get(1).filter(|file| behind[0] == " (" && file.ends_with(".antt"))?;
        (!self.stands(name, &format!("/{file}"))).then(|| format!("is not defined in {file}"))
    }

    /// What a document names and the tree has not.
    fn missing(&self, document: &str) -> Vec<String> {
        let (mut found, mut head) = (vec![], None);
        for (number, line) in document.lines().enumerate().filter(|(_, line)| !line.starts_with("    ")) {
            head = line.starts_with('|').then(|| head.unwrap_or(line));
            let parts: Vec<&str> = line.split('`').collect();
            let mut of = None;
            for i in (1..parts.len() - 1).step_by(2) {
                let name = parts[i];
                of = of.filter(|_| [", ", " and "].contains(&parts[i - 1]));
                let wrong = if let Some((first, rest)) = name.split_once("::").filter(|(first, _)| *first != "libc") {
                    of = Some(first);
                    let all = rest.split("::").all(|name| self.stands(name, &format!("/{first}/src/")));
                    (!all).then(|| format!("is not in {first}"))
                } else if name.contains(" (") {
                    let unknown = words(name).find(|word| word.len() > 1 && !self.names.contains_key(*word));
                    unknown.map(|word| format!("has {word}, which is nothing of the tree"))
                } else if name.contains('/') || [".antt", ".rt", ".txt", ".md", ".h"].iter().any(|end| name.ends_with(end)) {
                    (!name.contains(' ') && !self.has_path(name)).then(|| "is no file or folder".into())
                } else if name.contains(char::is_alphabetic) && name.chars().all(|c| c.is_alphanumeric() || "_-".contains(c)) {
                    self.wrong(&parts[i..], &format!("{line} {}", head.unwrap_or("")), of)
                } else {
                    None
                };
                found.extend(wrong.map(|wrong| format!("line {}: `{name}` {wrong}", number + 1)));
            }
        }
        found
    }
}

#[test]
fn what_documents_name_is_there() {
    let tree = tree();
    let missing = ["docs/PROMISES.md", "docs/ARCHITECTURE.md", "README.md"].map(|document| {
        let missing = tree.missing(&fs::read_to_string(Path::new(TOP).join(document)).unwrap());
        missing.iter().map(|what| format!("\n{document}, {what}")).collect::<String>()
    });
    assert!(missing.concat().is_empty(), "{}", missing.concat());
}

/// A line of each kind that is right, and the same with a wrong name.
#[test]
fn what_is_not_there_is_found() {
    let tree = tree();
    for (right, wrong) in [
        ("`empty_set_forgotten` (rows_condense)", "`empty_set_forgotten` (rows_alone)"),
        ("`rows_condense::condense_rows`: `full_set_listed`", "`rows_lists::list_of`: `full_set_listed`"),
        ("| Edit (crate cube) |\n|---|\n| `key_by_one_row` |", "| Edit (crate lists) |\n|---|\n| `key_by_one_row` |"),
        ("`built_fewest`", "`built_few`"),
        ("`keys-enough`, `fee_enough` (`Room.antt`)", "`keys-enough`, `fee_written` (`Room.antt`)"),
        ("`call_file::fit_archive`, `join_rows`", "`call_file::fit_archive`, `same_sizes`"),
        ("`cube::Total::plus`", "`cube::Total::minus`"),
        ("`table_answer (read_table s)`", "`table_answer (table_read s)`"),
        ("`crates/cube/specs/Cube.antt`", "`crates/cube/specs/Cubes.antt`"),
        ("`Cube.antt`", "`Cubes.antt`"),
    ] {
        assert_eq!(tree.missing(right), [""; 0]);
        assert_eq!(tree.missing(wrong).len(), 1, "{wrong}");
    }
}
