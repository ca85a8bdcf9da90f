//! Results in columns: aligned for people, or as CSV for programs.
use crate::escape::escaped;

pub struct Columns {
    heads: Vec<String>,
    /// How many columns at the front are text; the others are numbers.
    texts: usize,
    rows: Vec<Vec<String>>,
}

impl Columns {
    pub fn new(texts: Vec<String>, numbers: &[&str]) -> Columns {
        let count = texts.len();
        Columns { heads: texts.into_iter().chain(numbers.iter().map(|head| head.to_string())).collect(), texts: count, rows: vec![] }
    }

    /// One cell: its labels, then the numbers of these heads, or 'no record'; for programs empty fields in their place.
    pub fn of_cell<const N: usize>(
        names: Vec<String>,
        labels: Vec<String>,
        heads: [&str; N],
        told: Option<[String; N]>,
        csv: bool,
    ) -> Columns {
        let (mut columns, answer) = match told {
            None if !csv => (Columns::new([names, vec![String::new()]].concat(), &[]), vec!["no record".into()]),
            told => (Columns::new(names, &heads), told.map_or(vec![String::new(); N], Vec::from)),
        };
        columns.push([labels, answer].concat());
        columns
    }

    pub fn push(&mut self, row: Vec<String>) {
        self.rows.push(row);
    }

    /// The columns in print: for programs or for people.
    pub fn print(&self, csv: bool) -> String {
        if csv {
            self.lines().map(|row| row.iter().map(|field| quoted(field)).collect::<Vec<_>>().join(",") + "\n").collect()
        } else {
            self.aligned()
        }
    }

    fn lines(&self) -> impl Iterator<Item = &Vec<String>> {
        std::iter::once(&self.heads).chain(&self.rows)
    }

    /// Text begins, and numbers end, below the head of the column; two spaces part columns.
    fn aligned(&self) -> String {
        let rows: Vec<Vec<String>> = self.lines().map(|row| row.iter().map(|field| escaped(field)).collect()).collect();
        let width = |i: usize| rows.iter().filter_map(|row| row.get(i)).map(|field| field.chars().count()).max().unwrap_or(0);
        let widths: Vec<usize> = (0..self.heads.len()).map(width).collect();
        let field = |i: usize, field: &str| {
            let width = widths[i];
            if i < self.texts {
                format!("{field:width$}")
            } else {
                format!("{field:>width$}")
            }
        };
        let line = |row: &Vec<String>| row.iter().enumerate().map(|(i, text)| field(i, text)).collect::<Vec<_>>().join("  ");
        rows.iter().map(|row| line(row).trim_end().to_string() + "\n").collect()
    }
}

/// A field of CSV, in quotes where it needs them.
fn quoted(field: &str) -> String {
    let plain = !field.contains([',', '"', '\n', '\r']) && field.trim() == field;
    if plain {
        field.into()
    } else {
        format!("\"{}\"", field.replace('"', "\"\""))
    }
}
