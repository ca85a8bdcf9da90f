//! The legend as a text file.
use super::{Dimension, Legend};
use crate::escape::{escaped, unescaped};
use cube_archive::csv::is_name;
use cube_archive::quoted;

const TITLE: &str = "Legend of condensed cube archives, form 1";

/// What a new legend says of itself.
const HEAD: &str = "\
Legend of condensed cube archives, form 1

The dimensions follow in the order that the archives have them. Each has its name, its sizes (the size it has now is the
last, those before it are sizes it had), and a line for each code: the code and its label. A code keeps its label for ever;
new labels come behind the others. Signs in labels: \\\\ is a backslash, \\t a tab, \\n and \\r line ends, \\s a space at the
beginning or end, \\u{1b} the character with that hexadecimal number. Notes may be written here, above the first dimension.
";

impl Legend {
    /// A legend of dimensions that have no labels yet.
    pub fn new(names: impl Iterator<Item = String>) -> Legend {
        Legend { head: HEAD.into(), dimensions: names.map(Dimension::new).collect() }
    }

    /// The legend that bytes are, or what is wrong with them.
    pub fn parse(bytes: &[u8]) -> Result<Legend, String> {
        let text = std::str::from_utf8(bytes).map_err(|_| "this is no UTF-8 text, and so no legend")?;
        let text = text.strip_prefix('\u{FEFF}').unwrap_or(text);
        if text.lines().next().map(str::trim_end) != Some(TITLE) {
            return Err(format!("line 1: a legend begins with the line {TITLE:?}"));
        }
        let above = text.lines().take_while(|line| dimension(line).is_none()).count();
        let head = text.lines().take(above).map(|line| format!("{line}\n")).collect::<String>().trim_end().to_string() + "\n";
        let mut legend = Legend { head, dimensions: vec![] };
        for (line, number) in text.lines().zip(1..).skip(above).filter(|(line, _)| !line.trim().is_empty()) {
            legend.add(line.trim()).map_err(|fault| format!("line {number}: {fault}"))?;
        }
        match legend.dimensions.iter().find(|dimension| dimension.sizes.is_empty()) {
            Some(dimension) => Err(format!("dimension {} has no line with its sizes", quoted(&dimension.name))),
            None if legend.dimensions.is_empty() => Err("there is no line with a dimension".into()),
            None => Ok(legend),
        }
    }

    /// Takes in a line.
    fn add(&mut self, line: &str) -> Result<(), String> {
        if let Some(name) = dimension(line) {
            let name = unescaped(name).filter(|name| is_name(name)).ok_or_else(|| format!("{} is no name of a dimension", quoted(name)))?;
            if self.dimensions.iter().any(|dimension| dimension.name == name) {
                return Err(format!("a second dimension {}: take one of them out", quoted(&name)));
            }
            self.dimensions.push(Dimension::new(name));
            return Ok(());
        }
        let dimension = self.dimensions.last_mut().expect("the first line is a dimension's");
        match line.strip_prefix("sizes ") {
            Some(sizes) if dimension.sizes.is_empty() => {
                dimension.sizes = rising(sizes).ok_or("sizes are rising numbers from 1 to 65535")?
            }
            _ => dimension.add_label(line)?,
        }
        Ok(())
    }

    /// The text of the legend.
    pub fn text(&self) -> String {
        self.head.clone() + &self.dimensions.iter().map(Dimension::text).collect::<String>()
    }
}

impl Dimension {
    /// Takes in the line of the next code.
    fn add_label(&mut self, line: &str) -> Result<(), String> {
        let (code, label) = line.split_once([' ', '\t']).unwrap_or((line, ""));
        let next = self.labels.len();
        if code != next.to_string() {
            return Err(format!("expected code {next} and its label, found {}", quoted(line)));
        }
        if self.sizes.is_empty() || next >= usize::from(self.size()) {
            return Err(format!("code {next} is not below the size of dimension {}", quoted(&self.name)));
        }
        let label = unescaped(label.trim()).ok_or("a backslash that begins none of the signs \\\\ \\t \\n \\r \\s \\u{..}")?;
        match self.code(&label) {
            _ if label == "*" => Err("'*' stands for ALL and is no label".into()),
            Some(code) => Err(format!("label {} is that of code {code} too", quoted(&label))),
            None => self.push(&label),
        }
    }

    fn text(&self) -> String {
        let sizes: String = self.sizes.iter().map(|size| format!(" {size}")).collect();
        let labels = self.labels.iter().enumerate().map(|(code, label)| format!("{code}\t{}", escaped(label)));
        let labels: String = labels.map(|line| line.trim_end().to_string() + "\n").collect();
        format!("\ndimension {}\nsizes{sizes}\n{labels}", escaped(&self.name))
    }
}

/// The name in the line of a dimension.
fn dimension(line: &str) -> Option<&str> {
    line.strip_prefix("dimension ").map(str::trim)
}

fn rising(sizes: &str) -> Option<Vec<u16>> {
    let sizes = sizes.split_whitespace().map(|size| size.parse().ok().filter(|_| !size.starts_with('+'))).collect::<Option<Vec<u16>>>()?;
    (!sizes.is_empty() && sizes[0] > 0 && sizes.is_sorted_by(|a, b| a < b)).then_some(sizes)
}
