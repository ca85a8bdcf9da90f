//! Codes and ALL, as cells and questions have them.
use std::fmt;

/// A code, or `None` for ALL. `Some(65_535)` is no code of any dimension.
pub type Code = Option<u16>;

/// The value that stands for ALL in files and in the questions of [`raw`](crate::raw).
pub const ALL: u32 = 65_535;

/// The value in a question. 65,535 is no code, and so must not become ALL: it becomes a value that every question is refused for.
pub(crate) fn to_word(code: Code) -> u32 {
    match code {
        None => ALL,
        Some(u16::MAX) => u32::MAX,
        Some(code) => code.into(),
    }
}

/// The code or ALL that a cell holds.
pub(crate) fn from_word(word: u32) -> Code {
    (word != ALL).then_some(word as u16)
}

/// Codes in print, as the lister has them: one space between, `*` for ALL.
pub struct Codes<'a>(pub &'a [Code]);

impl fmt::Display for Codes<'_> {
    fn fmt(&self, f: &mut fmt::Formatter) -> fmt::Result {
        let texts: Vec<String> = self.0.iter().map(|code| code.map_or("*".into(), |code| code.to_string())).collect();
        f.write_str(&texts.join(" "))
    }
}
