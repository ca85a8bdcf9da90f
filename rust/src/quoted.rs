//! Texts as messages quote them.

/// The most characters that a message quotes of a text.
const CHARACTERS: usize = 60;

/// A text in quotes, with signs for its control characters; of a long one the first 60 characters, and `..` behind the quotes.
///
/// ```
/// use cube_archive::quoted;
///
/// assert_eq!(quoted("a\tb"), r#""a\tb""#);
/// assert_eq!(quoted(&"ä".repeat(60)), format!("\"{}\"", "ä".repeat(60)));
/// assert_eq!(quoted(&"ä".repeat(61)), format!("\"{}\"..", "ä".repeat(60)));
/// ```
pub fn quoted(text: &str) -> String {
    match text.char_indices().nth(CHARACTERS) {
        None => format!("{text:?}"),
        Some((end, _)) => format!("{:?}..", &text[..end]),
    }
}
