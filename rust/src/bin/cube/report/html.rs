//! Text in a page.
use crate::escape::escaped;

/// Text as HTML, on one line.
pub fn text(text: &str) -> String {
    let sign = |c| match c {
        '&' => "&amp;".to_string(),
        '<' => "&lt;".into(),
        '>' => "&gt;".into(),
        '"' => "&quot;".into(),
        c => c.to_string(),
    };
    escaped(text).chars().map(sign).collect()
}

/// A label as HTML; an empty one is told from none.
pub fn label(label: &str) -> String {
    if label.is_empty() {
        "<i>empty label</i>".into()
    } else {
        text(label)
    }
}
