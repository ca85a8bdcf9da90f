//! Labels as text on one line: the legend's form, and what people are shown.

/// The label with `\\` for a backslash, `\t`, `\n`, `\r` for a tab and line ends, `\s` for a space at its beginning or end, and
/// `\u{..}` with the hexadecimal number for other control characters.
pub fn escaped(label: &str) -> String {
    let last = label.chars().count().saturating_sub(1);
    let escaped = |(i, c): (usize, char)| match c {
        '\\' => "\\\\".into(),
        '\t' => "\\t".into(),
        '\n' => "\\n".into(),
        '\r' => "\\r".into(),
        c if c == ' ' && (i == 0 || i == last) => "\\s".into(),
        c if c.is_control() || c.is_whitespace() && c != ' ' => format!("\\u{{{:x}}}", c as u32),
        c => c.to_string(),
    };
    label.chars().enumerate().map(escaped).collect()
}

/// The label that was escaped, or none if a backslash begins no such sign.
pub fn unescaped(text: &str) -> Option<String> {
    let (mut label, mut rest) = (String::new(), text);
    while let Some((plain, sign)) = rest.split_once('\\') {
        label += plain;
        let (c, behind) = match sign.strip_prefix("u{") {
            Some(number) => {
                let (number, behind) = number.split_once('}')?;
                let number = u32::from_str_radix(number, 16).ok().filter(|_| !number.starts_with('+'))?;
                (char::from_u32(number)?, behind)
            }
            None => {
                let letter = sign.chars().next()?;
                let (_, c) = [('\\', '\\'), ('t', '\t'), ('n', '\n'), ('r', '\r'), ('s', ' ')].into_iter().find(|(l, _)| *l == letter)?;
                (c, &sign[1..])
            }
        };
        label.push(c);
        rest = behind;
    }
    Some(label + rest)
}
