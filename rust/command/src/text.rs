//! Texts for people: names that stay on their line, and counts.

use std::path::Path;

/// Whether a letter would do something else than show itself: end a line, steer a terminal, or
/// change the direction in which the rest of a line is written.
pub fn is_hidden(letter: char) -> bool {
    letter.is_control()
        || matches!(letter,
            '\u{200e}' | '\u{200f}' | '\u{2028}'..='\u{202e}' | '\u{2066}'..='\u{2069}')
}

/// The name of a file on one line: a name may have line ends and terminal codes in it, which would
/// look like other lines.
pub fn shown(path: &Path) -> String {
    let name = path.to_string_lossy();
    let mut shown = String::new();
    for letter in name.chars() {
        if is_hidden(letter) {
            shown.extend(letter.escape_default());
        } else {
            shown.push(letter);
        }
    }
    shown
}

/// A text out of a volume, between quotes, so that its beginning and end can be told.
pub fn quoted(text: &str) -> String {
    let mut quoted = String::from("\"");
    for letter in text.chars() {
        if is_hidden(letter) || matches!(letter, '"' | '\\') {
            quoted.extend(letter.escape_default());
        } else {
            quoted.push(letter);
        }
    }
    quoted.push('"');
    quoted
}

/// A number of things: `1 file`, `2 files`.
pub fn count(number: u64, thing: &str) -> String {
    match number {
        1 => format!("1 {thing}"),
        _ => format!("{number} {thing}s"),
    }
}

/// Several things in a row: `1, 2 and 3`.
pub fn listed(things: &[String]) -> String {
    match things {
        [] => String::new(),
        [one] => one.clone(),
        [before @ .., last] => format!("{} and {last}", before.join(", ")),
    }
}

/// Bytes as two digits each.
pub fn hex(bytes: &[u8]) -> String {
    bytes.iter().map(|byte| format!("{byte:02x}")).collect()
}

#[cfg(test)]
mod tests {
    use super::*;

    #[test]
    fn a_name_stays_on_one_line() {
        assert_eq!(shown(Path::new("a\nb\u{1b}[0m")), "a\\nb\\u{1b}[0m");
        assert_eq!(shown(Path::new("a\u{202e}b\u{85}")), "a\\u{202e}b\\u{85}");
        assert_eq!(shown(Path::new("pégel 1.vol")), "pégel 1.vol");
    }

    #[test]
    fn a_text_ends_where_its_quotes_do() {
        assert_eq!(quoted("pégel 1"), "\"pégel 1\"");
        assert_eq!(quoted("a\" in 2\n\\"), "\"a\\\" in 2\\n\\\\\"");
        assert_eq!(quoted(""), "\"\"");
    }

    #[test]
    fn one_thing_is_one() {
        assert_eq!(count(0, "file"), "0 files");
        assert_eq!(count(1, "file"), "1 file");
        assert_eq!(count(2, "file"), "2 files");
    }
}
