//! Lines for machines: one object each.

use std::fmt::Write;

use crate::text::is_hidden;

/// An object, key by key, in the order given.
#[derive(Debug, Default)]
pub struct Object {
    members: String,
}

impl Object {
    pub fn new() -> Object {
        Object::default()
    }

    pub fn text(mut self, key: &str, value: &str) -> Object {
        self.key(key);
        quote(value, &mut self.members);
        self
    }

    pub fn number(mut self, key: &str, value: u64) -> Object {
        self.key(key);
        self.members.push_str(&value.to_string());
        self
    }

    pub fn truth(self, key: &str, value: bool) -> Object {
        self.raw(key, if value { "true" } else { "false" })
    }

    /// A value that is in the form for machines already.
    pub fn raw(mut self, key: &str, value: &str) -> Object {
        self.key(key);
        self.members.push_str(value);
        self
    }

    /// The object alone.
    pub fn text_of(&self) -> String {
        format!("{{{}}}", self.members)
    }

    /// The object and a line end.
    pub fn line(&self) -> String {
        format!("{{{}}}\n", self.members)
    }

    fn key(&mut self, key: &str) {
        if !self.members.is_empty() {
            self.members.push(',');
        }
        quote(key, &mut self.members);
        self.members.push(':');
    }
}

/// A list of values that are in the form for machines already.
pub fn list(values: impl IntoIterator<Item = String>) -> String {
    let values: Vec<String> = values.into_iter().collect();
    format!("[{}]", values.join(","))
}

/// Quotes a text. Beyond what has to be escaped, so is all that would steer a terminal.
fn quote(text: &str, out: &mut String) {
    out.push('"');
    for letter in text.chars() {
        match letter {
            '"' => out.push_str("\\\""),
            '\\' => out.push_str("\\\\"),
            '\n' => out.push_str("\\n"),
            '\r' => out.push_str("\\r"),
            '\t' => out.push_str("\\t"),
            // All of them are below 10000, so that four digits do.
            letter if is_hidden(letter) => {
                let _ = write!(out, "\\u{:04x}", u32::from(letter));
            }
            letter => out.push(letter),
        }
    }
    out.push('"');
}

#[cfg(test)]
mod tests {
    use super::Object;

    #[test]
    fn members_stand_in_order() {
        let object = Object::new().text("file", "a").number("end", u64::MAX);
        assert_eq!(
            object.line(),
            "{\"file\":\"a\",\"end\":18446744073709551615}\n"
        );
        assert_eq!(Object::new().line(), "{}\n");
    }

    #[test]
    fn letters_are_escaped_where_they_must_be() {
        let line = Object::new()
            .text("k", "\"\\\n\r\t\0\u{1f}\u{7f}\u{85}é𝄞/")
            .line();
        let expected = r#"{"k":"\"\\\n\r\t\u0000\u001f\u007f\u0085é𝄞/"}"#;
        assert_eq!(line.trim_end(), expected);
    }
}
