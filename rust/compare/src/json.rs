//! JSON as the command writes it, taken apart.

use std::iter::Peekable;
use std::str::Chars;

/// A value. Numbers stay text, since those of 64 bits do not fit elsewhere.
#[derive(Clone, Debug, PartialEq, Eq)]
pub enum Json {
    Null,
    Bool(bool),
    Number(String),
    Text(String),
    List(Vec<Json>),
    Object(Vec<(String, Json)>),
}

impl Json {
    /// The one value that a text is.
    ///
    /// # Errors
    ///
    /// The text from the first character on that does not belong there.
    pub fn parse(text: &str) -> Result<Json, String> {
        let mut rest = text.chars().peekable();
        let value = value(&mut rest);
        skip_space(&mut rest);
        match (value, rest.peek()) {
            (Some(value), None) => Ok(value),
            _ => Err(rest.collect()),
        }
    }

    /// A field of an object; `Null` if it has none of that name.
    #[must_use]
    pub fn field(&self, name: &str) -> &Json {
        let Json::Object(fields) = self else {
            return &Json::Null;
        };
        let named = fields.iter().find(|(key, _)| key == name);
        named.map_or(&Json::Null, |(_, value)| value)
    }

    /// A number that fits into 64 bits.
    #[must_use]
    pub fn number(&self) -> Option<u64> {
        match self {
            Json::Number(text) => text.parse().ok(),
            _ => None,
        }
    }

    /// The text of a text.
    #[must_use]
    pub fn text(&self) -> Option<&str> {
        match self {
            Json::Text(text) => Some(text),
            _ => None,
        }
    }

    /// The items of a list; none for anything else.
    #[must_use]
    pub fn items(&self) -> &[Json] {
        match self {
            Json::List(items) => items,
            _ => &[],
        }
    }
}

type Rest<'a> = Peekable<Chars<'a>>;

fn skip_space(rest: &mut Rest<'_>) {
    while rest.next_if(|c| " \t\r\n".contains(*c)).is_some() {}
}

fn value(rest: &mut Rest<'_>) -> Option<Json> {
    skip_space(rest);
    match rest.peek()? {
        '{' => object(rest),
        '[' => list(rest),
        '"' => Some(Json::Text(string(rest)?)),
        '-' | '0'..='9' => Some(Json::Number(word(rest, |c| {
            "+-.eE".contains(c) || c.is_ascii_digit()
        }))),
        _ => match word(rest, |c| c.is_ascii_lowercase()).as_str() {
            "null" => Some(Json::Null),
            "true" => Some(Json::Bool(true)),
            "false" => Some(Json::Bool(false)),
            _ => None,
        },
    }
}

fn word(rest: &mut Rest<'_>, belongs: impl Fn(char) -> bool) -> String {
    let mut word = String::new();
    while let Some(c) = rest.next_if(|&c| belongs(c)) {
        word.push(c);
    }
    word
}

fn list(rest: &mut Rest<'_>) -> Option<Json> {
    let mut items = Vec::new();
    separated(rest, ('[', ']'), |rest| {
        items.push(value(rest)?);
        Some(())
    })?;
    Some(Json::List(items))
}

fn object(rest: &mut Rest<'_>) -> Option<Json> {
    let mut fields = Vec::new();
    separated(rest, ('{', '}'), |rest| {
        skip_space(rest);
        let name = string(rest)?;
        skip_space(rest);
        rest.next_if_eq(&':')?;
        fields.push((name, value(rest)?));
        Some(())
    })?;
    Some(Json::Object(fields))
}

/// Items between brackets, with commas between them.
fn separated(
    rest: &mut Rest<'_>,
    (open, close): (char, char),
    mut item: impl FnMut(&mut Rest<'_>) -> Option<()>,
) -> Option<()> {
    rest.next_if_eq(&open)?;
    skip_space(rest);
    if rest.next_if_eq(&close).is_some() {
        return Some(());
    }
    loop {
        item(rest)?;
        skip_space(rest);
        if rest.next_if_eq(&close).is_some() {
            return Some(());
        }
        rest.next_if_eq(&',')?;
    }
}

fn string(rest: &mut Rest<'_>) -> Option<String> {
    rest.next_if_eq(&'"')?;
    let mut text = String::new();
    loop {
        match rest.next_if(|&c| c >= ' ')? {
            '"' => return Some(text),
            '\\' => text.push(escaped(rest)?),
            c => text.push(c),
        }
    }
}

fn escaped(rest: &mut Rest<'_>) -> Option<char> {
    Some(match rest.next()? {
        'n' => '\n',
        't' => '\t',
        'r' => '\r',
        'b' => '\u{8}',
        'f' => '\u{c}',
        'u' => match unit(rest)? {
            high @ 0xD800..=0xDBFF => {
                rest.next_if_eq(&'\\')?;
                rest.next_if_eq(&'u')?;
                let low = unit(rest)?.checked_sub(0xDC00).filter(|low| *low < 0x400)?;
                char::from_u32(0x1_0000 + ((high - 0xD800) << 10) + low)?
            }
            unit => char::from_u32(unit)?,
        },
        c @ ('"' | '\\' | '/') => c,
        _ => return None,
    })
}

/// Four digits to the base of 16.
fn unit(rest: &mut Rest<'_>) -> Option<u32> {
    let mut unit = 0;
    for _ in 0..4 {
        unit = unit << 4 | rest.next_if(char::is_ascii_hexdigit)?.to_digit(16)?;
    }
    Some(unit)
}

#[cfg(test)]
mod tests {
    use super::Json;

    #[test]
    fn values() {
        let text = r#" {"a": [1, 18446744073709551615, -2.5e3], "b": {"c": null, "d": true, "e": []},
            "f": "x\"\\\n\u00e4\ud834\udd1e/ä"} "#;
        let json = Json::parse(text).expect("a value");
        let numbers: Vec<_> = json.field("a").items().iter().map(Json::number).collect();
        assert_eq!(numbers, [Some(1), Some(u64::MAX), None]);
        assert_eq!(json.field("b").field("d"), &Json::Bool(true));
        assert_eq!(json.field("b").field("e"), &Json::List(Vec::new()));
        assert_eq!(json.field("b").field("z"), &Json::Null);
        assert_eq!(json.field("f").text(), Some("x\"\\\nä\u{1d11e}/ä"));
    }

    #[test]
    fn what_is_not_json() {
        for text in [
            "",
            "{",
            "[1,]",
            "[1 2]",
            "{\"a\"}",
            "{a:1}",
            "\"\n\"",
            "\"\\x\"",
            "nul",
            "1 2",
            "\"\\ud834\"",
            "[1",
            "\"",
            "{\"a\":1,}",
        ] {
            assert!(Json::parse(text).is_err(), "{text}");
        }
    }
}
