//! A small reader of JSON, strict about what it knows: objects of texts, whole numbers, truths and
//! lists, without blanks.

use std::collections::BTreeMap;

#[derive(Clone, Debug, PartialEq, Eq)]
pub enum Value {
    Text(String),
    Number(u64),
    Truth(bool),
    List(Vec<Value>),
    Object(Object),
}

impl From<&str> for Value {
    fn from(text: &str) -> Value {
        Value::Text(text.to_string())
    }
}

impl From<u64> for Value {
    fn from(number: u64) -> Value {
        Value::Number(number)
    }
}

impl From<bool> for Value {
    fn from(truth: bool) -> Value {
        Value::Truth(truth)
    }
}

impl<T: Into<Value>> From<Vec<T>> for Value {
    fn from(values: Vec<T>) -> Value {
        Value::List(values.into_iter().map(Into::into).collect())
    }
}

impl From<Object> for Value {
    fn from(object: Object) -> Value {
        Value::Object(object)
    }
}

pub type Object = BTreeMap<String, Value>;

/// An object to compare with.
pub fn object<const N: usize>(members: [(&str, Value); N]) -> Object {
    members.map(|(key, value)| (key.to_string(), value)).into()
}

/// Reads a line. Whatever is not an object of this kind, and nothing else, fails the test.
pub fn parse(line: &str) -> Object {
    let (members, rest) = members(line);
    assert_eq!(rest, "", "the object ends the line");
    members
}

fn members(rest: &str) -> (Object, &str) {
    let mut rest = rest.strip_prefix('{').expect("an object begins");
    let mut members = Object::new();
    while !rest.starts_with('}') {
        if !members.is_empty() {
            rest = rest.strip_prefix(',').expect("a comma follows a value");
        }
        let (key, after) = text(rest);
        let (value, after) = value(after.strip_prefix(':').expect("a colon follows the key"));
        let before = members.insert(key, value);
        assert_eq!(before, None, "a key stands once");
        rest = after;
    }
    (members, &rest[1..])
}

fn value(rest: &str) -> (Value, &str) {
    match rest.as_bytes()[0] {
        b'"' => {
            let (text, rest) = text(rest);
            (Value::Text(text), rest)
        }
        b'{' => {
            let (object, rest) = members(rest);
            (Value::Object(object), rest)
        }
        b'[' => list(rest),
        b't' => (true.into(), rest.strip_prefix("true").expect("it is true")),
        b'f' => (false.into(), rest.strip_prefix("false").expect("or false")),
        _ => number(rest),
    }
}

fn list(rest: &str) -> (Value, &str) {
    let mut rest = &rest[1..];
    let mut values = Vec::new();
    while !rest.starts_with(']') {
        if !values.is_empty() {
            rest = rest.strip_prefix(',').expect("a comma follows a value");
        }
        let (one, after) = value(rest);
        values.push(one);
        rest = after;
    }
    (Value::List(values), &rest[1..])
}

fn number(rest: &str) -> (Value, &str) {
    let end = rest.find(|letter: char| !letter.is_ascii_digit());
    let (digits, rest) = rest.split_at(end.expect("something follows a number"));
    assert!(digits == "0" || !digits.starts_with('0'), "no leading zero");
    (Value::Number(digits.parse().unwrap()), rest)
}

fn text(rest: &str) -> (String, &str) {
    let rest = rest.strip_prefix('"').expect("a text begins");
    let mut found = String::new();
    let mut letters = rest.char_indices();
    while let Some((at, letter)) = letters.next() {
        match letter {
            '"' => return (found, &rest[at + 1..]),
            '\\' => {
                let (at, letter) = letters.next().expect("an escape goes on");
                found.push(escaped(letter, &rest[at..]));
                if letter == 'u' {
                    letters.nth(3);
                }
            }
            letter => {
                assert!(letter >= ' ', "control characters are escaped");
                found.push(letter);
            }
        }
    }
    panic!("a text ends");
}

/// The letter that an escape stands for; `rest` begins with the letter after the backslash.
fn escaped(letter: char, rest: &str) -> char {
    match letter {
        '"' | '\\' | '/' => letter,
        'n' => '\n',
        'r' => '\r',
        't' => '\t',
        'b' => '\u{8}',
        'f' => '\u{c}',
        'u' => {
            let code = u32::from_str_radix(&rest[1..5], 16).expect("four digits");
            char::from_u32(code).expect("no half of a pair")
        }
        other => panic!("unknown escape {other}"),
    }
}

#[test]
fn the_reader_reads() {
    let inner = object([("c", true.into())]);
    let expected = object([
        ("a", "\"\n\u{1f}é".into()),
        ("b", 0.into()),
        ("l", vec![vec![1_u64, 2], vec![]].into()),
        ("o", vec![inner].into()),
    ]);
    let line = r#"{"a":"\"\n\u001fé","b":0,"l":[[1,2],[]],"o":[{"c":true}]}"#;
    assert_eq!(parse(line), expected);
    assert_eq!(parse("{}"), Object::new());
}
