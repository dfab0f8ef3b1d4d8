//! The declarations of this crate are those of `include/hdrfs.h`. No compiler compares the two, so
//! this does.

use std::collections::BTreeMap;

const HEADER: &str = include_str!("../../../include/hdrfs.h");
const CALLS: &str = include_str!("../src/sys.rs");
const ANSWERS: &str = include_str!("../src/sys/answers.rs");

/// A name and, in order, what belongs to it: the fields of a struct; the arguments and then the
/// answer of a function.
type Declared = BTreeMap<String, Vec<String>>;

/// The header without its comments.
fn header() -> String {
    let mut rest = HEADER;
    let mut text = String::new();
    while let Some((before, after)) = rest.split_once("/*") {
        text.push_str(before);
        rest = after.split_once("*/").expect("a comment ends").1;
    }
    text + rest
}

/// `hdrfs_run_count` as `RunCount`.
fn rust_name(name: &str) -> String {
    let words = name
        .strip_prefix("hdrfs_")
        .expect("every name begins so")
        .split('_');
    words
        .map(|word| word[..1].to_uppercase() + &word[1..])
        .collect()
}

fn rust_type(c_type: &str) -> String {
    match c_type {
        "const uint8_t *" => "Bytes".to_string(),
        "uint8_t *" => "*mut u8".to_string(),
        "uint64_t *" => "*mut u64".to_string(),
        "uint16_t" => "u16".to_string(),
        "uint64_t" => "u64".to_string(),
        "size_t" => "usize".to_string(),
        name => rust_name(name),
    }
}

/// `const uint8_t *volume` as `volume: Bytes`.
fn rust_argument(argument: &str) -> String {
    let argument = argument.trim();
    let name_at = argument.rfind([' ', '*']).expect("a type and a name") + 1;
    let (c_type, name) = argument.split_at(name_at);
    format!("{name}: {}", rust_type(c_type.trim_end()))
}

fn structs_of_the_header() -> Declared {
    let text = header();
    let mut found = Declared::new();
    for piece in text.split("typedef struct {").skip(1) {
        let (body, rest) = piece.split_once('}').unwrap();
        let name = rest.split_once(';').unwrap().0.trim();
        let fields = body
            .split(';')
            .map(str::trim)
            .filter(|field| !field.is_empty());
        found.insert(rust_name(name), fields.map(rust_argument).collect());
    }
    found
}

fn structs_of_the_crate() -> Declared {
    let mut found = Declared::new();
    for piece in ANSWERS.split("#[repr(C)]").skip(1) {
        let (_, rest) = piece.split_once("pub struct ").unwrap();
        let (name, rest) = rest.split_once(" {").unwrap();
        let (body, _) = rest.split_once("\n}").unwrap();
        let fields = body
            .lines()
            .filter_map(|line| line.trim().strip_prefix("pub "));
        let fields = fields.map(|field| field.trim_end_matches(',').to_string());
        found.insert(name.to_string(), fields.collect());
    }
    found
}

fn functions_of_the_header() -> Declared {
    let text = header();
    let mut found = Declared::new();
    for piece in text.split(';') {
        let Some((head, rest)) = piece.split_once('(') else {
            continue;
        };
        let line = head.lines().last().unwrap();
        let (answer, name) = line.split_once(' ').unwrap();
        let arguments = rest.split_once(')').unwrap().0.split(',');
        let mut parts: Vec<String> = arguments.map(rust_argument).collect();
        parts.push(rust_type(answer));
        found.insert(name.to_string(), parts);
    }
    found
}

fn functions_of_the_crate() -> Declared {
    let (_, block) = CALLS.split_once("extern \"C\" {").unwrap();
    let (block, _) = block.split_once("\n    }").unwrap();
    let mut found = Declared::new();
    for piece in block.split(';').filter(|piece| piece.contains("pub fn")) {
        let (_, rest) = piece.split_once("pub fn ").unwrap();
        let (name, rest) = rest.split_once('(').unwrap();
        let (arguments, answer) = rest.split_once(") -> ").unwrap();
        let arguments = arguments
            .split(',')
            .map(str::trim)
            .filter(|part| !part.is_empty());
        let mut parts: Vec<String> = arguments.map(str::to_string).collect();
        parts.push(answer.trim().to_string());
        found.insert(name.to_string(), parts);
    }
    found
}

#[test]
fn structs_are_the_same() {
    assert_eq!(structs_of_the_header().len(), 12);
    assert_eq!(structs_of_the_header(), structs_of_the_crate());
}

#[test]
fn functions_are_the_same() {
    assert_eq!(functions_of_the_header().len(), 38);
    assert_eq!(functions_of_the_header(), functions_of_the_crate());
}

#[test]
fn kinds_are_the_same() {
    use hdrfs::sys::{HOLE, PAST_END, STORED};
    let kinds = format!(
        "enum {{ HDRFS_HOLE = {HOLE}, HDRFS_STORED = {STORED}, HDRFS_PAST_END = {PAST_END} }};"
    );
    assert!(HEADER.contains(&kinds));
}
