//! Every refusal number that the documents explain is a constant here, with the same meaning, and
//! has words of its own.

use std::collections::{BTreeMap, BTreeSet};

use hdrfs::{Refusal, Volume};

const EXPLAINED: &str = include_str!("../../../docs/REFUSALS.md");
const SOURCE: &str = include_str!("../src/refusal.rs");

fn words(number: u64) -> &'static str {
    Refusal::new(number, 0).words()
}

/// The second cells of the rows that begin with a number.
fn explained() -> BTreeMap<u64, String> {
    let row = |line: &str| {
        let mut cells = line.strip_prefix("| ")?.split(" | ");
        Some((cells.next()?.parse().ok()?, cells.next()?.to_string()))
    };
    EXPLAINED.lines().filter_map(row).collect()
}

/// The comments over the constants.
fn commented() -> BTreeMap<u64, String> {
    let (_, table) = SOURCE.split_once("numbers! {").unwrap();
    let (table, _) = table.split_once("\n}").unwrap();
    let constant = |piece: &str| {
        let comment = piece
            .lines()
            .filter_map(|line| line.trim().strip_prefix("///"));
        let comment: Vec<&str> = comment.map(str::trim).collect();
        let number = piece.split_once(" = ")?.1.split(',').next()?;
        Some((number.parse().ok()?, comment.join(" ")))
    };
    table.split("\n\n").filter_map(constant).collect()
}

#[test]
fn the_constants_say_what_the_documents_say() {
    assert!(explained().len() >= 18);
    assert_eq!(commented(), explained());
}

#[test]
fn every_number_has_words() {
    for number in explained().into_keys() {
        assert_ne!(words(number), words(u64::MAX), "{number}");
    }
}

#[test]
fn no_words_stand_for_two_numbers() {
    let known = (0..100).filter(|number| words(*number) != words(u64::MAX));
    let known: Vec<&str> = known.map(words).collect();
    let distinct: BTreeSet<&str> = known.iter().copied().collect();
    assert_eq!(known.len(), distinct.len());
}

#[test]
fn a_refusal_is_an_error_with_a_line() {
    let refusal = Refusal::new(5, 4711);
    let error: Box<dyn std::error::Error + Send + Sync> = Box::new(refusal);
    assert_eq!(error.to_string(), "refused 5 at 4711: checksum wrong");
    assert_eq!(
        refusal.with_block(Some(17)).to_string(),
        "refused 5 at 4711 (block 17): checksum wrong"
    );
    assert_eq!(
        Refusal::new(99, 0).to_string(),
        "refused 99 at 0: unknown refusal number"
    );
}

/// Which text and where is said of 10 alone: the two numbers of others mean nothing.
#[test]
fn a_text_that_is_not_utf_8_has_two_numbers_more() {
    let refusal = Refusal::new(Refusal::NOT_TEXT, 80).with_block(Some(0));
    assert_eq!((refusal.text, refusal.start), (0, 0));
    assert_eq!(
        refusal.with_text(1, 39_999).to_string(),
        "refused 10 at 80 (block 0): text is not UTF-8 (text 1, byte 39999)"
    );
    assert_eq!(
        refusal.with_block(None).to_string(),
        "refused 10 at 80: text is not UTF-8 (text 0, byte 0)"
    );
    assert_eq!(refusal.with_text(1, 2).words(), "text is not UTF-8");
    assert_eq!(
        Refusal::new(5, 80).with_text(1, 2).to_string(),
        "refused 5 at 80: checksum wrong"
    );
}

#[test]
fn a_rejected_volume_says_how_many_blocks_were_sound() {
    let rejected = Volume::check(b"").unwrap_err();
    assert_eq!(rejected.blocks, 0);
    assert_eq!(
        rejected.to_string(),
        "refused 2 at 0: bytes end too early (blocks accepted before it: 0)"
    );
    let source = std::error::Error::source(&rejected).unwrap();
    assert_eq!(source.to_string(), "refused 2 at 0: bytes end too early");
}
