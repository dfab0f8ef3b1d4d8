//! Counts of what occurs in generated inputs.
#![allow(dead_code)]

use std::collections::BTreeMap;

use generator::Mark;
use independent::{Bookmark, Refusal};

/// Kinds of blocks, by their IDs from 1 on. Only the last has no time.
pub const KINDS: [&str; 8] = [
    "an inode",
    "a link",
    "an unlink",
    "an attribute",
    "a removed attribute",
    "data",
    "a rename",
    "a table",
];

/// A bookmark as it is read by.
pub fn bookmark(mark: &Mark) -> Bookmark {
    Bookmark {
        offset: mark.offset,
        due: mark.due,
        last: mark.last,
        number: mark.number,
    }
}

/// The number of a refusal, 0 for none.
pub fn number<T>(answer: &Result<T, Refusal>) -> u64 {
    answer.as_ref().err().map_or(0, |refusal| refusal.number)
}

/// How often something is found.
#[derive(Default)]
pub struct Found(pub BTreeMap<&'static str, u64>);

impl Found {
    pub fn note(&mut self, what: &'static str, is_so: bool) {
        *self.0.entry(what).or_insert(0) += u64::from(is_so);
    }

    /// Fails unless everything was found so often.
    pub fn at_least(&self, least: u64) {
        println!("{:#?}", self.0);
        for (what, &count) in &self.0 {
            assert!(count >= least, "{what}: {count}");
        }
    }
}
