//! Compares the proved library with the independent implementation, value by value.
//!
//! Each function asks both the same question. It answers what both gave, often the refusal alone (with
//! number 0 for none), or the [`Difference`] between them. [`case::compare`] asks all questions of one case.
//!
//! The tests take cases from seeds. `HDRFS_SEEDS=N` sets how many seeds there are, and
//! `HDRFS_FIRST=K` the first of them, so that a long run need not repeat an earlier one:
//!
//! ```text
//! HDRFS_SEEDS=1000000 HDRFS_FIRST=10000 cargo test --release -p compare
//! ```
//!
//! The calls of `hdrfs` that give Rust types are compared for one seed in twenty. Of archives there is
//! one for five seeds as bytes, one for 25 as files, and one for 40 that goes through the command, in
//! the tests of `hdrfs-command`. Of digests there is one for four seeds, of pairs of volumes one for
//! two, and of archives with true hashes one for 25; for these the Rust types are always compared.
//! Each case is repaired. Of volumes that are damaged to be repaired there is one for two seeds, and of
//! those that are cut at every byte one for 25 and one case for 20; one for ten is cut and written on.
//! There too the Rust types are always compared. So they are of trees: there is one for two seeds, and
//! of one case for 20 those at all its bookmarks.
//!
//! A case that differs is printed with its seed and its bytes; `HDRFS_SEEDS=1 HDRFS_FIRST=<seed>`
//! compares it alone. The tests also fail if a refusal number that can occur was not compared, or if
//! too few refusals say of a text which one is at fault and where, but only where there are at least
//! as many seeds as without `HDRFS_SEEDS`.
#![forbid(unsafe_code)]

pub mod answers;
pub mod archives;
pub mod blocks;
pub mod case;
mod difference;
pub mod digests;
pub mod fetching;
pub mod files;
pub mod items;
pub mod json;
mod lent;
pub mod links;
pub mod pairs;
pub mod repairs;
pub mod requests;
pub mod seeds;
pub mod small;
pub mod steps;
pub mod tally;
pub mod texts;
pub mod trees;
pub mod volume;
pub mod writing;

pub use difference::{Answer, Difference};
