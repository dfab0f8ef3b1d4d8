//! A second reader and writer of HDRFS volumes, in ordinary Rust.
//!
//! It exists to be compared with another implementation: by tests, answer
//! against answer, and by benchmarks, time against time. It shares no code
//! with what it is compared to.
//!
//! Every call works on lent bytes and answers any input. Refusals are
//! numbers, and where a text is at fault the place of that; [`refusal`] names
//! them.

#![forbid(unsafe_code)]

pub mod block;
mod bytes;
pub mod check;
pub mod content;
pub mod crc;
pub mod extent;
pub mod fetch;
pub mod header;
pub mod links;
pub mod listing;
pub mod lookup;
pub mod pair;
pub mod refusal;
pub mod repair;
pub mod runs;
pub mod set;
pub mod sha256;
pub mod tree;
pub mod utf8;
pub mod write;

pub use block::{read, read_with, Block, Body, Bookmark, Part, Reading, Stat};
pub use check::{check, check_with, Verdict};
pub use content::{Beyond, File, FileRefusal, Lacking};
pub use extent::Extent;
pub use fetch::fetch;
pub use header::{read_header, Header};
pub use listing::listing;
pub use lookup::{lookup, lookup_with, Place};
pub use pair::{pair, Pair};
pub use refusal::Refusal;
pub use repair::{longest_accepted, repair, repair_with};
pub use runs::{run_count, runs, runs_with};
pub use set::{set_faults, Inode, LastLink, Set, SetFault};
pub use sha256::sha256;
pub use tree::{tree, tree_with};
pub use write::{
    append_data, append_inode, append_link, append_removed_xattr, append_rename, append_table,
    append_unlink, append_xattr, write_header,
};

/// The longest volume that is read or written, in bytes.
pub const VOLUME_LIMIT: usize = 16_777_216;

/// Bytes in a header.
pub const HEADER_LENGTH: usize = 80;

/// The most extents of one regular file.
pub const EXTENT_LIMIT: u64 = 1_024;

/// The most links of one table.
pub const LINK_LIMIT: u64 = 4_096;

/// The most volume lengths that a lookup is lent.
pub const LENGTHS_LIMIT: usize = 4_096;
