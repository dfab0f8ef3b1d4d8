//! Reads and writes HDRFS volumes, the format in which water-level networks keep their yearly
//! archives.
//!
//! All that is decided about bytes is decided in a proved library, which this crate links, but for
//! [`ChainEntry::follows`] and the reason in a [`Mismatch`], which compare what it answers, and
//! [`Volume::whole_blocks_from`], which asks it only where a block can begin. Reading a single volume
//! copies nothing: names, payloads and stored bytes are parts of the volumes that the caller lends.
//!
//! - [`Archive`] is a set of volumes: it finds the current inodes and their names, and reads their
//!   bytes.
//! - [`Volume::check`] checks a whole volume, [`Volume::blocks`] walks its blocks; a [`LinkTable`]
//!   is walked link by link, or lists the [`Tree`] below a folder.
//! - [`Volume::repair`] says how much of a volume is left that was cut short during an append, and
//!   [`Volume::whole_blocks_from`] how many sound blocks stand behind that.
//! - [`File`] says where the bytes of a regular file are stored: at a position, or in runs.
//! - [`fetch`] hands out stored bytes.
//! - [`Volume::follows`] says whether a volume is the next one after another, and of many volumes
//!   their [`ChainEntry`]s do; [`Digest`] takes the SHA-256 digest of bytes that come in parts.
//! - [`Writer`] writes a volume into a lent buffer, block by block; [`Extents`] and [`LinkList`] put
//!   together what an inode block and a link table have.
//!
//! A call that cannot do what it is asked answers a [`Refusal`], with a number, a place and plain
//! words.
//!
//! ```
//! use hdrfs::{fetch, Content, File, Lengths, Volume};
//! # std::env::set_current_dir("../../crates/samples/data")?;
//!
//! let (first, second) = (std::fs::read("v.vol")?, std::fs::read("all_kinds.vol")?);
//! let mut lengths = Lengths::new();
//! for bytes in [&first, &second] {
//!     lengths.set(Volume::check(bytes)?.sequence(), bytes.len() as u64)?;
//! }
//! for block in Volume::blocks(&second) {
//!     let block = block?;
//!     let Content::Inode(inode) = block.content else { continue };
//!     if !inode.is_regular() { continue }
//!     for run in File::of_block(&second, &block, &lengths).all_runs() {
//!         let run = run?;
//!         if let Some(place) = run.stored {
//!             let bytes = fetch(&first, &second, place.volume, place.offset, run.len)?;
//!             println!("{} bytes at position {}: {bytes:?}", run.len, run.start);
//!         }
//!     }
//! }
//! # Ok::<(), Box<dyn std::error::Error>>(())
//! ```
#![deny(missing_docs)]
#![deny(unsafe_code)]

mod archive;
mod bad_text;
mod blocks;
mod bookmark;
mod chain;
mod digest;
mod extents;
mod fetch;
mod file;
mod file_type;
mod inode;
mod lengths;
mod link_list;
mod links;
mod pace;
mod refusal;
mod runs;
#[allow(unsafe_code)]
pub mod sys;
mod tree;
mod volume;
mod walk;
mod whole_blocks;
mod writer;

pub use archive::{
    check_each, check_each_with_entry, Archive, ArchiveError, ArchiveFile, ArchiveReader, Checker,
    Chunk, Chunks, CurrentInode, InodeBlock, LastLink, Member, Missing, ShortExtent,
};
pub use bad_text::BadText;
pub use blocks::{Block, Blocks, Content};
pub use bookmark::Bookmark;
pub use chain::{ChainEntry, Mismatch, PairError};
pub use digest::Digest;
pub use extents::{Extent, ExtentIter, Extents, Multiplicity};
pub use fetch::fetch;
pub use file::{File, Logical, Physical, Place, Stored};
pub use file_type::FileType;
pub use inode::Inode;
pub use lengths::Lengths;
pub use link_list::LinkList;
pub use links::{Link, LinkTable, Links};
pub use refusal::{Refusal, Rejected};
pub use runs::{Run, Runs};
pub use tree::{Tree, TreeLine};
pub use volume::{Checked, Heading, Volume, MAX_VOLUME_LEN};
pub use whole_blocks::WholeBlocks;
pub use writer::Writer;

/// The example of the repository's README, compiled with the documentation's.
#[cfg(doctest)]
#[doc = include_str!("../../../README.md")]
struct Readme;
