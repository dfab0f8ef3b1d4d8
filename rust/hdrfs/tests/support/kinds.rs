//! The kinds of blocks that have texts, made and appended with any bytes in the place of a text.

use hdrfs::{sys, Bookmark};

use crate::support::{inode, link, removed_xattr, rename, table, xattr};
use crate::support::{LINK, SYMBOLIC_LINK, UNLINK};

/// A kind of block that has texts.
#[derive(Clone, Copy, Debug, PartialEq, Eq)]
pub enum Kind {
    Link,
    Unlink,
    Xattr,
    RemovedXattr,
    SymbolicLink,
    Rename,
    Table,
}

/// An xattr's value, which is no text.
const VALUE: &[u8] = b"\xFF";

/// The size that a symbolic link has to have.
fn size(target: &[u8]) -> u64 {
    70 + target.len() as u64
}

/// The links of a table, all in one folder.
fn links<'a>(names: &[&'a [u8]]) -> Vec<(u64, u64, &'a [u8])> {
    (8..)
        .zip(names)
        .map(|(child, name)| (child, 1, *name))
        .collect()
}

impl Kind {
    /// The only place behind a header where such a block may stand.
    pub fn mark(self) -> Bookmark {
        Bookmark::at(80).with_table_due(self == Kind::Table)
    }

    /// A block with these texts, at time 1.
    pub fn block(self, texts: &[&[u8]]) -> Vec<u8> {
        match (self, texts) {
            (Kind::Link, [name]) => link(LINK, 1, 8, 1, name),
            (Kind::Unlink, [name]) => link(UNLINK, 1, 8, 1, name),
            (Kind::Xattr, [name]) => xattr(1, 7, name, VALUE),
            (Kind::RemovedXattr, [name]) => removed_xattr(1, 7, name),
            (Kind::SymbolicLink, [target]) => inode(1, 7, SYMBOLIC_LINK, size(target), target),
            (Kind::Rename, [old, new]) => rename(1, old, new),
            (Kind::Table, names) => table(&links(names)),
            _ => panic!("{self:?} has another number of texts"),
        }
    }

    /// Where in the block a text begins.
    pub fn text_at(self, texts: &[&[u8]], text: usize) -> usize {
        let before = texts[..text].concat().len();
        match self {
            Kind::Link | Kind::Unlink => 27,
            Kind::Xattr => 20,
            Kind::RemovedXattr => 18,
            Kind::SymbolicLink => 71,
            Kind::Rename => 13 + before,
            Kind::Table => 27 + 18 * text + before,
        }
    }

    /// Appends the same block.
    pub fn append(self, texts: &[&[u8]], buf: &mut [u8], mark: Bookmark) -> sys::Written {
        let (at, due) = (mark.offset, u64::from(mark.table_due));
        let (timed, last) = (
            u64::from(mark.last_time.is_some()),
            mark.last_time.unwrap_or(0),
        );
        let n = mark.number;
        match (self, texts) {
            (Kind::Link, [name]) => sys::append_link(buf, at, due, timed, last, n, 1, 8, 1, name),
            (Kind::Unlink, [name]) => {
                sys::append_unlink(buf, at, due, timed, last, n, 1, 8, 1, name)
            }
            (Kind::Xattr, [name]) => {
                sys::append_xattr(buf, at, due, timed, last, n, 1, 7, name, VALUE)
            }
            (Kind::RemovedXattr, [name]) => {
                sys::append_removed_xattr(buf, at, due, timed, last, n, 1, 7, name)
            }
            (Kind::SymbolicLink, [target]) => {
                let (mode, size) = (SYMBOLIC_LINK, size(target));
                sys::append_inode(
                    buf, at, due, timed, last, n, 7, 1, mode, 1, 2, 3, 4, 5, 6, size, target,
                )
            }
            (Kind::Rename, [old, new]) => {
                sys::append_rename(buf, at, due, timed, last, n, 1, old, new)
            }
            (Kind::Table, names) => {
                let block = table(&links(names));
                let links = &block[9..block.len() - 4];
                sys::append_table(buf, at, due, timed, last, n, names.len() as u64, links)
            }
            _ => panic!("{self:?} has another number of texts"),
        }
    }
}
