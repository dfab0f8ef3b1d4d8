//! Whole blocks among bytes in which nobody knows where a block begins.
//!
//! The proved reader decides what a block is. It is asked at every byte, and each time it may take a
//! checksum over megabytes, so two things keep the work small. Where the length fields say that no
//! block has room it is not asked, since it would refuse. And the lengths of all that it is asked for
//! come out of a budget: bytes and not time, so that the answer is the same on every machine.

use crate::blocks::read;
use crate::Bookmark;

/// How many bytes may be looked at in all: those of 64 volumes of the greatest length.
const BUDGET: usize = 1 << 30;

/// How many whole blocks were found by
/// [`Volume::whole_blocks_from`](crate::Volume::whole_blocks_from).
///
/// ```
/// # std::env::set_current_dir("../../crates/samples/data")?;
/// let found = hdrfs::Volume::whole_blocks_from(&std::fs::read("v.vol")?, 80);
/// assert_eq!((found.count, found.may_be_more), (1, false));
/// # Ok::<(), std::io::Error>(())
/// ```
#[must_use]
#[non_exhaustive]
#[derive(Clone, Copy, Debug, PartialEq, Eq, Hash)]
pub struct WholeBlocks {
    /// How many were found.
    pub count: u64,
    /// Whether the search ended before the bytes did.
    pub may_be_more: bool,
}

/// Counts the blocks from an offset on.
pub(crate) fn search(volume: &[u8], from: usize) -> WholeBlocks {
    search_within(BUDGET, volume, from)
}

/// The same with another budget.
fn search_within(budget: usize, volume: &[u8], from: usize) -> WholeBlocks {
    let (mut left, mut at, mut count) = (budget, from, 0);
    while at < volume.len() {
        let Some(len) = stated_len(&volume[at..]) else {
            at += 1;
            continue;
        };
        let Some(after) = left.checked_sub(len) else {
            break;
        };
        left = after;
        let block = read(volume, Bookmark::at(at as u64));
        match block.refusal {
            0 => (at, count) = (block.next as usize, count + 1),
            _ => at += 1,
        }
    }
    WholeBlocks {
        count,
        may_be_more: at < volume.len(),
    }
}

/// How long a block would be that begins where these bytes do, if there is such a kind of block and
/// it has room.
fn stated_len(bytes: &[u8]) -> Option<usize> {
    let (mut len, fields) = layout(*bytes.first()?)?;
    for &(at, width) in fields {
        // A field of 8 bytes has any number.
        len = len.checked_add(number(bytes.get(at..at + width)?))?;
    }
    (len <= bytes.len()).then_some(len)
}

/// How many bytes a kind of block has beside its variable parts, and the fields that have the lengths
/// of those: where each begins, and how wide it is. Link tables are left out: the reader refuses one
/// where none is due.
fn layout(id: u8) -> Option<(usize, &'static [(usize, usize)])> {
    match id {
        1 => Some((75, &[(63, 8)])),
        2 | 3 => Some((31, &[(25, 2)])),
        4 => Some((24, &[(17, 1), (18, 2)])),
        5 => Some((22, &[(17, 1)])),
        6 => Some((21, &[(9, 8)])),
        7 => Some((17, &[(9, 2), (11, 2)])),
        _ => None,
    }
}

/// A number, lowest byte first.
fn number(bytes: &[u8]) -> usize {
    let add = |above: usize, byte: &u8| above << 8 | usize::from(*byte);
    bytes.iter().rev().fold(0, add)
}

#[cfg(test)]
mod tests;
