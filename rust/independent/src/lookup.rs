//! Where a position of a regular file is stored.

use crate::block::{read_with, Body, Bookmark, Reading};
use crate::extent::{extents, Extent, COUNTED};
use crate::refusal::*;
use crate::{bytes::u64_at, crc, LENGTHS_LIMIT};

#[derive(Clone, Copy, Debug, PartialEq, Eq)]
pub enum Place {
    Hole,
    PastEnd,
    Stored { volume: u64, offset: u64 },
}

/// The answer for one position of the inode block at `offset`. `lengths`
/// holds eight bytes for each volume.
pub fn lookup(volume: &[u8], offset: u64, lengths: &[u8], position: u64) -> Result<Place, Refusal> {
    lookup_with(volume, offset, lengths, position, crc::slicing)
}

/// Like [`lookup`], with a chosen form of the checksum.
pub fn lookup_with(
    volume: &[u8],
    offset: u64,
    lengths: &[u8],
    position: u64,
    crc: impl Fn(&[u8]) -> u32,
) -> Result<Place, Refusal> {
    let mut found = Place::Hole;
    let size = for_each_kept(volume, offset, lengths, crc, |kept| {
        if kept.from <= position && position < kept.to {
            found = Place::Stored {
                volume: kept.extent.volume,
                offset: kept.offset_of(kept.raw_of(position)),
            };
        }
    })?;
    Ok(if position >= size {
        Place::PastEnd
    } else {
        found
    })
}

/// An extent that keeps the positions `from` to below `to`, at least one.
#[derive(Clone, Copy, Debug)]
pub(crate) struct Kept {
    pub extent: Extent,
    pub from: u64,
    pub to: u64,
}

impl Kept {
    /// Which raw byte of the extent a kept position is.
    #[inline]
    pub fn raw_of(&self, position: u64) -> u64 {
        self.extent.pre + (position - self.from)
    }

    /// Where a raw byte lies in the extent's volume.
    #[inline]
    pub fn offset_of(&self, raw: u64) -> u64 {
        let within = if self.extent.multiplicity == COUNTED {
            raw
        } else {
            raw % self.extent.size
        };
        self.extent.start + within
    }
}

/// Visits each extent that keeps something and gives the file's size, or
/// refuses. What was visited before a refusal means nothing.
#[inline]
pub(crate) fn for_each_kept(
    volume: &[u8],
    offset: u64,
    lengths: &[u8],
    crc: impl Fn(&[u8]) -> u32,
    mut visit: impl FnMut(Kept),
) -> Result<u64, Refusal> {
    if !lengths.len().is_multiple_of(8) || lengths.len() / 8 > LENGTHS_LIMIT {
        return Err(OVER_LIMIT);
    }
    let Reading::Block(block, _) = read_with(volume, Bookmark::at(offset), crc)? else {
        return Err(ENDS_EARLY);
    };
    let Body::Inode { stat, variable } = block.body else {
        return Err(NOT_REGULAR);
    };
    if !stat.is_regular() {
        return Err(NOT_REGULAR);
    }
    for extent in extents(variable.bytes) {
        let Some(length @ 1..) = extent.kept() else {
            continue;
        };
        if extent.volume >= (lengths.len() / 8) as u64
            || extent.stored_end() > u64_at(lengths, extent.volume as usize * 8)
        {
            return Err(NOT_THERE);
        }
        visit(Kept {
            extent,
            from: extent.logical,
            to: extent.logical + length,
        });
    }
    Ok(stat.size)
}
