//! One walk over a volume: its check, and on the way where its inodes and links are.

use crate::blocks::read;
use crate::{sys, Bookmark, Heading, Refusal, Rejected, Volume};

/// What a sound volume says of itself.
#[derive(Clone, Copy, Debug, PartialEq, Eq)]
pub(crate) struct Scanned {
    pub(crate) heading: Heading,
    pub(crate) end: Bookmark,
}

/// Walks a whole volume, and hands every block to `visit`, with the offset at which it begins. The
/// volume is accepted exactly if [`Volume::check`] accepts it, and refused with the same numbers.
///
/// The bytes are looked at once: a check and then a walk would take all checksums twice.
pub(crate) fn scan(
    volume: &[u8],
    mut visit: impl FnMut(u64, &sys::Block),
) -> Result<Scanned, Rejected> {
    let heading = Volume::header(volume).map_err(Rejected::new)?;
    let mut mark = heading.next;
    loop {
        let block = read(volume, mark);
        Refusal::unless_accepted(&block, mark.offset, Some(mark.number)).map_err(Rejected::new)?;
        if block.end != 0 {
            return Ok(Scanned { heading, end: mark });
        }
        visit(mark.offset, &block);
        mark = Bookmark::after(&block);
    }
}

#[cfg(test)]
mod tests;
