//! Why a file of a set is refused, by both sides.

use std::path::Path;

use hdrfs::{ArchiveError, Missing, Refusal};
use independent::{FileRefusal, Lacking};

use super::opening::Both;
use crate::volume::plain;

/// Why a file is refused.
#[derive(Debug, PartialEq, Eq)]
pub(super) enum Reason {
    NoInode,
    Refusal(independent::Refusal),
    /// Volumes, and the extents that reach too far: index, volume, end of the volume.
    Lacks(Vec<u64>, Vec<(usize, u64, u64)>),
    Other(String),
}

pub(super) fn told(refusal: &FileRefusal) -> Reason {
    match refusal {
        FileRefusal::NoInode => Reason::NoInode,
        FileRefusal::NotRegular => Reason::Refusal(independent::Refusal::of(15)),
        FileRefusal::NotThere(Lacking {
            volumes,
            unlisted,
            beyond,
        }) => {
            let short = beyond
                .iter()
                .map(|beyond| (beyond.index, beyond.volume, beyond.length))
                .collect();
            Reason::Lacks(volumes.union(unlisted).copied().collect(), short)
        }
    }
}

/// The same for the other side. What does not fit to the inode that was asked for is another reason.
///
/// A lookup is lent 4,096 lengths at most, so a volume with a higher number has none even if it is
/// given. Whether it then is a volume that lacks or one that is too short is not compared.
pub(super) fn reason(error: &ArchiveError, asked: u64, both: &Both<'_>) -> Reason {
    match error {
        ArchiveError::NoSuchInode { number } if *number == asked => Reason::NoInode,
        ArchiveError::Refused {
            path,
            refusal,
            blocks: None,
            bad_text: None,
        } if is_at(both, asked, path, refusal) => Reason::Refusal(plain(*refusal)),
        ArchiveError::Missing(Missing {
            inode,
            volumes,
            short,
            ..
        }) if *inode == asked => {
            let (unlisted, short): (Vec<_>, Vec<_>) = short
                .iter()
                .map(|short| (short.index, short.extent.volume, short.volume_len))
                .partition(|&(_, volume, _)| volume >= independent::LENGTHS_LIMIT as u64);
            let unlisted = unlisted.iter().map(|&(_, volume, _)| volume);
            let mut volumes: Vec<u64> = unlisted.chain(volumes.iter().copied()).collect();
            volumes.sort_unstable();
            volumes.dedup();
            Reason::Lacks(volumes, short)
        }
        _ => Reason::Other(error.to_string()),
    }
}

/// Whether a refusal is about the current inode block of a number.
fn is_at(both: &Both<'_>, number: u64, path: &Path, refusal: &Refusal) -> bool {
    let inode = both.independent.inodes().get(&number);
    inode.is_some_and(|inode| {
        let member = both.proved.volume(inode.volume);
        let same_block = (inode.offset, Some(inode.block)) == (refusal.offset, refusal.block);
        same_block && member.is_some_and(|member| member.path() == path)
    })
}
