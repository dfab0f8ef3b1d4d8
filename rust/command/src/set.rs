//! The volumes given on the command line, taken together. What a set is, and which inode is current,
//! the library's archive decides.

use std::num::NonZeroUsize;
use std::ops::ControlFlow;
use std::path::PathBuf;

use hdrfs::{check_each, Archive, ArchiveError, ArchiveFile, Refusal};

use crate::failure::Failure;
use crate::progress::Progress;

/// Checks all volumes and takes them together. The first that is refused, cannot be read or does not
/// belong to the others ends it. Where only one inode is wanted, no other is kept: there may be very
/// many.
pub fn open(files: &[PathBuf], jobs: NonZeroUsize, only: Option<u64>) -> Result<Archive, Failure> {
    let progress = Progress::new("volume", "read", files.len() as u64);
    let mut archive = Archive::new();
    let ended = check_each(files, jobs, |_, checked| {
        progress.add(1);
        let inserted = checked.and_then(|member| match only {
            Some(number) => archive.insert(member.with_inode(number)),
            None => archive.insert(member),
        });
        match inserted {
            Ok(()) => ControlFlow::Continue(()),
            Err(error) => ControlFlow::Break(error),
        }
    });
    match ended {
        ControlFlow::Continue(()) => Ok(archive),
        ControlFlow::Break(error) => Err(error.into()),
    }
}

/// A regular file, of which nothing can be refused any more.
pub fn file(archive: &Archive, number: u64) -> Result<ArchiveFile<'_>, Failure> {
    archive.file(number).map_err(|error| match error {
        ArchiveError::Missing(missing) => {
            let inode = archive.inode(number);
            let volume = inode.and_then(|inode| archive.volume(inode.volume));
            let path = volume.map(|volume| volume.path().to_path_buf());
            let refusal = Refusal::new(Refusal::NOT_THERE, inode.map_or(0, |inode| inode.offset));
            Failure::Lacking {
                path: path.unwrap_or_default(),
                refusal: refusal.with_block(inode.map(|inode| inode.block)),
                missing: Box::new(missing),
            }
        }
        other => other.into(),
    })
}
