//! What of a file is not there, where a lookup says that something is not.
//!
//! The library refuses the file as a whole. To tell which extents are at fault, each is asked for
//! alone, as the only extent of a file: so the library decides here too, and nothing is worked out
//! a second time.

use super::file::HEADER_LEN;
use super::{Archive, Missing, ShortExtent};
use crate::{Bookmark, Extent, Extents, File, Inode, Logical, Refusal, Writer};

/// What of an inode's extents the volumes do not have.
pub(super) fn missing(archive: &Archive, inode: &Inode<'_>) -> Missing {
    let mut missing = Missing {
        inode: inode.number,
        volumes: Vec::new(),
        short: Vec::new(),
    };
    for (index, extent) in inode.extents().enumerate() {
        if is_there(archive, extent) {
            continue;
        }
        if archive.volume(extent.volume).is_none() {
            missing.volumes.push(extent.volume);
        } else {
            missing.short.push(ShortExtent {
                index,
                extent,
                volume_len: archive.lengths.get(extent.volume),
            });
        }
    }
    missing.volumes.sort_unstable();
    missing.volumes.dedup();
    missing
}

/// Whether the volumes have all that an extent of an accepted inode needs.
fn is_there(archive: &Archive, extent: Extent) -> bool {
    let extents = Extents::new().push(extent);
    let inode = Inode {
        rest: extents.as_bytes(),
        ..Inode::regular(0)
    };
    let mut buf = [0; HEADER_LEN + 75 + 57];
    let offset = HEADER_LEN as u64;
    Writer::at(&mut buf, Bookmark::at(offset))
        .append_inode(0, &inode)
        .expect("an extent that was accepted is accepted alone");
    match File::new(&buf, offset, &archive.lengths).position(Logical(0)) {
        Ok(_) => true,
        Err(refusal) => refusal.number != Refusal::NOT_THERE,
    }
}
