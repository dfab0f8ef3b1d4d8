//! The tree of a link table below a root, line by line.

use crate::block::{read_with, Body, Bookmark, Reading};
use crate::crc;
use crate::links::Links;
use crate::refusal::*;

/// How many depths lines can have, from 0 on. A line below these is refused.
pub const DEPTHS: usize = 32;

/// Lists what the table at the bookmark has below a root: for each link of a
/// folder its depth and its place among all links, and then what it holds.
/// These two numbers go to the front of `out`, and the answer is how many
/// lines there are. On refusal `out` stays as it was.
///
/// The table is due at the bookmark, whatever that says itself.
pub fn tree(volume: &[u8], mark: Bookmark, root: u64, out: &mut [u64]) -> Result<u64, Refusal> {
    tree_with(volume, mark, root, out, crc::slicing)
}

/// Like [`tree`], with a chosen form of the checksum.
pub fn tree_with(
    volume: &[u8],
    mark: Bookmark,
    root: u64,
    out: &mut [u64],
    crc: impl Fn(&[u8]) -> u32,
) -> Result<u64, Refusal> {
    let index = Index::new(table(volume, mark, crc)?);
    let Some(root) = index.find(root) else {
        return Ok(0);
    };
    let (room, _) = out.as_chunks_mut::<2>();
    let lines = index.admit(root, room.len() as u64)?;
    index.store(root, 0, &mut room.iter_mut());
    Ok(lines)
}

/// The links of the table at the bookmark.
fn table(volume: &[u8], mark: Bookmark, crc: impl Fn(&[u8]) -> u32) -> Result<Links<'_>, Refusal> {
    let due = Bookmark { due: true, ..mark };
    // Where a table is due, a reading neither comes to the end nor hands out
    // another block: both are refused before.
    let Reading::Block(block, _) = read_with(volume, due, crc)? else {
        return Err(ENDS_EARLY);
    };
    let Body::Table { links, .. } = block.body else {
        return Err(OUT_OF_PLACE);
    };
    Ok(Links::new(links.bytes))
}

/// Which of the folders that have links, counted from 0. A table has at most
/// 4,096 links and so no more folders.
type Folder = u16;

/// A link, as far as a listing goes.
#[derive(Clone, Copy)]
struct Entry {
    /// Which link of the table it is.
    place: u16,
    /// What it holds, if that is anything.
    holds: Option<Folder>,
}

/// All links, gathered by folder. What a link holds is looked for here once,
/// however often the link is listed.
struct Index {
    /// The inode numbers of folders with at least one link, rising.
    inodes: Vec<u64>,
    /// Where the entries of each folder begin, and where the last one's end.
    bounds: Vec<u16>,
    /// By folder, and for each in the order of the table.
    entries: Vec<Entry>,
}

impl Index {
    fn new(links: Links) -> Index {
        let mut sorted: Vec<(u64, u16, u64)> = (0..)
            .zip(links)
            .map(|(place, link)| (link.parent, place, link.child))
            .collect();
        // Places all differ, so this keeps the order of the table.
        sorted.sort_unstable_by_key(|&(parent, place, _)| (parent, place));
        let mut inodes = Vec::new();
        let mut bounds = Vec::new();
        for (at, &(parent, ..)) in (0..).zip(&sorted) {
            if inodes.last() != Some(&parent) {
                inodes.push(parent);
                bounds.push(at);
            }
        }
        bounds.push(sorted.len() as u16);
        let entry = |&(_, place, child): &(u64, u16, u64)| Entry {
            place,
            holds: find(&inodes, child),
        };
        let entries = sorted.iter().map(entry).collect();
        Index {
            inodes,
            bounds,
            entries,
        }
    }

    fn find(&self, inode: u64) -> Option<Folder> {
        find(&self.inodes, inode)
    }

    /// The links of a folder; there is at least one.
    fn entries(&self, folder: Folder) -> &[Entry] {
        let folder = usize::from(folder);
        let (from, to) = (self.bounds[folder], self.bounds[folder + 1]);
        &self.entries[usize::from(from)..usize::from(to)]
    }

    /// How many lines a root has, if none is too deep and there is room for
    /// so many. Of two reasons to refuse, that of the earlier line counts,
    /// and a line that is too deep asks for no room.
    fn admit(&self, root: Folder, room: u64) -> Result<u64, Refusal> {
        let mut known = vec![0; self.inodes.len() * DEPTHS];
        match self.count(root, 0, &mut known) {
            Ok(lines) if lines <= room => Ok(lines),
            Err(before) if before <= room => Err(TOO_DEEP),
            _ => Err(NO_ROOM),
        }
    }

    /// How many lines a folder has whose links stand at this depth, or how
    /// many come before the first that is too deep. Either may be too small
    /// from 2^64 on, which is more than any room.
    ///
    /// Lines can be so many that they cannot be counted one by one. So what
    /// was counted once is `known`, by folder and depth; 0 is said of what was
    /// not. The first line that is too deep ends it all.
    fn count(&self, folder: Folder, depth: usize, known: &mut [u64]) -> Result<u64, u64> {
        if depth == DEPTHS {
            return Err(0);
        }
        let memory = usize::from(folder) * DEPTHS + depth;
        if known[memory] > 0 {
            return Ok(known[memory]);
        }
        let mut lines = 0u64;
        for entry in self.entries(folder) {
            lines = lines.saturating_add(1);
            if let Some(inner) = entry.holds {
                lines = match self.count(inner, depth + 1, known) {
                    Ok(more) => lines.saturating_add(more),
                    Err(before) => return Err(lines.saturating_add(before)),
                };
            }
        }
        known[memory] = lines;
        Ok(lines)
    }

    /// Stores the lines of a folder whose links stand at this depth. All were
    /// admitted before, so that none is too deep and there is room for each.
    fn store<'a>(
        &self,
        folder: Folder,
        depth: u64,
        room: &mut impl Iterator<Item = &'a mut [u64; 2]>,
    ) {
        for entry in self.entries(folder) {
            if let Some(line) = room.next() {
                *line = [depth, u64::from(entry.place)];
            }
            if let Some(inner) = entry.holds {
                self.store(inner, depth + 1, room);
            }
        }
    }
}

/// The folder of an inode number among those given, which rise.
fn find(inodes: &[u64], inode: u64) -> Option<Folder> {
    let found = inodes.binary_search(&inode).ok()?;
    Some(found as Folder)
}
