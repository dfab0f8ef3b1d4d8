//! Which inode blocks are current, and which links are the last.

use std::cmp::Reverse;
use std::collections::BTreeMap;

use super::last_link::{LastLink, LastLinks, LinkFinder, VolumeLinks};
use crate::{sys, FileType, Inode};

/// The IDs of the blocks that matter here.
const INODE: u64 = 1;
const LINK: u64 = 2;
const UNLINK: u64 = 3;
const LINK_TABLE: u64 = 8;

/// The current state of an inode: what its last block says in the highest volume that has one.
///
/// ```
/// # std::env::set_current_dir("tests/gauge")?;
/// let archive = hdrfs::Archive::open(["0.vol", "1.vol", "2.vol"])?;
/// let inode = archive.inode(7).unwrap();
/// assert_eq!((inode.volume, inode.block, inode.offset), (2, 2, 210));
/// assert_eq!(inode.size, 246);
/// # Ok::<(), Box<dyn std::error::Error>>(())
/// ```
#[must_use]
#[non_exhaustive]
#[derive(Clone, Copy, Debug, PartialEq, Eq)]
pub struct CurrentInode {
    /// The inode number.
    pub number: u64,
    /// The sequence number of the volume that has the block.
    pub volume: u64,
    /// The number of the block, counted from 0 behind the header of that volume.
    pub block: u64,
    /// Where the block begins in that volume.
    pub offset: u64,
    /// How many bytes the block has.
    pub block_len: u64,
    /// The block's time.
    pub time: u64,
    /// The mode: file type and permissions.
    pub mode: u16,
    /// The user.
    pub uid: u16,
    /// The group.
    pub gid: u16,
    /// When it was last read.
    pub atime: u64,
    /// When its content was last changed.
    pub mtime: u64,
    /// When it was last changed.
    pub ctime: u64,
    /// When it was made.
    pub btime: u64,
    /// The size; for a regular file, how many positions it has.
    pub size: u64,
    /// Whether a link to it was taken away last: its [last link](crate::LastLink) is an unlink.
    pub unlinked: bool,
}

impl CurrentInode {
    /// What it is: a regular file, a folder, and so on.
    ///
    /// ```
    /// use hdrfs::{Archive, FileType};
    /// # std::env::set_current_dir("tests/gauge")?;
    ///
    /// let archive = Archive::open(["0.vol"])?;
    /// assert_eq!(archive.inode(7).unwrap().file_type(), FileType::Regular);
    /// # Ok::<(), Box<dyn std::error::Error>>(())
    /// ```
    pub fn file_type(&self) -> FileType {
        FileType::of(self.mode)
    }
}

/// What a block says of an inode, and where it stands in its volume. There may be very many of
/// these, so they are kept small.
#[derive(Clone, Copy, Debug)]
struct State {
    block: Short,
    offset: Short,
    block_len: Short,
    time: u64,
    mode: u16,
    uid: u16,
    gid: u16,
    atime: u64,
    mtime: u64,
    ctime: u64,
    btime: u64,
    size: u64,
}

impl State {
    fn of(offset: u64, block: &sys::Block) -> State {
        // The mode and the two behind it are two bytes wide in the volume.
        let Inode { mode, uid, gid, .. } = Inode::new(block, &[]);
        State {
            block: Short::new(block.number),
            offset: Short::new(offset),
            block_len: Short::new(block.next - offset),
            time: block.time,
            mode,
            uid,
            gid,
            atime: block.atime,
            mtime: block.mtime,
            ctime: block.ctime,
            btime: block.btime,
            size: block.size,
        }
    }
}

// Six numbers of eight bytes; the three short ones fill what the mode and the two behind it leave of
// two more.
const _: () = assert!(size_of::<State>() == 64, "an inode takes more memory");

/// The number or offset of a block of a volume, or its length, in three bytes: a volume has at most
/// 2^24 bytes, of which 80 are the header's. The highest byte comes first, so that they are ordered
/// as the numbers are.
#[derive(Clone, Copy, Debug, PartialEq, Eq, PartialOrd, Ord)]
struct Short([u8; 3]);

impl Short {
    fn new(number: u64) -> Short {
        let [0, 0, 0, 0, 0, bytes @ ..] = number.to_be_bytes() else {
            unreachable!("{number} in a volume of at most 2^24 bytes")
        };
        Short(bytes)
    }

    fn get(self) -> u64 {
        let [high, middle, low] = self.0;
        u64::from(u32::from_be_bytes([0, high, middle, low]))
    }
}

/// Finds the inodes and links of one volume.
#[derive(Debug)]
pub(super) struct Finder<'a> {
    inodes: Vec<(u64, State)>,
    links: LinkFinder<'a>,
}

impl<'a> Finder<'a> {
    pub(super) fn new(volume: &'a [u8]) -> Finder<'a> {
        Finder {
            inodes: Vec::new(),
            links: LinkFinder::new(volume),
        }
    }

    /// Takes in the next block of the volume.
    pub(super) fn visit(&mut self, offset: u64, block: &sys::Block) {
        match block.id {
            INODE => {
                let state = State::of(offset, block);
                match self.inodes.last_mut() {
                    // A file that grows is often written again and again.
                    Some((number, last)) if *number == block.inode => *last = state,
                    _ => self.inodes.push((block.inode, state)),
                }
            }
            LINK | UNLINK => self.links.block(block, block.id == UNLINK),
            LINK_TABLE => self.links.table(block),
            _ => (),
        }
    }

    /// Leaves out what a later block of the volume supersedes. To sort once is quicker than to keep
    /// a table, and takes less memory.
    pub(super) fn finish(self) -> Found {
        let mut inodes = self.inodes;
        inodes.sort_unstable_by_key(|(number, state)| (*number, Reverse(state.offset)));
        inodes.dedup_by_key(|(number, _)| *number);
        inodes.shrink_to_fit();
        let links = self.links.finish();
        Found { inodes, links }
    }
}

/// The inodes and links that were found in one volume: the last of each number, by rising number.
#[derive(Debug, Default)]
pub(super) struct Found {
    inodes: Vec<(u64, State)>,
    links: VolumeLinks,
}

impl Found {
    /// Leaves out all but what is about one inode.
    pub(super) fn keep(mut self, number: u64) -> Found {
        self.inodes.retain(|(found, _)| *found == number);
        self.inodes.shrink_to_fit();
        let links = self.links.keep(number);
        Found { links, ..self }
    }
}

/// The inodes of all volumes, by number, whatever order the volumes come in.
#[derive(Debug, Default)]
pub(super) struct Index {
    /// With the sequence number of the volume.
    inodes: BTreeMap<u64, (u64, State)>,
    links: LastLinks,
}

impl Index {
    /// Takes in what the volume with this sequence number has. It must be the only one.
    pub(super) fn add(&mut self, sequence: u64, found: Found) {
        for (number, state) in found.inodes {
            let entry = self.inodes.entry(number).or_insert((sequence, state));
            if entry.0 < sequence {
                *entry = (sequence, state);
            }
        }
        self.links.add(sequence, found.links);
    }

    pub(super) fn get(&self, number: u64) -> Option<CurrentInode> {
        let (volume, state) = self.inodes.get(&number)?;
        Some(self.current(number, *volume, state))
    }

    pub(super) fn iter(&self) -> impl ExactSizeIterator<Item = CurrentInode> + '_ {
        let inodes = self.inodes.iter();
        inodes.map(|(number, (volume, state))| self.current(*number, *volume, state))
    }

    pub(super) fn last_link(&self, number: u64) -> Option<LastLink<'_>> {
        self.links.get(number)
    }

    fn current(&self, number: u64, volume: u64, state: &State) -> CurrentInode {
        let link = self.links.get(number);
        CurrentInode {
            number,
            volume,
            block: state.block.get(),
            offset: state.offset.get(),
            block_len: state.block_len.get(),
            time: state.time,
            mode: state.mode,
            uid: state.uid,
            gid: state.gid,
            atime: state.atime,
            mtime: state.mtime,
            ctime: state.ctime,
            btime: state.btime,
            size: state.size,
            unlinked: link.is_some_and(|link| link.taken_away),
        }
    }
}
