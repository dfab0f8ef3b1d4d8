//! The structs that the calls answer, field by field as in `include/hdrfs.h`. A test compares the
//! two.

/// What the check of a whole volume answers.
///
/// ```
/// let nothing = hdrfs::sys::check(&[]);
/// assert_eq!(nothing, hdrfs::sys::Checked { refusal: 2, ..Default::default() });
/// ```
#[repr(C)]
#[derive(Clone, Copy, Debug, Default, PartialEq, Eq)]
pub struct Checked {
    /// 0: accepted.
    pub refusal: u64,
    /// Beside refusal 10, which text of the block is not UTF-8, counted from 0; else 0.
    pub text: u64,
    /// Beside refusal 10, where in that text the first ill-formed sequence begins; else 0.
    pub start: u64,
    /// The sequence number.
    pub sequence: u64,
    /// Blocks after the header that were accepted, the link table included: the number of the end
    /// bookmark, or of the block at fault.
    pub blocks: u64,
    /// Where the volume ends, or where the header or block at fault begins.
    pub offset: u64,
    /// 1: `time` is the last time of the end bookmark.
    pub timed: u64,
    /// See `timed`.
    pub time: u64,
}

/// How long the longest accepted beginning of a volume is.
///
/// ```
/// let nothing = hdrfs::sys::repair(&[]);
/// assert_eq!(nothing, hdrfs::sys::Repaired { refusal: 2, ..Default::default() });
/// ```
#[repr(C)]
#[derive(Clone, Copy, Debug, Default, PartialEq, Eq)]
pub struct Repaired {
    /// 0: not refused; else that of the volume's first fault, which cannot be cut away.
    pub refusal: u64,
    /// Beside refusal 10, which text of the block is not UTF-8, counted from 0; else 0.
    pub text: u64,
    /// Beside refusal 10, where in that text the first ill-formed sequence begins; else 0.
    pub start: u64,
    /// How many bytes it has.
    pub length: u64,
}

/// What stands at a position of a file.
///
/// ```
/// let below_the_header = hdrfs::sys::lookup(&[], 79, &[], 0);
/// assert_eq!(below_the_header, hdrfs::sys::Place { refusal: 8, ..Default::default() });
/// ```
#[repr(C)]
#[derive(Clone, Copy, Debug, Default, PartialEq, Eq)]
pub struct Place {
    /// 0: not refused.
    pub refusal: u64,
    /// Beside refusal 10, which text of the block is not UTF-8, counted from 0; else 0.
    pub text: u64,
    /// Beside refusal 10, where in that text the first ill-formed sequence begins; else 0.
    pub start: u64,
    /// [`HOLE`](super::HOLE), [`STORED`](super::STORED) or [`PAST_END`](super::PAST_END).
    pub kind: u64,
    /// The sequence number of the volume that has the byte.
    pub volume: u64,
    /// Where the byte stands in that volume.
    pub offset: u64,
}

/// How many runs a range has.
///
/// ```
/// let three_bytes_of_lengths = hdrfs::sys::runs(&[], 80, &[0; 3], 0, 9, &mut []);
/// assert_eq!(three_bytes_of_lengths, hdrfs::sys::RunCount { refusal: 9, ..Default::default() });
/// ```
#[repr(C)]
#[derive(Clone, Copy, Debug, Default, PartialEq, Eq)]
pub struct RunCount {
    /// 0: not refused; 17: there are more runs than there is room for.
    pub refusal: u64,
    /// Beside refusal 10, which text of the block is not UTF-8, counted from 0; else 0.
    pub text: u64,
    /// Beside refusal 10, where in that text the first ill-formed sequence begins; else 0.
    pub start: u64,
    /// How many runs were stored.
    pub count: u64,
}

/// What a header says, and the bookmark after it.
///
/// ```
/// let nothing = hdrfs::sys::header(&[]);
/// assert_eq!(nothing, hdrfs::sys::Heading { refusal: 2, ..Default::default() });
/// ```
#[repr(C)]
#[derive(Clone, Copy, Debug, Default, PartialEq, Eq)]
pub struct Heading {
    /// 0: accepted.
    pub refusal: u64,
    /// Always 0: a header has no text.
    pub text: u64,
    /// Always 0, likewise.
    pub start: u64,
    /// The sequence number.
    pub sequence: u64,
    /// The offset of the bookmark after the header.
    pub next: u64,
    /// 1: a link table is due there.
    pub due: u64,
    /// Where the file system ID begins in the volume, 16 bytes.
    pub id: u64,
    /// Where the hash of the previous volume begins, 32 bytes.
    pub previous: u64,
}

/// One block; what a kind of block does not have is 0.
///
/// ```
/// let below_the_header = hdrfs::sys::read(&[], 79, 0, 0, 0, 0);
/// assert_eq!(below_the_header, hdrfs::sys::Block { refusal: 8, ..Default::default() });
/// ```
#[repr(C)]
#[derive(Clone, Copy, Debug, Default, PartialEq, Eq)]
pub struct Block {
    /// 0: not refused.
    pub refusal: u64,
    /// Beside refusal 10, which text of the block is not UTF-8, counted from 0; else 0.
    pub text: u64,
    /// Beside refusal 10, where in that text the first ill-formed sequence begins; else 0.
    pub start: u64,
    /// 1: the bookmark stands at the end of the volume, and there is no block.
    pub end: u64,
    /// The kind of block, 1 to 8.
    pub id: u64,
    /// The block's own number: that of the bookmark at which it was read.
    pub number: u64,
    /// The bookmark after the block: its offset.
    pub next: u64,
    /// 1: a link table is due there.
    pub due: u64,
    /// 1: `last` is the last time of that bookmark.
    pub timed: u64,
    /// See `timed`.
    pub last: u64,
    /// The number of that bookmark, one more than the block's.
    pub next_number: u64,
    /// The block's own time; a link table has none.
    pub time: u64,
    /// The inode number of an inode, xattr or removed xattr.
    pub inode: u64,
    /// The child of a link or unlink.
    pub child: u64,
    /// The parent of a link or unlink.
    pub parent: u64,
    /// The mode of an inode.
    pub mode: u64,
    /// The user of an inode.
    pub uid: u64,
    /// The group of an inode.
    pub gid: u64,
    /// When an inode was last read.
    pub atime: u64,
    /// When an inode's content was last changed.
    pub mtime: u64,
    /// When an inode was last changed.
    pub ctime: u64,
    /// When an inode was made.
    pub btime: u64,
    /// The size of an inode.
    pub size: u64,
    /// How many links a link table has.
    pub count: u64,
    /// Where the first variable part begins in the volume.
    pub part: u64,
    /// How long it is.
    pub part_len: u64,
    /// Where the second variable part begins: an xattr's value, a rename's new path.
    pub second: u64,
    /// How long it is.
    pub second_len: u64,
}

/// One link of a table.
///
/// ```
/// assert_eq!(hdrfs::sys::link(&[0; 17], 0).missing, 1);
/// let entry = hdrfs::sys::link(&[0; 18], 0);
/// assert_eq!(entry, hdrfs::sys::LinkEntry { name: 18, next: 18, ..Default::default() });
/// ```
#[repr(C)]
#[derive(Clone, Copy, Debug, Default, PartialEq, Eq)]
pub struct LinkEntry {
    /// 1: no whole link begins there.
    pub missing: u64,
    /// The child's inode number.
    pub child: u64,
    /// The parent's inode number.
    pub parent: u64,
    /// Where the name begins, counted from the beginning of the links.
    pub name: u64,
    /// How long the name is.
    pub name_len: u64,
    /// Where the next link begins.
    pub next: u64,
}

/// How many lines the tree below a folder has.
///
/// ```
/// let below_the_header = hdrfs::sys::tree(&[], 79, 0, 0, 0, 1, &mut []);
/// assert_eq!(below_the_header, hdrfs::sys::Lines { refusal: 8, ..Default::default() });
/// ```
#[repr(C)]
#[derive(Clone, Copy, Debug, Default, PartialEq, Eq)]
pub struct Lines {
    /// 0: not refused; 24: there is a line at depth 32; 17: there are more lines than there is room
    /// for. Of these two, the one that comes first in the listing.
    pub refusal: u64,
    /// Beside refusal 10, which name of the table is not UTF-8, counted from 0; else 0.
    pub text: u64,
    /// Beside refusal 10, where in that name the first ill-formed sequence begins; else 0.
    pub start: u64,
    /// How many lines were stored.
    pub lines: u64,
}

/// One extent of a regular file; what lies past the end of the list is 0.
///
/// ```
/// let nothing = hdrfs::sys::extent(&[], 0);
/// assert_eq!(nothing, hdrfs::sys::ExtentEntry::default());
/// ```
#[repr(C)]
#[derive(Clone, Copy, Debug, Default, PartialEq, Eq)]
pub struct ExtentEntry {
    /// The sequence number of the volume that has the bytes.
    pub volume: u64,
    /// Where the first block begins in that volume.
    pub start: u64,
    /// How long a block is.
    pub size: u64,
    /// 67: `count` blocks in a row; 82: one block read `count` times.
    pub multiplicity: u64,
    /// See `multiplicity`.
    pub count: u64,
    /// How many bytes are left out at the beginning.
    pub pre: u64,
    /// How many bytes are left out at the end.
    pub post: u64,
    /// The first position of the file that is kept.
    pub logical: u64,
}

/// Which of two volumes has a range of bytes.
///
/// ```
/// let nothing = hdrfs::sys::fetch(&[], &[], 0, 0, 0);
/// assert_eq!(nothing, hdrfs::sys::Source { refusal: 2, ..Default::default() });
/// ```
#[repr(C)]
#[derive(Clone, Copy, Debug, Default, PartialEq, Eq)]
pub struct Source {
    /// 0: not refused.
    pub refusal: u64,
    /// Always 0: only headers are read, and they have no text.
    pub text: u64,
    /// Always 0, likewise.
    pub start: u64,
    /// 0: the first volume has them; 1: the second.
    pub which: u64,
}

/// Whether the second of two volumes follows the first.
///
/// ```
/// let nothing = hdrfs::sys::pair(&[], &[]);
/// assert_eq!(nothing, hdrfs::sys::Paired { refusal: 2, which: 1, ..Default::default() });
/// ```
#[repr(C)]
#[derive(Clone, Copy, Debug, Default, PartialEq, Eq)]
pub struct Paired {
    /// 0: the second follows the first; 23: both are accepted, and it does not.
    pub refusal: u64,
    /// Beside refusal 10, which text of the block is not UTF-8, counted from 0; else 0.
    pub text: u64,
    /// Beside refusal 10, where in that text the first ill-formed sequence begins; else 0.
    pub start: u64,
    /// 1: the first volume is refused by itself; 2: the second; 0: neither.
    pub which: u64,
    /// Where the header or block at fault begins in that volume; 0 where neither is refused.
    pub offset: u64,
}

/// The bookmark after what was written.
///
/// ```
/// let no_room = hdrfs::sys::write_header(&mut [], &[0; 16], 0, &[0; 32]);
/// assert_eq!(no_room, hdrfs::sys::Written { refusal: 17, ..Default::default() });
/// ```
#[repr(C)]
#[derive(Clone, Copy, Debug, Default, PartialEq, Eq)]
pub struct Written {
    /// 0: not refused; 17: the buffer has too little room.
    pub refusal: u64,
    /// Beside refusal 10, which text of the block is not UTF-8, counted from 0; else 0.
    pub text: u64,
    /// Beside refusal 10, where in that text the first ill-formed sequence begins; else 0.
    pub start: u64,
    /// The offset of the bookmark.
    pub next: u64,
    /// 1: a link table is due there.
    pub due: u64,
    /// 1: `last` is the last time of that bookmark.
    pub timed: u64,
    /// See `timed`.
    pub last: u64,
    /// The number of that bookmark: 0 after a header, and one more after each block.
    pub number: u64,
}
