//! The calls of `include/hdrfs.h`, one to one, on numbers and slices.
//!
//! Most programs want the types above this module. It is public for those who compare the library
//! with another one, number by number. This is the only module with `unsafe` in it; its functions
//! are safe for any bytes and any numbers.

mod answers;
mod chain;
mod tree;
mod writing;

pub use answers::{
    Block, Checked, ExtentEntry, Heading, Lines, LinkEntry, Paired, Place, Repaired, RunCount,
    Source, Written,
};
pub use chain::{pair, sha256, sha256_feed, sha256_finish, sha256_start};
pub use tree::tree;
pub use writing::{
    append_data, append_inode, append_link, append_removed_xattr, append_rename, append_table,
    append_unlink, append_xattr, write_header,
};

// Offsets are 64-bit numbers on the other side, and index slices here.
const _: () = assert!(usize::BITS == 64, "the archive is made for 64-bit machines");

/// A position that no extent keeps.
///
/// ```
/// assert_eq!(hdrfs::sys::HOLE, 0);
/// ```
pub const HOLE: u64 = 0;

/// A position whose byte is stored in a volume.
///
/// ```
/// assert_eq!(hdrfs::sys::STORED, 1);
/// ```
pub const STORED: u64 = 1;

/// A position at or above the size of the file.
///
/// ```
/// assert_eq!(hdrfs::sys::PAST_END, 2);
/// ```
pub const PAST_END: u64 = 2;

/// The declarations of the header file, in its order.
mod raw {
    use super::{
        Block, Checked, ExtentEntry, Heading, Lines, LinkEntry, Paired, Place, Repaired, RunCount,
        Source, Written,
    };

    type Bytes = *const u8;

    extern "C" {
        pub fn hdrfs_check(volume: Bytes, volume_len: usize) -> Checked;
        pub fn hdrfs_check_refusal(volume: Bytes, volume_len: usize) -> u64;
        pub fn hdrfs_check_text(volume: Bytes, volume_len: usize) -> u64;
        pub fn hdrfs_check_start(volume: Bytes, volume_len: usize) -> u64;
        pub fn hdrfs_check_sequence(volume: Bytes, volume_len: usize) -> u64;
        pub fn hdrfs_check_blocks(volume: Bytes, volume_len: usize) -> u64;
        pub fn hdrfs_check_offset(volume: Bytes, volume_len: usize) -> u64;
        pub fn hdrfs_check_timed(volume: Bytes, volume_len: usize) -> u64;
        pub fn hdrfs_check_time(volume: Bytes, volume_len: usize) -> u64;
        pub fn hdrfs_repair(volume: Bytes, volume_len: usize) -> Repaired;
        pub fn hdrfs_lookup(
            volume: Bytes,
            volume_len: usize,
            offset: u64,
            lengths: Bytes,
            lengths_len: usize,
            position: u64,
        ) -> Place;
        pub fn hdrfs_lookup_refusal(
            volume: Bytes,
            volume_len: usize,
            offset: u64,
            lengths: Bytes,
            lengths_len: usize,
            position: u64,
        ) -> u64;
        pub fn hdrfs_lookup_text(
            volume: Bytes,
            volume_len: usize,
            offset: u64,
            lengths: Bytes,
            lengths_len: usize,
            position: u64,
        ) -> u64;
        pub fn hdrfs_lookup_start(
            volume: Bytes,
            volume_len: usize,
            offset: u64,
            lengths: Bytes,
            lengths_len: usize,
            position: u64,
        ) -> u64;
        pub fn hdrfs_lookup_kind(
            volume: Bytes,
            volume_len: usize,
            offset: u64,
            lengths: Bytes,
            lengths_len: usize,
            position: u64,
        ) -> u64;
        pub fn hdrfs_lookup_volume(
            volume: Bytes,
            volume_len: usize,
            offset: u64,
            lengths: Bytes,
            lengths_len: usize,
            position: u64,
        ) -> u64;
        pub fn hdrfs_lookup_offset(
            volume: Bytes,
            volume_len: usize,
            offset: u64,
            lengths: Bytes,
            lengths_len: usize,
            position: u64,
        ) -> u64;
        pub fn hdrfs_runs(
            volume: Bytes,
            volume_len: usize,
            offset: u64,
            lengths: Bytes,
            lengths_len: usize,
            from: u64,
            to: u64,
            out: *mut u64,
            out_len: usize,
        ) -> RunCount;
        pub fn hdrfs_header(volume: Bytes, volume_len: usize) -> Heading;
        pub fn hdrfs_read(
            volume: Bytes,
            volume_len: usize,
            offset: u64,
            due: u64,
            timed: u64,
            time: u64,
            number: u64,
        ) -> Block;
        pub fn hdrfs_link(links: Bytes, links_len: usize, at: u64) -> LinkEntry;
        pub fn hdrfs_tree(
            volume: Bytes,
            volume_len: usize,
            offset: u64,
            timed: u64,
            last: u64,
            number: u64,
            root: u64,
            out: *mut u64,
            out_len: usize,
        ) -> Lines;
        pub fn hdrfs_extent(list: Bytes, list_len: usize, index: u64) -> ExtentEntry;
        pub fn hdrfs_fetch(
            first: Bytes,
            first_len: usize,
            second: Bytes,
            second_len: usize,
            number: u64,
            offset: u64,
            len: u64,
        ) -> Source;
        pub fn hdrfs_sha256(bytes: Bytes, bytes_len: usize, out: *mut u8, out_len: usize) -> u64;
        pub fn hdrfs_sha256_start(state: *mut u8, state_len: usize) -> u64;
        pub fn hdrfs_sha256_feed(
            state: *mut u8,
            state_len: usize,
            part: Bytes,
            part_len: usize,
        ) -> u64;
        pub fn hdrfs_sha256_finish(
            state: Bytes,
            state_len: usize,
            out: *mut u8,
            out_len: usize,
        ) -> u64;
        pub fn hdrfs_pair(
            first: Bytes,
            first_len: usize,
            second: Bytes,
            second_len: usize,
        ) -> Paired;
        pub fn hdrfs_write_header(
            buf: *mut u8,
            buf_len: usize,
            id: Bytes,
            id_len: usize,
            sequence: u64,
            previous: Bytes,
            previous_len: usize,
        ) -> Written;
        pub fn hdrfs_append_inode(
            buf: *mut u8,
            buf_len: usize,
            offset: u64,
            due: u64,
            timed: u64,
            last: u64,
            number: u64,
            inode: u64,
            time: u64,
            mode: u16,
            uid: u16,
            gid: u16,
            atime: u64,
            mtime: u64,
            ctime: u64,
            btime: u64,
            size: u64,
            rest: Bytes,
            rest_len: usize,
        ) -> Written;
        pub fn hdrfs_append_link(
            buf: *mut u8,
            buf_len: usize,
            offset: u64,
            due: u64,
            timed: u64,
            last: u64,
            number: u64,
            time: u64,
            child: u64,
            parent: u64,
            name: Bytes,
            name_len: usize,
        ) -> Written;
        pub fn hdrfs_append_unlink(
            buf: *mut u8,
            buf_len: usize,
            offset: u64,
            due: u64,
            timed: u64,
            last: u64,
            number: u64,
            time: u64,
            child: u64,
            parent: u64,
            name: Bytes,
            name_len: usize,
        ) -> Written;
        pub fn hdrfs_append_xattr(
            buf: *mut u8,
            buf_len: usize,
            offset: u64,
            due: u64,
            timed: u64,
            last: u64,
            number: u64,
            time: u64,
            inode: u64,
            name: Bytes,
            name_len: usize,
            value: Bytes,
            value_len: usize,
        ) -> Written;
        pub fn hdrfs_append_removed_xattr(
            buf: *mut u8,
            buf_len: usize,
            offset: u64,
            due: u64,
            timed: u64,
            last: u64,
            number: u64,
            time: u64,
            inode: u64,
            name: Bytes,
            name_len: usize,
        ) -> Written;
        pub fn hdrfs_append_data(
            buf: *mut u8,
            buf_len: usize,
            offset: u64,
            due: u64,
            timed: u64,
            last: u64,
            number: u64,
            time: u64,
            payload: Bytes,
            payload_len: usize,
        ) -> Written;
        pub fn hdrfs_append_rename(
            buf: *mut u8,
            buf_len: usize,
            offset: u64,
            due: u64,
            timed: u64,
            last: u64,
            number: u64,
            time: u64,
            old_path: Bytes,
            old_path_len: usize,
            new_path: Bytes,
            new_path_len: usize,
        ) -> Written;
        pub fn hdrfs_append_table(
            buf: *mut u8,
            buf_len: usize,
            offset: u64,
            due: u64,
            timed: u64,
            last: u64,
            number: u64,
            count: u64,
            links: Bytes,
            links_len: usize,
        ) -> Written;
    }
}

// What makes every call below sound: a slice lends its pointer and length for the time of the call,
// the library reads within them for any bytes and any numbers, keeps no pointer, and writes only to
// the list lent to `hdrfs_runs` or `hdrfs_tree`, the buffer lent to a writing call, and the state and
// the room for a digest lent to a SHA-256 call, within their lengths.

/// The functions on a whole volume that answer a struct or a number.
macro_rules! on_a_volume {
    ($($(#[$doc:meta])* $name:ident calls $call:ident -> $answer:ty;)*) => {$(
        $(#[$doc])*
        #[must_use]
        pub fn $name(volume: &[u8]) -> $answer {
            // SAFETY: see above.
            unsafe { raw::$call(volume.as_ptr(), volume.len()) }
        }
    )*};
}

on_a_volume! {
    /// The check of a whole volume, all of it in one pass.
    ///
    /// ```
    /// # std::env::set_current_dir("../../crates/samples/data")?;
    /// let checked = hdrfs::sys::check(&std::fs::read("v.vol")?);
    /// assert_eq!((checked.refusal, checked.blocks, checked.offset), (0, 1, 104));
    /// # Ok::<(), std::io::Error>(())
    /// ```
    check calls hdrfs_check -> Checked;

    /// The refusal number of [`check`], 0 where the volume is accepted.
    ///
    /// ```
    /// assert_eq!(hdrfs::sys::check_refusal(&[]), 2);
    /// ```
    check_refusal calls hdrfs_check_refusal -> u64;

    /// Which text [`check`] refuses with 10, 0 where it does not.
    ///
    /// ```
    /// # std::env::set_current_dir("../../crates/samples/data")?;
    /// assert_eq!(hdrfs::sys::check_text(&std::fs::read("second_path_not_text.vol")?), 1);
    /// # Ok::<(), std::io::Error>(())
    /// ```
    check_text calls hdrfs_check_text -> u64;

    /// Where in that text the first ill-formed sequence begins.
    ///
    /// ```
    /// # std::env::set_current_dir("../../crates/samples/data")?;
    /// assert_eq!(hdrfs::sys::check_start(&std::fs::read("name_not_text.vol")?), 1);
    /// # Ok::<(), std::io::Error>(())
    /// ```
    check_start calls hdrfs_check_start -> u64;

    /// The sequence number of [`check`].
    ///
    /// ```
    /// assert_eq!(hdrfs::sys::check_sequence(&[]), 0);
    /// ```
    check_sequence calls hdrfs_check_sequence -> u64;

    /// The number of accepted blocks of [`check`].
    ///
    /// ```
    /// assert_eq!(hdrfs::sys::check_blocks(&[]), 0);
    /// ```
    check_blocks calls hdrfs_check_blocks -> u64;

    /// The offset of [`check`], that of the end or of the fault.
    ///
    /// ```
    /// assert_eq!(hdrfs::sys::check_offset(&[]), 0);
    /// ```
    check_offset calls hdrfs_check_offset -> u64;

    /// Whether the end bookmark of [`check`] has a last time: 1 or 0.
    ///
    /// ```
    /// assert_eq!(hdrfs::sys::check_timed(&[]), 0);
    /// ```
    check_timed calls hdrfs_check_timed -> u64;

    /// The last time of [`check`].
    ///
    /// ```
    /// assert_eq!(hdrfs::sys::check_time(&[]), 0);
    /// ```
    check_time calls hdrfs_check_time -> u64;

    /// How long the longest accepted beginning is: of an accepted volume all of it, and of one whose
    /// bytes end too early in a block other than the link table what stands before that block.
    ///
    /// ```
    /// # std::env::set_current_dir("../../crates/samples/data")?;
    /// let volume = std::fs::read("v.vol")?;
    /// assert_eq!(hdrfs::sys::repair(&volume).length, 104);
    /// assert_eq!(hdrfs::sys::repair(&volume[..103]).length, 80);
    /// assert_eq!(hdrfs::sys::repair(&volume[..79]).refusal, 2);
    /// # Ok::<(), std::io::Error>(())
    /// ```
    repair calls hdrfs_repair -> Repaired;

    /// The header alone.
    ///
    /// ```
    /// # std::env::set_current_dir("../../crates/samples/data")?;
    /// let heading = hdrfs::sys::header(&std::fs::read("all_kinds.vol")?);
    /// assert_eq!((heading.sequence, heading.next, heading.due), (1, 80, 1));
    /// assert_eq!((heading.id, heading.previous), (18, 44));
    /// # Ok::<(), std::io::Error>(())
    /// ```
    header calls hdrfs_header -> Heading;
}

/// The functions on a position of a file.
macro_rules! on_a_position {
    ($($(#[$doc:meta])* $name:ident calls $call:ident -> $answer:ty;)*) => {$(
        $(#[$doc])*
        #[must_use]
        pub fn $name(volume: &[u8], offset: u64, lengths: &[u8], position: u64) -> $answer {
            let (bytes, len) = (lengths.as_ptr(), lengths.len());
            // SAFETY: see above.
            unsafe { raw::$call(volume.as_ptr(), volume.len(), offset, bytes, len, position) }
        }
    )*};
}

on_a_position! {
    /// What stands at a position of the file whose inode block is at `offset`.
    ///
    /// ```
    /// # std::env::set_current_dir("../../crates/samples/data")?;
    /// let volume = std::fs::read("all_kinds.vol")?;
    /// let lengths = [104u64.to_le_bytes(), 659u64.to_le_bytes()].concat();
    /// let place = hdrfs::sys::lookup(&volume, 137, &lengths, 4);
    /// assert_eq!((place.refusal, place.kind, place.volume, place.offset), (0, 1, 0, 98));
    /// # Ok::<(), std::io::Error>(())
    /// ```
    lookup calls hdrfs_lookup -> Place;

    /// The refusal number of [`lookup`], 0 where it is not refused.
    ///
    /// ```
    /// assert_eq!(hdrfs::sys::lookup_refusal(&[], 80, &[], 0), 2);
    /// ```
    lookup_refusal calls hdrfs_lookup_refusal -> u64;

    /// Which text of the block [`lookup`] refuses with 10, 0 where it does not.
    ///
    /// ```
    /// # std::env::set_current_dir("../../crates/samples/data")?;
    /// let volume = std::fs::read("second_path_not_text.vol")?;
    /// assert_eq!(hdrfs::sys::lookup_text(&volume, 80, &[], 0), 1);
    /// # Ok::<(), std::io::Error>(())
    /// ```
    lookup_text calls hdrfs_lookup_text -> u64;

    /// Where in that text the first ill-formed sequence begins.
    ///
    /// ```
    /// # std::env::set_current_dir("../../crates/samples/data")?;
    /// let volume = std::fs::read("name_not_text.vol")?;
    /// assert_eq!(hdrfs::sys::lookup_start(&volume, 80, &[], 0), 1);
    /// # Ok::<(), std::io::Error>(())
    /// ```
    lookup_start calls hdrfs_lookup_start -> u64;

    /// The kind of [`lookup`].
    ///
    /// ```
    /// assert_eq!(hdrfs::sys::lookup_kind(&[], 80, &[], 0), 0);
    /// ```
    lookup_kind calls hdrfs_lookup_kind -> u64;

    /// The volume of [`lookup`].
    ///
    /// ```
    /// assert_eq!(hdrfs::sys::lookup_volume(&[], 80, &[], 0), 0);
    /// ```
    lookup_volume calls hdrfs_lookup_volume -> u64;

    /// The offset of [`lookup`].
    ///
    /// ```
    /// assert_eq!(hdrfs::sys::lookup_offset(&[], 80, &[], 0), 0);
    /// ```
    lookup_offset calls hdrfs_lookup_offset -> u64;
}

/// The runs of the positions `from` to below `to`, five numbers each in `out`; numbers past them
/// keep their values.
///
/// ```
/// # std::env::set_current_dir("../../crates/samples/data")?;
/// let volume = std::fs::read("all_kinds.vol")?;
/// let lengths = [104u64.to_le_bytes(), 659u64.to_le_bytes()].concat();
/// let mut out = [9; 11];
/// let answer = hdrfs::sys::runs(&volume, 137, &lengths, 0, 4, &mut out);
/// assert_eq!(answer.count, 2);
/// assert_eq!(out, [0, 3, 1, 0, 97, 3, 1, 0, 0, 0, 9]);
/// # Ok::<(), std::io::Error>(())
/// ```
#[must_use]
pub fn runs(
    volume: &[u8],
    offset: u64,
    lengths: &[u8],
    from: u64,
    to: u64,
    out: &mut [u64],
) -> RunCount {
    // SAFETY: see above; `out` is lent to nobody else during the call.
    unsafe {
        raw::hdrfs_runs(
            volume.as_ptr(),
            volume.len(),
            offset,
            lengths.as_ptr(),
            lengths.len(),
            from,
            to,
            out.as_mut_ptr(),
            out.len(),
        )
    }
}

/// The block at a bookmark: `due` is 0 where no link table is due, `timed` is 0 where there is no
/// last time, and `number` says how many blocks stand before it.
///
/// ```
/// # std::env::set_current_dir("../../crates/samples/data")?;
/// let block = hdrfs::sys::read(&std::fs::read("v.vol")?, 80, 0, 0, 0, 5);
/// assert_eq!((block.id, block.time, block.part, block.part_len), (6, 7, 97, 3));
/// assert_eq!((block.number, block.next_number), (5, 6));
/// # Ok::<(), std::io::Error>(())
/// ```
#[must_use]
pub fn read(volume: &[u8], offset: u64, due: u64, timed: u64, time: u64, number: u64) -> Block {
    let (bytes, len) = (volume.as_ptr(), volume.len());
    // SAFETY: see above.
    unsafe { raw::hdrfs_read(bytes, len, offset, due, timed, time, number) }
}

/// The link that begins `at` bytes into the links of a table.
///
/// ```
/// let links = [&[8, 0, 0, 0, 0, 0, 0, 0, 1, 0, 0, 0, 0, 0, 0, 0, 3, 0][..], b"log"].concat();
/// let entry = hdrfs::sys::link(&links, 0);
/// assert_eq!((entry.child, entry.parent, entry.name, entry.name_len), (8, 1, 18, 3));
/// ```
#[must_use]
pub fn link(links: &[u8], at: u64) -> LinkEntry {
    // SAFETY: see above.
    unsafe { raw::hdrfs_link(links.as_ptr(), links.len(), at) }
}

/// The extent with this number, counted from 0, in a list of extents of 57 bytes each.
///
/// ```
/// # std::env::set_current_dir("../../crates/samples/data")?;
/// let volume = std::fs::read("all_kinds.vol")?;
/// let extent = hdrfs::sys::extent(&volume[208..322], 1);
/// assert_eq!((extent.start, extent.multiplicity, extent.logical), (97, 82, 4));
/// # Ok::<(), std::io::Error>(())
/// ```
#[must_use]
pub fn extent(list: &[u8], index: u64) -> ExtentEntry {
    // SAFETY: see above.
    unsafe { raw::hdrfs_extent(list.as_ptr(), list.len(), index) }
}

/// Which of two volumes has `len` bytes at `offset` of the volume with this sequence number.
///
/// ```
/// # std::env::set_current_dir("../../crates/samples/data")?;
/// let (first, second) = (std::fs::read("all_kinds.vol")?, std::fs::read("v.vol")?);
/// assert_eq!(hdrfs::sys::fetch(&first, &second, 0, 97, 3).which, 1);
/// # Ok::<(), std::io::Error>(())
/// ```
#[must_use]
pub fn fetch(first: &[u8], second: &[u8], number: u64, offset: u64, len: u64) -> Source {
    let (bytes, second_len) = (second.as_ptr(), second.len());
    // SAFETY: see above.
    unsafe {
        raw::hdrfs_fetch(
            first.as_ptr(),
            first.len(),
            bytes,
            second_len,
            number,
            offset,
            len,
        )
    }
}
