//! The calls that write to a lent buffer.

use super::{raw, Written};

// Sound for the same reasons as the calls that read; `buf` is lent to nobody else during a call,
// and the library writes within its length.

/// Writes a header of 80 bytes at the beginning of the buffer: `id` has 16 bytes and `previous`,
/// the hash of the previous volume, 32.
///
/// ```
/// let mut buf = [0; 80];
/// let written = hdrfs::sys::write_header(&mut buf, &[1; 16], 3, &[2; 32]);
/// assert_eq!((written.refusal, written.next, written.due, written.timed), (0, 80, 1, 0));
/// assert_eq!(written.number, 0);
/// assert_eq!(hdrfs::sys::header(&buf).sequence, 3);
/// ```
#[must_use]
pub fn write_header(buf: &mut [u8], id: &[u8], sequence: u64, previous: &[u8]) -> Written {
    // SAFETY: see above.
    unsafe {
        raw::hdrfs_write_header(
            buf.as_mut_ptr(),
            buf.len(),
            id.as_ptr(),
            id.len(),
            sequence,
            previous.as_ptr(),
            previous.len(),
        )
    }
}

/// The functions that append a block at the bookmark that `offset`, `due`, `timed`, `last` and
/// `number` give: `due` is 0 where no link table is due, `timed` is 0 where there is no last time.
macro_rules! appends {
    ($($(#[$doc:meta])* $name:ident calls $call:ident($($field:ident: $size:ty),*; $($part:ident),*);)*) => {$(
        $(#[$doc])*
        #[must_use]
        #[allow(clippy::too_many_arguments)] // They are those of the header file.
        pub fn $name(
            buf: &mut [u8],
            offset: u64,
            due: u64,
            timed: u64,
            last: u64,
            number: u64,
            $($field: $size,)*
            $($part: &[u8],)*
        ) -> Written {
            // SAFETY: see above.
            unsafe {
                raw::$call(
                    buf.as_mut_ptr(),
                    buf.len(),
                    offset,
                    due,
                    timed,
                    last,
                    number,
                    $($field,)*
                    $($part.as_ptr(), $part.len(),)*
                )
            }
        }
    )*};
}

appends! {
    /// Appends an inode; `rest` is a symbolic link's target or a regular file's extents.
    ///
    /// ```
    /// let mut buf = [0; 160];
    /// let (mode, size) = (0o040_755, 70);
    /// let rest = &[];
    /// let written = hdrfs::sys::append_inode(
    ///     &mut buf, 80, 0, 0, 0, 4, 7, 3, mode, 1, 2, 3, 4, 5, 6, size, rest,
    /// );
    /// assert_eq!((written.refusal, written.next, written.last), (0, 155, 3));
    /// assert_eq!(written.number, 5);
    /// ```
    append_inode calls hdrfs_append_inode(
        inode: u64,
        time: u64,
        mode: u16,
        uid: u16,
        gid: u16,
        atime: u64,
        mtime: u64,
        ctime: u64,
        btime: u64,
        size: u64;
        rest
    );

    /// Appends a link.
    ///
    /// ```
    /// let mut buf = [0; 116];
    /// let written = hdrfs::sys::append_link(&mut buf, 80, 0, 0, 0, 0, 4, 8, 1, b"gauge");
    /// assert_eq!((written.next, written.timed, written.last), (116, 1, 4));
    /// ```
    append_link calls hdrfs_append_link(time: u64, child: u64, parent: u64; name);

    /// Appends an unlink.
    ///
    /// ```
    /// let mut buf = [0; 116];
    /// let written = hdrfs::sys::append_unlink(&mut buf, 80, 0, 0, 0, 0, 4, 8, 1, b"\xff");
    /// assert_eq!(written.refusal, 10);
    /// ```
    append_unlink calls hdrfs_append_unlink(time: u64, child: u64, parent: u64; name);

    /// Appends an xattr.
    ///
    /// ```
    /// let mut buf = [0; 110];
    /// let written = hdrfs::sys::append_xattr(&mut buf, 80, 0, 0, 0, 0, 6, 7, b"unit", b"m\xff");
    /// assert_eq!((written.refusal, written.next), (0, 110));
    /// ```
    append_xattr calls hdrfs_append_xattr(time: u64, inode: u64; name, value);

    /// Appends a removed xattr.
    ///
    /// ```
    /// let mut buf = [0; 110];
    /// let written = hdrfs::sys::append_removed_xattr(&mut buf, 80, 0, 0, 0, 0, 7, 7, &[65; 256]);
    /// assert_eq!(written.refusal, 9);
    /// ```
    append_removed_xattr calls hdrfs_append_removed_xattr(time: u64, inode: u64; name);

    /// Appends data.
    ///
    /// ```
    /// let mut buf = [0; 104];
    /// let written = hdrfs::sys::append_data(&mut buf, 80, 0, 1, 6, 0, 7, b"1,5");
    /// assert_eq!((written.refusal, written.next), (0, 104));
    /// let lower = hdrfs::sys::append_data(&mut buf, 80, 0, 1, 8, 0, 7, b"1,5");
    /// assert_eq!(lower.refusal, 14);
    /// ```
    append_data calls hdrfs_append_data(time: u64; payload);

    /// Appends a rename.
    ///
    /// ```
    /// let mut buf = [0; 103];
    /// let written = hdrfs::sys::append_rename(&mut buf, 80, 0, 0, 0, 0, 9, b"old", b"new");
    /// assert_eq!((written.refusal, written.next), (0, 103));
    /// ```
    append_rename calls hdrfs_append_rename(time: u64; old_path, new_path);

    /// Appends a link table, of so many links; `links` has their bytes.
    ///
    /// ```
    /// let mut buf = [0; 93];
    /// let written = hdrfs::sys::append_table(&mut buf, 80, 1, 0, 0, 0, 0, b"");
    /// assert_eq!((written.refusal, written.next, written.due), (0, 93, 0));
    /// ```
    append_table calls hdrfs_append_table(count: u64; links);
}
