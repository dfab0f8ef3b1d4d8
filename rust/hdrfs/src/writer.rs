//! Writing a volume into a lent buffer.

use std::fmt;

use crate::bookmark::Numbers;
use crate::{sys, Bookmark, Inode, Link, LinkList, Refusal};

/// A volume that is being written: a buffer, and the bookmark up to which it is written.
///
/// A call that is refused changes neither.
///
/// ```
/// use hdrfs::{Volume, Writer};
/// # std::env::set_current_dir("../../crates/samples/data")?;
///
/// let id = [0, 1, 2, 3, 4, 5, 6, 7, 8, 9, 10, 11, 12, 13, 14, 15];
/// let mut buf = [0; 200];
/// let mut writer = Writer::create(&mut buf, &id, 0, &[0; 32])?;
/// writer.append_data(7, b"1,5")?;
/// assert_eq!(writer.written(), std::fs::read("v.vol")?);
/// assert_eq!(Volume::check(writer.written())?.end(), writer.bookmark());
/// # Ok::<(), Box<dyn std::error::Error>>(())
/// ```
pub struct Writer<'a> {
    buf: &'a mut [u8],
    mark: Bookmark,
}

/// The methods that append a block. Each hands the buffer and the numbers of the bookmark to the
/// call, and what else it takes as it stands.
macro_rules! appends {
    ($($(#[$doc:meta])* $name:ident($($argument:ident: $type:ty),*) calls $call:ident($($value:expr),*);)*) => {$(
        $(#[$doc])*
        pub fn $name(&mut self, $($argument: $type),*) -> Result<(), Refusal> {
            let Numbers { offset, due, timed, last, number } = self.mark.numbers();
            let written = sys::$call(self.buf, offset, due, timed, last, number, $($value),*);
            self.mark = after(written, offset, Some(number))?;
            Ok(())
        }
    )*};
}

impl<'a> Writer<'a> {
    /// Writes the header of a new volume at the beginning of the buffer. Volume 0 has no previous
    /// volume, and 32 zeros for its hash; every other volume has to begin with a link table.
    ///
    /// ```
    /// use hdrfs::Writer;
    ///
    /// let mut buf = [0; 80];
    /// let writer = Writer::create(&mut buf, &[1; 16], 3, &[2; 32])?;
    /// assert!(writer.bookmark().table_due);
    /// assert_eq!(Writer::create(&mut [0; 79], &[1; 16], 3, &[2; 32]).unwrap_err().number, 17);
    /// # Ok::<(), hdrfs::Refusal>(())
    /// ```
    pub fn create(
        buf: &'a mut [u8],
        id: &[u8; 16],
        sequence: u64,
        previous: &[u8; 32],
    ) -> Result<Writer<'a>, Refusal> {
        let mark = after(sys::write_header(buf, id, sequence, previous), 0, None)?;
        Ok(Writer { buf, mark })
    }

    /// Goes on at a bookmark, that of the end of a volume as a rule. What stands before it in the
    /// buffer is not looked at, and its number of blocks is taken as it is.
    ///
    /// ```
    /// use hdrfs::{Volume, Writer};
    /// # std::env::set_current_dir("../../crates/samples/data")?;
    ///
    /// let mut buf = std::fs::read("v.vol")?;
    /// let end = Volume::check(&buf)?.end();
    /// buf.resize(200, 0);
    /// let mut writer = Writer::at(&mut buf, end);
    /// writer.append_data(8, b"1,6")?;
    /// assert_eq!(Volume::check(writer.written())?.block_count(), 2);
    /// # Ok::<(), Box<dyn std::error::Error>>(())
    /// ```
    #[must_use]
    pub fn at(buf: &'a mut [u8], bookmark: Bookmark) -> Writer<'a> {
        Writer {
            buf,
            mark: bookmark,
        }
    }

    /// Where the next block will begin, what has to come there, and how many blocks are written.
    ///
    /// ```
    /// use hdrfs::{Bookmark, Writer};
    ///
    /// let mut buf = [0; 200];
    /// let mut writer = Writer::create(&mut buf, &[1; 16], 0, &[0; 32])?;
    /// writer.append_data(7, b"1,5")?;
    /// let mark = Bookmark::at(104).with_last_time(Some(7)).with_number(1);
    /// assert_eq!(writer.bookmark(), mark);
    /// let refusal = writer.append_data(6, b"1,6").unwrap_err();
    /// assert_eq!((refusal.number, refusal.block), (14, Some(1)));
    /// assert_eq!(writer.bookmark(), mark);
    /// # Ok::<(), hdrfs::Refusal>(())
    /// ```
    #[must_use]
    pub fn bookmark(&self) -> Bookmark {
        self.mark
    }

    /// The buffer up to the bookmark; all of it where a bookmark that was made up lies behind it.
    ///
    /// ```
    /// let mut buf = [0; 200];
    /// let writer = hdrfs::Writer::create(&mut buf, &[1; 16], 0, &[0; 32])?;
    /// assert_eq!(writer.written().len(), 80);
    /// # Ok::<(), hdrfs::Refusal>(())
    /// ```
    #[must_use]
    pub fn written(&self) -> &[u8] {
        let end = self.buf.len().min(self.mark.offset as usize);
        &self.buf[..end]
    }

    appends! {
        /// Appends an inode block.
        ///
        /// ```
        /// use hdrfs::{Inode, Writer};
        ///
        /// let mut buf = [0; 200];
        /// let mut writer = Writer::create(&mut buf, &[1; 16], 0, &[0; 32])?;
        /// let folder = Inode {
        ///     number: 7,
        ///     mode: 0o040_755,
        ///     uid: 1,
        ///     gid: 2,
        ///     atime: 3,
        ///     mtime: 4,
        ///     ctime: 5,
        ///     btime: 6,
        ///     size: 70,
        ///     rest: b"",
        /// };
        /// writer.append_inode(3, &folder)?;
        /// assert_eq!(writer.bookmark().offset, 155);
        /// # Ok::<(), hdrfs::Refusal>(())
        /// ```
        append_inode(time: u64, inode: &Inode<'_>) calls append_inode(
            inode.number, time, inode.mode, inode.uid, inode.gid, inode.atime, inode.mtime,
            inode.ctime, inode.btime, inode.size, inode.rest
        );

        /// Appends a link block.
        ///
        /// ```
        /// use hdrfs::{Link, Writer};
        ///
        /// let mut buf = [0; 200];
        /// let mut writer = Writer::create(&mut buf, &[1; 16], 0, &[0; 32])?;
        /// writer.append_link(4, Link { child: 8, parent: 1, name: "gauge" })?;
        /// assert_eq!(writer.bookmark().offset, 80 + 31 + 5);
        /// # Ok::<(), hdrfs::Refusal>(())
        /// ```
        append_link(time: u64, link: Link<'_>) calls append_link(
            time, link.child, link.parent, link.name.as_bytes()
        );

        /// Appends an unlink block.
        ///
        /// ```
        /// use hdrfs::{Link, Writer};
        ///
        /// let mut buf = [0; 200];
        /// let mut writer = Writer::create(&mut buf, &[1; 16], 0, &[0; 32])?;
        /// writer.append_unlink(5, Link { child: 8, parent: 1, name: "log" })?;
        /// assert_eq!(writer.bookmark().last_time, Some(5));
        /// # Ok::<(), hdrfs::Refusal>(())
        /// ```
        append_unlink(time: u64, link: Link<'_>) calls append_unlink(
            time, link.child, link.parent, link.name.as_bytes()
        );

        /// Appends an xattr block. The value may be any bytes.
        ///
        /// ```
        /// let mut buf = [0; 200];
        /// let mut writer = hdrfs::Writer::create(&mut buf, &[1; 16], 0, &[0; 32])?;
        /// writer.append_xattr(6, 7, "unit", b"m\xff")?;
        /// assert_eq!(writer.bookmark().offset, 110);
        /// # Ok::<(), hdrfs::Refusal>(())
        /// ```
        append_xattr(time: u64, inode: u64, name: &str, value: &[u8]) calls append_xattr(
            time, inode, name.as_bytes(), value
        );

        /// Appends a removed xattr block.
        ///
        /// ```
        /// let mut buf = [0; 200];
        /// let mut writer = hdrfs::Writer::create(&mut buf, &[1; 16], 0, &[0; 32])?;
        /// writer.append_removed_xattr(7, 7, "unit")?;
        /// assert_eq!(writer.append_removed_xattr(8, 7, &"A".repeat(256)).unwrap_err().number, 9);
        /// # Ok::<(), hdrfs::Refusal>(())
        /// ```
        append_removed_xattr(time: u64, inode: u64, name: &str) calls append_removed_xattr(
            time, inode, name.as_bytes()
        );

        /// Appends a data block. Its payload begins 17 bytes behind the bookmark, which is what
        /// extents point to.
        ///
        /// ```
        /// let mut buf = [0; 104];
        /// let mut writer = hdrfs::Writer::create(&mut buf, &[1; 16], 0, &[0; 32])?;
        /// writer.append_data(7, b"1,5")?;
        /// assert_eq!(writer.append_data(8, b"").unwrap_err().number, 17);
        /// assert_eq!(&buf[97..100], b"1,5");
        /// # Ok::<(), hdrfs::Refusal>(())
        /// ```
        append_data(time: u64, payload: &[u8]) calls append_data(time, payload);

        /// Appends a rename block.
        ///
        /// ```
        /// let mut buf = [0; 200];
        /// let mut writer = hdrfs::Writer::create(&mut buf, &[1; 16], 0, &[0; 32])?;
        /// writer.append_rename(9, "gauge", "pégel")?;
        /// assert_eq!(writer.bookmark().offset, 108);
        /// # Ok::<(), hdrfs::Refusal>(())
        /// ```
        append_rename(time: u64, old: &str, new: &str) calls append_rename(
            time, old.as_bytes(), new.as_bytes()
        );

        /// Appends a link table.
        ///
        /// ```
        /// use hdrfs::{Link, LinkList};
        ///
        /// let mut buf = [0; 200];
        /// let mut writer = hdrfs::Writer::create(&mut buf, &[1; 16], 1, &[2; 32])?;
        /// let links = LinkList::new().push(Link { child: 8, parent: 1, name: "log" })?;
        /// writer.append_links(&links)?;
        /// assert_eq!(writer.bookmark().offset, 80 + 13 + 18 + 3);
        /// # Ok::<(), hdrfs::Refusal>(())
        /// ```
        append_links(links: &LinkList) calls append_table(links.len() as u64, links.as_bytes());

        /// Appends a link table, of so many links; `links` has their bytes, as
        /// [`LinkTable::bytes`](crate::LinkTable::bytes) hands them out. A link is 8 bytes of
        /// child, 8 of parent, 2 of the name's length, lowest byte first, and the name.
        ///
        /// ```
        /// let mut buf = [0; 200];
        /// let mut writer = hdrfs::Writer::create(&mut buf, &[1; 16], 1, &[2; 32])?;
        /// assert_eq!(writer.append_data(1, b"").unwrap_err().number, 8);
        /// let link = [&[8, 0, 0, 0, 0, 0, 0, 0, 1, 0, 0, 0, 0, 0, 0, 0, 3, 0][..], b"log"].concat();
        /// writer.append_table(1, &link)?;
        /// writer.append_data(1, b"")?;
        /// # Ok::<(), hdrfs::Refusal>(())
        /// ```
        append_table(count: u64, links: &[u8]) calls append_table(count, links);
    }
}

/// The bookmark after what was written at `offset`: the header, or the block with a number.
fn after(written: sys::Written, offset: u64, block: Option<u64>) -> Result<Bookmark, Refusal> {
    Refusal::unless_accepted(&written, offset, block)?;
    Ok(Bookmark::from_numbers(Numbers {
        offset: written.next,
        due: written.due,
        timed: written.timed,
        last: written.last,
        number: written.number,
    }))
}

/// Without the bytes, which may be many millions.
impl fmt::Debug for Writer<'_> {
    fn fmt(&self, f: &mut fmt::Formatter<'_>) -> fmt::Result {
        let mut shown = f.debug_struct("Writer");
        shown.field("room", &self.buf.len());
        shown.field("mark", &self.mark).finish()
    }
}
