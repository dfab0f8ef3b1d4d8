//! What an inode block says.

use crate::blocks::text;
use crate::{sys, ExtentIter, FileType};

/// What an inode block says.
///
/// ```
/// use hdrfs::{Content, Volume};
/// # std::env::set_current_dir("../../crates/samples/data")?;
///
/// let bytes = std::fs::read("all_kinds.vol")?;
/// let block = Volume::blocks(&bytes).nth(2).unwrap()?;
/// let Content::Inode(inode) = block.content else { panic!("no inode") };
/// assert_eq!((inode.number, inode.size, inode.rest), (7, 75, &b"gauge"[..]));
/// # Ok::<(), Box<dyn std::error::Error>>(())
/// ```
#[derive(Clone, Copy, Debug, PartialEq, Eq)]
pub struct Inode<'a> {
    /// The inode number.
    pub number: u64,
    /// The mode: file type and permissions.
    pub mode: u16,
    /// The user.
    pub uid: u16,
    /// The group.
    pub gid: u16,
    /// When it was last read.
    pub atime: u64,
    /// When its content was last changed.
    pub mtime: u64,
    /// When it was last changed.
    pub ctime: u64,
    /// When it was made.
    pub btime: u64,
    /// The size; for a regular file, how many positions it has.
    pub size: u64,
    /// A regular file's extents, or a symbolic link's target.
    pub rest: &'a [u8],
}

impl<'a> Inode<'a> {
    /// Whether it is a regular file, and can be looked up with [`File`](crate::File).
    ///
    /// ```
    /// use hdrfs::{Content, Volume};
    /// # std::env::set_current_dir("../../crates/samples/data")?;
    ///
    /// let bytes = std::fs::read("all_kinds.vol")?;
    /// let block = Volume::blocks(&bytes).nth(1).unwrap()?;
    /// let Content::Inode(inode) = block.content else { panic!("no inode") };
    /// assert!(inode.is_regular());
    /// # Ok::<(), Box<dyn std::error::Error>>(())
    /// ```
    #[must_use]
    pub fn is_regular(&self) -> bool {
        self.file_type() == FileType::Regular
    }

    /// What it is: a regular file, a folder, and so on.
    ///
    /// ```
    /// use hdrfs::{FileType, Inode};
    ///
    /// assert_eq!(Inode::regular(7).file_type(), FileType::Regular);
    /// ```
    pub fn file_type(&self) -> FileType {
        FileType::of(self.mode)
    }

    /// The extents of a regular file; other inodes have none.
    ///
    /// ```
    /// use hdrfs::{Content, Logical, Volume};
    /// # std::env::set_current_dir("../../crates/samples/data")?;
    ///
    /// let bytes = std::fs::read("all_kinds.vol")?;
    /// let block = Volume::blocks(&bytes).nth(1).unwrap()?;
    /// let Content::Inode(inode) = block.content else { panic!("no inode") };
    /// let starts: Vec<Logical> = inode.extents().map(|extent| extent.logical).collect();
    /// assert_eq!(starts, [Logical(0), Logical(4)]);
    /// # Ok::<(), Box<dyn std::error::Error>>(())
    /// ```
    ///
    /// # Panics
    ///
    /// The iterator panics at bytes that are no extent. An inode out of an accepted block has none;
    /// one that a caller put together may.
    pub fn extents(&self) -> ExtentIter<'a> {
        ExtentIter::new(if self.is_regular() { self.rest } else { &[] })
    }

    /// The target of a symbolic link; other inodes have none.
    ///
    /// ```
    /// use hdrfs::{Content, Volume};
    /// # std::env::set_current_dir("../../crates/samples/data")?;
    ///
    /// let bytes = std::fs::read("all_kinds.vol")?;
    /// let block = Volume::blocks(&bytes).nth(2).unwrap()?;
    /// let Content::Inode(inode) = block.content else { panic!("no inode") };
    /// assert_eq!(inode.target(), Some("gauge"));
    /// # Ok::<(), Box<dyn std::error::Error>>(())
    /// ```
    #[must_use]
    pub fn target(&self) -> Option<&'a str> {
        (self.file_type() == FileType::SymbolicLink).then(|| text(self.rest))
    }

    /// An empty regular file with mode 0644, to be changed field by field and written.
    ///
    /// ```
    /// use hdrfs::Inode;
    ///
    /// let inode = Inode { size: 3, ..Inode::regular(7) };
    /// assert!(inode.is_regular());
    /// ```
    #[must_use]
    pub const fn regular(number: u64) -> Inode<'static> {
        Inode {
            number,
            mode: 0o100_644,
            uid: 0,
            gid: 0,
            atime: 0,
            mtime: 0,
            ctime: 0,
            btime: 0,
            size: 0,
            rest: &[],
        }
    }

    pub(crate) fn new(block: &sys::Block, rest: &'a [u8]) -> Inode<'a> {
        Inode {
            number: block.inode,
            // These three are two bytes wide in the volume.
            mode: block.mode as u16,
            uid: block.uid as u16,
            gid: block.gid as u16,
            atime: block.atime,
            mtime: block.mtime,
            ctime: block.ctime,
            btime: block.btime,
            size: block.size,
            rest,
        }
    }
}
