//! What an inode is.

use std::fmt;

/// What an inode is, which its mode says.
///
/// ```
/// use hdrfs::FileType;
///
/// assert_eq!(FileType::of(0o100_644), FileType::Regular);
/// assert_eq!(FileType::of(0o120_777).to_string(), "symbolic link");
/// ```
#[must_use]
#[non_exhaustive]
#[derive(Clone, Copy, Debug, PartialEq, Eq, PartialOrd, Ord, Hash)]
pub enum FileType {
    /// A regular file, which has extents.
    Regular,
    /// A folder.
    Folder,
    /// A symbolic link, which has a target.
    SymbolicLink,
    /// A named pipe.
    Pipe,
    /// A socket.
    Socket,
    /// A device that is read character by character.
    CharacterDevice,
    /// A device that is read block by block.
    BlockDevice,
    /// None of these; the number is the mode divided by 4,096.
    Other(u16),
}

impl FileType {
    /// The type that a mode says.
    ///
    /// ```
    /// assert_eq!(hdrfs::FileType::of(0), hdrfs::FileType::Other(0));
    /// ```
    pub const fn of(mode: u16) -> FileType {
        match mode / 4096 {
            1 => FileType::Pipe,
            2 => FileType::CharacterDevice,
            4 => FileType::Folder,
            6 => FileType::BlockDevice,
            8 => FileType::Regular,
            10 => FileType::SymbolicLink,
            12 => FileType::Socket,
            other => FileType::Other(other),
        }
    }
}

impl fmt::Display for FileType {
    fn fmt(&self, f: &mut fmt::Formatter<'_>) -> fmt::Result {
        let words = match self {
            FileType::Regular => "regular",
            FileType::Folder => "folder",
            FileType::SymbolicLink => "symbolic link",
            FileType::Pipe => "pipe",
            FileType::Socket => "socket",
            FileType::CharacterDevice => "character device",
            FileType::BlockDevice => "block device",
            FileType::Other(number) => return write!(f, "type {number}"),
        };
        f.pad(words)
    }
}
