//! Inode blocks and regular files of an archive.

use std::path::Path;

use super::content::{Content, Pieces};
use super::lack;
use super::store::Parts;
use super::{Archive, ArchiveError, ArchiveReader, Chunks, CurrentInode};
use crate::{Block, Blocks, Bookmark, Content as Said, File, Inode, Logical, Physical};
use crate::{Place, Refusal, Runs, Stored};

/// How many bytes stand before the first block of a volume. Nothing about a block depends on them
/// or on its offset, but no block begins earlier.
pub(super) const HEADER_LEN: usize = 80;

/// An inode block out of an archive, in memory.
///
/// ```
/// # std::env::set_current_dir("tests/gauge")?;
/// let archive = hdrfs::Archive::open(["2.vol"])?;
/// let block = archive.block(7)?;
/// assert_eq!(block.inode().extents().len(), 4);
/// assert_eq!(block.current().offset, 210);
/// # Ok::<(), Box<dyn std::error::Error>>(())
/// ```
#[must_use]
#[derive(Clone, Debug)]
pub struct InodeBlock {
    current: CurrentInode,
    /// The block, at the offset at which the first block of a volume stands.
    bytes: Vec<u8>,
}

impl InodeBlock {
    pub(super) fn read(
        archive: &Archive,
        current: CurrentInode,
    ) -> Result<InodeBlock, ArchiveError> {
        let mut bytes = vec![0; HEADER_LEN + current.block_len as usize];
        let place = Stored {
            volume: current.volume,
            offset: Physical(current.offset),
        };
        archive.read_at(place, &mut bytes[HEADER_LEN..])?;
        Ok(InodeBlock { current, bytes })
    }

    /// Where it stands, and its numbers.
    ///
    /// ```
    /// # std::env::set_current_dir("tests/gauge")?;
    /// let archive = hdrfs::Archive::open(["2.vol"])?;
    /// assert_eq!(archive.block(7)?.current().volume, 2);
    /// # Ok::<(), Box<dyn std::error::Error>>(())
    /// ```
    pub fn current(&self) -> &CurrentInode {
        &self.current
    }

    /// What it says, with extents and target.
    ///
    /// ```
    /// # std::env::set_current_dir("tests/gauge")?;
    /// let archive = hdrfs::Archive::open(["1.vol"])?;
    /// assert_eq!(archive.block(8)?.inode().target(), Some("river.csv"));
    /// # Ok::<(), Box<dyn std::error::Error>>(())
    /// ```
    #[must_use]
    pub fn inode(&self) -> Inode<'_> {
        match Blocks::at(&self.bytes, Bookmark::at(HEADER_LEN as u64)).next() {
            Some(Ok(Block {
                content: Said::Inode(inode),
                ..
            })) => inode,
            // These bytes were an inode block when the volume was checked, and are the same.
            other => unreachable!("an accepted inode block became {other:?}"),
        }
    }
}

/// A regular file of an archive. All its extents lie in the volumes.
///
/// ```
/// use hdrfs::{Archive, Logical, Place};
/// # std::env::set_current_dir("tests/gauge")?;
///
/// let archive = Archive::open(["0.vol", "1.vol", "2.vol"])?;
/// let file = archive.file(7)?;
/// assert_eq!((file.size(), file.position(Logical(190))?), (246, Place::Hole));
/// # Ok::<(), Box<dyn std::error::Error>>(())
/// ```
#[must_use]
#[derive(Debug)]
pub struct ArchiveFile<'a> {
    archive: &'a Archive,
    block: InodeBlock,
}

impl<'a> ArchiveFile<'a> {
    pub(super) fn open(
        archive: &'a Archive,
        block: InodeBlock,
    ) -> Result<ArchiveFile<'a>, ArchiveError> {
        let file = ArchiveFile { archive, block };
        // What a lookup is refused for does not depend on the position.
        match file.position(Logical(0)) {
            Ok(_) => Ok(file),
            Err(refusal) if refusal.number == Refusal::NOT_THERE => Err(ArchiveError::Missing(
                lack::missing(archive, &file.block.inode()),
            )),
            Err(refusal) => Err(ArchiveError::refused(file.path(), refusal)),
        }
    }

    /// Where its inode block stands, and its numbers.
    ///
    /// ```
    /// # std::env::set_current_dir("tests/gauge")?;
    /// let archive = hdrfs::Archive::open(["0.vol", "1.vol", "2.vol"])?;
    /// assert_eq!(archive.file(7)?.current().number, 7);
    /// # Ok::<(), Box<dyn std::error::Error>>(())
    /// ```
    pub fn current(&self) -> &CurrentInode {
        self.block.current()
    }

    /// What its inode block says, with its extents.
    ///
    /// ```
    /// # std::env::set_current_dir("tests/gauge")?;
    /// let archive = hdrfs::Archive::open(["0.vol", "1.vol", "2.vol"])?;
    /// assert_eq!(archive.file(7)?.inode().extents().len(), 4);
    /// # Ok::<(), Box<dyn std::error::Error>>(())
    /// ```
    #[must_use]
    pub fn inode(&self) -> Inode<'_> {
        self.block.inode()
    }

    /// How many positions it has.
    ///
    /// ```
    /// # std::env::set_current_dir("tests/gauge")?;
    /// let archive = hdrfs::Archive::open(["0.vol", "1.vol", "2.vol"])?;
    /// assert_eq!(archive.file(7)?.size(), 246);
    /// # Ok::<(), Box<dyn std::error::Error>>(())
    /// ```
    #[must_use]
    pub fn size(&self) -> u64 {
        self.current().size
    }

    /// The volume that has its inode block.
    ///
    /// ```
    /// # std::env::set_current_dir("tests/gauge")?;
    /// let archive = hdrfs::Archive::open(["0.vol", "1.vol", "2.vol"])?;
    /// assert_eq!(archive.file(7)?.path(), std::path::Path::new("2.vol"));
    /// # Ok::<(), Box<dyn std::error::Error>>(())
    /// ```
    #[must_use]
    pub fn path(&self) -> &'a Path {
        let volume = self.archive.volume(self.current().volume);
        volume.expect("an inode's volume is in its archive").path()
    }

    /// What stands at a position.
    ///
    /// ```
    /// use hdrfs::{Archive, Logical, Place};
    /// # std::env::set_current_dir("tests/gauge")?;
    ///
    /// let archive = Archive::open(["0.vol", "1.vol", "2.vol"])?;
    /// assert_eq!(archive.file(7)?.position(Logical(246))?, Place::PastEnd);
    /// # Ok::<(), Box<dyn std::error::Error>>(())
    /// ```
    pub fn position(&self, position: Logical) -> Result<Place, Refusal> {
        self.file().position(position)
    }

    /// The runs of the positions `from` to below `to`, clipped to the size of the file.
    ///
    /// ```
    /// use hdrfs::{Archive, Logical};
    /// # std::env::set_current_dir("tests/gauge")?;
    ///
    /// let archive = Archive::open(["0.vol", "1.vol", "2.vol"])?;
    /// assert_eq!(archive.file(7)?.runs(Logical(160), Logical(165)).count(), 3);
    /// # Ok::<(), Box<dyn std::error::Error>>(())
    /// ```
    #[must_use]
    pub fn runs(&self, from: Logical, to: Logical) -> Runs<'_> {
        // Where the range ends earlier, less has to be tried until its runs fit into the room.
        self.file().runs(from, to.min(Logical(self.size())))
    }

    /// The runs of the whole file.
    ///
    /// ```
    /// # std::env::set_current_dir("tests/gauge")?;
    /// let archive = hdrfs::Archive::open(["0.vol", "1.vol", "2.vol"])?;
    /// assert_eq!(archive.file(7)?.all_runs().count(), 12);
    /// # Ok::<(), Box<dyn std::error::Error>>(())
    /// ```
    #[must_use]
    pub fn all_runs(&self) -> Runs<'_> {
        self.runs(Logical(0), Logical(u64::MAX))
    }

    /// Its bytes, to be read and sought in; holes are zeros.
    ///
    /// ```
    /// use std::io::{Read, Seek, SeekFrom};
    /// # std::env::set_current_dir("tests/gauge")?;
    ///
    /// let archive = hdrfs::Archive::open(["0.vol", "1.vol", "2.vol"])?;
    /// let file = archive.file(7)?;
    /// let mut reader = file.reader();
    /// reader.seek(SeekFrom::End(-3))?;
    /// let mut end = String::new();
    /// reader.read_to_string(&mut end)?;
    /// assert_eq!(end, "1,5");
    /// # Ok::<(), Box<dyn std::error::Error>>(())
    /// ```
    pub fn reader(&self) -> ArchiveReader<'_> {
        ArchiveReader::new(self.content(), self.size())
    }

    /// Its bytes in large pieces, with holes as such: for whoever writes a copy that has them too.
    ///
    /// ```
    /// use hdrfs::{Archive, Chunk};
    /// # std::env::set_current_dir("tests/gauge")?;
    ///
    /// let archive = Archive::open(["0.vol", "1.vol", "2.vol"])?;
    /// let file = archive.file(7)?;
    /// let mut chunks = file.chunks();
    /// let mut stored = 0;
    /// while let Some(chunk) = chunks.next()? {
    ///     if let Chunk::Bytes { bytes, .. } = chunk {
    ///         stored += bytes.len();
    ///     }
    /// }
    /// assert_eq!(stored, 224);
    /// # Ok::<(), Box<dyn std::error::Error>>(())
    /// ```
    pub fn chunks(&self) -> Chunks<'_> {
        Chunks::new(self.content())
    }

    fn file(&self) -> File<'_> {
        let current = self.current();
        File::new(&self.block.bytes, HEADER_LEN as u64, &self.archive.lengths)
            .told_at(current.offset, current.block)
    }

    fn content(&self) -> Content<'_> {
        let pieces = Pieces::new(self.file(), self.size());
        Content::new(pieces, Parts::new(self.archive), self.path())
    }
}
