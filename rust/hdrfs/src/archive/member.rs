//! A volume of an archive.

use std::fs::File;
use std::io::Read;
use std::path::{Path, PathBuf};
use std::sync::Arc;

use super::index::{Finder, Found};
use super::pages::Digests;
use super::scan::{scan, Scanned};
use super::ArchiveError;
use crate::{Bookmark, ChainEntry, Heading, Refusal, MAX_VOLUME_LEN};

/// A volume that was checked and accepted. It can be put into an [`Archive`](crate::Archive).
///
/// Its bytes are not kept, unless there is no other way to have them again.
///
/// ```
/// # std::env::set_current_dir("../../crates/samples/data")?;
/// let member = hdrfs::Checker::new().path("all_kinds.vol")?;
/// assert_eq!((member.sequence(), member.block_count(), member.len()), (1, 10, 659));
/// # Ok::<(), Box<dyn std::error::Error>>(())
/// ```
#[must_use]
#[derive(Debug)]
pub struct Member {
    pub(super) path: PathBuf,
    pub(super) scanned: Scanned,
    pub(super) stock: Stock,
    pub(super) found: Found,
}

/// Where the bytes of a volume are to be had.
#[derive(Debug)]
pub(super) enum Stock {
    /// In memory.
    Kept(Arc<Vec<u8>>),
    /// In the file that was read, if it is still as it was.
    File(Digests),
}

impl Member {
    /// The name under which it was given.
    ///
    /// ```
    /// # std::env::set_current_dir("../../crates/samples/data")?;
    /// let member = hdrfs::Checker::new().path("v.vol")?;
    /// assert_eq!(member.path(), std::path::Path::new("v.vol"));
    /// # Ok::<(), Box<dyn std::error::Error>>(())
    /// ```
    #[must_use]
    pub fn path(&self) -> &Path {
        &self.path
    }

    /// The sequence number.
    ///
    /// ```
    /// # std::env::set_current_dir("../../crates/samples/data")?;
    /// assert_eq!(hdrfs::Checker::new().path("v.vol")?.sequence(), 0);
    /// # Ok::<(), Box<dyn std::error::Error>>(())
    /// ```
    #[must_use]
    pub fn sequence(&self) -> u64 {
        self.scanned.heading.sequence
    }

    /// The same volume with what is known about one inode only, its links included. Whoever wants a
    /// single file needs much less memory so: an archive of such members has no other inodes.
    ///
    /// ```
    /// use hdrfs::{Archive, Checker};
    /// # std::env::set_current_dir("tests/gauge")?;
    ///
    /// let mut archive = Archive::new();
    /// for path in ["0.vol", "1.vol", "2.vol"] {
    ///     archive.insert(Checker::new().path(path)?.with_inode(7))?;
    /// }
    /// assert!(archive.inode(7).is_some() && archive.inode(8).is_none());
    /// assert_eq!(archive.file(7)?.size(), 246);
    /// # Ok::<(), Box<dyn std::error::Error>>(())
    /// ```
    pub fn with_inode(self, number: u64) -> Member {
        let found = self.found.keep(number);
        Member { found, ..self }
    }

    /// The ID of the file system.
    ///
    /// ```
    /// # std::env::set_current_dir("../../crates/samples/data")?;
    /// assert_eq!(hdrfs::Checker::new().path("v.vol")?.id()[..3], [0, 1, 2]);
    /// # Ok::<(), Box<dyn std::error::Error>>(())
    /// ```
    #[must_use]
    pub fn id(&self) -> [u8; 16] {
        self.scanned.heading.id
    }

    /// The hash of the previous volume that the header states; zeros in volume 0.
    ///
    /// ```
    /// # std::env::set_current_dir("../../crates/samples/data")?;
    /// assert_eq!(hdrfs::Checker::new().path("v.vol")?.previous(), [0; 32]);
    /// # Ok::<(), Box<dyn std::error::Error>>(())
    /// ```
    #[must_use]
    pub fn previous(&self) -> [u8; 32] {
        self.scanned.heading.previous
    }

    /// How many bytes it has.
    ///
    /// ```
    /// # std::env::set_current_dir("../../crates/samples/data")?;
    /// assert_eq!(hdrfs::Checker::new().path("v.vol")?.len(), 104);
    /// # Ok::<(), Box<dyn std::error::Error>>(())
    /// ```
    #[allow(clippy::len_without_is_empty)] // No volume is empty.
    #[must_use]
    pub fn len(&self) -> u64 {
        self.scanned.end.offset
    }

    /// How many blocks come after the header, the link table included.
    ///
    /// ```
    /// # std::env::set_current_dir("../../crates/samples/data")?;
    /// assert_eq!(hdrfs::Checker::new().path("v.vol")?.block_count(), 1);
    /// # Ok::<(), Box<dyn std::error::Error>>(())
    /// ```
    #[must_use]
    pub fn block_count(&self) -> u64 {
        self.scanned.end.number
    }

    /// The bookmark at the end: where a further block would go, the last time, and the number of
    /// blocks.
    ///
    /// ```
    /// # std::env::set_current_dir("../../crates/samples/data")?;
    /// assert_eq!(hdrfs::Checker::new().path("v.vol")?.end().last_time, Some(7));
    /// # Ok::<(), Box<dyn std::error::Error>>(())
    /// ```
    #[must_use]
    pub fn end(&self) -> Bookmark {
        self.scanned.end
    }

    /// The same volume without what is known about its inodes and links. Whoever wants to know
    /// whether volumes are a set, and nothing more, needs much less memory so: an archive of such
    /// members has no inodes.
    ///
    /// ```
    /// use hdrfs::{Archive, Checker};
    /// # std::env::set_current_dir("tests/gauge")?;
    ///
    /// let mut archive = Archive::new();
    /// archive.insert(Checker::new().path("0.vol")?.without_inodes())?;
    /// assert_eq!((archive.volumes().count(), archive.inodes().len()), (1, 0));
    /// # Ok::<(), Box<dyn std::error::Error>>(())
    /// ```
    pub fn without_inodes(self) -> Member {
        let found = Found::default();
        Member { found, ..self }
    }
}

/// Reads volumes and checks them, one after the other, with one buffer for all of them.
///
/// ```
/// # std::env::set_current_dir("../../crates/samples/data")?;
/// let mut checker = hdrfs::Checker::new();
/// assert_eq!(checker.path("v.vol")?.block_count(), 1);
/// assert!(checker.path("wrong_block_sum.vol").is_err());
/// # Ok::<(), Box<dyn std::error::Error>>(())
/// ```
#[must_use]
#[derive(Debug, Default)]
pub struct Checker {
    buffer: Vec<u8>,
}

impl Checker {
    /// A checker that has no buffer yet.
    ///
    /// ```
    /// let checker = hdrfs::Checker::new();
    /// ```
    pub fn new() -> Checker {
        Checker::default()
    }

    /// Reads a volume and checks it. Of a regular file only digests are kept, since it can be read
    /// again; anything else, such as a pipe, gives its bytes once, and they are kept.
    ///
    /// ```
    /// # std::env::set_current_dir("../../crates/samples/data")?;
    /// let error = hdrfs::Checker::new().path("wrong_block_sum.vol").unwrap_err();
    /// let words = "wrong_block_sum.vol: refused 5 at 80 (block 0): checksum wrong";
    /// assert_eq!(error.to_string(), words);
    /// # Ok::<(), std::io::Error>(())
    /// ```
    pub fn path(&mut self, path: impl Into<PathBuf>) -> Result<Member, ArchiveError> {
        let (member, ()) = self.path_and(path.into(), |_, _| Ok(()))?;
        Ok(member)
    }

    /// The same, and takes the SHA-256 digest of the volume: what its place in the chain depends on is
    /// answered beside it. The file is read once for both.
    ///
    /// ```
    /// # std::env::set_current_dir("tests/gauge")?;
    /// let mut checker = hdrfs::Checker::new();
    /// let (_, first) = checker.path_with_entry("0.vol")?;
    /// let (member, second) = checker.path_with_entry("1.vol")?;
    /// assert_eq!((member.sequence(), second.follows(&first)), (1, Ok(())));
    /// # Ok::<(), Box<dyn std::error::Error>>(())
    /// ```
    pub fn path_with_entry(
        &mut self,
        path: impl Into<PathBuf>,
    ) -> Result<(Member, ChainEntry), ArchiveError> {
        self.path_and(path.into(), ChainEntry::of_accepted)
    }

    /// Reads a volume and checks it, and takes from the header and the bytes of an accepted one what
    /// else is wanted, while they are at hand.
    fn path_and<T>(
        &mut self,
        path: PathBuf,
        take: impl FnOnce(&Heading, &[u8]) -> Result<T, Refusal>,
    ) -> Result<(Member, T), ArchiveError> {
        let is_file = match self.read(&path) {
            Ok(is_file) => is_file,
            Err(error) => return Err(ArchiveError::io(path, error)),
        };
        let (scanned, found) = check(&path, &self.buffer)?;
        let taken = take(&scanned.heading, &self.buffer);
        let taken = taken.map_err(|refusal| ArchiveError::refused(&path, refusal))?;
        let stock = if is_file {
            Stock::File(Digests::of(&self.buffer))
        } else {
            Stock::Kept(Arc::new(std::mem::take(&mut self.buffer)))
        };
        let member = Member {
            path,
            scanned,
            stock,
            found,
        };
        Ok((member, taken))
    }

    /// Checks a volume that the caller has in memory. The name is the one that errors have.
    ///
    /// ```
    /// # std::env::set_current_dir("../../crates/samples/data")?;
    /// let bytes = std::fs::read("v.vol")?;
    /// assert_eq!(hdrfs::Checker::new().bytes("sent.vol", bytes)?.sequence(), 0);
    /// # Ok::<(), Box<dyn std::error::Error>>(())
    /// ```
    pub fn bytes(
        &mut self,
        name: impl Into<PathBuf>,
        bytes: Vec<u8>,
    ) -> Result<Member, ArchiveError> {
        let path = name.into();
        let (scanned, found) = check(&path, &bytes)?;
        Ok(Member {
            path,
            scanned,
            stock: Stock::Kept(Arc::new(bytes)),
            found,
        })
    }

    /// Fills the buffer with a file, and answers whether it is a regular one. A byte more than a
    /// volume may have is enough for it to be refused.
    fn read(&mut self, path: &Path) -> std::io::Result<bool> {
        self.buffer.clear();
        let file = File::open(path)?;
        let is_file = file.metadata()?.is_file();
        let most = MAX_VOLUME_LEN as u64 + 1;
        file.take(most).read_to_end(&mut self.buffer)?;
        Ok(is_file)
    }
}

/// Checks a volume, and finds its inodes and links on the way.
fn check(path: &Path, volume: &[u8]) -> Result<(Scanned, Found), ArchiveError> {
    let mut finder = Finder::new(volume);
    match scan(volume, |offset, block| finder.visit(offset, block)) {
        Ok(scanned) => Ok((scanned, finder.finish())),
        Err(rejected) => Err(ArchiveError::rejected(path, volume, rejected)),
    }
}
