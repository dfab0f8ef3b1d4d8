//! A set of volumes: which belong to it, which are missing, and the current state of every inode.
//!
//! Memory stays bounded however long the volumes are: of a volume in a regular file only digests
//! of its pages are kept, and pages are read again as they are needed, through a cache with a
//! bound. A page that is not what was checked is an error, so that nothing but checked bytes is
//! ever handed out.

mod cache;
mod chunks;
mod content;
mod digest;
mod each;
mod error;
mod file;
mod index;
mod lack;
mod last_link;
mod member;
mod pages;
mod reader;
mod scan;
mod store;

use std::collections::BTreeMap;
use std::ops::RangeInclusive;
use std::path::PathBuf;

use cache::Cache;
use index::Index;

pub use chunks::{Chunk, Chunks};
pub use each::{check_each, check_each_with_entry};
pub use error::{ArchiveError, Missing, ShortExtent};
pub use file::{ArchiveFile, InodeBlock};
pub use index::CurrentInode;
pub use last_link::LastLink;
pub use member::{Checker, Member};
pub use reader::ArchiveReader;

use crate::{Lengths, Stored};

/// How many bytes of pages an archive holds where nothing else is said.
const CACHE_BYTES: usize = 64 << 20;

/// A set of volumes of one file system.
///
/// It takes about 4 KiB of memory for each volume, about 100 bytes for each inode number, as much
/// again and the name for its last link, and the bytes of pages that are held, which have a bound;
/// also those of volumes that came through pipes.
///
/// ```
/// use std::io::Read;
/// use hdrfs::Archive;
/// # std::env::set_current_dir("tests/gauge")?;
///
/// let archive = Archive::open(["2.vol", "0.vol", "1.vol"])?;
/// for inode in archive.inodes() {
///     println!("{}: {}, {} bytes", inode.number, inode.file_type(), inode.size);
/// }
/// let file = archive.file(7)?;
/// let mut content = String::new();
/// file.reader().read_to_string(&mut content)?;
/// assert!(content.starts_with("time;m\n2026-01-01 00:00;1,25\n"));
/// # Ok::<(), Box<dyn std::error::Error>>(())
/// ```
#[must_use]
#[derive(Debug)]
pub struct Archive {
    members: Vec<Member>,
    /// By sequence number, where in `members` a volume stands.
    places: BTreeMap<u64, usize>,
    lengths: Lengths,
    index: Index,
    cache: Cache,
}

impl Archive {
    /// An archive without volumes, to which they are added one by one.
    ///
    /// ```
    /// assert_eq!(hdrfs::Archive::new().volumes().count(), 0);
    /// ```
    pub fn new() -> Archive {
        Archive::with_cache(CACHE_BYTES)
    }

    /// The same, with a bound for the bytes of volumes that are held to be read again. Volumes that
    /// cannot be read again, such as those that came through a pipe, are kept beside them.
    ///
    /// ```
    /// let archive = hdrfs::Archive::with_cache(1 << 20);
    /// ```
    pub fn with_cache(bytes: usize) -> Archive {
        Archive {
            members: Vec::new(),
            places: BTreeMap::new(),
            lengths: Lengths::new(),
            index: Index::default(),
            cache: Cache::new(bytes),
        }
    }

    /// Checks volumes and takes them for one archive. Their order does not matter.
    ///
    /// ```
    /// # std::env::set_current_dir("tests/gauge")?;
    /// let archive = hdrfs::Archive::open(["2.vol", "0.vol", "1.vol"])?;
    /// assert_eq!(archive.volumes().count(), 3);
    /// # Ok::<(), Box<dyn std::error::Error>>(())
    /// ```
    pub fn open<P: Into<PathBuf>>(
        paths: impl IntoIterator<Item = P>,
    ) -> Result<Archive, ArchiveError> {
        let mut archive = Archive::new();
        let mut checker = Checker::new();
        for path in paths {
            archive.insert(checker.path(path)?)?;
        }
        Ok(archive)
    }

    /// Adds a volume that was checked. One of another file system is refused, and one whose
    /// sequence number another has; the archive stays as it was then.
    ///
    /// ```
    /// use hdrfs::{Archive, Checker};
    /// # std::env::set_current_dir("tests/gauge")?;
    ///
    /// let mut archive = Archive::new();
    /// archive.insert(Checker::new().path("0.vol")?)?;
    /// let error = archive.insert(Checker::new().path("0.vol")?).unwrap_err();
    /// assert_eq!(error.to_string(), "0.vol and 0.vol both have sequence number 0");
    /// # Ok::<(), Box<dyn std::error::Error>>(())
    /// ```
    pub fn insert(&mut self, mut member: Member) -> Result<(), ArchiveError> {
        let sequence = member.sequence();
        if let Some(first) = self
            .members
            .first()
            .filter(|first| first.id() != member.id())
        {
            return Err(ArchiveError::TwoFileSystems {
                first: first.path.clone(),
                second: member.path,
            });
        }
        if let Some(first) = self.volume(sequence) {
            return Err(ArchiveError::Twice {
                sequence,
                first: first.path.clone(),
                second: member.path,
            });
        }
        // A number too high for the lengths gets no entry. No file can be stored in that volume,
        // and one that says so is refused by the library; but inodes may stand in it.
        let _ = self.lengths.set(sequence, member.len());
        self.index.add(sequence, std::mem::take(&mut member.found));
        self.places.insert(sequence, self.members.len());
        self.members.push(member);
        Ok(())
    }

    /// The ID of the file system, which all volumes have; nothing where there are none.
    ///
    /// ```
    /// # std::env::set_current_dir("tests/gauge")?;
    /// let archive = hdrfs::Archive::open(["0.vol"])?;
    /// assert_eq!(archive.id().unwrap(), *b"gauge at a river");
    /// # Ok::<(), Box<dyn std::error::Error>>(())
    /// ```
    #[must_use]
    pub fn id(&self) -> Option<[u8; 16]> {
        self.members.first().map(Member::id)
    }

    /// The volumes, by rising sequence number.
    ///
    /// ```
    /// # std::env::set_current_dir("tests/gauge")?;
    /// let archive = hdrfs::Archive::open(["2.vol", "0.vol", "1.vol"])?;
    /// assert_eq!(archive.volumes().next().unwrap().sequence(), 0);
    /// # Ok::<(), Box<dyn std::error::Error>>(())
    /// ```
    pub fn volumes(&self) -> impl DoubleEndedIterator<Item = &Member> + '_ {
        self.places.values().map(|place| &self.members[*place])
    }

    /// The volume with a sequence number.
    ///
    /// ```
    /// # std::env::set_current_dir("tests/gauge")?;
    /// let archive = hdrfs::Archive::open(["0.vol"])?;
    /// assert!(archive.volume(0).is_some() && archive.volume(1).is_none());
    /// # Ok::<(), Box<dyn std::error::Error>>(())
    /// ```
    #[must_use]
    pub fn volume(&self, sequence: u64) -> Option<&Member> {
        self.places
            .get(&sequence)
            .map(|place| &self.members[*place])
    }

    /// The sequence numbers below the highest that no volume has, in rising order.
    ///
    /// ```
    /// # std::env::set_current_dir("tests/gauge")?;
    /// let archive = hdrfs::Archive::open(["2.vol"])?;
    /// assert_eq!(archive.gaps().collect::<Vec<_>>(), [0..=1]);
    /// # Ok::<(), Box<dyn std::error::Error>>(())
    /// ```
    pub fn gaps(&self) -> impl Iterator<Item = RangeInclusive<u64>> + '_ {
        let mut due = 0;
        self.places.keys().filter_map(move |sequence| {
            let gap = (due < *sequence).then(|| due..=sequence - 1);
            // After the highest number of all nothing is due, and nothing follows.
            due = sequence.saturating_add(1);
            gap
        })
    }

    /// The lengths of the volumes.
    ///
    /// ```
    /// # std::env::set_current_dir("tests/gauge")?;
    /// let archive = hdrfs::Archive::open(["0.vol"])?;
    /// assert_eq!(archive.lengths(), &[421].into_iter().collect());
    /// # Ok::<(), Box<dyn std::error::Error>>(())
    /// ```
    #[must_use]
    pub fn lengths(&self) -> &Lengths {
        &self.lengths
    }

    /// The current state of every inode, by rising number.
    ///
    /// ```
    /// # std::env::set_current_dir("tests/gauge")?;
    /// let archive = hdrfs::Archive::open(["0.vol", "1.vol", "2.vol"])?;
    /// let numbers: Vec<u64> = archive.inodes().map(|inode| inode.number).collect();
    /// assert_eq!(numbers, [7, 8]);
    /// # Ok::<(), Box<dyn std::error::Error>>(())
    /// ```
    pub fn inodes(&self) -> impl ExactSizeIterator<Item = CurrentInode> + '_ {
        self.index.iter()
    }

    /// The current state of an inode.
    ///
    /// ```
    /// # std::env::set_current_dir("tests/gauge")?;
    /// let archive = hdrfs::Archive::open(["0.vol"])?;
    /// assert!(archive.inode(7).is_some() && archive.inode(1).is_none());
    /// # Ok::<(), Box<dyn std::error::Error>>(())
    /// ```
    #[must_use]
    pub fn inode(&self, number: u64) -> Option<CurrentInode> {
        self.index.get(number)
    }

    /// The last link to an inode: its name, and whether that was taken away. There is none where no
    /// volume that was given has a link to it.
    ///
    /// ```
    /// # std::env::set_current_dir("tests/gauge")?;
    /// let archive = hdrfs::Archive::open(["0.vol", "1.vol", "2.vol"])?;
    /// let link = archive.last_link(8).unwrap();
    /// assert_eq!((link.name, link.parent), ("gauge.csv", 1));
    /// assert_eq!(archive.last_link(1), None);
    /// # Ok::<(), Box<dyn std::error::Error>>(())
    /// ```
    #[must_use]
    pub fn last_link(&self, number: u64) -> Option<LastLink<'_>> {
        self.index.last_link(number)
    }

    /// The current inode block of a number, read again: its extents, or its target.
    ///
    /// ```
    /// # std::env::set_current_dir("tests/gauge")?;
    /// let archive = hdrfs::Archive::open(["1.vol"])?;
    /// assert_eq!(archive.block(8)?.inode().target(), Some("river.csv"));
    /// # Ok::<(), Box<dyn std::error::Error>>(())
    /// ```
    pub fn block(&self, number: u64) -> Result<InodeBlock, ArchiveError> {
        let current = self.inode(number);
        InodeBlock::read(self, current.ok_or(ArchiveError::NoSuchInode { number })?)
    }

    /// The regular file with an inode number. All its extents lie in the volumes: what of it is
    /// missing is said here, and not half-way through its bytes.
    ///
    /// ```
    /// # std::env::set_current_dir("tests/gauge")?;
    /// let archive = hdrfs::Archive::open(["0.vol", "1.vol", "2.vol"])?;
    /// assert_eq!(archive.file(7)?.all_runs().count(), 12);
    /// # Ok::<(), Box<dyn std::error::Error>>(())
    /// ```
    pub fn file(&self, number: u64) -> Result<ArchiveFile<'_>, ArchiveError> {
        ArchiveFile::open(self, self.block(number)?)
    }

    /// Stored bytes, so many as the buffer has. All of them have to lie in the volume: an empty
    /// buffer is refused too where there is no such volume, or where the place is beyond its end.
    ///
    /// ```
    /// use hdrfs::{Archive, Physical, Stored};
    /// # std::env::set_current_dir("tests/gauge")?;
    ///
    /// let archive = Archive::open(["0.vol"])?;
    /// let mut bytes = [0; 3];
    /// archive.read_at(Stored { volume: 0, offset: Physical(97) }, &mut bytes)?;
    /// assert_eq!(&bytes, b"tim");
    /// # Ok::<(), Box<dyn std::error::Error>>(())
    /// ```
    pub fn read_at(&self, place: Stored, buf: &mut [u8]) -> Result<(), ArchiveError> {
        if buf.is_empty() {
            return store::empty_range(self, place);
        }
        store::Parts::new(self).read(place, buf)
    }
}

impl Default for Archive {
    fn default() -> Archive {
        Archive::new()
    }
}
