//! Why an archive, or a file in it, cannot be had.

use std::error::Error;
use std::fmt;
use std::io;
use std::path::{Path, PathBuf};

use crate::{BadText, Extent, Refusal, Rejected};

/// Why an archive, or a file in it, cannot be had.
///
/// ```
/// use hdrfs::{Archive, ArchiveError};
///
/// let error = Archive::open(["no such.vol"]).unwrap_err();
/// assert!(matches!(error, ArchiveError::Io { .. }));
/// ```
#[must_use]
#[non_exhaustive]
#[derive(Debug)]
pub enum ArchiveError {
    /// A volume cannot be opened or read.
    Io {
        /// The volume.
        path: PathBuf,
        /// What the system says.
        error: io::Error,
    },
    /// A volume is not sound, or something asked of it is refused.
    Refused {
        /// The volume.
        path: PathBuf,
        /// Why, and where.
        refusal: Refusal,
        /// How many of its blocks were accepted before, where the whole volume was checked.
        blocks: Option<u64>,
        /// What the text is that is not UTF-8, where it is refused for that.
        bad_text: Option<BadText>,
    },
    /// Two volumes have different file system IDs, so that they are no set.
    TwoFileSystems {
        /// A volume that the archive has.
        first: PathBuf,
        /// The volume that differs from it.
        second: PathBuf,
    },
    /// Two volumes have the same sequence number: nothing says which of them a file means.
    Twice {
        /// The number.
        sequence: u64,
        /// The volume that the archive has.
        first: PathBuf,
        /// The other volume.
        second: PathBuf,
    },
    /// A volume is not the one any more that was checked.
    Changed {
        /// The volume.
        path: PathBuf,
    },
    /// No volume that was given has this sequence number.
    NoVolume {
        /// The number.
        sequence: u64,
    },
    /// No volume has an inode block with this number.
    NoSuchInode {
        /// The number.
        number: u64,
    },
    /// A file is stored in places that the volumes do not have.
    Missing(Missing),
}

/// What of a file is not there.
///
/// ```
/// use hdrfs::{Archive, ArchiveError};
/// # std::env::set_current_dir("tests/gauge")?;
///
/// let archive = Archive::open(["2.vol"])?;
/// let Err(ArchiveError::Missing(missing)) = archive.file(7) else { panic!("all is there") };
/// assert_eq!(missing.volumes, [0, 1]);
/// assert!(missing.short.is_empty());
/// # Ok::<(), Box<dyn std::error::Error>>(())
/// ```
#[must_use]
#[non_exhaustive]
#[derive(Clone, Debug, PartialEq, Eq)]
pub struct Missing {
    /// The inode number of the file.
    pub inode: u64,
    /// The sequence numbers of the volumes that it needs and that were not given, in rising order.
    pub volumes: Vec<u64>,
    /// Its extents that reach beyond the volume that they name.
    pub short: Vec<ShortExtent>,
}

/// An extent that reaches beyond a volume.
///
/// ```
/// # use hdrfs::{Extent, Logical, Multiplicity, Physical, ShortExtent};
/// fn tell(short: &ShortExtent) {
///     println!("extent {} needs more than {} bytes", short.index, short.volume_len);
/// }
/// ```
#[must_use]
#[non_exhaustive]
#[derive(Clone, Copy, Debug, PartialEq, Eq)]
pub struct ShortExtent {
    /// Which of the file's extents it is, counted from 0.
    pub index: usize,
    /// The extent.
    pub extent: Extent,
    /// How long the volume is. It is 0 where the volume's sequence number is over 4,095: no file
    /// can be stored in such a volume.
    pub volume_len: u64,
}

impl ArchiveError {
    pub(crate) fn io(path: PathBuf, error: io::Error) -> ArchiveError {
        ArchiveError::Io { path, error }
    }

    /// Something asked of a checked volume is refused. Its texts are all UTF-8.
    pub(crate) fn refused(path: &Path, refusal: Refusal) -> ArchiveError {
        ArchiveError::Refused {
            path: path.to_path_buf(),
            refusal,
            blocks: None,
            bad_text: None,
        }
    }

    /// A volume is refused as a whole.
    pub(crate) fn rejected(path: &Path, volume: &[u8], rejected: Rejected) -> ArchiveError {
        ArchiveError::Refused {
            path: path.to_path_buf(),
            refusal: rejected.refusal,
            blocks: Some(rejected.blocks),
            bad_text: rejected.refusal.bad_text(volume),
        }
    }
}

impl fmt::Display for ArchiveError {
    fn fmt(&self, f: &mut fmt::Formatter<'_>) -> fmt::Result {
        match self {
            ArchiveError::Io { path, error } => {
                write!(f, "{}: cannot be read: {error}", path.display())
            }
            ArchiveError::Refused {
                path,
                refusal,
                bad_text,
                ..
            } => {
                write!(f, "{}: {refusal}", path.display())?;
                bad_text.map_or(Ok(()), |text| write!(f, ": {text}"))
            }
            ArchiveError::TwoFileSystems { first, second } => write!(
                f,
                "{} and {} belong to different file systems",
                first.display(),
                second.display()
            ),
            ArchiveError::Twice {
                sequence,
                first,
                second,
            } => write!(
                f,
                "{} and {} both have sequence number {sequence}",
                first.display(),
                second.display()
            ),
            ArchiveError::Changed { path } => {
                write!(f, "{}: changed since it was checked", path.display())
            }
            ArchiveError::NoVolume { sequence } => {
                write!(f, "no volume with sequence number {sequence} was given")
            }
            ArchiveError::NoSuchInode { number } => {
                write!(f, "no inode {number} in the volumes given")
            }
            ArchiveError::Missing(missing) => missing.fmt(f),
        }
    }
}

impl fmt::Display for Missing {
    fn fmt(&self, f: &mut fmt::Formatter<'_>) -> fmt::Result {
        write!(f, "inode {}: ", self.inode)?;
        match &self.volumes[..] {
            [] => (),
            [one] => write!(f, "volume {one} is needed and was not given")?,
            more => {
                write!(f, "volumes ")?;
                some(f, more, ", ")?;
                write!(f, " are needed and were not given")?;
            }
        }
        if !self.volumes.is_empty() && !self.short.is_empty() {
            write!(f, "; ")?;
        }
        some(f, &self.short, "; ")
    }
}

/// The first of some things, and how many more there are: a file may lack a thousand, and a line of
/// text is for a person.
fn some<T: fmt::Display>(f: &mut fmt::Formatter<'_>, things: &[T], separator: &str) -> fmt::Result {
    const SHOWN: usize = 8;
    for (place, thing) in things.iter().take(SHOWN).enumerate() {
        let before = if place == 0 { "" } else { separator };
        write!(f, "{before}{thing}")?;
    }
    match things.len().saturating_sub(SHOWN) {
        0 => Ok(()),
        more => write!(f, " and {more} more"),
    }
}

impl fmt::Display for ShortExtent {
    fn fmt(&self, f: &mut fmt::Formatter<'_>) -> fmt::Result {
        let ShortExtent {
            index,
            extent: Extent { start, volume, .. },
            volume_len,
        } = self;
        write!(f, "extent {index} at {start} of volume {volume} ")?;
        match volume_len {
            0 => write!(
                f,
                "names a volume above 4095, which no file can be stored in"
            ),
            _ => write!(f, "reaches beyond its {volume_len} bytes"),
        }
    }
}

impl Error for ArchiveError {
    fn source(&self) -> Option<&(dyn Error + 'static)> {
        match self {
            ArchiveError::Io { error, .. } => Some(error),
            ArchiveError::Refused { refusal, .. } => Some(refusal),
            _ => None,
        }
    }
}

/// So that a reader over an archive can be used wherever a reader is.
impl From<ArchiveError> for io::Error {
    fn from(error: ArchiveError) -> io::Error {
        match error {
            ArchiveError::Io { error, path } => {
                io::Error::new(error.kind(), ArchiveError::Io { path, error })
            }
            other => io::Error::new(io::ErrorKind::InvalidData, other),
        }
    }
}
