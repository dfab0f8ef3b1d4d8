//! The chain of volumes: whether a volume is the next one after another.

use std::error::Error;
use std::fmt;
use std::ops::RangeInclusive;

use crate::{sys, Digest, Heading, Refusal, Rejected, Volume};

/// What the place of an accepted volume in the chain depends on.
///
/// Of many volumes each is checked and digested once; then any two of these can be compared.
///
/// ```
/// use hdrfs::{ChainEntry, Mismatch};
/// # std::env::set_current_dir("tests/gauge")?;
///
/// let first = ChainEntry::of(&std::fs::read("0.vol")?)?;
/// let second = ChainEntry::of(&std::fs::read("1.vol")?)?;
/// assert_eq!(second.follows(&first), Ok(()));
/// assert!(matches!(first.follows(&second), Err(Mismatch::Sequence { .. })));
/// # Ok::<(), Box<dyn std::error::Error>>(())
/// ```
#[must_use]
#[non_exhaustive]
#[derive(Clone, Copy, Debug, PartialEq, Eq)]
pub struct ChainEntry {
    /// The ID of the file system.
    pub id: [u8; 16],
    /// The sequence number.
    pub sequence: u64,
    /// The hash of the previous volume that the header states; zeros in volume 0.
    pub previous: [u8; Digest::LEN],
    /// The SHA-256 digest of the whole volume, which the next one states.
    pub digest: [u8; Digest::LEN],
}

impl ChainEntry {
    /// Checks a volume and digests it.
    ///
    /// ```
    /// use hdrfs::{ChainEntry, Volume};
    /// # std::env::set_current_dir("../../crates/samples/data")?;
    ///
    /// let bytes = std::fs::read("v.vol")?;
    /// assert_eq!(ChainEntry::of(&bytes)?.digest, Volume::digest(&bytes)?);
    /// let rejected = ChainEntry::of(&bytes[..103]).unwrap_err();
    /// assert_eq!((rejected.refusal.number, rejected.blocks), (2, 0));
    /// # Ok::<(), Box<dyn std::error::Error>>(())
    /// ```
    pub fn of(volume: &[u8]) -> Result<ChainEntry, Rejected> {
        let checked = Volume::check(volume)?;
        let heading = Volume::header(checked.bytes()).map_err(Rejected::new)?;
        ChainEntry::of_accepted(&heading, volume).map_err(Rejected::new)
    }

    /// Digests a volume that was accepted, and has this header.
    pub(crate) fn of_accepted(heading: &Heading, volume: &[u8]) -> Result<ChainEntry, Refusal> {
        Ok(ChainEntry {
            id: heading.id,
            sequence: heading.sequence,
            previous: heading.previous,
            digest: Volume::digest(volume)?,
        })
    }

    /// Whether this volume follows the first, or else the first reason why it does not. The answer is
    /// that of [`Volume::follows`] on the two volumes.
    ///
    /// ```
    /// use hdrfs::{ChainEntry, Mismatch};
    /// # std::env::set_current_dir("../../crates/samples/data")?;
    ///
    /// let first = ChainEntry::of(&std::fs::read("v.vol")?)?;
    /// let second = ChainEntry::of(&std::fs::read("all_kinds.vol")?)?;
    /// assert_eq!(second.follows(&first), Err(Mismatch::PreviousHash));
    /// # Ok::<(), Box<dyn std::error::Error>>(())
    /// ```
    pub fn follows(&self, first: &ChainEntry) -> Result<(), Mismatch> {
        Mismatch::unless_next((first.id, first.sequence), (self.id, self.sequence))?;
        match self.previous == first.digest {
            true => Ok(()),
            false => Err(Mismatch::PreviousHash),
        }
    }
}

/// Why an accepted volume does not follow another one that is accepted. Of several reasons it is the
/// first, in the order given here.
///
/// ```
/// use hdrfs::Mismatch;
///
/// let gap = Mismatch::Sequence { first: 5, second: 8 };
/// assert_eq!(gap.to_string(), "volumes 6 to 7 are missing");
/// assert_eq!(Mismatch::PreviousHash.to_string(), "previous hash differs");
/// ```
#[must_use]
#[derive(Clone, Copy, Debug, PartialEq, Eq, Hash)]
pub enum Mismatch {
    /// The two have different file system IDs.
    FileSystem,
    /// The second's sequence number is not one above the first's.
    Sequence {
        /// The first's number.
        first: u64,
        /// The second's number.
        second: u64,
    },
    /// The second's hash of the previous volume is not the digest of the first.
    PreviousHash,
}

impl Mismatch {
    /// The sequence numbers between the two, where there are any.
    ///
    /// ```
    /// use hdrfs::Mismatch;
    ///
    /// assert_eq!(Mismatch::Sequence { first: 5, second: 8 }.missing(), Some(6..=7));
    /// assert_eq!(Mismatch::Sequence { first: 5, second: 5 }.missing(), None);
    /// ```
    #[must_use]
    pub fn missing(&self) -> Option<RangeInclusive<u64>> {
        match *self {
            Mismatch::Sequence { first, second } if 1 < second.saturating_sub(first) => {
                Some(first + 1..=second - 1)
            }
            _ => None,
        }
    }

    /// What the IDs and sequence numbers of two volumes say.
    fn unless_next(first: ([u8; 16], u64), second: ([u8; 16], u64)) -> Result<(), Mismatch> {
        let ((first_id, first), (second_id, second)) = (first, second);
        if first_id != second_id {
            return Err(Mismatch::FileSystem);
        }
        // Nothing comes after the highest number.
        if first.checked_add(1) != Some(second) {
            return Err(Mismatch::Sequence { first, second });
        }
        Ok(())
    }
}

impl fmt::Display for Mismatch {
    fn fmt(&self, f: &mut fmt::Formatter<'_>) -> fmt::Result {
        let (first, second) = match *self {
            Mismatch::FileSystem => return f.write_str("other file system"),
            Mismatch::PreviousHash => return f.write_str("previous hash differs"),
            Mismatch::Sequence { first, second } => (first, second),
        };
        match self.missing() {
            Some(gap) if gap.start() == gap.end() => write!(f, "volume {} is missing", gap.start()),
            Some(gap) => write!(f, "volumes {} to {} are missing", gap.start(), gap.end()),
            None if first == second => write!(f, "it is volume {second} too"),
            None => write!(f, "volume {second} comes before volume {first}"),
        }
    }
}

impl Error for Mismatch {}

impl From<Mismatch> for Refusal {
    fn from(_: Mismatch) -> Refusal {
        Refusal::new(Refusal::NOT_NEXT, 0)
    }
}

/// Why the second of two volumes is not accepted behind the first.
///
/// Where only the refusal matters, `?` makes one of it.
///
/// ```
/// use hdrfs::{Refusal, Volume};
///
/// fn is_next(first: &[u8], second: &[u8]) -> Result<(), Refusal> {
///     Ok(Volume::follows(first, second)?)
/// }
/// assert_eq!(is_next(b"", b""), Err(Refusal::new(Refusal::ENDS_EARLY, 0)));
/// ```
#[must_use]
#[derive(Clone, Copy, Debug, PartialEq, Eq, Hash)]
pub enum PairError {
    /// The first volume is refused by itself.
    First(Rejected),
    /// The first volume is accepted, and the second is refused by itself.
    Second(Rejected),
    /// Both are accepted, and the second does not follow the first.
    Mismatch(Mismatch),
}

impl PairError {
    /// The refusal: a volume's own, or [`NOT_NEXT`](Refusal::NOT_NEXT).
    ///
    /// ```
    /// use hdrfs::{Mismatch, PairError, Refusal};
    ///
    /// let error = PairError::Mismatch(Mismatch::FileSystem);
    /// assert_eq!(error.refusal().number, Refusal::NOT_NEXT);
    /// ```
    pub fn refusal(&self) -> Refusal {
        match self {
            PairError::First(rejected) | PairError::Second(rejected) => rejected.refusal,
            PairError::Mismatch(mismatch) => (*mismatch).into(),
        }
    }
}

impl From<PairError> for Refusal {
    fn from(error: PairError) -> Refusal {
        error.refusal()
    }
}

impl fmt::Display for PairError {
    fn fmt(&self, f: &mut fmt::Formatter<'_>) -> fmt::Result {
        match self {
            PairError::First(rejected) => write!(f, "first volume: {rejected}"),
            PairError::Second(rejected) => write!(f, "second volume: {rejected}"),
            PairError::Mismatch(mismatch) => {
                let number = Refusal::NOT_NEXT;
                write!(
                    f,
                    "refused {number}: the second volume does not follow the first ({mismatch})"
                )
            }
        }
    }
}

impl Error for PairError {
    fn source(&self) -> Option<&(dyn Error + 'static)> {
        match self {
            PairError::First(rejected) | PairError::Second(rejected) => Some(rejected),
            PairError::Mismatch(mismatch) => Some(mismatch),
        }
    }
}

/// Whether the second volume follows the first.
pub(crate) fn follows(first: &[u8], second: &[u8]) -> Result<(), PairError> {
    let paired = sys::pair(first, second);
    match (paired.refusal, paired.which) {
        (0, _) => Ok(()),
        (_, 1) => Err(PairError::First(rejected(&paired, first))),
        (_, 2) => Err(PairError::Second(rejected(&paired, second))),
        _ => Err(PairError::Mismatch(mismatch(first, second))),
    }
}

/// What the check of the whole volume says of one that is refused by itself.
fn rejected(paired: &sys::Paired, volume: &[u8]) -> Rejected {
    // How many blocks are sound is not in the answer. The header stands at 0, and no block does.
    let block = (paired.offset != 0).then(|| sys::check_blocks(volume));
    let refusal = Refusal::new(paired.refusal, paired.offset).with_block(block);
    Rejected::new(refusal.with_text(paired.text, paired.start))
}

/// Why a sound volume does not follow another. The headers say all but one of the reasons, so that no
/// digest is taken again.
fn mismatch(first: &[u8], second: &[u8]) -> Mismatch {
    let place = |volume: &[u8]| {
        let heading = Volume::header(volume).expect("the volume was accepted");
        (heading.id, heading.sequence)
    };
    match Mismatch::unless_next(place(first), place(second)) {
        Err(mismatch) => mismatch,
        Ok(()) => Mismatch::PreviousHash,
    }
}
