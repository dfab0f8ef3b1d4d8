//! Why a call could not do what it was asked.

use std::error::Error;
use std::fmt;

use crate::{sys, BadText};

/// A refusal: its number, which header or block is at fault and where it begins, and of a text that
/// is not UTF-8, which one that is and where.
///
/// The numbers mean the same in every call. They are the constants below, with what
/// `docs/REFUSALS.md` says of each; it also says what to do about it. More may come.
///
/// ```
/// use hdrfs::{Refusal, Volume};
/// # std::env::set_current_dir("../../crates/samples/data")?;
///
/// let refusal = Volume::check(b"").unwrap_err().refusal;
/// assert_eq!(refusal, Refusal::new(Refusal::ENDS_EARLY, 0));
/// assert_eq!(refusal.to_string(), "refused 2 at 0: bytes end too early");
///
/// let bytes = std::fs::read("lower_time.vol")?;
/// let refusal = Volume::check(&bytes).unwrap_err().refusal;
/// assert_eq!(refusal, Refusal::new(Refusal::TIME_LOWER, 104).with_block(Some(1)));
/// assert_eq!(refusal.to_string(), "refused 14 at 104 (block 1): time lower than the last one");
///
/// let bytes = std::fs::read("name_not_text.vol")?;
/// let refusal = Volume::check(&bytes).unwrap_err().refusal;
/// assert_eq!((refusal.number, refusal.text, refusal.start), (Refusal::NOT_TEXT, 0, 1));
/// let line = "refused 10 at 80 (block 0): text is not UTF-8 (text 0, byte 1)";
/// assert_eq!(refusal.to_string(), line);
/// # Ok::<(), std::io::Error>(())
/// ```
#[must_use]
#[non_exhaustive]
#[derive(Clone, Copy, Debug, PartialEq, Eq, Hash)]
pub struct Refusal {
    /// Which refusal it is.
    pub number: u64,
    /// Where in the volume: 0 for the header, else where the block begins. A refusal of
    /// [`fetch`](crate::fetch) has the offset that was asked for, or 0 where a header is at fault; one
    /// of a digest, or of a volume that does not follow another, has 0.
    pub offset: u64,
    /// The number of the block at fault, counted from 0 behind the header; of a
    /// [`Writer`](crate::Writer), of the block that was not written. There is none where the header
    /// is at fault or no block is meant, nor where nothing but the offset of the block was given,
    /// as to [`File::new`](crate::File::new).
    pub block: Option<u64>,
    /// Where the number is [`NOT_TEXT`](Refusal::NOT_TEXT), which text of the block is the first that
    /// is not UTF-8, counted from 0 in the order in which they stand there: of a rename the old path
    /// is 0 and the new one 1, of a link table it is the place of the link. Else 0. See
    /// [`Refusal::bad_text`].
    pub text: u64,
    /// Where the number is [`NOT_TEXT`](Refusal::NOT_TEXT), at which byte of that text its first
    /// ill-formed sequence begins: so many bytes before it are UTF-8. Else 0.
    pub start: u64,
}

/// The numbers, each with its meaning and with a few words for a line of text.
macro_rules! numbers {
    ($($(#[$meaning:meta])* $name:ident = $number:literal, $words:literal;)*) => {
        impl Refusal {
            $($(#[$meaning])* pub const $name: u64 = $number;)*

            /// What the number means, in a few plain words.
            ///
            /// ```
            /// use hdrfs::Refusal;
            ///
            /// assert_eq!(Refusal::new(Refusal::CHECKSUM_WRONG, 80).words(), "checksum wrong");
            /// ```
            #[must_use]
            pub const fn words(&self) -> &'static str {
                match self.number {
                    $(Refusal::$name => $words,)*
                    _ => "unknown refusal number",
                }
            }
        }
    };
}

numbers! {
    /// the volume has more than 16,777,216 bytes, or would have (to be listed: more than 65,536); of a
    /// digest: more bytes than that are fed to it, or its state says so
    VOLUME_TOO_LONG = 1, "volume too long";

    /// the bytes end too early: in the header, in a block, before a link table that has to be
    /// there; or the offset lies beyond the end
    ENDS_EARLY = 2, "bytes end too early";

    /// the first 17 bytes are not those of an HDRFS volume
    WRONG_MAGIC = 3, "not an HDRFS volume";

    /// the version, the checksum algorithm or the hash algorithm is not 0
    UNKNOWN_VERSION = 4, "unknown version or algorithm";

    /// a checksum is wrong: the header's at offset 0, else that of the block at the offset given
    CHECKSUM_WRONG = 5, "checksum wrong";

    /// volume 0 has the hash of a previous volume
    HASH_IN_VOLUME_0 = 6, "volume 0 has the hash of a previous volume";

    /// a block begins with an ID that is not 1 to 8
    UNKNOWN_BLOCK = 7, "unknown block ID";

    /// a block in the wrong place: another block where the link table is due, a link table where
    /// none is due, or a bookmark below 80
    WRONG_PLACE = 8, "block in the wrong place";

    /// over a limit: a regular file with more than 1,024 extents (58,368 bytes of them), more than
    /// 4,096 links or volume lengths, length bytes that are no multiple of 8, a bookmark whose
    /// number of blocks is 2^64-1, at which one more block can't be counted; in writing, a name,
    /// value or path that its length field cannot hold
    OVER_LIMIT = 9, "over a limit";

    /// a name, a path or a link target is not UTF-8; two more numbers say which text of the block it
    /// is and at which byte of it that begins
    NOT_TEXT = 10, "text is not UTF-8";

    /// an inode's fields contradict each other or an extent's numbers do not fit; in writing, an ID
    /// or hash of the wrong length, or link bytes that are not the stated links
    CONTRADICTION = 11, "inode fields or extents contradict each other";

    /// two extents of a file keep the same position
    OVERLAP = 12, "two extents keep the same position";

    /// two links of a table have the same parent and the same name
    LINK_TWICE = 13, "same link twice in a table";

    /// a time is lower than the last one before it
    TIME_LOWER = 14, "time lower than the last one";

    /// the block at the offset isn't the inode of a regular file
    NOT_REGULAR = 15, "not the inode of a regular file";

    /// the volume or the range that is asked for is not there; of a lookup: an extent of the file
    /// names a volume without a length, or reaches beyond that length
    NOT_THERE = 16, "volume or range is not there";

    /// the result is longer than the lent room; of a tree: a line does not fit the lent list,
    /// which takes two numbers a line; of a digest: fewer than 104 bytes are lent for its state, or
    /// fewer than 32 for the digest
    NO_ROOM = 17, "no room for the result";

    /// a kept byte in a block of size 0
    STRAY = 18, "byte kept of a block of size 0";

    /// of two volumes that are both accepted, the second does not follow the first: their file system
    /// IDs differ, its sequence number is not one above the first's, or its hash of the previous
    /// volume is not the digest of the first
    NOT_NEXT = 23, "does not follow the volume before it";

    /// a listing of the tree is too deep: a link at depth 32, counted from 0; most often links lead
    /// around in a loop
    TOO_DEEP = 24, "listing too deep: a link at depth 32";
}

impl Refusal {
    /// The refusal with a number, at an offset: about the header, or about no block in particular.
    ///
    /// ```
    /// let refusal = hdrfs::Refusal::new(3, 0);
    /// assert_eq!((refusal.number, refusal.offset, refusal.block), (3, 0, None));
    /// ```
    pub const fn new(number: u64, offset: u64) -> Refusal {
        Refusal {
            number,
            offset,
            block: None,
            text: 0,
            start: 0,
        }
    }

    /// The same refusal about the block with a number.
    ///
    /// ```
    /// assert_eq!(hdrfs::Refusal::new(5, 4711).with_block(Some(17)).block, Some(17));
    /// ```
    pub const fn with_block(self, block: Option<u64>) -> Refusal {
        Refusal { block, ..self }
    }

    /// The same refusal about a text of the block, at a byte of that text.
    ///
    /// ```
    /// use hdrfs::Refusal;
    ///
    /// let refusal = Refusal::new(Refusal::NOT_TEXT, 80).with_text(1, 39_999);
    /// assert_eq!((refusal.text, refusal.start), (1, 39_999));
    /// ```
    pub const fn with_text(self, text: u64, start: u64) -> Refusal {
        Refusal {
            text,
            start,
            ..self
        }
    }

    /// What the text at fault is in its block, where the number is
    /// [`NOT_TEXT`](Refusal::NOT_TEXT). The volume has to be the one that was refused, since the kind
    /// of the block stands there.
    ///
    /// ```
    /// use hdrfs::{BadText, Volume};
    /// # std::env::set_current_dir("../../crates/samples/data")?;
    ///
    /// let bytes = std::fs::read("second_path_not_text.vol")?;
    /// let refusal = Volume::check(&bytes).unwrap_err().refusal;
    /// assert_eq!(refusal.bad_text(&bytes), Some(BadText::NewPath));
    /// # Ok::<(), std::io::Error>(())
    /// ```
    #[must_use]
    pub fn bad_text(&self, volume: &[u8]) -> Option<BadText> {
        if self.number != Refusal::NOT_TEXT {
            return None;
        }
        let at = usize::try_from(self.offset).ok()?;
        BadText::of(*volume.get(at)?, self.text)
    }

    /// Nothing where the number of an answer is 0, the mark of an accepted call; else an error about
    /// the header or block at an offset, with the block's number if it is known.
    pub(crate) fn unless_accepted(
        answer: &impl Answer,
        offset: u64,
        block: Option<u64>,
    ) -> Result<(), Refusal> {
        match answer.refusal() {
            0 => Ok(()),
            number => {
                let (text, start) = answer.bad_text();
                let refusal = Refusal::new(number, offset).with_block(block);
                Err(refusal.with_text(text, start))
            }
        }
    }
}

/// What a call of the library answers, as far as it is about a refusal.
pub(crate) trait Answer {
    /// The number, 0 where there is none.
    fn refusal(&self) -> u64;

    /// Which text is not UTF-8 and where, 0 and 0 beside every number but 10.
    fn bad_text(&self) -> (u64, u64);
}

macro_rules! answers {
    ($($name:ident)*) => {$(
        impl Answer for sys::$name {
            fn refusal(&self) -> u64 {
                self.refusal
            }

            fn bad_text(&self) -> (u64, u64) {
                (self.text, self.start)
            }
        }
    )*};
}

answers! { Block Checked Heading Lines Place Repaired RunCount Source Written }

/// The calls that take digests answer the number alone.
impl Answer for u64 {
    fn refusal(&self) -> u64 {
        *self
    }

    fn bad_text(&self) -> (u64, u64) {
        (0, 0)
    }
}

impl fmt::Display for Refusal {
    fn fmt(&self, f: &mut fmt::Formatter<'_>) -> fmt::Result {
        let Refusal { number, offset, .. } = self;
        write!(f, "refused {number} at {offset}")?;
        if let Some(block) = self.block {
            write!(f, " (block {block})")?;
        }
        write!(f, ": {}", self.words())?;
        if self.number == Refusal::NOT_TEXT {
            write!(f, " (text {}, byte {})", self.text, self.start)?;
        }
        Ok(())
    }
}

impl Error for Refusal {}

/// A volume that was not accepted: why, and how many of its blocks were sound.
///
/// Where only the refusal matters, `?` makes one of it.
///
/// ```
/// use hdrfs::{Refusal, Volume};
/// # std::env::set_current_dir("../../crates/samples/data")?;
///
/// fn sequence(volume: &[u8]) -> Result<u64, Refusal> {
///     Ok(Volume::check(volume)?.sequence())
/// }
/// let bytes = std::fs::read("lower_time.vol")?;
/// let rejected = Volume::check(&bytes).unwrap_err();
/// assert_eq!(rejected.blocks, 1);
/// assert_eq!(sequence(&bytes), Err(rejected.refusal));
/// # Ok::<(), std::io::Error>(())
/// ```
#[must_use]
#[non_exhaustive]
#[derive(Clone, Copy, Debug, PartialEq, Eq, Hash)]
pub struct Rejected {
    /// Why, and which header or block is at fault.
    pub refusal: Refusal,
    /// How many blocks after the header were accepted before it, the link table included: as many
    /// as the number of the block at fault, and none before the header.
    pub blocks: u64,
}

impl Rejected {
    /// A whole volume refused: the blocks before the one at fault were accepted.
    pub(crate) fn new(refusal: Refusal) -> Rejected {
        let blocks = refusal.block.unwrap_or(0);
        Rejected { refusal, blocks }
    }
}

impl From<Rejected> for Refusal {
    fn from(rejected: Rejected) -> Refusal {
        rejected.refusal
    }
}

impl fmt::Display for Rejected {
    fn fmt(&self, f: &mut fmt::Formatter<'_>) -> fmt::Result {
        let Rejected { refusal, blocks } = self;
        write!(f, "{refusal} (blocks accepted before it: {blocks})")
    }
}

impl Error for Rejected {
    fn source(&self) -> Option<&(dyn Error + 'static)> {
        Some(&self.refusal)
    }
}
