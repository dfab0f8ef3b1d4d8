//! Where the bytes of a regular file are stored.

use std::fmt;

use crate::{sys, Block, Lengths, Refusal, Runs};

/// A position in a file. It is a type of its own so that it cannot stand where an offset in a
/// volume is meant.
///
/// ```
/// use hdrfs::Logical;
///
/// assert!(Logical(3) < Logical(4));
/// assert_eq!(Logical(3).to_string(), "3");
/// ```
#[derive(Clone, Copy, Debug, Default, PartialEq, Eq, PartialOrd, Ord, Hash)]
pub struct Logical(pub u64);

impl fmt::Display for Logical {
    fn fmt(&self, f: &mut fmt::Formatter<'_>) -> fmt::Result {
        self.0.fmt(f)
    }
}

/// The offset of a stored byte in a volume.
///
/// ```
/// use hdrfs::Physical;
///
/// assert!(Physical(97) < Physical(98));
/// assert_eq!(Physical(97).to_string(), "97");
/// ```
#[derive(Clone, Copy, Debug, Default, PartialEq, Eq, PartialOrd, Ord, Hash)]
pub struct Physical(pub u64);

impl fmt::Display for Physical {
    fn fmt(&self, f: &mut fmt::Formatter<'_>) -> fmt::Result {
        self.0.fmt(f)
    }
}

/// Where a byte is stored.
///
/// ```
/// use hdrfs::{Physical, Stored};
///
/// let place = Stored { volume: 0, offset: Physical(97) };
/// assert_eq!(place.offset.to_string(), "97");
/// ```
#[derive(Clone, Copy, Debug, PartialEq, Eq, Hash)]
pub struct Stored {
    /// The sequence number of the volume that has it.
    pub volume: u64,
    /// Where in that volume.
    pub offset: Physical,
}

/// What stands at a position of a file.
///
/// ```
/// use hdrfs::{File, Lengths, Logical, Place};
/// # std::env::set_current_dir("../../crates/samples/data")?;
///
/// let bytes = std::fs::read("all_kinds.vol")?;
/// let lengths: Lengths = [104, bytes.len() as u64].into_iter().collect();
/// let file = File::new(&bytes, 137, &lengths);
/// assert!(matches!(file.position(Logical(0))?, Place::Stored(_)));
/// assert_eq!(file.position(Logical(3))?, Place::Hole);
/// assert_eq!(file.position(Logical(14))?, Place::PastEnd);
/// # Ok::<(), Box<dyn std::error::Error>>(())
/// ```
#[derive(Clone, Copy, Debug, PartialEq, Eq, Hash)]
pub enum Place {
    /// No byte is stored for it: it reads as 0.
    Hole,
    /// Its byte is stored there.
    Stored(Stored),
    /// It is at or above the size of the file.
    PastEnd,
}

/// A regular file, by the place of its inode block and the lengths of the volumes.
///
/// Nothing is looked at when it is made: each call checks the block, and that all the extents of
/// the file lie within the volumes, and is refused otherwise.
///
/// ```
/// use hdrfs::{File, Lengths};
/// # std::env::set_current_dir("../../crates/samples/data")?;
///
/// let bytes = std::fs::read("all_kinds.vol")?;
/// let lengths: Lengths = [104, bytes.len() as u64].into_iter().collect();
/// assert_eq!(File::new(&bytes, 137, &lengths).all_runs().count(), 6);
/// # Ok::<(), std::io::Error>(())
/// ```
#[derive(Clone, Copy)]
pub struct File<'a> {
    volume: &'a [u8],
    offset: u64,
    lengths: &'a Lengths,
    /// Where refusals say that the block is, and its number if it is known.
    told: u64,
    block: Option<u64>,
}

impl<'a> File<'a> {
    /// The file whose inode block is at `offset` in a volume. Which block that is an offset does not
    /// tell, and so refusals do not either; see [`File::of_block`].
    ///
    /// ```
    /// use hdrfs::{File, Lengths, Logical};
    ///
    /// let lengths = Lengths::new();
    /// let nowhere = File::new(&[], 80, &lengths);
    /// let refusal = nowhere.position(Logical(0)).unwrap_err();
    /// assert_eq!((refusal.number, refusal.offset, refusal.block), (2, 80, None));
    /// ```
    #[must_use]
    pub fn new(volume: &'a [u8], offset: u64, lengths: &'a Lengths) -> File<'a> {
        File {
            volume,
            offset,
            lengths,
            told: offset,
            block: None,
        }
    }

    /// The file whose inode block was found in a walk over the volume.
    ///
    /// ```
    /// use hdrfs::{File, Lengths, Logical, Volume};
    /// # std::env::set_current_dir("../../crates/samples/data")?;
    ///
    /// let bytes = std::fs::read("all_kinds.vol")?;
    /// let block = Volume::blocks(&bytes).nth(1).unwrap()?;
    /// let no_lengths = Lengths::new();
    /// let refusal = File::of_block(&bytes, &block, &no_lengths).position(Logical(0)).unwrap_err();
    /// assert_eq!((refusal.number, refusal.offset, refusal.block), (16, 137, Some(1)));
    /// # Ok::<(), Box<dyn std::error::Error>>(())
    /// ```
    #[must_use]
    pub fn of_block(volume: &'a [u8], block: &Block<'_>, lengths: &'a Lengths) -> File<'a> {
        File::new(volume, block.offset, lengths).told_at(block.offset, block.number)
    }

    /// The same file, where refusals say that its block is at an offset and has a number: those of
    /// the block that this one is, or is a copy of.
    pub(crate) fn told_at(self, offset: u64, block: u64) -> File<'a> {
        File {
            told: offset,
            block: Some(block),
            ..self
        }
    }

    /// What stands at a position.
    ///
    /// ```
    /// use hdrfs::{File, Lengths, Logical, Physical, Place, Stored};
    /// # std::env::set_current_dir("../../crates/samples/data")?;
    ///
    /// let bytes = std::fs::read("all_kinds.vol")?;
    /// let lengths: Lengths = [104, bytes.len() as u64].into_iter().collect();
    /// let place = File::new(&bytes, 137, &lengths).position(Logical(4))?;
    /// assert_eq!(place, Place::Stored(Stored { volume: 0, offset: Physical(98) }));
    /// # Ok::<(), Box<dyn std::error::Error>>(())
    /// ```
    pub fn position(&self, position: Logical) -> Result<Place, Refusal> {
        let lengths = self.lengths.as_bytes();
        let place = sys::lookup(self.volume, self.offset, lengths, position.0);
        Refusal::unless_accepted(&place, self.told, self.block)?;
        Ok(match place.kind {
            sys::HOLE => Place::Hole,
            sys::STORED => Place::Stored(Stored {
                volume: place.volume,
                offset: Physical(place.offset),
            }),
            sys::PAST_END => Place::PastEnd,
            other => unreachable!("the library answered a place of kind {other}"),
        })
    }

    /// The runs of the positions `from` to below `to`, clipped to the size of the file.
    ///
    /// ```
    /// use hdrfs::{File, Lengths, Logical};
    /// # std::env::set_current_dir("../../crates/samples/data")?;
    ///
    /// let bytes = std::fs::read("all_kinds.vol")?;
    /// let lengths: Lengths = [104, bytes.len() as u64].into_iter().collect();
    /// let runs = File::new(&bytes, 137, &lengths).runs(Logical(2), Logical(5));
    /// let lens: Vec<u64> = runs.map(|run| run.unwrap().len).collect();
    /// assert_eq!(lens, [1, 1, 1]);
    /// # Ok::<(), std::io::Error>(())
    /// ```
    #[must_use]
    pub fn runs(&self, from: Logical, to: Logical) -> Runs<'a> {
        Runs::new(*self, from, to)
    }

    /// The runs of the whole file.
    ///
    /// ```
    /// use hdrfs::{File, Lengths};
    /// # std::env::set_current_dir("../../crates/samples/data")?;
    ///
    /// let bytes = std::fs::read("all_kinds.vol")?;
    /// let lengths: Lengths = [104, bytes.len() as u64].into_iter().collect();
    /// let runs = File::new(&bytes, 137, &lengths).all_runs();
    /// assert_eq!(runs.map(|run| run.unwrap().len).sum::<u64>(), 14);
    /// # Ok::<(), std::io::Error>(())
    /// ```
    #[must_use]
    pub fn all_runs(&self) -> Runs<'a> {
        self.runs(Logical(0), Logical(u64::MAX))
    }

    /// The runs of a range, where there is room for them: how many there are.
    pub(crate) fn ask(&self, from: u64, to: u64, out: &mut [u64]) -> Result<usize, Refusal> {
        let lengths = self.lengths.as_bytes();
        let answer = sys::runs(self.volume, self.offset, lengths, from, to, out);
        Refusal::unless_accepted(&answer, self.told, self.block)?;
        Ok(answer.count as usize)
    }
}

/// Without the bytes of the volume, which may be many millions.
impl fmt::Debug for File<'_> {
    fn fmt(&self, f: &mut fmt::Formatter<'_>) -> fmt::Result {
        let mut shown = f.debug_struct("File");
        shown.field("volume_len", &self.volume.len());
        shown.field("offset", &self.offset).finish_non_exhaustive()
    }
}
