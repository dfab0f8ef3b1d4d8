//! Whole volumes: the check, the longest accepted beginning, the header, the link table, the beginning
//! of a walk, the digest, and the one behind.

use std::fmt;

use crate::blocks::{self, part};
use crate::bookmark::Numbers;
use crate::{chain, sys, whole_blocks};
use crate::{Blocks, Bookmark, Digest, File, Lengths, LinkTable};
use crate::{PairError, Refusal, Rejected, WholeBlocks};

/// The most bytes that a volume may have. Whoever reads a file needs to read only one more to have
/// it refused.
///
/// ```
/// let rejected = hdrfs::Volume::check(&vec![0; hdrfs::MAX_VOLUME_LEN + 1]).unwrap_err();
/// assert_eq!(rejected.refusal.number, 1);
/// ```
pub const MAX_VOLUME_LEN: usize = 16_777_216;

/// The calls on the bytes of a volume. There is no value of this type.
///
/// ```
/// assert!(hdrfs::Volume::check(b"no volume").is_err());
/// ```
pub enum Volume {}

impl Volume {
    /// Checks a whole volume.
    ///
    /// ```
    /// use hdrfs::Volume;
    /// # std::env::set_current_dir("../../crates/samples/data")?;
    ///
    /// let bytes = std::fs::read("wrong_block_sum.vol")?;
    /// let rejected = Volume::check(&bytes).unwrap_err();
    /// assert_eq!(rejected.refusal.to_string(), "refused 5 at 80 (block 0): checksum wrong");
    /// assert_eq!(rejected.blocks, 0);
    /// # Ok::<(), std::io::Error>(())
    /// ```
    pub fn check(volume: &[u8]) -> Result<Checked<'_>, Rejected> {
        let answer = sys::check(volume);
        let (offset, block) = place(&answer);
        Refusal::unless_accepted(&answer, offset, block).map_err(Rejected::new)?;
        Ok(Checked {
            volume,
            sequence: answer.sequence,
            end: Bookmark::from_numbers(Numbers {
                offset: answer.offset,
                due: 0,
                timed: answer.timed,
                last: answer.time,
                number: answer.blocks,
            }),
        })
    }

    /// How many bytes the longest accepted beginning of a volume has: what there is to go on with
    /// where the power was lost during an append.
    ///
    /// Of an accepted volume it is all bytes. Where the first fault is
    /// [`ENDS_EARLY`](Refusal::ENDS_EARLY) at a block other than the link table, it ends where that
    /// block begins. A fault in the header or in the table, and any other first fault, is refused as
    /// [`Volume::check`] refuses it.
    ///
    /// - A damaged length field in the middle of a volume also gives
    ///   [`ENDS_EARLY`](Refusal::ENDS_EARLY), if the block would reach beyond the end by it. Then the
    ///   beginning lacks the sound blocks behind that one, which
    ///   [`Volume::whole_blocks_from`] counts: keep the bytes.
    /// - A tail of zeros, as some file systems leave it when the power is lost, gives
    ///   [`UNKNOWN_BLOCK`](Refusal::UNKNOWN_BLOCK), 7, and is refused.
    ///
    /// ```
    /// use hdrfs::Volume;
    /// # std::env::set_current_dir("../../crates/samples/data")?;
    ///
    /// let volume = std::fs::read("v.vol")?;
    /// let torn = [&volume[..], &volume[80..99]].concat();
    /// assert_eq!(Volume::repair(&torn)?, volume.len());
    /// assert_eq!(Volume::repair(&volume)?, volume.len());
    ///
    /// let zeros = [&volume[..], &[0; 24]].concat();
    /// let refusal = Volume::repair(&zeros).unwrap_err();
    /// assert_eq!(refusal.to_string(), "refused 7 at 104 (block 1): unknown block ID");
    /// # Ok::<(), Box<dyn std::error::Error>>(())
    /// ```
    pub fn repair(volume: &[u8]) -> Result<usize, Refusal> {
        let answer = sys::repair(volume);
        // The answer does not say where the fault is. It is the one that the check finds, which is
        // asked only where there is one to tell: a volume that is not refused is read once.
        let (offset, block) = match answer.refusal {
            0 => (0, None),
            _ => place(&sys::check(volume)),
        };
        Refusal::unless_accepted(&answer, offset, block)?;
        Ok(answer.length as usize)
    }

    /// Counts the whole blocks that begin at `offset` or anywhere behind it. Behind the place where a
    /// volume ends too early there are none if an append was cut short, and some if the length field
    /// of a block was damaged.
    ///
    /// Each is taken by itself. It need not begin where another ends, nor at the right time. So
    /// blocks inside the payload of a block that is cut short are counted too, as there are where a
    /// file that is a volume itself was stored: nothing tells them from others. No link table is
    /// counted, since one stands nowhere but behind a header.
    ///
    /// Every place where a block could begin by its length takes a checksum over that length. When
    /// these lengths come to 1 GiB the search ends, and then there may be more: so no volume, however
    /// hostile, takes long.
    ///
    /// ```
    /// use hdrfs::Volume;
    /// # std::env::set_current_dir("../../crates/samples/data")?;
    ///
    /// let volume = std::fs::read("v.vol")?;
    /// let mut damaged = [&volume[..], &volume[80..], &volume[80..]].concat();
    /// damaged[89] = 200; // The length of the payload of the first block.
    /// let length = Volume::repair(&damaged)?;
    /// assert_eq!(length, 80);
    /// let found = Volume::whole_blocks_from(&damaged, length);
    /// assert_eq!((found.count, found.may_be_more), (2, false));
    /// # Ok::<(), Box<dyn std::error::Error>>(())
    /// ```
    pub fn whole_blocks_from(volume: &[u8], offset: usize) -> WholeBlocks {
        whole_blocks::search(volume, offset)
    }

    /// Reads the header alone.
    ///
    /// ```
    /// use hdrfs::Volume;
    /// # std::env::set_current_dir("../../crates/samples/data")?;
    ///
    /// let heading = Volume::header(&std::fs::read("all_kinds.vol")?)?;
    /// assert_eq!(heading.sequence, 1);
    /// assert_eq!(heading.id[..3], [0, 1, 2]);
    /// assert!(heading.next.table_due);
    /// # Ok::<(), Box<dyn std::error::Error>>(())
    /// ```
    pub fn header(volume: &[u8]) -> Result<Heading, Refusal> {
        let answer = sys::header(volume);
        Refusal::unless_accepted(&answer, 0, None)?;
        Ok(Heading {
            id: header_part(volume, answer.id),
            sequence: answer.sequence,
            previous: header_part(volume, answer.previous),
            next: Bookmark::at(answer.next).with_table_due(answer.due != 0),
        })
    }

    /// Walks the blocks of a volume, checked or not: a refusal is the last item.
    ///
    /// ```
    /// use hdrfs::Volume;
    /// # std::env::set_current_dir("../../crates/samples/data")?;
    ///
    /// let bytes = std::fs::read("lower_time.vol")?;
    /// let mut blocks = Volume::blocks(&bytes);
    /// assert_eq!(blocks.next().unwrap()?.number, 0);
    /// let refusal = blocks.next().unwrap().unwrap_err();
    /// assert_eq!((refusal.number, refusal.block), (14, Some(1)));
    /// assert!(blocks.next().is_none());
    /// # Ok::<(), Box<dyn std::error::Error>>(())
    /// ```
    #[must_use]
    pub fn blocks(volume: &[u8]) -> Blocks<'_> {
        Blocks::of(volume)
    }

    /// The link table of a volume, at the beginning of every volume above 0. Only the header and the
    /// table are looked at.
    ///
    /// Volume 0 has none, and so is refused: with [`WRONG_PLACE`](Refusal::WRONG_PLACE) where another
    /// block stands behind its header, with [`ENDS_EARLY`](Refusal::ENDS_EARLY) where nothing does. If
    /// there is one all the same, for which [`Volume::check`] refuses the volume, it is handed out.
    ///
    /// ```
    /// use hdrfs::Volume;
    /// # std::env::set_current_dir("../../crates/samples/data")?;
    ///
    /// assert_eq!(Volume::link_table(&std::fs::read("all_kinds.vol")?)?.len(), 2);
    /// let refusal = Volume::link_table(&std::fs::read("v.vol")?).unwrap_err();
    /// assert_eq!(refusal.to_string(), "refused 8 at 80 (block 0): block in the wrong place");
    /// # Ok::<(), Box<dyn std::error::Error>>(())
    /// ```
    pub fn link_table(volume: &[u8]) -> Result<LinkTable<'_>, Refusal> {
        let mark = Volume::header(volume)?.next.with_table_due(true);
        let block = blocks::read(volume, mark);
        Refusal::unless_accepted(&block, mark.offset, Some(mark.number))?;
        // Where a table is due, no other block is accepted, and no end.
        Ok(LinkTable::new(volume, mark.offset, &block))
    }

    /// The SHA-256 digest of bytes, accepted or not: of a whole volume, the hash that the next one
    /// states. More than 16,777,216 bytes are refused with 1. [`Digest`] is for bytes that come in
    /// parts.
    ///
    /// ```
    /// use hdrfs::{LinkList, Volume, Writer};
    /// # std::env::set_current_dir("../../crates/samples/data")?;
    ///
    /// let first = std::fs::read("v.vol")?;
    /// let heading = Volume::header(&first)?;
    /// let mut buf = [0; 200];
    /// let next = heading.sequence + 1;
    /// let mut writer = Writer::create(&mut buf, &heading.id, next, &Volume::digest(&first)?)?;
    /// writer.append_links(&LinkList::new())?;
    /// assert_eq!(Volume::follows(&first, writer.written()), Ok(()));
    /// # Ok::<(), Box<dyn std::error::Error>>(())
    /// ```
    pub fn digest(bytes: &[u8]) -> Result<[u8; Digest::LEN], Refusal> {
        let mut digest = [0; Digest::LEN];
        let refusal = sys::sha256(bytes, &mut digest);
        Refusal::unless_accepted(&refusal, 0, None)?;
        Ok(digest)
    }

    /// Whether the second volume follows the first: both are accepted, they have the same file system
    /// ID, the second's sequence number is one above the first's, and its hash of the previous volume
    /// is the digest of the first.
    ///
    /// Both are checked, and the first is digested. Of more volumes than two, each is compared with two
    /// others: then a [`ChainEntry`](crate::ChainEntry) of each saves half of the work.
    ///
    /// ```
    /// use hdrfs::{Mismatch, PairError, Volume};
    /// # std::env::set_current_dir("tests/gauge")?;
    ///
    /// let (first, second) = (std::fs::read("0.vol")?, std::fs::read("1.vol")?);
    /// assert_eq!(Volume::follows(&first, &second), Ok(()));
    /// let error = Volume::follows(&first, &first).unwrap_err();
    /// assert_eq!(error, PairError::Mismatch(Mismatch::Sequence { first: 0, second: 0 }));
    /// let words = "refused 23: the second volume does not follow the first (it is volume 0 too)";
    /// assert_eq!(error.to_string(), words);
    /// # Ok::<(), Box<dyn std::error::Error>>(())
    /// ```
    pub fn follows(first: &[u8], second: &[u8]) -> Result<(), PairError> {
        chain::follows(first, second)
    }
}

/// Where the fault is that a check answers: its offset, and the number of the block.
fn place(answer: &sys::Checked) -> (u64, Option<u64>) {
    // The header stands at 0, and no block does.
    let block = (answer.offset != 0).then_some(answer.blocks);
    (answer.offset, block)
}

/// What a header says.
///
/// ```
/// # std::env::set_current_dir("../../crates/samples/data")?;
/// let heading = hdrfs::Volume::header(&std::fs::read("v.vol")?)?;
/// assert_eq!((heading.sequence, heading.next.offset), (0, 80));
/// # Ok::<(), Box<dyn std::error::Error>>(())
/// ```
#[must_use]
#[non_exhaustive]
#[derive(Clone, Copy, Debug, PartialEq, Eq)]
pub struct Heading {
    /// The ID of the file system, which all its volumes have.
    pub id: [u8; 16],
    /// The sequence number.
    pub sequence: u64,
    /// The hash of the previous volume; zeros in volume 0.
    pub previous: [u8; 32],
    /// The bookmark after the header.
    pub next: Bookmark,
}

/// A part of an accepted header, at the place that the library tells.
fn header_part<const LEN: usize>(volume: &[u8], at: u64) -> [u8; LEN] {
    let part = part(volume, at, LEN as u64);
    part.try_into().expect("the part has this length")
}

/// A volume that was checked and accepted.
///
/// ```
/// # std::env::set_current_dir("../../crates/samples/data")?;
/// let bytes = std::fs::read("v.vol")?;
/// let checked = hdrfs::Volume::check(&bytes)?;
/// assert_eq!((checked.sequence(), checked.block_count()), (0, 1));
/// # Ok::<(), Box<dyn std::error::Error>>(())
/// ```
#[must_use]
#[derive(Clone, Copy)]
pub struct Checked<'a> {
    volume: &'a [u8],
    sequence: u64,
    end: Bookmark,
}

impl<'a> Checked<'a> {
    /// The bytes that were checked.
    ///
    /// ```
    /// # std::env::set_current_dir("../../crates/samples/data")?;
    /// let bytes = std::fs::read("v.vol")?;
    /// assert_eq!(hdrfs::Volume::check(&bytes)?.bytes().as_ptr(), bytes.as_ptr());
    /// # Ok::<(), Box<dyn std::error::Error>>(())
    /// ```
    #[must_use]
    pub fn bytes(&self) -> &'a [u8] {
        self.volume
    }

    /// The sequence number.
    ///
    /// ```
    /// # std::env::set_current_dir("../../crates/samples/data")?;
    /// let bytes = std::fs::read("all_kinds.vol")?;
    /// assert_eq!(hdrfs::Volume::check(&bytes)?.sequence(), 1);
    /// # Ok::<(), Box<dyn std::error::Error>>(())
    /// ```
    #[must_use]
    pub fn sequence(&self) -> u64 {
        self.sequence
    }

    /// How many blocks come after the header, the link table included.
    ///
    /// ```
    /// # std::env::set_current_dir("../../crates/samples/data")?;
    /// let bytes = std::fs::read("all_kinds.vol")?;
    /// assert_eq!(hdrfs::Volume::check(&bytes)?.block_count(), 10);
    /// # Ok::<(), Box<dyn std::error::Error>>(())
    /// ```
    #[must_use]
    pub fn block_count(&self) -> u64 {
        self.end.number
    }

    /// The bookmark at the end: where a further block would go, the last time, and the number of
    /// blocks.
    ///
    /// ```
    /// # std::env::set_current_dir("../../crates/samples/data")?;
    /// let bytes = std::fs::read("v.vol")?;
    /// let end = hdrfs::Volume::check(&bytes)?.end();
    /// assert_eq!((end.offset, end.last_time, end.number), (104, Some(7), 1));
    /// # Ok::<(), Box<dyn std::error::Error>>(())
    /// ```
    #[must_use]
    pub fn end(&self) -> Bookmark {
        self.end
    }

    /// Walks the blocks.
    ///
    /// ```
    /// # std::env::set_current_dir("../../crates/samples/data")?;
    /// let bytes = std::fs::read("all_kinds.vol")?;
    /// let checked = hdrfs::Volume::check(&bytes)?;
    /// assert_eq!(checked.blocks().count(), 10);
    /// # Ok::<(), Box<dyn std::error::Error>>(())
    /// ```
    #[must_use]
    pub fn blocks(&self) -> Blocks<'a> {
        Blocks::of(self.volume)
    }

    /// The file whose inode block is at `offset`.
    ///
    /// ```
    /// use hdrfs::{Lengths, Logical, Place, Volume};
    /// # std::env::set_current_dir("../../crates/samples/data")?;
    ///
    /// let bytes = std::fs::read("all_kinds.vol")?;
    /// let lengths: Lengths = [104, bytes.len() as u64].into_iter().collect();
    /// let file = Volume::check(&bytes)?.file(137, &lengths);
    /// assert_eq!(file.position(Logical(3))?, Place::Hole);
    /// # Ok::<(), Box<dyn std::error::Error>>(())
    /// ```
    #[must_use]
    pub fn file(&self, offset: u64, lengths: &'a Lengths) -> File<'a> {
        File::new(self.volume, offset, lengths)
    }
}

/// Without the bytes, which may be many millions.
impl fmt::Debug for Checked<'_> {
    fn fmt(&self, f: &mut fmt::Formatter<'_>) -> fmt::Result {
        let mut shown = f.debug_struct("Checked");
        shown.field("volume_len", &self.volume.len());
        shown.field("sequence", &self.sequence);
        shown.field("end", &self.end).finish()
    }
}
