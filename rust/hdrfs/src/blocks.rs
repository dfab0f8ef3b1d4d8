//! Walking a volume block by block.

use std::fmt;
use std::iter::FusedIterator;

use crate::bookmark::Numbers;
use crate::{sys, Bookmark, Inode, Link, LinkTable, Refusal, Volume};

/// The part of a volume at an offset that the library handed out.
pub(crate) fn part(bytes: &[u8], at: u64, len: u64) -> &[u8] {
    let from = at as usize;
    &bytes[from..from + len as usize]
}

/// A name, path or target of an accepted block.
pub(crate) fn text(bytes: &[u8]) -> &str {
    // The library accepts a block only if all text in it is UTF-8, by the rules that `str` has.
    // Asking once more costs little beside the checksum that was taken over the same bytes, and
    // needs no trust.
    std::str::from_utf8(bytes).expect("text of an accepted block is UTF-8")
}

/// What the library says of the block at a bookmark, a refusal and the end included. The answer is
/// long: to put it into a `Result` made the check of a volume of small blocks a third slower.
#[inline]
pub(crate) fn read(volume: &[u8], mark: Bookmark) -> sys::Block {
    let Numbers {
        offset,
        due,
        timed,
        last,
        number,
    } = mark.numbers();
    sys::read(volume, offset, due, timed, last, number)
}

/// A block of a volume.
///
/// ```
/// use hdrfs::{Content, Volume};
/// # std::env::set_current_dir("../../crates/samples/data")?;
///
/// let bytes = std::fs::read("v.vol")?;
/// let block = Volume::blocks(&bytes).next().unwrap()?;
/// assert_eq!((block.number, block.offset, block.id, block.len()), (0, 80, 6, 24));
/// assert_eq!(block.content, Content::Data { payload: b"1,5" });
/// # Ok::<(), Box<dyn std::error::Error>>(())
/// ```
#[non_exhaustive]
#[derive(Clone, Copy, Debug, PartialEq, Eq)]
pub struct Block<'a> {
    /// Its number: how many blocks stand between the header and it, a link table included. Where
    /// the walk began at a made-up bookmark, it is counted on from that.
    pub number: u64,
    /// Where it begins in the volume.
    pub offset: u64,
    /// The number of its kind, 1 to 8.
    pub id: u64,
    /// Its time; a link table has none.
    pub time: Option<u64>,
    /// The bookmark after it.
    pub next: Bookmark,
    /// What it says.
    pub content: Content<'a>,
}

impl Block<'_> {
    /// How many bytes it takes, its checksum included.
    ///
    /// ```
    /// # std::env::set_current_dir("../../crates/samples/data")?;
    /// let bytes = std::fs::read("all_kinds.vol")?;
    /// let mut end = 80;
    /// for block in hdrfs::Volume::blocks(&bytes) {
    ///     end += block?.len();
    /// }
    /// assert_eq!(end, bytes.len() as u64);
    /// # Ok::<(), Box<dyn std::error::Error>>(())
    /// ```
    #[allow(clippy::len_without_is_empty)] // No block is empty.
    #[must_use]
    pub fn len(&self) -> u64 {
        self.next.offset - self.offset
    }
}

/// What a block says.
///
/// ```
/// use hdrfs::{Content, Volume};
/// # std::env::set_current_dir("../../crates/samples/data")?;
///
/// let bytes = std::fs::read("all_kinds.vol")?;
/// let last = Volume::blocks(&bytes).last().unwrap()?;
/// let Content::Rename { old, new } = last.content else { panic!("no rename") };
/// assert_eq!((old, new), ("gauge", "pégel"));
/// # Ok::<(), Box<dyn std::error::Error>>(())
/// ```
#[derive(Clone, Copy, Debug, PartialEq, Eq)]
pub enum Content<'a> {
    /// A new state of a file, folder or symbolic link.
    Inode(Inode<'a>),
    /// A new link.
    Link(Link<'a>),
    /// A link taken away.
    Unlink(Link<'a>),
    /// An extended attribute set.
    Xattr {
        /// Whose attribute it is.
        inode: u64,
        /// Its name.
        name: &'a str,
        /// Its value, which may be any bytes.
        value: &'a [u8],
    },
    /// An extended attribute taken away.
    RemovedXattr {
        /// Whose attribute it was.
        inode: u64,
        /// Its name.
        name: &'a str,
    },
    /// Stored bytes, to which extents point.
    Data {
        /// The bytes.
        payload: &'a [u8],
    },
    /// A path that changed.
    Rename {
        /// The path before.
        old: &'a str,
        /// The path after.
        new: &'a str,
    },
    /// The links at the beginning of a volume above 0.
    LinkTable(LinkTable<'a>),
}

/// The content of an accepted block that begins at an offset, by its ID.
fn content<'a>(volume: &'a [u8], offset: u64, block: &sys::Block) -> Content<'a> {
    let first = part(volume, block.part, block.part_len);
    let second = part(volume, block.second, block.second_len);
    let inode = block.inode;
    let link = || Link {
        child: block.child,
        parent: block.parent,
        name: text(first),
    };
    match block.id {
        1 => Content::Inode(Inode::new(block, first)),
        2 => Content::Link(link()),
        3 => Content::Unlink(link()),
        4 => Content::Xattr {
            inode,
            name: text(first),
            value: second,
        },
        5 => Content::RemovedXattr {
            inode,
            name: text(first),
        },
        6 => Content::Data { payload: first },
        7 => Content::Rename {
            old: text(first),
            new: text(second),
        },
        8 => Content::LinkTable(LinkTable::new(volume, offset, block)),
        other => unreachable!("the library accepted a block of kind {other}"),
    }
}

/// The blocks of a volume, one after the other. A refusal is the last item.
///
/// ```
/// # std::env::set_current_dir("../../crates/samples/data")?;
/// let bytes = std::fs::read("all_kinds.vol")?;
/// let mut ids = vec![];
/// for block in hdrfs::Volume::blocks(&bytes) {
///     ids.push(block?.id);
/// }
/// assert_eq!(ids, [8, 1, 1, 1, 2, 3, 4, 5, 6, 7]);
/// # Ok::<(), Box<dyn std::error::Error>>(())
/// ```
#[derive(Clone)]
pub struct Blocks<'a> {
    volume: &'a [u8],
    state: State,
}

/// How far a walk has come.
#[derive(Clone, Copy, Debug)]
enum State {
    Going(Bookmark),
    /// The header is refused, and no item has said so yet.
    HeaderRefused(Refusal),
    Over(Option<Bookmark>),
}

impl<'a> Blocks<'a> {
    /// A walk from the header on.
    pub(crate) fn of(volume: &'a [u8]) -> Blocks<'a> {
        let state = match Volume::header(volume) {
            Ok(heading) => State::Going(heading.next),
            Err(refusal) => State::HeaderRefused(refusal),
        };
        Blocks { volume, state }
    }

    /// A walk from a bookmark on. The header is not looked at.
    ///
    /// ```
    /// use hdrfs::{Blocks, Volume};
    /// # std::env::set_current_dir("../../crates/samples/data")?;
    ///
    /// let bytes = std::fs::read("all_kinds.vol")?;
    /// let table = Volume::blocks(&bytes).next().unwrap()?;
    /// let numbers = Blocks::at(&bytes, table.next).map(|block| block.unwrap().number);
    /// assert!(numbers.eq(1..10));
    /// # Ok::<(), Box<dyn std::error::Error>>(())
    /// ```
    #[must_use]
    pub fn at(volume: &'a [u8], bookmark: Bookmark) -> Blocks<'a> {
        let state = State::Going(bookmark);
        Blocks { volume, state }
    }

    /// Where the walk stands: before the next block, at the end, or where a block was refused.
    /// There is no such place where the header is refused.
    ///
    /// ```
    /// use hdrfs::Volume;
    /// # std::env::set_current_dir("../../crates/samples/data")?;
    ///
    /// let bytes = std::fs::read("v.vol")?;
    /// let mut blocks = Volume::blocks(&bytes);
    /// assert_eq!(blocks.bookmark().unwrap().offset, 80);
    /// assert_eq!(blocks.by_ref().count(), 1);
    /// assert_eq!(blocks.bookmark(), Some(Volume::check(&bytes)?.end()));
    /// # Ok::<(), Box<dyn std::error::Error>>(())
    /// ```
    #[must_use]
    pub fn bookmark(&self) -> Option<Bookmark> {
        match self.state {
            State::Going(mark) => Some(mark),
            State::HeaderRefused(_) => None,
            State::Over(mark) => mark,
        }
    }

    /// The block at a bookmark, or nothing at the end.
    fn read(&self, mark: Bookmark) -> Result<Option<Block<'a>>, Refusal> {
        let block = read(self.volume, mark);
        Refusal::unless_accepted(&block, mark.offset, Some(mark.number))?;
        if block.end != 0 {
            return Ok(None);
        }
        let content = content(self.volume, mark.offset, &block);
        let has_time = !matches!(content, Content::LinkTable(_));
        Ok(Some(Block {
            number: block.number,
            offset: mark.offset,
            id: block.id,
            time: has_time.then_some(block.time),
            next: Bookmark::after(&block),
            content,
        }))
    }
}

impl<'a> Iterator for Blocks<'a> {
    type Item = Result<Block<'a>, Refusal>;

    fn next(&mut self) -> Option<Result<Block<'a>, Refusal>> {
        let mark = match self.state {
            State::Going(mark) => mark,
            State::HeaderRefused(refusal) => {
                self.state = State::Over(None);
                return Some(Err(refusal));
            }
            State::Over(_) => return None,
        };
        let answer = self.read(mark).transpose();
        self.state = match &answer {
            Some(Ok(block)) => State::Going(block.next),
            Some(Err(_)) | None => State::Over(Some(mark)),
        };
        answer
    }
}

impl FusedIterator for Blocks<'_> {}

impl fmt::Debug for Blocks<'_> {
    fn fmt(&self, f: &mut fmt::Formatter<'_>) -> fmt::Result {
        let mut shown = f.debug_struct("Blocks");
        shown.field("volume_len", &self.volume.len());
        shown.field("state", &self.state).finish()
    }
}
