//! The extents of a regular file, as values: read out of an inode, and put together for one.

use std::iter::FusedIterator;

use crate::{sys, Logical, Physical};

/// How many bytes an extent takes in an inode block.
const RECORD_LEN: usize = 57;

/// Whether an extent's blocks lie one behind the other, or one block stands for all of them.
///
/// ```
/// assert_ne!(hdrfs::Multiplicity::Contiguous, hdrfs::Multiplicity::Repeated);
/// ```
#[derive(Clone, Copy, Debug, PartialEq, Eq, Hash)]
pub enum Multiplicity {
    /// The blocks lie one behind the other.
    Contiguous,
    /// One block is stored, and stands for all of them.
    Repeated,
}

impl Multiplicity {
    /// The number of the layout.
    fn number(self) -> u8 {
        match self {
            Multiplicity::Contiguous => 67,
            Multiplicity::Repeated => 82,
        }
    }

    fn from_number(number: u64) -> Multiplicity {
        match number {
            67 => Multiplicity::Contiguous,
            82 => Multiplicity::Repeated,
            other => unreachable!("the library accepted the multiplicity {other}"),
        }
    }
}

/// A piece of a file: `count` blocks of `size` bytes, without the first `pre` and the last `post` of
/// all these bytes, from position `logical` of the file on.
///
/// ```
/// use hdrfs::{Content, Extent, Logical, Multiplicity, Physical, Volume};
/// # std::env::set_current_dir("../../crates/samples/data")?;
///
/// let bytes = std::fs::read("all_kinds.vol")?;
/// let block = Volume::blocks(&bytes).nth(1).unwrap()?;
/// let Content::Inode(inode) = block.content else { panic!("no inode") };
/// let repeated = Extent {
///     volume: 0,
///     start: Physical(97),
///     size: 3,
///     multiplicity: Multiplicity::Repeated,
///     count: 3,
///     pre: 1,
///     post: 1,
///     logical: Logical(4),
/// };
/// assert_eq!(inode.extents().nth(1), Some(repeated));
/// # Ok::<(), Box<dyn std::error::Error>>(())
/// ```
#[derive(Clone, Copy, Debug, PartialEq, Eq, Hash)]
pub struct Extent {
    /// The sequence number of the volume that has the bytes.
    pub volume: u64,
    /// Where they begin in that volume.
    pub start: Physical,
    /// The size of a block.
    pub size: u64,
    /// How the blocks lie.
    pub multiplicity: Multiplicity,
    /// How many blocks there are.
    pub count: u64,
    /// How many bytes at the beginning are left out.
    pub pre: u64,
    /// How many bytes at the end are left out.
    pub post: u64,
    /// The position in the file of the first byte that is kept.
    pub logical: Logical,
}

impl Extent {
    /// `len` bytes at a place, all of them, once.
    ///
    /// ```
    /// use hdrfs::{Extent, Logical, Physical};
    ///
    /// let extent = Extent::once(0, Physical(97), 3, Logical(0));
    /// assert_eq!((extent.size, extent.count, extent.pre, extent.post), (3, 1, 0, 0));
    /// ```
    #[must_use]
    pub const fn once(volume: u64, start: Physical, len: u64, logical: Logical) -> Extent {
        Extent {
            volume,
            start,
            size: len,
            multiplicity: Multiplicity::Contiguous,
            count: 1,
            pre: 0,
            post: 0,
            logical,
        }
    }

    fn from_numbers(numbers: sys::ExtentEntry) -> Extent {
        Extent {
            volume: numbers.volume,
            start: Physical(numbers.start),
            size: numbers.size,
            multiplicity: Multiplicity::from_number(numbers.multiplicity),
            count: numbers.count,
            pre: numbers.pre,
            post: numbers.post,
            logical: Logical(numbers.logical),
        }
    }
}

/// The extents of an inode, in the order in which they stand.
///
/// ```
/// use hdrfs::{Content, Volume};
/// # std::env::set_current_dir("../../crates/samples/data")?;
///
/// let bytes = std::fs::read("all_kinds.vol")?;
/// let block = Volume::blocks(&bytes).nth(1).unwrap()?;
/// let Content::Inode(inode) = block.content else { panic!("no inode") };
/// assert_eq!(inode.extents().len(), 2);
/// # Ok::<(), Box<dyn std::error::Error>>(())
/// ```
#[must_use]
#[derive(Clone, Debug)]
pub struct ExtentIter<'a> {
    list: &'a [u8],
    index: usize,
}

impl<'a> ExtentIter<'a> {
    /// The extents of an accepted list.
    pub(crate) fn new(list: &'a [u8]) -> ExtentIter<'a> {
        ExtentIter { list, index: 0 }
    }
}

impl Iterator for ExtentIter<'_> {
    type Item = Extent;

    fn next(&mut self) -> Option<Extent> {
        if self.len() == 0 {
            return None;
        }
        let numbers = sys::extent(self.list, self.index as u64);
        self.index += 1;
        Some(Extent::from_numbers(numbers))
    }

    fn size_hint(&self) -> (usize, Option<usize>) {
        let left = self.list.len() / RECORD_LEN - self.index;
        (left, Some(left))
    }
}

impl ExactSizeIterator for ExtentIter<'_> {}

impl FusedIterator for ExtentIter<'_> {}

/// A list of extents for an inode block that is to be written.
///
/// What the rules say about extents the writer decides when the block is appended.
///
/// ```
/// use hdrfs::{Extent, Extents, Inode, Logical, Physical, Writer};
///
/// let mut buf = [0; 300];
/// let mut writer = Writer::create(&mut buf, &[1; 16], 0, &[0; 32])?;
/// writer.append_data(1, b"1,5")?;
/// let extents = Extents::new().push(Extent::once(0, Physical(97), 3, Logical(0)));
/// let inode = Inode { size: 3, rest: extents.as_bytes(), ..Inode::regular(7) };
/// writer.append_inode(2, &inode)?;
/// # Ok::<(), hdrfs::Refusal>(())
/// ```
#[must_use]
#[derive(Clone, Debug, Default, PartialEq, Eq)]
pub struct Extents {
    bytes: Vec<u8>,
}

impl Extents {
    /// No extents yet.
    ///
    /// ```
    /// assert!(hdrfs::Extents::new().as_bytes().is_empty());
    /// ```
    pub fn new() -> Extents {
        Extents::default()
    }

    /// The list with an extent more.
    ///
    /// ```
    /// use hdrfs::{Extent, Extents, Logical, Physical};
    ///
    /// let extents = Extents::new().push(Extent::once(0, Physical(97), 3, Logical(0)));
    /// assert_eq!(extents.as_bytes().len(), 57);
    /// ```
    pub fn push(mut self, extent: Extent) -> Extents {
        self.add(extent);
        self
    }

    /// The bytes, as an inode block has them.
    ///
    /// ```
    /// use hdrfs::{Extent, Extents, Logical, Physical};
    ///
    /// let extents: Extents = [Extent::once(3, Physical(97), 3, Logical(0))].into_iter().collect();
    /// assert_eq!(extents.as_bytes()[0], 3);
    /// ```
    #[must_use]
    pub fn as_bytes(&self) -> &[u8] {
        &self.bytes
    }

    fn add(&mut self, extent: Extent) {
        for number in [extent.volume, extent.start.0, extent.size] {
            self.bytes.extend(number.to_le_bytes());
        }
        self.bytes.push(extent.multiplicity.number());
        for number in [extent.count, extent.pre, extent.post, extent.logical.0] {
            self.bytes.extend(number.to_le_bytes());
        }
    }
}

impl Extend<Extent> for Extents {
    fn extend<I: IntoIterator<Item = Extent>>(&mut self, extents: I) {
        extents.into_iter().for_each(|extent| self.add(extent));
    }
}

impl FromIterator<Extent> for Extents {
    fn from_iter<I: IntoIterator<Item = Extent>>(extents: I) -> Extents {
        let mut list = Extents::new();
        list.extend(extents);
        list
    }
}
