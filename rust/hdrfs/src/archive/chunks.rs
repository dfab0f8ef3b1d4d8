//! The bytes of a file in large pieces, with holes as such.

use super::content::{Content, Holes};
use super::ArchiveError;
use crate::Logical;

/// How many bytes a piece has at most.
const CHUNK_LEN: usize = 65_536;

/// A piece of a file.
///
/// ```
/// use hdrfs::{Archive, Chunk, Logical};
/// # std::env::set_current_dir("tests/gauge")?;
///
/// let archive = Archive::open(["0.vol", "1.vol", "2.vol"])?;
/// let file = archive.file(7)?;
/// let mut chunks = file.chunks();
/// assert!(matches!(chunks.next()?, Some(Chunk::Bytes { start: Logical(0), .. })));
/// assert_eq!(chunks.next()?, Some(Chunk::Hole { start: Logical(182), len: 22 }));
/// # Ok::<(), Box<dyn std::error::Error>>(())
/// ```
#[must_use]
#[derive(Clone, Copy, Debug, PartialEq, Eq)]
pub enum Chunk<'a> {
    /// Positions that no byte is stored for. They read as zeros.
    Hole {
        /// The first of them.
        start: Logical,
        /// How many there are.
        len: u64,
    },
    /// Bytes.
    Bytes {
        /// The position of the first.
        start: Logical,
        /// The bytes.
        bytes: &'a [u8],
    },
}

/// The pieces of a file, in rising order and without gaps. Each is lent until the next is asked
/// for.
///
/// ```
/// # std::env::set_current_dir("tests/gauge")?;
/// let archive = hdrfs::Archive::open(["0.vol", "1.vol", "2.vol"])?;
/// let file = archive.file(7)?;
/// let mut chunks = file.chunks();
/// let mut count = 0;
/// while chunks.next()?.is_some() {
///     count += 1;
/// }
/// assert_eq!(count, 3);
/// # Ok::<(), Box<dyn std::error::Error>>(())
/// ```
#[must_use]
#[derive(Debug)]
pub struct Chunks<'a> {
    content: Content<'a>,
    position: u64,
    buffer: Vec<u8>,
}

impl<'a> Chunks<'a> {
    pub(super) fn new(content: Content<'a>) -> Chunks<'a> {
        Chunks {
            content,
            position: 0,
            buffer: vec![0; CHUNK_LEN],
        }
    }

    /// The next piece; nothing at the end of the file.
    ///
    /// ```
    /// # std::env::set_current_dir("tests/gauge")?;
    /// let archive = hdrfs::Archive::open(["0.vol", "1.vol", "2.vol"])?;
    /// assert!(archive.file(7)?.chunks().next()?.is_some());
    /// # Ok::<(), Box<dyn std::error::Error>>(())
    /// ```
    #[allow(clippy::should_implement_trait)] // An iterator cannot lend what it has.
    pub fn next(&mut self) -> Result<Option<Chunk<'_>>, ArchiveError> {
        let start = Logical(self.position);
        let len = self.content.hole(start.0)?;
        if len > 0 {
            self.position += len;
            return Ok(Some(Chunk::Hole { start, len }));
        }
        let buf = &mut self.buffer;
        let len = self.content.read(start.0, buf, Holes::Stop)?;
        self.position += len as u64;
        let bytes = &self.buffer[..len];
        Ok((len > 0).then_some(Chunk::Bytes { start, bytes }))
    }
}
