//! The bytes of a file, read and sought in.

use std::io::{self, Read, Seek, SeekFrom};

use super::content::{Content, Holes};

/// The bytes of a regular file of an archive. Holes are zeros.
///
/// ```
/// use std::io::Read;
/// # std::env::set_current_dir("tests/gauge")?;
///
/// let archive = hdrfs::Archive::open(["0.vol", "1.vol", "2.vol"])?;
/// let file = archive.file(7)?;
/// let mut beginning = [0; 4];
/// file.reader().read_exact(&mut beginning)?;
/// assert_eq!(&beginning, b"time");
/// # Ok::<(), Box<dyn std::error::Error>>(())
/// ```
#[must_use]
#[derive(Debug)]
pub struct ArchiveReader<'a> {
    content: Content<'a>,
    size: u64,
    position: u64,
}

impl<'a> ArchiveReader<'a> {
    pub(super) fn new(content: Content<'a>, size: u64) -> ArchiveReader<'a> {
        ArchiveReader {
            content,
            size,
            position: 0,
        }
    }
}

/// A failure has an [`ArchiveError`](crate::ArchiveError) inside. Bytes before it are handed out by
/// one call and the failure by the next.
impl Read for ArchiveReader<'_> {
    fn read(&mut self, buf: &mut [u8]) -> io::Result<usize> {
        let len = self.content.read(self.position, buf, Holes::Zeros)?;
        self.position += len as u64;
        Ok(len)
    }
}

/// Positions after the end can be sought, and have nothing to read.
impl Seek for ArchiveReader<'_> {
    fn seek(&mut self, to: SeekFrom) -> io::Result<u64> {
        let position = match to {
            SeekFrom::Start(position) => Some(position),
            SeekFrom::End(by) => self.size.checked_add_signed(by),
            SeekFrom::Current(by) => self.position.checked_add_signed(by),
        };
        let outside = || io::Error::new(io::ErrorKind::InvalidInput, "position is not below 2^64");
        self.position = position.ok_or_else(outside)?;
        Ok(self.position)
    }
}
