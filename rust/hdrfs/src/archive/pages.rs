//! Volumes in pages: what was checked is remembered as a digest of each page, and a page that is
//! read again has to have the digest that it had.

use std::fs::{self, File};
use std::io::{self, Read, Seek, SeekFrom};
use std::path::Path;

use super::digest::digest;

/// How many bytes a page has; the last page of a volume may have fewer.
pub(crate) const PAGE_LEN: usize = 65_536;

/// The digests of the pages of a volume.
#[derive(Clone, Debug)]
pub(crate) struct Digests {
    pages: Vec<u128>,
    len: usize,
}

/// Why a page is not had.
#[derive(Debug)]
pub(crate) enum PageError {
    Io(io::Error),
    /// The file is not what it was.
    Changed,
}

impl Digests {
    pub(crate) fn of(volume: &[u8]) -> Digests {
        Digests {
            pages: volume.chunks(PAGE_LEN).map(digest).collect(),
            len: volume.len(),
        }
    }

    /// Reads a page of the volume once more.
    pub(crate) fn read(&self, path: &Path, index: usize) -> Result<Vec<u8>, PageError> {
        // A pipe in the place of the file would be waited for when it is opened.
        let about = fs::metadata(path).map_err(PageError::Io)?;
        if !about.is_file() || about.len() != self.len as u64 {
            return Err(PageError::Changed);
        }
        let from = index * PAGE_LEN;
        let page = read_part(path, from, PAGE_LEN.min(self.len - from))?;
        if digest(&page) != self.pages[index] {
            return Err(PageError::Changed);
        }
        Ok(page)
    }
}

/// Reads so many bytes of a file. One that ends earlier is not what it was.
fn read_part(path: &Path, from: usize, len: usize) -> Result<Vec<u8>, PageError> {
    let mut file = File::open(path).map_err(PageError::Io)?;
    file.seek(SeekFrom::Start(from as u64))
        .map_err(PageError::Io)?;
    let mut page = vec![0; len];
    match file.read_exact(&mut page) {
        Ok(()) => Ok(page),
        Err(error) if error.kind() == io::ErrorKind::UnexpectedEof => Err(PageError::Changed),
        Err(error) => Err(PageError::Io(error)),
    }
}
