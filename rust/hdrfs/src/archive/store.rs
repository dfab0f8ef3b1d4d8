//! Stored bytes, out of the volumes of an archive.

use std::sync::Arc;

use super::member::Stock;
use super::pages::{Digests, PageError, PAGE_LEN};
use super::{Archive, ArchiveError, Member};
use crate::{Physical, Refusal, Stored};

/// Bytes of a volume, in memory: all of it or a page.
#[derive(Clone, Debug)]
struct Part {
    /// The sequence number of the volume, and where in it the bytes begin.
    volume: u64,
    start: u64,
    bytes: Arc<Vec<u8>>,
}

impl Part {
    #[inline]
    fn has(&self, place: Stored) -> bool {
        let Stored { volume, offset } = place;
        let before = offset.0.checked_sub(self.start);
        volume == self.volume && before.is_some_and(|before| before < self.bytes.len() as u64)
    }
}

/// Stored bytes, with the part of a volume that was needed last at hand.
#[derive(Debug)]
pub(super) struct Parts<'a> {
    archive: &'a Archive,
    last: Option<Part>,
}

impl<'a> Parts<'a> {
    pub(super) fn new(archive: &'a Archive) -> Parts<'a> {
        let last = None;
        Parts { archive, last }
    }

    /// Fills the buffer with what is stored at a place.
    #[inline]
    pub(super) fn read(
        &mut self,
        mut place: Stored,
        mut buf: &mut [u8],
    ) -> Result<(), ArchiveError> {
        while !buf.is_empty() {
            let bytes = self.bytes(place)?;
            let len = bytes.len().min(buf.len());
            let (filled, rest) = buf.split_at_mut(len);
            filled.copy_from_slice(&bytes[..len]);
            buf = rest;
            place.offset.0 += len as u64;
        }
        Ok(())
    }

    /// What is at hand of a volume from a place on: at least a byte.
    #[inline]
    fn bytes(&mut self, place: Stored) -> Result<&[u8], ArchiveError> {
        if !self.last.as_ref().is_some_and(|part| part.has(place)) {
            self.last = Some(part(self.archive, place)?);
        }
        let part = self.last.as_ref().expect("it was put there");
        Ok(&part.bytes[(place.offset.0 - part.start) as usize..])
    }
}

/// Where in the archive's members a volume stands.
fn index(archive: &Archive, sequence: u64) -> Result<usize, ArchiveError> {
    let given = archive.places.get(&sequence).copied();
    given.ok_or(ArchiveError::NoVolume { sequence })
}

/// What is said where a volume has no bytes at a place.
fn beyond(member: &Member, offset: Physical) -> ArchiveError {
    ArchiveError::refused(&member.path, Refusal::new(Refusal::NOT_THERE, offset.0))
}

/// Refuses an empty range unless its volume was given and its place is not beyond the volume's end.
pub(super) fn empty_range(archive: &Archive, place: Stored) -> Result<(), ArchiveError> {
    let member = &archive.members[index(archive, place.volume)?];
    if member.len() < place.offset.0 {
        return Err(beyond(member, place.offset));
    }
    Ok(())
}

/// The bytes of a volume around a place, which has to lie within it.
fn part(archive: &Archive, place: Stored) -> Result<Part, ArchiveError> {
    let Stored { volume, offset } = place;
    let index = index(archive, volume)?;
    let member = &archive.members[index];
    if member.len() <= offset.0 {
        return Err(beyond(member, offset));
    }
    let (start, bytes) = match &member.stock {
        Stock::Kept(bytes) => (0, Arc::clone(bytes)),
        Stock::File(digests) => {
            let number = offset.0 as usize / PAGE_LEN;
            let read = || read_page(member, digests, number);
            let page = archive.cache.get_or_read((index, number), read)?;
            ((number * PAGE_LEN) as u64, page)
        }
    };
    Ok(Part {
        volume,
        start,
        bytes,
    })
}

/// Reads a page of a volume once more.
fn read_page(member: &Member, digests: &Digests, number: usize) -> Result<Vec<u8>, ArchiveError> {
    let path = || member.path.clone();
    digests
        .read(&member.path, number)
        .map_err(|error| match error {
            PageError::Io(error) => ArchiveError::io(path(), error),
            PageError::Changed => ArchiveError::Changed { path: path() },
        })
}
