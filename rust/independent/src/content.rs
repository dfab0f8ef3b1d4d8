//! The bytes of a file that lie in the volumes of a set.
//!
//! Every byte is looked for by itself, among all extents. Sums are wide, so
//! that none can wrap.

use std::collections::{BTreeMap, BTreeSet};

use crate::extent::{extents, Extent, REPEATED};
use crate::refusal::{Refusal, NOT_REGULAR, NOT_THERE};
use crate::set::Inode;
use crate::LENGTHS_LIMIT;

/// Why there is no file.
#[derive(Clone, Debug, PartialEq, Eq)]
pub enum FileRefusal {
    /// No volume has an inode block of that number.
    NoInode,
    /// The current inode block is not a regular file's.
    NotRegular,
    /// Some kept bytes are not there.
    NotThere(Lacking),
}

/// What the kept bytes of a file need and do not find.
#[derive(Clone, Debug, Default, PartialEq, Eq)]
pub struct Lacking {
    /// Volumes that are not given.
    pub volumes: BTreeSet<u64>,
    /// Volumes that are given, with numbers for which no length can be lent.
    pub unlisted: BTreeSet<u64>,
    /// Extents that reach beyond the end of a volume that is given.
    pub beyond: Vec<Beyond>,
}

/// An extent that reaches beyond the end of its volume.
#[derive(Clone, Copy, Debug, PartialEq, Eq)]
pub struct Beyond {
    /// Which extent of the inode it is, from 0.
    pub index: usize,
    /// The volume that it names.
    pub volume: u64,
    /// Where its stored bytes end.
    pub end: u64,
    /// Where the volume ends.
    pub length: u64,
}

impl FileRefusal {
    /// The refusal, if the rules have one for it.
    pub fn refusal(&self) -> Option<Refusal> {
        match self {
            FileRefusal::NoInode => None,
            FileRefusal::NotRegular => Some(NOT_REGULAR),
            FileRefusal::NotThere(_) => Some(NOT_THERE),
        }
    }
}

/// A regular file whose kept bytes are all there.
#[derive(Clone, Debug)]
pub struct File<'s> {
    volumes: &'s BTreeMap<u64, &'s [u8]>,
    size: u64,
    extents: Vec<Extent>,
}

/// Where a position is kept.
struct Found {
    extent: usize,
    copy: u128,
    volume: u64,
    offset: u64,
}

/// The file of an inode block, by the order of a lookup: first its type,
/// then whether all kept bytes are there.
pub(crate) fn open<'s>(
    volumes: &'s BTreeMap<u64, &'s [u8]>,
    inode: &Inode<'_>,
) -> Result<File<'s>, FileRefusal> {
    if !inode.stat.is_regular() {
        return Err(FileRefusal::NotRegular);
    }
    let extents: Vec<Extent> = extents(inode.variable.bytes).collect();
    let lacking = lacking(volumes, &extents);
    if lacking != Lacking::default() {
        return Err(FileRefusal::NotThere(lacking));
    }
    Ok(File {
        volumes,
        size: inode.stat.size,
        extents,
    })
}

fn lacking(volumes: &BTreeMap<u64, &[u8]>, extents: &[Extent]) -> Lacking {
    let mut lacking = Lacking::default();
    for (index, extent) in extents.iter().enumerate() {
        if kept(extent) == 0 {
            continue;
        }
        let volume = extent.volume;
        let Some(bytes) = volumes.get(&volume) else {
            lacking.volumes.insert(volume);
            continue;
        };
        if volume >= LENGTHS_LIMIT as u64 {
            lacking.unlisted.insert(volume);
            continue;
        }
        let (end, length) = (stored_end(extent), bytes.len() as u64);
        if end > length {
            lacking.beyond.push(Beyond {
                index,
                volume,
                end,
                length,
            });
        }
    }
    lacking
}

/// S×C.
fn raw(extent: &Extent) -> u128 {
    u128::from(extent.size) * u128::from(extent.count)
}

/// The kept length.
fn kept(extent: &Extent) -> u128 {
    raw(extent) - u128::from(extent.pre) - u128::from(extent.post)
}

/// P+F; an accepted extent has it below 2^64.
fn stored_end(extent: &Extent) -> u64 {
    let span = if extent.multiplicity == REPEATED {
        u128::from(extent.size)
    } else {
        raw(extent)
    };
    (u128::from(extent.start) + span) as u64
}

impl File<'_> {
    /// The file's size.
    pub fn size(&self) -> u64 {
        self.size
    }

    /// The byte at a position, 0 in a hole; nothing at the size or above.
    pub fn byte(&self, position: u64) -> Option<u8> {
        if position >= self.size {
            return None;
        }
        Some(self.found(position).map_or(0, |found| {
            self.volumes[&found.volume][found.offset as usize]
        }))
    }

    /// The bytes from a position to below another, as far as the size goes.
    pub fn bytes(&self, from: u64, to: u64) -> Vec<u8> {
        (from..to.min(self.size))
            .filter_map(|position| self.byte(position))
            .collect()
    }

    /// The runs of a range, five numbers each, found position by position.
    pub fn runs(&self, from: u64, to: u64) -> Vec<[u64; 5]> {
        let mut runs: Vec<[u64; 5]> = Vec::new();
        let mut before = None;
        for position in from..to.min(self.size) {
            let found = self.found(position);
            let here = found.as_ref().map(|found| (found.extent, found.copy));
            match (runs.last_mut(), found) {
                (Some(run), _) if before == Some(here) => run[1] += 1,
                (_, None) => runs.push([position, 1, 0, 0, 0]),
                (_, Some(found)) => runs.push([position, 1, 1, found.volume, found.offset]),
            }
            before = Some(here);
        }
        runs
    }

    /// The extent that keeps a position; at most one does.
    fn found(&self, position: u64) -> Option<Found> {
        self.extents.iter().enumerate().find_map(|(index, extent)| {
            let into = position.checked_sub(extent.logical)?;
            if u128::from(into) >= kept(extent) {
                return None;
            }
            let raw = u128::from(extent.pre) + u128::from(into);
            let (copy, within) = if extent.multiplicity == REPEATED {
                let size = u128::from(extent.size);
                (raw / size, raw % size)
            } else {
                (0, raw)
            };
            Some(Found {
                extent: index,
                copy,
                volume: extent.volume,
                offset: (u128::from(extent.start) + within) as u64,
            })
        })
    }
}
