//! The files of a set, byte by byte.

use generator::rng::Rng;
use hdrfs::{ArchiveError, ArchiveFile, Chunk, Logical, Place};
use independent::extent::extents;
use independent::{File, Inode};

use super::opening::Both;
use super::reading::{self, failed, same_bytes, WHOLE};
use super::refused::{reason, told};
use crate::difference::{same, same_list, Difference};
use crate::items;

/// The most positions of a range whose runs are compared, where the file is long.
const RANGE: u64 = 400;

/// The most chunks of a long file that are compared.
const CHUNKS: usize = 3;

/// What was compared of files.
#[derive(Clone, Copy, Debug, Default)]
pub struct Counts {
    /// Files, and those of them that were read as a whole.
    pub files: u64,
    pub whole: u64,
    /// Bytes that readers gave.
    pub bytes: u64,
    /// Runs of ranges.
    pub runs: u64,
    /// Numbers without an inode, and files refused with 15 and with 16.
    pub absent: u64,
    pub not_regular: u64,
    pub not_there: u64,
}

/// Compares the files of these inode numbers.
///
/// # Errors
///
/// The first thing that differs.
pub fn compare(
    rng: &mut Rng,
    both: &Both<'_>,
    numbers: &[u64],
    counts: &mut Counts,
) -> Result<(), Difference> {
    for &number in numbers {
        let inode = both.independent.inodes().get(&number);
        let question = || format!("file {number}");
        let expected = both.independent.file(number);
        match (both.proved.file(number), expected, inode) {
            (Ok(one), Ok(two), Some(inode)) => content(rng, &one, &two, inode, counts)
                .map_err(|difference| difference.of(&question()))?,
            (Ok(_), expected, _) => same(None, expected.err(), question)?,
            (Err(error), expected, _) => {
                let expected = expected.err().map(|refusal| told(&refusal));
                same(Some(reason(&error, number, both)), expected, question)?;
                match &error {
                    ArchiveError::NoSuchInode { .. } => counts.absent += 1,
                    ArchiveError::Missing(_) => counts.not_there += 1,
                    _ => counts.not_regular += 1,
                }
            }
        }
    }
    Ok(())
}

/// Everything of a file that is there.
fn content(
    rng: &mut Rng,
    one: &ArchiveFile<'_>,
    two: &File<'_>,
    inode: &Inode<'_>,
    counts: &mut Counts,
) -> Result<(), Difference> {
    same(one.size(), two.size(), || "size".into())?;
    counts.files += 1;
    let points = points(inode);
    let mut reader = one.reader();
    counts.bytes += reading::parts(rng, &mut reader, two, &points)?;
    if two.size() <= WHOLE {
        counts.whole += 1;
        counts.bytes += reading::whole(rng, &mut one.reader(), two)?;
        counts.runs += runs(one, two, 0, u64::MAX)?;
    }
    for _ in 0..6 {
        let from = point(rng, &points);
        let to = match rng.below(3) {
            0 => point(rng, &points).min(from.saturating_add(RANGE)),
            _ => from.saturating_add(rng.below(RANGE)),
        };
        counts.runs += runs(one, two, from, to)?;
        place(one, two, from)?;
    }
    chunks(one, two)
}

/// Positions where something begins or ends.
fn points(inode: &Inode<'_>) -> Vec<u64> {
    let mut points = vec![0, inode.stat.size];
    for extent in extents(inode.variable.bytes) {
        let kept = extent.kept().expect("an accepted extent");
        if kept > 0 {
            points.extend([extent.logical, extent.logical + kept]);
        }
    }
    points
}

/// A place near one of the points, or anywhere.
fn point(rng: &mut Rng, points: &[u64]) -> u64 {
    if rng.once_in(5) {
        return rng.number();
    }
    let near = rng.below(30);
    rng.pick(points).saturating_add(near).saturating_sub(15)
}

/// The runs of a range. Answers how many there are.
fn runs(one: &ArchiveFile<'_>, two: &File<'_>, from: u64, to: u64) -> Result<u64, Difference> {
    let expected: Vec<_> = two
        .runs(from, to)
        .iter()
        .map(|run| Ok(items::typed(run)))
        .collect();
    let given = one.runs(Logical(from), Logical(to));
    let given: Vec<_> = given.take(expected.len() + 1).collect();
    same_list(&given, &expected, || format!("runs from {from} to {to}"))?;
    Ok(expected.len() as u64)
}

/// Where one position is stored.
fn place(one: &ArchiveFile<'_>, two: &File<'_>, position: u64) -> Result<(), Difference> {
    let run = two.runs(position, position.saturating_add(1));
    let stored = run.first().map(|run| items::typed(run).stored);
    let expected = match stored {
        _ if position >= two.size() => Place::PastEnd,
        Some(Some(stored)) => Place::Stored(stored),
        _ => Place::Hole,
    };
    let given = one.position(Logical(position));
    same(given, Ok(expected), || format!("position {position}"))
}

/// The file in chunks, from the beginning: all of a short one, some of a long one.
fn chunks(one: &ArchiveFile<'_>, two: &File<'_>) -> Result<(), Difference> {
    let mut chunks = one.chunks();
    let mut at = 0;
    let mut most = if two.size() <= WHOLE {
        usize::MAX
    } else {
        CHUNKS
    };
    while most > 0 {
        most -= 1;
        let next = chunks.next().map_err(|error| failed("chunk", &error))?;
        let (start, len) = match next {
            None => return same(at, two.size(), || "end of the chunks".into()),
            Some(Chunk::Hole { start, len }) => {
                hole(two, at, len)?;
                (start, len)
            }
            Some(Chunk::Bytes { start, bytes }) => {
                let len = bytes.len() as u64;
                same_bytes(bytes, &two.bytes(at, at + len), at)?;
                same(true, stored(two, at, len), || {
                    format!("hole in the bytes at {at}")
                })?;
                (start, len)
            }
        };
        same(start, Logical(at), || "beginning of a chunk".into())?;
        at += len;
    }
    Ok(())
}

/// A hole has at least a byte, and nothing at its ends and around its middle is stored.
fn hole(two: &File<'_>, at: u64, len: u64) -> Result<(), Difference> {
    let end = at.checked_add(len);
    same(end.is_some() && len > 0, true, || {
        format!("hole of {len} at {at}")
    })?;
    for from in [at, at + len / 2, (at + len).saturating_sub(RANGE).max(at)] {
        let to = from.saturating_add(RANGE).min(at + len);
        let only = [[from, to - from, 0, 0, 0]];
        same(two.runs(from, to) == only, true, || {
            format!("hole from {from} to {to}")
        })?;
    }
    Ok(())
}

/// Whether all of these positions are stored.
fn stored(two: &File<'_>, at: u64, len: u64) -> bool {
    two.runs(at, at + len).iter().all(|run| run[2] == 1)
}
