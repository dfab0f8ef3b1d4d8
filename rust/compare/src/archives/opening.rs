//! Volumes opened as a set, or the reason why they are none.

use std::num::NonZeroUsize;
use std::ops::ControlFlow;
use std::path::{Path, PathBuf};

use generator::archive::Archive;
use hdrfs::{check_each, ArchiveError, Checker};
use independent::{check, set_faults, Set, SetFault, Verdict};

use crate::difference::{same, same_list, Difference};
use crate::texts::which;
use crate::volume::{block_at_fault, bookmark, plain};

/// A set by both sides.
pub struct Both<'a> {
    pub proved: hdrfs::Archive,
    pub independent: Set<'a>,
}

/// A set with its volumes handed over as bytes, with so many bytes of cache.
///
/// # Errors
///
/// Why they are no set.
pub fn bytes(archive: &Archive, cache: usize) -> Result<hdrfs::Archive, ArchiveError> {
    let mut set = hdrfs::Archive::with_cache(cache);
    let mut checker = Checker::new();
    for (place, volume) in archive.volumes.iter().enumerate() {
        set.insert(checker.bytes(name(place), volume.clone())?)?;
    }
    Ok(set)
}

/// The volumes that can stand in one set, taken one after the other; the others are left out, and an
/// archive is as it was before it was given one of those. Answers nothing where none is left.
///
/// # Errors
///
/// What is taken and left out differs.
pub fn what_fits(archive: &Archive) -> Result<Option<Both<'_>>, Difference> {
    let mut proved = hdrfs::Archive::new();
    let mut checker = Checker::new();
    let mut fitting: Vec<&[u8]> = Vec::new();
    for (place, volume) in archive.volumes.iter().enumerate() {
        let checked = checker.bytes(name(place), volume.clone());
        let taken = checked.and_then(|member| proved.insert(member)).is_ok();
        fitting.push(volume);
        let fits = set_faults(&fitting).is_empty();
        same(taken, fits, || {
            format!("whether the volume at {place} fits")
        })?;
        if !fits {
            fitting.pop();
        }
    }
    Ok(Set::new(&fitting).ok().map(|independent| Both {
        proved,
        independent,
    }))
}

/// A set of files that so many threads check.
///
/// # Errors
///
/// Why they are no set, by the first volume that is refused or does not fit to those before it.
pub fn in_threads(paths: &[PathBuf], jobs: NonZeroUsize) -> Result<hdrfs::Archive, ArchiveError> {
    let mut set = hdrfs::Archive::new();
    let mut next = 0;
    let stopped = check_each(paths, jobs, |index, checked| {
        assert_eq!(index, next, "answers come in the order of the paths");
        next += 1;
        match checked.and_then(|member| set.insert(member)) {
            Ok(()) => ControlFlow::Continue(()),
            Err(error) => ControlFlow::Break(error),
        }
    });
    match stopped {
        ControlFlow::Continue(()) => Ok(set),
        ControlFlow::Break(error) => Err(error),
    }
}

/// Compares the verdict on every volume, also behind one that is refused.
///
/// # Errors
///
/// The first that differs.
pub fn verdicts(
    archive: &Archive,
    paths: &[PathBuf],
    jobs: NonZeroUsize,
) -> Result<(), Difference> {
    let mut given = Vec::new();
    let _: ControlFlow<()> = check_each(paths, jobs, |_, checked| {
        given.push(match checked {
            Ok(member) => Ok((
                member.sequence(),
                member.block_count(),
                bookmark(member.end()),
            )),
            Err(error) => Err(fault(archive, &error)),
        });
        ControlFlow::Continue(())
    });
    let expected = archive
        .volumes
        .iter()
        .enumerate()
        .map(|(place, volume)| match check(volume) {
            Verdict::Accepted {
                sequence,
                blocks,
                end,
            } => Ok((sequence, blocks, end)),
            Verdict::Refused {
                refusal,
                offset,
                blocks,
            } => Err(Some(SetFault::Refused {
                place,
                refusal,
                offset,
                blocks,
            })),
        });
    same_list(&given, &expected.collect::<Vec<_>>(), || "verdicts".into())
}

/// The name of the volume at a place, in a folder too.
#[must_use]
pub fn name(place: usize) -> PathBuf {
    PathBuf::from(format!("{place:02}.vol"))
}

/// Compares whether the volumes are a set. Answers both, or nothing where both refuse.
///
/// # Errors
///
/// One refuses and the other does not, or the reason is none of those that there are.
pub fn compare<'a>(
    archive: &'a Archive,
    opened: Result<hdrfs::Archive, ArchiveError>,
) -> Result<Option<Both<'a>>, Difference> {
    let lent: Vec<&[u8]> = archive.volumes.iter().map(Vec::as_slice).collect();
    let faults = set_faults(&lent);
    match (opened, Set::new(&lent)) {
        (Ok(proved), Ok(independent)) => Ok(Some(Both {
            proved,
            independent,
        })),
        (Ok(_), Err(faults)) => {
            same(None, Some(faults), || {
                "whether the volumes are a set".into()
            })?;
            Ok(None)
        }
        (Err(error), _) => {
            let told = fault(archive, &error);
            let listed = told.filter(|fault| faults.contains(fault));
            let question = || format!("why the volumes are no set, of {faults:?}: {error}");
            same(told.is_some(), listed.is_some(), question)?;
            same(told.is_some(), true, question)?;
            Ok(None)
        }
    }
}

/// The fault of a set that an error is: none if it names another block than the one at fault, or
/// another text. Two volumes may be named in any order.
fn fault(archive: &Archive, error: &ArchiveError) -> Option<SetFault> {
    let pair = |first: &Path, second: &Path| {
        let (first, second) = (place(first)?, place(second)?);
        Some((first.min(second), first.max(second)))
    };
    Some(match error {
        ArchiveError::Refused {
            path,
            refusal,
            blocks: Some(blocks),
            bad_text,
        } if refusal.block == block_at_fault(refusal.offset, *blocks) => {
            let (place, offset, told) = (place(path)?, refusal.offset, plain(*refusal));
            let which = which(archive.volumes.get(place)?, offset, told);
            if bad_text.map(|text| text.to_string()) != which {
                return None;
            }
            SetFault::Refused {
                place,
                refusal: told,
                offset,
                blocks: *blocks,
            }
        }
        ArchiveError::TwoFileSystems { first, second } => {
            let (first, second) = pair(first, second)?;
            SetFault::Foreign { first, second }
        }
        ArchiveError::Twice {
            sequence,
            first,
            second,
        } => {
            let (first, second) = pair(first, second)?;
            SetFault::Double {
                first,
                second,
                sequence: *sequence,
            }
        }
        _ => return None,
    })
}

/// Which volume has this path.
fn place(path: &Path) -> Option<usize> {
    path.file_stem()?.to_str()?.parse().ok()
}
