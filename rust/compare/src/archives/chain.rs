//! The chain through the volumes of an archive.

use std::num::NonZeroUsize;
use std::ops::ControlFlow;
use std::path::PathBuf;

use generator::archive::Archive;
use hdrfs::{check_each_with_entry, ChainEntry, Mismatch};

use crate::difference::{same_list, Difference};
use crate::pairs;

/// Takes the volumes into the chain one by one, and compares every two neighbours by sequence number,
/// in both directions. Answers of each accepted volume but the first why it does not follow the one
/// before, if that is so.
///
/// # Errors
///
/// What is said of a volume or of two neighbours differs.
pub fn neighbours(archive: &Archive) -> Result<Vec<Option<Mismatch>>, Difference> {
    let mut accepted = Vec::new();
    for volume in &archive.volumes {
        if let Ok(entry) = pairs::entry(volume)? {
            accepted.push((&volume[..], entry));
        }
    }
    accepted.sort_by_key(|(_, entry)| entry.sequence);
    let mut reasons = Vec::new();
    for two in accepted.windows(2) {
        let [(first, one), (second, two)] = two else {
            unreachable!("windows of two");
        };
        reasons.push(both((first, one), (second, two))?);
        both((second, two), (first, one))?;
    }
    Ok(reasons)
}

/// The check of two accepted volumes, and the comparison of their entries.
fn both(
    (first, one): (&[u8], &ChainEntry),
    (second, two): (&[u8], &ChainEntry),
) -> Result<Option<Mismatch>, Difference> {
    let paired = pairs::pair(first, second)?;
    pairs::entries((first, one), (second, two), &paired)
}

/// Compares what the files of an archive give, in so many threads, with what their bytes do.
///
/// # Errors
///
/// An entry differs, or is there for one alone.
pub fn files(archive: &Archive, paths: &[PathBuf], jobs: NonZeroUsize) -> Result<(), Difference> {
    let mut given = Vec::new();
    let _: ControlFlow<()> = check_each_with_entry(paths, jobs, |_, checked| {
        given.push(checked.ok().map(|(_, entry)| entry));
        ControlFlow::Continue(())
    });
    let mut expected: Vec<Option<ChainEntry>> = Vec::new();
    for volume in &archive.volumes {
        expected.push(pairs::entry(volume)?.ok());
    }
    same_list(&given, &expected, || "check_each_with_entry".into())
}
