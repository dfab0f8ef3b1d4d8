//! The check of a whole volume, and its header.

use hdrfs::sys;
use hdrfs::{ArchiveError, Checker, Volume};
use independent::{Refusal, Verdict};

use crate::answers::{self, Told};
use crate::difference::{same, Answer, Difference};
use crate::texts::which;

/// The check in one call. Answers what both gave.
pub fn check_at_once(volume: &[u8]) -> Result<sys::Checked, Difference> {
    let expected = answers::checked(&independent::check(volume));
    same(sys::check(volume), expected, || "check".into())?;
    Ok(expected)
}

/// The check in one call and in eight. Answers what both gave.
pub fn check(volume: &[u8]) -> Result<sys::Checked, Difference> {
    let expected = check_at_once(volume)?;
    let split = sys::Checked {
        refusal: sys::check_refusal(volume),
        text: sys::check_text(volume),
        start: sys::check_start(volume),
        sequence: sys::check_sequence(volume),
        blocks: sys::check_blocks(volume),
        offset: sys::check_offset(volume),
        timed: sys::check_timed(volume),
        time: sys::check_time(volume),
    };
    same(split, expected, || "check in eight calls".into())?;
    Ok(expected)
}

/// The header alone.
pub fn header(volume: &[u8]) -> Answer {
    let expected = answers::heading(independent::read_header(volume));
    same(sys::header(volume), expected, || "header".into())?;
    Ok(expected.told())
}

/// A verdict, and the number of the block at fault if there is one.
pub(crate) type Judged = (Verdict, Option<u64>);

/// The check and the header by the calls that give Rust types. Answers the refusal of the check.
pub fn typed(volume: &[u8]) -> Answer {
    let checked = match Volume::check(volume) {
        Ok(checked) => accepted(checked.sequence(), checked.block_count(), checked.end()),
        Err(rejected) => {
            bad_text(volume, rejected.refusal)?;
            refused(rejected.refusal, rejected.blocks)
        }
    };
    let expected = judged(independent::check(volume));
    same(checked, expected, || "Volume::check".into())?;
    same(walked(volume), expected, || "Checker::bytes".into())?;
    let heading = Volume::header(volume)
        .map(|heading| (heading.sequence, bookmark(heading.next)))
        .map_err(plain);
    let expected = independent::read_header(volume).map(|header| (header.sequence, header.next));
    same(heading, expected, || "Volume::header".into())?;
    Ok(answers::checked(&independent::check(volume)).told())
}

/// What the text at fault is called, if one is.
fn bad_text(volume: &[u8], refusal: hdrfs::Refusal) -> Result<(), Difference> {
    let told = refusal.bad_text(volume).map(|text| text.to_string());
    let expected = which(volume, refusal.offset, plain(refusal));
    same(told, expected, || "Refusal::bad_text".into())
}

/// What the independent verdict says of the block at fault.
pub(crate) fn judged(verdict: Verdict) -> Judged {
    let block = match verdict {
        Verdict::Accepted { .. } => None,
        Verdict::Refused { offset, blocks, .. } => block_at_fault(offset, blocks),
    };
    (verdict, block)
}

/// An acceptance of a whole volume by the proved library.
fn accepted(sequence: u64, blocks: u64, end: hdrfs::Bookmark) -> Judged {
    let verdict = Verdict::Accepted {
        sequence,
        blocks,
        end: bookmark(end),
    };
    (verdict, None)
}

/// A refusal of a whole volume by the proved library.
pub(crate) fn refused(refusal: hdrfs::Refusal, blocks: u64) -> Judged {
    let verdict = Verdict::Refused {
        refusal: plain(refusal),
        offset: refusal.offset,
        blocks,
    };
    (verdict, refusal.block)
}

/// The number of the block at fault, from its offset and the number of blocks before it. The header
/// has none.
pub(crate) fn block_at_fault(offset: u64, blocks: u64) -> Option<u64> {
    (offset > 0).then_some(blocks)
}

/// What the walk says that an archive makes over its volumes.
fn walked(volume: &[u8]) -> Judged {
    match Checker::new().bytes("", volume.to_vec()) {
        Ok(member) => accepted(member.sequence(), member.block_count(), member.end()),
        Err(ArchiveError::Refused {
            refusal,
            blocks: Some(blocks),
            ..
        }) => refused(refusal, blocks),
        Err(other) => unreachable!("{other}"),
    }
}

/// A refusal of the proved library in the type of the other.
pub(crate) fn plain(refusal: hdrfs::Refusal) -> Refusal {
    Refusal {
        number: refusal.number,
        text: refusal.text,
        start: refusal.start,
    }
}

/// A refusal of the independent implementation in the type of the other, at an offset.
pub(crate) fn typed_refusal(refusal: Refusal, offset: u64) -> hdrfs::Refusal {
    hdrfs::Refusal::new(refusal.number, offset).with_text(refusal.text, refusal.start)
}

/// A bookmark of the proved library in the type of the other.
pub(crate) fn bookmark(mark: hdrfs::Bookmark) -> independent::Bookmark {
    independent::Bookmark {
        offset: mark.offset,
        due: mark.table_due,
        last: mark.last_time,
        number: mark.number,
    }
}
