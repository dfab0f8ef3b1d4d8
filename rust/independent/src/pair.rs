//! Two volumes of which the second should follow on the first.

use crate::check::{check, Verdict};
use crate::refusal::{Refusal, NOT_NEXT};
use crate::set::header;
use crate::sha256::sha256;

/// What is said of a pair. All numbers are 0 if it is accepted.
#[derive(Clone, Copy, Debug, Default, PartialEq, Eq, PartialOrd, Ord)]
pub struct Pair {
    /// The number of the refusal.
    pub refusal: u64,
    /// Which text is at fault, as in [`Refusal`].
    pub text: u64,
    /// Where that text is at fault, as in [`Refusal`].
    pub start: u64,
    /// 1 if the first volume is refused, 2 if the second is, 0 if it is the
    /// pair or nothing at all.
    pub which: u64,
    /// Where the refused volume has its fault.
    pub offset: u64,
}

impl Pair {
    /// A pair that is refused so.
    pub const fn refused(refusal: Refusal, which: u64, offset: u64) -> Pair {
        Pair {
            refusal: refusal.number,
            text: refusal.text,
            start: refusal.start,
            which,
            offset,
        }
    }
}

/// Checks both volumes, and then whether the second follows on the first.
pub fn pair(first: &[u8], second: &[u8]) -> Pair {
    for (which, volume) in [(1, first), (2, second)] {
        if let Verdict::Refused {
            refusal, offset, ..
        } = check(volume)
        {
            return Pair::refused(refusal, which, offset);
        }
    }
    if follows(first, second) {
        Pair::default()
    } else {
        Pair::refused(NOT_NEXT, 0, 0)
    }
}

/// Whether one accepted volume follows on another.
fn follows(first: &[u8], second: &[u8]) -> bool {
    let (one, two) = (header(first), header(second));
    one.id == two.id
        && one.sequence.checked_add(1) == Some(two.sequence)
        && sha256(first).as_ref() == Ok(two.previous)
}
