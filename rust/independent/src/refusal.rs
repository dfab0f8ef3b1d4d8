//! Refusals, and names for them.

/// Why a call is refused.
#[derive(Clone, Copy, Debug, PartialEq, Eq, PartialOrd, Ord)]
pub struct Refusal {
    /// The number of one of those below, or [`NOT_TEXT`].
    pub number: u64,
    /// Of [`NOT_TEXT`], which text of the block is the first at fault, in the
    /// order of the layout from 0; 0 beside every other number.
    pub text: u64,
    /// Of [`NOT_TEXT`], how many bytes of that text are well-formed before
    /// the first sequence that is not; 0 beside every other number.
    pub start: u64,
}

impl Refusal {
    /// A refusal that is no text's.
    pub const fn of(number: u64) -> Refusal {
        Refusal {
            number,
            text: 0,
            start: 0,
        }
    }

    /// The refusal of a block whose text of this place has its first
    /// ill-formed sequence there.
    pub const fn not_text(text: u64, start: u64) -> Refusal {
        Refusal {
            number: NOT_TEXT,
            text,
            start,
        }
    }
}

pub const TOO_LONG: Refusal = Refusal::of(1);
pub const ENDS_EARLY: Refusal = Refusal::of(2);
pub const MAGIC: Refusal = Refusal::of(3);
pub const VERSION: Refusal = Refusal::of(4);
pub const CHECKSUM: Refusal = Refusal::of(5);
pub const FIRST_HASH: Refusal = Refusal::of(6);
pub const UNKNOWN_ID: Refusal = Refusal::of(7);
pub const OUT_OF_PLACE: Refusal = Refusal::of(8);
pub const OVER_LIMIT: Refusal = Refusal::of(9);
/// Only the number, since such a refusal says more: see [`Refusal::not_text`].
pub const NOT_TEXT: u64 = 10;
pub const FIELD: Refusal = Refusal::of(11);
pub const OVERLAP: Refusal = Refusal::of(12);
pub const LINK_TWICE: Refusal = Refusal::of(13);
pub const TIME_LOWER: Refusal = Refusal::of(14);
pub const NOT_REGULAR: Refusal = Refusal::of(15);
pub const NOT_THERE: Refusal = Refusal::of(16);
pub const NO_ROOM: Refusal = Refusal::of(17);
/// Never given: a kept byte needs a block of at least one byte.
pub const STRAY: Refusal = Refusal::of(18);
/// The second of two volumes does not follow on the first.
pub const NOT_NEXT: Refusal = Refusal::of(23);
/// A line of a tree stands at depth 32.
pub const TOO_DEEP: Refusal = Refusal::of(24);

/// The largest number. Who counts answers by number has one count more, for 0.
pub const LARGEST: usize = TOO_DEEP.number as usize;
