//! What the independent implementation answers, in the numbers of the proved one.

use hdrfs::sys;
use independent::{Block, Body, Bookmark, Header, Pair, Part, Place, Reading, Refusal, Verdict};

/// The answer of this type that is a refusal, beside whose three numbers all is 0.
macro_rules! refused {
    ($answer:ident, $refusal:expr) => {
        sys::$answer {
            refusal: $refusal.number,
            text: $refusal.text,
            start: $refusal.start,
            ..Default::default()
        }
    };
}

/// An answer that may be a refusal.
pub trait Told {
    /// The three numbers of the refusal, which are 0 where nothing is refused.
    fn told(&self) -> Refusal;
}

macro_rules! told {
    ($($answer:ident)*) => {$(
        impl Told for sys::$answer {
            fn told(&self) -> Refusal {
                Refusal {
                    number: self.refusal,
                    text: self.text,
                    start: self.start,
                }
            }
        }
    )*};
}

told! { Checked Heading Block Lines Paired Place Repaired RunCount Source Written }

/// The answer of a check. Beside a refusal only the offset and the number of blocks stay.
#[must_use]
pub fn checked(verdict: &Verdict) -> sys::Checked {
    match *verdict {
        Verdict::Accepted {
            sequence,
            blocks,
            end,
        } => sys::Checked {
            sequence,
            blocks,
            offset: end.offset,
            timed: u64::from(end.last.is_some()),
            time: end.last.unwrap_or(0),
            ..Default::default()
        },
        Verdict::Refused {
            refusal,
            offset,
            blocks,
        } => sys::Checked {
            blocks,
            offset,
            ..refused!(Checked, refusal)
        },
    }
}

/// The answer of a repair.
#[must_use]
pub fn repaired(answer: Result<u64, Refusal>) -> sys::Repaired {
    match answer {
        Ok(length) => sys::Repaired {
            length,
            ..Default::default()
        },
        Err(refusal) => refused!(Repaired, refusal),
    }
}

/// The answer for two neighbours.
#[must_use]
pub fn paired(answer: Pair) -> sys::Paired {
    sys::Paired {
        refusal: answer.refusal,
        text: answer.text,
        start: answer.start,
        which: answer.which,
        offset: answer.offset,
    }
}

/// The answer to the header alone.
#[must_use]
pub fn heading(answer: Result<Header<'_>, Refusal>) -> sys::Heading {
    match answer {
        Ok(header) => sys::Heading {
            sequence: header.sequence,
            next: header.next.offset,
            due: u64::from(header.next.due),
            id: 18,
            previous: 44,
            ..Default::default()
        },
        Err(refusal) => refused!(Heading, refusal),
    }
}

/// The answer to one reading by a bookmark.
#[must_use]
pub fn reading(answer: &Result<Reading<'_>, Refusal>) -> sys::Block {
    match answer {
        Ok(Reading::Block(found, next)) => block(found, next),
        Ok(Reading::End) => sys::Block {
            end: 1,
            ..Default::default()
        },
        Err(refusal) => refused!(Block, refusal),
    }
}

fn block(block: &Block<'_>, next: &Bookmark) -> sys::Block {
    let common = sys::Block {
        id: u64::from(block.id),
        number: block.number,
        next: next.offset,
        due: u64::from(next.due),
        timed: u64::from(next.last.is_some()),
        last: next.last.unwrap_or(0),
        next_number: next.number,
        time: block.time.unwrap_or(0),
        ..Default::default()
    };
    with_body(common, &block.body)
}

/// Fills in what the kind of block has.
fn with_body(common: sys::Block, body: &Body<'_>) -> sys::Block {
    match *body {
        Body::Inode { stat, variable } => with_stat(with_part(common, variable), &stat),
        Body::Link {
            child,
            parent,
            name,
        }
        | Body::Unlink {
            child,
            parent,
            name,
        } => sys::Block {
            child,
            parent,
            ..with_part(common, name)
        },
        Body::Xattr { inode, name, value } => sys::Block {
            inode,
            ..with_parts(common, name, value)
        },
        Body::RemovedXattr { inode, name } => sys::Block {
            inode,
            ..with_part(common, name)
        },
        Body::Data { payload } => with_part(common, payload),
        Body::Rename { old, new } => with_parts(common, old, new),
        Body::Table { count, links } => sys::Block {
            count,
            ..with_part(common, links)
        },
    }
}

fn with_stat(common: sys::Block, stat: &independent::Stat) -> sys::Block {
    sys::Block {
        inode: stat.inode,
        mode: u64::from(stat.mode),
        uid: u64::from(stat.uid),
        gid: u64::from(stat.gid),
        atime: stat.atime,
        mtime: stat.mtime,
        ctime: stat.ctime,
        btime: stat.btime,
        size: stat.size,
        ..common
    }
}

fn with_part(common: sys::Block, part: Part<'_>) -> sys::Block {
    sys::Block {
        part: part.start,
        part_len: part.bytes.len() as u64,
        ..common
    }
}

fn with_parts(common: sys::Block, first: Part<'_>, second: Part<'_>) -> sys::Block {
    sys::Block {
        second: second.start,
        second_len: second.bytes.len() as u64,
        ..with_part(common, first)
    }
}

/// The answer for a position.
#[must_use]
pub fn place(answer: Result<Place, Refusal>) -> sys::Place {
    let (kind, volume, offset) = match answer {
        Ok(Place::Hole) => (sys::HOLE, 0, 0),
        Ok(Place::Stored { volume, offset }) => (sys::STORED, volume, offset),
        Ok(Place::PastEnd) => (sys::PAST_END, 0, 0),
        Err(refusal) => return refused!(Place, refusal),
    };
    sys::Place {
        kind,
        volume,
        offset,
        ..Default::default()
    }
}

/// The answer to a range.
#[must_use]
pub fn run_count(answer: Result<u64, Refusal>) -> sys::RunCount {
    match answer {
        Ok(count) => sys::RunCount {
            count,
            ..Default::default()
        },
        Err(refusal) => refused!(RunCount, refusal),
    }
}

/// The answer to a listing of a tree.
#[must_use]
pub fn lines(answer: Result<u64, Refusal>) -> sys::Lines {
    match answer {
        Ok(lines) => sys::Lines {
            lines,
            ..Default::default()
        },
        Err(refusal) => refused!(Lines, refusal),
    }
}

/// The answer to an append or to the writing of a header.
#[must_use]
pub fn written(answer: Result<Bookmark, Refusal>) -> sys::Written {
    match answer {
        Ok(mark) => sys::Written {
            next: mark.offset,
            due: u64::from(mark.due),
            timed: u64::from(mark.last.is_some()),
            last: mark.last.unwrap_or(0),
            number: mark.number,
            ..Default::default()
        },
        Err(refusal) => refused!(Written, refusal),
    }
}
