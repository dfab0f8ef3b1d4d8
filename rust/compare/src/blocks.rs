//! Blocks, read by bookmarks.

use hdrfs::sys;
use independent::block::TABLE;
use independent::{Bookmark, Reading};

use crate::difference::{same, Difference};
use crate::{answers, links};

/// One reading. Numbers that mean "yes" are any but 0, and a last time beside "no" is not looked
/// at, so `odd` picks what to pass there. Answers what both gave.
pub fn read(volume: &[u8], mark: Bookmark, odd: u64) -> Result<sys::Block, Difference> {
    let answer = independent::read(volume, mark);
    let expected = answers::reading(&answer);
    let due = yes(mark.due, odd);
    let timed = yes(mark.last.is_some(), odd >> 2);
    let time = mark.last.unwrap_or(odd);
    let proved = sys::read(volume, mark.offset, due, timed, time, mark.number);
    same(proved, expected, || {
        format!("read at {mark:?} with due {due}, timed {timed}, time {time}")
    })?;
    if let Ok(Reading::Block(block, _)) = answer {
        links::of_block(&block)?;
    }
    Ok(proved)
}

/// A number that means "yes" where something is so, else "no".
pub(crate) fn yes(is: bool, odd: u64) -> u64 {
    if is {
        [1, 2, 1 << 32, u64::MAX][odd as usize % 4]
    } else {
        0
    }
}

/// Whether it is a block that was read, and not the end or a refusal.
#[must_use]
pub fn is_block(answer: &sys::Block) -> bool {
    answer.refusal == 0 && answer.end == 0
}

/// Whether it is a link table, which has no time.
#[must_use]
pub fn is_table(answer: &sys::Block) -> bool {
    is_block(answer) && answer.id == u64::from(TABLE)
}

/// Whether a block was read whose time is the last one before it.
#[must_use]
pub fn is_at_last_time(answer: &sys::Block, mark: Bookmark) -> bool {
    is_block(answer) && !is_table(answer) && mark.last == Some(answer.time)
}

/// The bookmark after a block that was read.
#[must_use]
pub fn after(block: &sys::Block) -> Bookmark {
    Bookmark {
        offset: block.next,
        due: block.due != 0,
        last: (block.timed != 0).then_some(block.last),
        number: block.next_number,
    }
}

/// What was met on a walk over a volume.
#[derive(Clone, Copy, Debug, Default)]
pub struct Walked {
    /// Blocks before the end or the fault, by the number of the bookmark there.
    pub blocks: u64,
    /// Those of them whose time is the last one before them.
    pub equal: u64,
}

/// All blocks from the header on, each by the bookmark that the proved library gave for it.
pub fn walk(volume: &[u8]) -> Result<Walked, Difference> {
    let heading = sys::header(volume);
    let mut mark = Bookmark {
        due: heading.due != 0,
        ..Bookmark::at(heading.next)
    };
    let mut walked = Walked::default();
    if heading.refusal != 0 {
        return Ok(walked);
    }
    loop {
        let block = read(volume, mark, 0)?;
        if !is_block(&block) {
            return Ok(walked);
        }
        walked.equal += u64::from(is_at_last_time(&block, mark));
        mark = after(&block);
        walked.blocks = mark.number;
    }
}
