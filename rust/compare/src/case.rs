//! All questions of a case.

use generator::number::FULL;
use generator::{Case, Expected, Mark};
use hdrfs::sys;
use independent::{Bookmark, Reading, Refusal};

use crate::answers::Told;
use crate::difference::{same, Difference};
use crate::files::Inode;
use crate::items::{self, Asked};
use crate::tally::{Call, Tally};
use crate::texts::Texts;
use crate::{blocks, fetching, links, repairs, steps, volume};

/// Compares every number of every answer.
pub fn compare(case: &Case, tally: &mut Tally) -> Result<(), Difference> {
    whole(case, tally)?;
    marks(case, tally)?;
    for &offset in &case.inode_offsets {
        let inode = Inode {
            volume: &case.volume,
            offset,
            lengths: &case.lengths,
        };
        positions(case, &inode, tally)?;
        ranges(case, &inode, tally)?;
    }
    for &asked in &case.fetches {
        let refusal = fetching::fetch(&case.volume, &case.other, asked)?;
        tally.reads.fetch[refusal.number as usize] += 1;
    }
    Ok(())
}

/// The check, the repair, the header and all blocks in order.
fn whole(case: &Case, tally: &mut Tally) -> Result<(), Difference> {
    let bytes = &case.volume;
    let checked = volume::check(bytes)?;
    tally.reads.check[checked.refusal as usize] += 1;
    tally.note_text(Call::Check, checked.told());
    let repair = repairs::repair(bytes, &checked)?;
    tally.repairs.note(&repair);
    tally.note_text(Call::Repair, repair.answer.told());
    tally.reads.header[volume::header(bytes)?.number as usize] += 1;
    tally.reads.header[volume::header(&case.other)?.number as usize] += 1;
    as_made(case, &checked)?;
    let walked = blocks::walk(bytes)?;
    same(walked.blocks, checked.blocks, || {
        "blocks walked over".into()
    })?;
    tally.equal[0] += walked.equal;
    links::anywhere(bytes)
}

/// Where the making of the case fixes the verdict, it must be given.
fn as_made(case: &Case, checked: &sys::Checked) -> Result<(), Difference> {
    let given = (checked.told(), checked.offset, checked.blocks);
    let made = match case.expected {
        Expected::Unknown => given,
        Expected::Accepted => {
            let end = case.volume.len() as u64;
            (Refusal::of(0), end, checked.blocks)
        }
        Expected::Refused {
            number,
            fault,
            offset,
            blocks,
        } => {
            let refusal = Refusal {
                number,
                text: fault.text,
                start: fault.start,
            };
            (refusal, offset, blocks)
        }
    };
    same(given, made, || {
        "check against the making of the case".into()
    })
}

/// A bookmark of a case in the type of the independent implementation.
pub(crate) fn bookmark(mark: &Mark) -> Bookmark {
    Bookmark {
        offset: mark.offset,
        due: mark.due,
        last: mark.last,
        number: mark.number,
    }
}

/// A reading by each bookmark. A table leaves the last time as it was, and a block may be the last
/// that can be counted, so what is behind these is read too.
fn marks(case: &Case, tally: &mut Tally) -> Result<(), Difference> {
    for (place, mark) in case.bookmarks.iter().enumerate() {
        let mark = bookmark(mark);
        let odd = case.seed.wrapping_add(place as u64);
        let block = reading(&case.volume, mark, odd, tally)?;
        tally.equal[1] += u64::from(blocks::is_at_last_time(&block, mark));
        let next = blocks::after(&block);
        let is_last = blocks::is_block(&block) && next.number == FULL;
        if !blocks::is_table(&block) && !is_last {
            continue;
        }
        let behind = reading(&case.volume, next, odd, tally)?;
        if blocks::is_table(&block) {
            tally.equal[2] += u64::from(blocks::is_at_last_time(&behind, next));
        }
        if is_last {
            tally.last[0] += 1;
            tally.last[1] += behind.end;
            tally.last[2] += u64::from(behind.refusal == 9);
        }
    }
    Ok(())
}

/// One reading by a bookmark. A block that is only refused since it cannot be counted is a block at
/// another number.
fn reading(
    volume: &[u8],
    mark: Bookmark,
    odd: u64,
    tally: &mut Tally,
) -> Result<sys::Block, Difference> {
    let block = blocks::read(volume, mark, odd)?;
    tally.reads.read[block.refusal as usize] += 1;
    tally.note_text(Call::Read, block.told());
    if mark.number == FULL {
        tally.reads.full[block.refusal as usize] += 1;
        let free = independent::read(volume, mark.numbered(0));
        if let (9, Ok(Reading::Block(free, _))) = (block.refusal, free) {
            tally.uncounted[usize::from(free.id) - 1] += 1;
        }
    }
    Ok(block)
}

fn positions(case: &Case, inode: &Inode<'_>, tally: &mut Tally) -> Result<(), Difference> {
    for &position in &case.positions {
        let placed = inode.lookup(position)?;
        tally.reads.lookup[placed.refusal as usize] += 1;
        tally.note_text(Call::Lookup, placed.told());
        if placed.refusal == 0 {
            tally.kinds[placed.kind as usize] += 1;
        }
    }
    Ok(())
}

fn ranges(case: &Case, inode: &Inode<'_>, tally: &mut Tally) -> Result<(), Difference> {
    for &(from, to) in &case.ranges {
        let refusal = inode.runs(from, to, case.room)?;
        tally.reads.runs[refusal.number as usize] += 1;
        tally.note_text(Call::Runs, refusal);
        for refusal in inode.runs_at_the_edge(from, to)? {
            tally.reads.runs[refusal.number as usize] += 1;
        }
    }
    Ok(())
}

/// What was compared of the calls that give Rust types.
#[derive(Clone, Copy, Debug, Default)]
pub struct Typed {
    pub runs: u64,
    /// Texts at fault, of the check alone.
    pub texts: Texts,
}

/// The same questions to the calls that give Rust types, with at most so many runs of each range.
pub fn typed(case: &Case, most: u64, typed: &mut Typed) -> Result<(), Difference> {
    typed.texts.note(volume::typed(&case.volume)?);
    steps::blocks(&case.volume)?;
    for mark in &case.bookmarks {
        steps::blocks_at(&case.volume, bookmark(mark))?;
    }
    items::first_positions(&case.volume, &case.lengths)?;
    for &offset in &case.inode_offsets {
        let asked = Asked::new(&case.volume, offset, &case.lengths, most);
        for &position in &case.positions {
            items::position(&asked, position)?;
        }
        typed.runs += asked.all_runs()? as u64;
        for &(from, to) in &case.ranges {
            typed.runs += asked.runs(from, to)? as u64;
        }
    }
    Ok(())
}
