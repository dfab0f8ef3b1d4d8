//! Volumes that end too early, or seem to: how much of them is left, and appends behind that.

use generator::texts::Fault;
use generator::torn::{Answer, Damaged, Edge, Whole, MOST};
use hdrfs::{sys, Volume};
use independent::refusal::ENDS_EARLY;
use independent::{longest_accepted, read, read_header, Bookmark, Reading, Refusal};

use crate::answers::{self, Told};
use crate::difference::{same, same_list, Difference};
use crate::requests::Request;
use crate::volume::{block_at_fault, bookmark, check_at_once, typed_refusal};
use crate::{blocks, writing};

/// Of volumes up to this length every beginning is tried: of all that are drawn, with what may stand
/// behind them.
const SHORT: usize = 2 * MOST;

/// Where the first fault of a volume is.
#[derive(Clone, Copy, Debug, PartialEq, Eq)]
pub enum FirstFault {
    Nowhere,
    Header,
    Table,
    Block,
}

impl FirstFault {
    /// That of a volume of which the check says this. No block stands at 0, and one at 80 is the
    /// table if that is due there.
    fn of(volume: &[u8], checked: &sys::Checked) -> FirstFault {
        let is_due = || read_header(volume).is_ok_and(|header| header.next.due);
        match (checked.refusal, checked.offset) {
            (0, _) => FirstFault::Nowhere,
            (_, 0) => FirstFault::Header,
            (_, 80) if is_due() => FirstFault::Table,
            _ => FirstFault::Block,
        }
    }
}

/// What both answered, and where the first fault is.
#[derive(Clone, Copy, Debug)]
pub struct Repair {
    pub first_fault: FirstFault,
    pub answer: sys::Repaired,
}

/// The repair of a volume of which both say `checked`, by the call on numbers and by the one that
/// gives Rust types. What is left has to be accepted. Answers what both gave.
pub fn repair(volume: &[u8], checked: &sys::Checked) -> Result<Repair, Difference> {
    let expected = independent::repair(volume);
    let answer = answers::repaired(expected);
    same(sys::repair(volume), answer, || "repair".into())?;
    let block = block_at_fault(checked.offset, checked.blocks);
    let refused = |refusal| typed_refusal(refusal, checked.offset).with_block(block);
    let expected = expected.map(|length| length as usize).map_err(refused);
    same(Volume::repair(volume), expected, || "Volume::repair".into())?;
    let first_fault = FirstFault::of(volume, checked);
    let by_check = by_check(volume, checked, first_fault);
    same(answer, by_check, || "repair against the check".into())?;
    if first_fault == FirstFault::Block && answer.refusal == 0 {
        left(&volume[..answer.length as usize], checked)?;
    }
    Ok(Repair {
        first_fault,
        answer,
    })
}

/// What is to be answered by the check: where a volume ends within a block other than the table, what
/// stands before that; where it has another fault, that one.
fn by_check(volume: &[u8], checked: &sys::Checked, first_fault: FirstFault) -> sys::Repaired {
    let answer = match (first_fault, checked.told()) {
        (FirstFault::Nowhere, _) => Ok(volume.len() as u64),
        (FirstFault::Block, ENDS_EARLY) => Ok(checked.offset),
        (_, refusal) => Err(refusal),
    };
    answers::repaired(answer)
}

/// Whether what is left is accepted, with all blocks before the fault.
fn left(beginning: &[u8], fault: &sys::Checked) -> Result<(), Difference> {
    let end = end(beginning)?;
    let told = (end.number, end.offset);
    same(told, (fault.blocks, fault.offset), || {
        "Volume::check of what is left".into()
    })
}

/// The end bookmark of a volume that has to be accepted.
fn end(volume: &[u8]) -> Result<Bookmark, Difference> {
    let checked = Volume::check(volume);
    let refusal = checked.as_ref().err().map(|rejected| rejected.refusal);
    same(refusal, None, || {
        format!("Volume::check of {} bytes", volume.len())
    })?;
    Ok(bookmark(checked.expect("nothing is refused").end()))
}

/// The check and the repair of a volume. If it is short, what is left has to be the longest beginning
/// that is accepted, and where a header or a table is cut there is none.
pub fn compare(volume: &[u8]) -> Result<(sys::Checked, Repair), Difference> {
    let checked = check_at_once(volume)?;
    let repair = repair(volume, &checked)?;
    let answer = repair.answer;
    if volume.len() <= SHORT && [Refusal::of(0), ENDS_EARLY].contains(&answer.told()) {
        let length = (answer.refusal == 0).then_some(answer.length);
        same(length, longest_accepted(volume), || {
            "the longest accepted beginning".into()
        })?;
    }
    Ok((checked, repair))
}

/// The answer that the making of a volume fixes.
fn as_made(answer: sys::Repaired, made: Answer, fault: Fault) -> Result<(), Difference> {
    let (refusal, length) = made;
    let expected = sys::Repaired {
        refusal,
        text: fault.text,
        start: fault.start,
        length,
    };
    same(answer, expected, || "repair against the making".into())
}

/// The first bytes of a whole volume. Within a block they are refused with 2 where that begins, after
/// the blocks before it.
pub fn cut(whole: &Whole, length: usize) -> Result<Repair, Difference> {
    let (checked, repair) = compare(&whole.volume[..length])?;
    as_made(repair.answer, whole.cut(length), Fault::default())?;
    if repair.first_fault == FirstFault::Block {
        let offset = repair.answer.length;
        let expected = sys::Checked {
            refusal: 2,
            offset,
            blocks: blocks_before(whole, offset as usize),
            ..Default::default()
        };
        same(checked, expected, || "check of a cut block".into())?;
    }
    Ok(repair)
}

/// How many blocks stand before the end of a sound beginning. The shortest is the header, or the
/// header and a table.
fn blocks_before(whole: &Whole, end: usize) -> u64 {
    let shorter = whole.beginnings.iter().take_while(|&&other| other < end);
    let tables = usize::from(whole.beginnings[0] > 80);
    (shorter.count() + tables) as u64
}

/// A damaged volume, and the whole blocks behind what is left of it.
pub fn damaged(made: &Damaged) -> Result<Repair, Difference> {
    let (_, repair) = compare(&made.volume)?;
    if let Some(expected) = made.expected {
        as_made(repair.answer, expected, Fault::default())?;
    }
    whole_blocks(&made.volume, repair.answer.length as usize)?;
    Ok(repair)
}

/// A volume at an edge.
pub fn edge(made: &Edge) -> Result<Repair, Difference> {
    let (_, repair) = compare(&made.bytes)?;
    as_made(repair.answer, made.expected, made.fault)?;
    Ok(repair)
}

/// The blocks that are found from an offset on where nothing says where one begins.
fn whole_blocks(volume: &[u8], from: usize) -> Result<(), Difference> {
    let (mut at, mut count) = (from as u64, 0);
    while at < volume.len() as u64 {
        match read(volume, Bookmark::at(at)) {
            Ok(Reading::Block(_, next)) => (at, count) = (next.offset, count + 1),
            _ => at += 1,
        }
    }
    let found = Volume::whole_blocks_from(volume, from);
    same((found.count, found.may_be_more), (count, false), || {
        format!("Volume::whole_blocks_from {from}")
    })
}

/// What stands behind a volume in a buffer that is longer.
const BEHIND: u8 = 0xA5;

/// Cuts a volume within its last block, after every byte, and appends that block again as it was read
/// from the whole volume, at the end bookmark of what is left. The bytes have to be those of the whole
/// volume, and those behind it as they were. Answers what was appended.
pub fn append_again(whole: &Whole) -> Result<Request, Difference> {
    let volume = &whole.volume[..];
    let block = blocks::read(volume, end(&volume[..whole.last])?, 0)?;
    let request = Request::of_block(volume, &block);
    let (after, expected) = (end(volume)?, longer(volume, volume.len() + 9));
    for length in whole.last + 1..volume.len() {
        let torn = &volume[..length];
        let kept = repair(torn, &check_at_once(torn)?)?.answer.length as usize;
        let mut buffer = longer(torn, expected.len());
        let (refusal, next) = writing::append(&mut buffer, end(&torn[..kept])?, &request)?;
        let question = || format!("append again after {length} bytes");
        same((refusal, next), (Refusal::of(0), after), question)?;
        same_list(&buffer, &expected, question)?;
    }
    Ok(request)
}

/// The bytes in a buffer of that length.
fn longer(bytes: &[u8], length: usize) -> Vec<u8> {
    let mut buffer = bytes.to_vec();
    buffer.resize(length, BEHIND);
    buffer
}
