//! Positions and ranges of files.

use hdrfs::sys;
use independent::Refusal;

use crate::answers::{self, Told};
use crate::difference::{same, same_list, Answer, Difference};
use crate::lent::Lent;

/// Ranges with more runs than this are only asked with the room of the case.
const MOST_RUNS: u64 = 20_000;

/// The inode block at an offset, and the lengths of the volumes.
#[derive(Clone, Copy)]
pub struct Inode<'a> {
    pub volume: &'a [u8],
    pub offset: u64,
    pub lengths: &'a [u8],
}

impl Inode<'_> {
    /// One position, in one call and in six. Answers what both gave.
    pub fn lookup(&self, position: u64) -> Result<sys::Place, Difference> {
        let &Inode {
            volume,
            offset,
            lengths,
        } = self;
        let answer = independent::lookup(volume, offset, lengths, position);
        let expected = answers::place(answer);
        let proved = sys::lookup(volume, offset, lengths, position);
        let question = || format!("position {position} at {offset}");
        same(proved, expected, question)?;
        let split = sys::Place {
            refusal: sys::lookup_refusal(volume, offset, lengths, position),
            text: sys::lookup_text(volume, offset, lengths, position),
            start: sys::lookup_start(volume, offset, lengths, position),
            kind: sys::lookup_kind(volume, offset, lengths, position),
            volume: sys::lookup_volume(volume, offset, lengths, position),
            offset: sys::lookup_offset(volume, offset, lengths, position),
        };
        same(split, expected, || question() + " in six calls")?;
        Ok(expected)
    }

    /// The runs of a range, in a list with room for so many numbers.
    pub fn runs(&self, from: u64, to: u64, room: usize) -> Answer {
        let (mut proved, mut second) = (Lent::new(room), Lent::new(room));
        let count = self.ask_proved(from, to, &mut proved);
        let expected = self.ask_independent(from, to, &mut second);
        let question = || format!("{from} to {to} at {}, room {room}", self.offset);
        same(count, expected, question)?;
        let filled = 5 * expected.count as usize;
        same_list(proved.first(filled), second.first(filled), question)?;
        let kept = (proved.kept_beyond(filled), second.kept_beyond(filled));
        same(kept, (true, true), || question() + ", the rest is kept")?;
        Ok(expected.told())
    }

    fn ask_proved(&self, from: u64, to: u64, out: &mut Lent) -> sys::RunCount {
        let out = out.list();
        sys::runs(self.volume, self.offset, self.lengths, from, to, out)
    }

    fn ask_independent(&self, from: u64, to: u64, out: &mut Lent) -> sys::RunCount {
        let out = out.list();
        let answer = independent::runs(self.volume, self.offset, self.lengths, from, to, out);
        answers::run_count(answer)
    }

    /// The same with just enough room and with one number less. Answers the refusals.
    pub fn runs_at_the_edge(&self, from: u64, to: u64) -> Result<Vec<Refusal>, Difference> {
        let count = independent::run_count(self.volume, self.offset, self.lengths, from, to);
        let Ok(count @ ..=MOST_RUNS) = count else {
            return Ok(Vec::new());
        };
        let enough = 5 * count as usize;
        let mut seen = vec![self.runs(from, to, enough)?];
        same(seen[0], Refusal::of(0), || {
            format!("{from} to {to}, enough room")
        })?;
        if let Some(less) = enough.checked_sub(1) {
            seen.push(self.runs(from, to, less)?);
            same(seen[1], Refusal::of(17), || {
                format!("{from} to {to}, too little room")
            })?;
        }
        Ok(seen)
    }
}
