//! Walking the runs of a range that may have more of them than there is room for.
//!
//! The range is asked for piece by piece, and a piece may end in the middle of a run. Whether it
//! does cannot be seen from the run: what follows may be the same extent or a neighbour that is
//! stored right behind it. So the last run of a piece is held back, and the next piece begins at
//! its last position. If the first run of that piece is longer than this position, it is the rest
//! of the run held; if not, the run held was whole.

use crate::file::{Logical, Physical, Stored};
use crate::pace::Pace;
use crate::runs::Run;
use crate::{sys, Refusal};

/// How many numbers a run takes.
pub(crate) const RUN_LEN: usize = 5;

/// Who answers for the runs of a range.
pub(crate) trait Source {
    /// Stores the runs from `from` to below `to`, five numbers each, and answers how many there
    /// are.
    fn ask(&mut self, from: u64, to: u64, out: &mut [u64]) -> Result<usize, Refusal>;
}

/// How many runs there is room for: at first, and then in turn when that is too little. The last
/// has to be at least 4, or halving a range could end at one position.
#[derive(Clone, Copy, Debug)]
pub(crate) struct Rooms {
    pub(crate) first: usize,
    pub(crate) larger: &'static [usize],
}

#[derive(Clone, Debug)]
pub(crate) struct Walk<S> {
    source: S,
    /// How many runs to have room for next, each time that there is too little.
    larger: &'static [usize],
    /// The runs of the last piece, and how many of them there are and were looked at.
    numbers: Vec<u64>,
    count: usize,
    seen: usize,
    /// The last run of the piece before, which may go on.
    held: Option<Run>,
    /// Up to where the pieces reach, and where the last one is to end.
    at: u64,
    end: u64,
    pace: Pace,
    over: bool,
}

impl<S: Source> Walk<S> {
    pub(crate) fn new(source: S, from: Logical, to: Logical, rooms: Rooms) -> Walk<S> {
        Walk {
            source,
            larger: rooms.larger,
            numbers: vec![0; rooms.first * RUN_LEN],
            count: 0,
            seen: 0,
            held: None,
            at: from.0,
            end: to.0,
            pace: Pace::new(),
            over: false,
        }
    }

    /// Asks for the next piece.
    fn ask(&mut self) -> Result<(), Refusal> {
        let from = self.at - u64::from(self.held.is_some());
        loop {
            let room = (self.numbers.len() / RUN_LEN) as u64;
            let to = self.pace.range_end(from, self.end, room);
            match self.source.ask(from, to, &mut self.numbers) {
                Ok(count) => {
                    self.pace.had_room(to - from, to, count as u64, room);
                    self.take_in(count, to);
                    return Ok(());
                }
                Err(refusal) if refusal.number == Refusal::NO_ROOM => {
                    self.make_room(to, to - from <= room, refusal)?;
                }
                Err(refusal) => return Err(refusal),
            }
        }
    }

    /// Lends more room while there is more, and asks for less after that. A range with no more
    /// positions than there is room for runs always fits; if it is refused nevertheless, so is the
    /// walk, since nothing shorter would help.
    fn make_room(&mut self, to: u64, is_short: bool, refusal: Refusal) -> Result<(), Refusal> {
        if let Some((next, larger)) = self.larger.split_first() {
            self.numbers = vec![0; next * RUN_LEN];
            self.larger = larger;
            return Ok(());
        }
        if is_short {
            return Err(refusal);
        }
        self.pace.had_no_room(to);
        Ok(())
    }

    /// Notes that a piece up to `to` was answered. It is the last if it ends where the range does,
    /// or before it was to end, since the file ends there.
    fn take_in(&mut self, count: usize, to: u64) {
        self.count = count;
        self.seen = 0;
        if count > 0 {
            self.at = self.run(count - 1).end().0;
        }
        self.over = count == 0 || to == self.end || self.at < to;
    }

    /// A run of the last piece.
    #[inline]
    fn run(&self, index: usize) -> Run {
        let numbers = &self.numbers[index * RUN_LEN..][..RUN_LEN];
        Run {
            start: Logical(numbers[0]),
            len: numbers[1],
            stored: (numbers[2] == sys::STORED).then_some(Stored {
                volume: numbers[3],
                offset: Physical(numbers[4]),
            }),
        }
    }

    /// The next run of the last piece that is neither its last one nor before the one held. Such a
    /// run is whole. Nearly all are, so this is what the time of a walk is made of.
    #[inline]
    fn next_inner(&mut self) -> Option<Run> {
        if self.held.is_some() || self.count <= self.seen + 1 {
            return None;
        }
        self.seen += 1;
        Some(self.run(self.seen - 1))
    }

    /// The run held, once it is known to be whole. The last run of a piece is held.
    fn next_outer(&mut self) -> Option<Run> {
        if self.seen == self.count {
            return None;
        }
        let run = self.run(self.seen);
        match &mut self.held {
            Some(held) if run.start < held.end() => {
                held.len = run.end().0 - held.start.0;
                self.seen += 1;
                // If more follows, it ends here.
                self.held.take_if(|_| self.seen < self.count)
            }
            Some(_) => self.held.take(),
            None => {
                self.seen += 1;
                self.held = Some(run);
                None
            }
        }
    }
}

impl<S: Source> Iterator for Walk<S> {
    type Item = Result<Run, Refusal>;

    #[inline]
    fn next(&mut self) -> Option<Result<Run, Refusal>> {
        match self.next_inner() {
            Some(run) => Some(Ok(run)),
            None => self.next_piece(),
        }
    }
}

impl<S: Source> Walk<S> {
    /// The next run, where it may be the one held or in the next piece.
    fn next_piece(&mut self) -> Option<Result<Run, Refusal>> {
        loop {
            let run = self.next_inner().or_else(|| self.next_outer());
            if let Some(run) = run {
                return Some(Ok(run));
            }
            if self.over {
                return self.held.take().map(Ok);
            }
            if let Err(refusal) = self.ask() {
                self.over = true;
                self.held = None;
                return Some(Err(refusal));
            }
        }
    }
}

#[cfg(test)]
mod tests;
