//! The runs of a file.

use std::iter::FusedIterator;

use crate::walk::{Rooms, Source, Walk};
use crate::{File, Logical, Refusal, Stored};

/// Room for the runs of a file as most are; then for those of any file that repeats no block, with
/// 1,024 extents and a hole before, between and after them; and then for so many that asking for
/// them costs more than the check of the file that comes with every question.
const ROOMS: Rooms = Rooms {
    first: 64,
    larger: &[2 * 1024 + 1, 65_536],
};

/// A stretch of a file that is all hole, or stored in one piece: one extent, and one copy where its
/// block is repeated.
///
/// ```
/// use hdrfs::{File, Lengths, Logical, Physical, Run, Stored};
/// # std::env::set_current_dir("../../crates/samples/data")?;
///
/// let bytes = std::fs::read("all_kinds.vol")?;
/// let lengths: Lengths = [104, bytes.len() as u64].into_iter().collect();
/// let run = File::new(&bytes, 137, &lengths).all_runs().next().unwrap()?;
/// let place = Stored { volume: 0, offset: Physical(97) };
/// assert_eq!(run, Run { start: Logical(0), len: 3, stored: Some(place) });
/// # Ok::<(), Box<dyn std::error::Error>>(())
/// ```
#[derive(Clone, Copy, Debug, PartialEq, Eq, Hash)]
pub struct Run {
    /// The position at which it begins.
    pub start: Logical,
    /// How many positions it has.
    pub len: u64,
    /// Where its first byte is stored; nothing for a hole.
    pub stored: Option<Stored>,
}

impl Run {
    /// The position after it.
    ///
    /// ```
    /// use hdrfs::{Logical, Run};
    ///
    /// let hole = Run { start: Logical(4), len: 2, stored: None };
    /// assert_eq!(hole.end(), Logical(6));
    /// ```
    #[must_use]
    pub fn end(&self) -> Logical {
        Logical(self.start.0 + self.len)
    }
}

/// The runs of a range of a file, in rising order. A refusal is the only item, since all of a file
/// is checked before any of its runs is given.
///
/// It asks the library for many runs at a time and keeps them inside. Files with more runs than it
/// has room for are asked for piece by piece; the runs handed out are those of the whole range all
/// the same.
///
/// ```
/// use hdrfs::{File, Lengths, Run};
/// # std::env::set_current_dir("../../crates/samples/data")?;
///
/// let bytes = std::fs::read("all_kinds.vol")?;
/// let lengths: Lengths = [104, bytes.len() as u64].into_iter().collect();
/// let runs: Vec<Run> = File::new(&bytes, 137, &lengths).all_runs().collect::<Result<_, _>>()?;
/// let holes = runs.iter().filter(|run| run.stored.is_none());
/// assert_eq!(holes.map(|run| run.len).sum::<u64>(), 4);
/// # Ok::<(), Box<dyn std::error::Error>>(())
/// ```
#[derive(Clone, Debug)]
pub struct Runs<'a>(Walk<File<'a>>);

impl<'a> Runs<'a> {
    pub(crate) fn new(file: File<'a>, from: Logical, to: Logical) -> Runs<'a> {
        Runs(Walk::new(file, from, to, ROOMS))
    }
}

impl Iterator for Runs<'_> {
    type Item = Result<Run, Refusal>;

    #[inline]
    fn next(&mut self) -> Option<Result<Run, Refusal>> {
        self.0.next()
    }
}

impl FusedIterator for Runs<'_> {}

impl Source for File<'_> {
    fn ask(&mut self, from: u64, to: u64, out: &mut [u64]) -> Result<usize, Refusal> {
        File::ask(self, from, to, out)
    }
}

#[cfg(test)]
#[path = "../tests/support/mod.rs"]
pub(crate) mod support;

#[cfg(test)]
mod tests;
