//! The runs of files as the iterator gives them.

use hdrfs::{File, Lengths, Logical, Refusal, Run, Runs, Volume};

use crate::difference::{same, same_list, Difference};
use crate::volume::typed_refusal;

/// A file for both sides.
pub struct Asked<'a> {
    volume: &'a [u8],
    offset: u64,
    lengths: Lengths,
    /// So many runs of a range are compared; of longer ones the beginning.
    most: u64,
}

impl<'a> Asked<'a> {
    #[must_use]
    pub fn new(volume: &'a [u8], offset: u64, lengths: &[u8], most: u64) -> Asked<'a> {
        Asked {
            volume,
            offset,
            lengths: whole_entries(lengths),
            most,
        }
    }

    /// All runs of the file. Answers how many were compared.
    pub fn all_runs(&self) -> Result<usize, Difference> {
        let runs = self.file().all_runs();
        self.compare(runs, 0, u64::MAX)
    }

    /// The runs of a range. Answers how many were compared.
    pub fn runs(&self, from: u64, to: u64) -> Result<usize, Difference> {
        let runs = self.file().runs(Logical(from), Logical(to));
        self.compare(runs, from, to)
    }

    fn file(&self) -> File<'_> {
        File::new(self.volume, self.offset, &self.lengths)
    }

    fn compare(&self, runs: Runs<'_>, from: u64, to: u64) -> Result<usize, Difference> {
        let question = || format!("iterator from {from} to {to} at {}", self.offset);
        match self.expected(from, to) {
            Err(refusal) => {
                let only = [Err(typed_refusal(refusal, self.offset))];
                same_list(&runs.collect::<Vec<_>>(), &only, question)?;
                Ok(0)
            }
            Ok((list, whole)) => {
                // One more than expected, so that too many show.
                let most = list.len() + usize::from(whole);
                let items: Vec<_> = runs.take(most).collect();
                same_list(&items, &list, question)?;
                Ok(list.len())
            }
        }
    }

    /// The runs of a range, and whether these are all.
    fn expected(
        &self,
        from: u64,
        to: u64,
    ) -> Result<(Vec<Result<Run, Refusal>>, bool), independent::Refusal> {
        let mut end = to;
        let mut count = self.count(from, end)?;
        while count > self.most {
            end = from + (end - from) / 2;
            count = self.count(from, end)?;
        }
        let mut numbers = vec![0; 5 * count as usize];
        let lengths = self.lengths.as_bytes();
        independent::runs(self.volume, self.offset, lengths, from, end, &mut numbers)?;
        let mut list: Vec<_> = numbers.chunks_exact(5).map(|run| Ok(typed(run))).collect();
        let whole = end == to;
        if !whole {
            // The last may go on behind the shortened range.
            list.pop();
        }
        Ok((list, whole))
    }

    fn count(&self, from: u64, to: u64) -> Result<u64, independent::Refusal> {
        independent::run_count(self.volume, self.offset, self.lengths.as_bytes(), from, to)
    }
}

/// Bytes of lengths beyond the last whole entry are left out: the type cannot have them.
fn whole_entries(lengths: &[u8]) -> Lengths {
    let entries = lengths.chunks_exact(8);
    let entry = |bytes: &[u8]| u64::from_le_bytes(bytes.try_into().expect("eight bytes"));
    entries.map(entry).collect()
}

/// A run from its five numbers.
pub(crate) fn typed(numbers: &[u64]) -> Run {
    Run {
        start: Logical(numbers[0]),
        len: numbers[1],
        stored: (numbers[2] == 1).then_some(hdrfs::Stored {
            volume: numbers[3],
            offset: hdrfs::Physical(numbers[4]),
        }),
    }
}

/// A position by the call that gives a Rust type.
pub fn position(asked: &Asked<'_>, position: u64) -> Result<(), Difference> {
    let place = asked.file().position(Logical(position));
    let lengths = asked.lengths.as_bytes();
    let expected = independent::lookup(asked.volume, asked.offset, lengths, position);
    let offset = asked.offset;
    let refused = |refusal| typed_refusal(refusal, offset);
    same(place, expected.map(placed).map_err(refused), || {
        format!("File::position {position} at {offset}")
    })
}

/// The first position of each block of a volume as a file. Unlike where only an offset is given, a
/// refusal says which block it is.
pub fn first_positions(volume: &[u8], lengths: &[u8]) -> Result<(), Difference> {
    let lengths = whole_entries(lengths);
    for block in Volume::blocks(volume).flatten() {
        let place = File::of_block(volume, &block, &lengths).position(Logical(0));
        let expected = independent::lookup(volume, block.offset, lengths.as_bytes(), 0);
        let refused = |refusal| typed_refusal(refusal, block.offset).with_block(Some(block.number));
        same(place, expected.map(placed).map_err(refused), || {
            format!("File::of_block {} at {}", block.number, block.offset)
        })?;
    }
    Ok(())
}

fn placed(place: independent::Place) -> hdrfs::Place {
    match place {
        independent::Place::Hole => hdrfs::Place::Hole,
        independent::Place::PastEnd => hdrfs::Place::PastEnd,
        independent::Place::Stored { volume, offset } => hdrfs::Place::Stored(hdrfs::Stored {
            volume,
            offset: hdrfs::Physical(offset),
        }),
    }
}
