//! How often each answer was compared.

mod chain;
mod columns;
mod repairs;
mod trees;

use independent::Refusal;

use crate::texts::{Texts, FEW};
use columns::{add, columns};

pub use chain::{Digests, Pairs};
pub use columns::Numbers;
pub use repairs::Repairs;
pub use trees::Trees;

/// How blocks with a last time before them are come to.
pub const WAYS: [&str; 3] = ["from the header on", "by a bookmark", "behind a table"];

/// What comes at the last number after which there is another.
pub const LAST: [&str; 3] = [
    "a block that is the last to be counted",
    "the end behind it",
    "9 behind it",
];

/// The calls that can refuse a text.
#[derive(Clone, Copy, Debug, PartialEq, Eq)]
pub enum Call {
    Check,
    Repair,
    Read,
    Lookup,
    Runs,
}

impl Call {
    const ALL: [Call; 5] = [
        Call::Check,
        Call::Repair,
        Call::Read,
        Call::Lookup,
        Call::Runs,
    ];
}

// 18 cannot occur, since a kept byte needs a block of at least one byte, and no call gives 19 to 22;
// 23 is for two volumes, see `Pairs`, and 24 for trees, see `Trees`. A lookup reads no header and has
// no table due and no last time, so 3, 4, 6, 13 and 14 stay out; a reading by a bookmark reads no
// header either. `full` has the readings at the largest number, where 0 is the end and no block.
columns! {
    /// The calls that read a volume, a block or a file.
    Reads {
        check: [0, 1, 2, 3, 4, 5, 6, 7, 8, 9, 10, 11, 12, 13, 14];
        header: [0, 1, 2, 3, 4, 5, 6];
        read: [0, 1, 2, 5, 7, 8, 9, 10, 11, 12, 13, 14];
        full: [0, 1, 2, 5, 7, 8, 9, 10, 11, 12, 13, 14];
        lookup: [0, 1, 2, 5, 7, 8, 9, 10, 11, 12, 15, 16];
        runs: [0, 1, 2, 5, 7, 8, 9, 10, 11, 12, 15, 16, 17];
        fetch: [0, 1, 2, 3, 4, 5, 6, 16];
    }
}

/// What was compared of the cases.
#[derive(Clone, Debug, Default)]
pub struct Tally {
    /// The answers, call by call.
    pub reads: Reads,
    /// Those of repairs, by where the first fault is.
    pub repairs: Repairs,
    /// Holes, stored bytes and positions past the end.
    pub kinds: [u64; 3],
    /// Blocks read at the very last time before them, in each of [`WAYS`].
    pub equal: [u64; 3],
    /// Blocks refused with 9 since one block more cannot be counted, by their IDs from 1 on.
    pub uncounted: [u64; 8],
    /// Readings at the number before, and behind them, as in [`LAST`].
    pub last: [u64; 3],
    /// Texts at fault, by [`Call`].
    pub texts: [Texts; 5],
}

impl Tally {
    /// Adds the counts of another.
    pub fn add(&mut self, other: &Tally) {
        self.reads.add(&other.reads);
        self.repairs.add(&other.repairs);
        add(&mut self.kinds, &other.kinds);
        add(&mut self.equal, &other.equal);
        add(&mut self.uncounted, &other.uncounted);
        add(&mut self.last, &other.last);
        for (texts, other) in self.texts.iter_mut().zip(&other.texts) {
            texts.add(other);
        }
    }

    /// Answers that can occur and were not compared, or the other way round.
    #[must_use]
    pub fn faults(&self) -> Vec<String> {
        let mut faults = self.reads.faults();
        faults.extend(self.repairs.faults());
        for (kind, &count) in self.kinds.iter().enumerate() {
            if count == 0 {
                faults.push(format!("lookup: no position of kind {kind}"));
            }
        }
        for (way, count) in WAYS.iter().zip(self.equal) {
            if count == 0 {
                faults.push(format!("read: no equal time {way}"));
            }
        }
        for (id, &count) in (1..).zip(&self.uncounted) {
            if count == 0 {
                faults.push(format!("read: no block {id} that cannot be counted"));
            }
        }
        for (what, count) in LAST.iter().zip(self.last) {
            if count == 0 {
                faults.push(format!("read: not {what}"));
            }
        }
        for (call, texts) in Call::ALL.iter().zip(&self.texts) {
            if texts.are_few(FEW) {
                faults.push(format!("{call:?}: only {texts}"));
            }
        }
        faults
    }

    /// Counts what a call says of a text at fault.
    pub fn note_text(&mut self, call: Call, refusal: Refusal) {
        self.texts[call as usize].note(refusal);
    }

    /// A table of all counts.
    #[must_use]
    pub fn table(&self) -> String {
        let mut text = self.reads.table();
        text += &format!("\nrepairs\n{}", self.repairs.table());
        let [holes, stored, past_end] = self.kinds;
        text += &format!("\nholes {holes}, stored {stored}, past end {past_end}");
        for (way, count) in WAYS.iter().zip(self.equal) {
            text += &format!("\nequal times {way}: {count}");
        }
        text += &format!("\nnot to be counted, by ID: {:?}", self.uncounted);
        for (what, count) in LAST.iter().zip(self.last) {
            text += &format!("\n{what}: {count}");
        }
        for (call, texts) in Call::ALL.iter().zip(&self.texts) {
            text += &format!("\n{call:?}: {texts}");
        }
        text
    }
}

/// A tally in which everything that can occur came once, and texts at fault often.
#[cfg(test)]
fn full() -> Tally {
    let often = Texts {
        later: FEW,
        inside: FEW,
        both: FEW,
    };
    Tally {
        reads: Reads::full(),
        repairs: Repairs::full(),
        kinds: [1; 3],
        equal: [1; 3],
        uncounted: [1; 8],
        last: [1; 3],
        texts: [often; 5],
    }
}

#[cfg(test)]
mod tests {
    use super::{full, Call, Tally};
    use hdrfs::Refusal;
    use independent::refusal::LARGEST;

    /// The proved library has words for the number, and for none above it.
    #[test]
    fn both_have_the_same_largest_number() {
        let words = |number| Refusal::new(number, 0).words();
        let known = (0..100).filter(|number| words(*number) != words(u64::MAX));
        assert_eq!(known.max(), Some(LARGEST as u64));
    }

    #[test]
    fn what_is_missing_is_told() {
        assert!(full().faults().is_empty());
        let mut less = full();
        less.reads.runs[17] = 0;
        less.equal[2] = 0;
        less.reads.full[9] = 0;
        less.uncounted[7] = 0;
        less.last[1] = 0;
        less.texts[Call::Lookup as usize].both -= 1;
        less.repairs.table[13] = 0;
        let missing = [
            "full: answer 9 came 0 times",
            "runs: answer 17 came 0 times",
            "table: answer 13 came 0 times",
            "read: no equal time behind a table",
            "read: no block 8 that cannot be counted",
            "read: not the end behind it",
            "Lookup: only 100 later texts, 100 inside one, 99 both",
        ];
        assert_eq!(less.faults(), missing);
        let mut more = full();
        more.reads.lookup[18] = 3;
        assert_eq!(more.faults(), ["lookup: answer 18 came 3 times"]);
        assert_eq!(
            Tally::default().faults().len(),
            15 + 7 + 12 + 12 + 12 + 13 + 8 + (1 + 6 + 7 + 9) + 3 + 3 + 8 + 3 + 5
        );
    }
}
