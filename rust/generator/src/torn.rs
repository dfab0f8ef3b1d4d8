//! Volumes as they are left when power is lost during an append, and others
//! that look like these or were damaged in another way.

mod damaged;
mod edge;

pub use damaged::{damaged, Damaged, Kind};
pub use edge::{edges, Edge};

use crate::draft::{any_sequence, Draft};
use crate::hex;
use crate::rng::Rng;

/// The most bytes of a drawn volume, so that it can be cut at every byte.
pub const MOST: usize = 1_500;

/// What repair answers: 0 and how many bytes are kept, or the number of the
/// refusal and 0.
pub type Answer = (u64, u64);

const fn kept(length: usize) -> Answer {
    (0, length as u64)
}

const fn refused(number: u64) -> Answer {
    (number, 0)
}

/// A sound volume, to be cut. Its last block is not a table.
#[derive(Clone, Debug)]
pub struct Whole {
    pub seed: u64,
    pub volume: Vec<u8>,
    /// The lengths of its sound beginnings, rising. The last one is its own.
    pub beginnings: Vec<usize>,
    /// Where its last block begins.
    pub last: usize,
}

impl Whole {
    /// What repair answers if the volume ends after so many bytes. Before the
    /// header and a due table are whole there is nothing to keep.
    pub fn cut(&self, length: usize) -> Answer {
        let mut longest = self.beginnings.iter().rev();
        let whole = longest.find(|&&end| end <= length);
        whole.map_or(refused(2), |&end| kept(end))
    }
}

/// The whole volume of a seed.
pub fn whole(seed: u64) -> Whole {
    let draft = small(&mut Rng::new(seed));
    let places = draft.places.iter().map(|&place| place as usize);
    // No volume ends where a table is due.
    let beginnings = places.skip(usize::from(draft.sequence > 0));
    let beginnings: Vec<usize> = beginnings.chain([draft.bytes.len()]).collect();
    Whole {
        seed,
        last: beginnings[beginnings.len() - 2],
        beginnings,
        volume: draft.bytes,
    }
}

/// A sound volume with at least one block that is not a table. Too long ones
/// are drawn again.
fn small(rng: &mut Rng) -> Draft {
    loop {
        let sequence = any_sequence(rng);
        let mut draft = Draft::new(rng, sequence);
        draft.table_if_due(rng);
        let many = rng.between(1, 6);
        draft.blocks(rng, many);
        if draft.bytes.len() <= MOST {
            return draft;
        }
    }
}

/// The volume as text, for reports of failures.
pub fn describe(whole: &Whole) -> String {
    format!(
        "whole volume of seed {}\nbeginnings: {:?}\nvolume: {}\n",
        whole.seed,
        whole.beginnings,
        hex(&whole.volume)
    )
}

/// The damaged volume as text, for reports of failures.
pub fn describe_damaged(damaged: &Damaged) -> String {
    format!(
        "damaged volume of seed {}\nkind: {:?}\nexpected: {:?}\nvolume: {}\n",
        damaged.seed,
        damaged.kind,
        damaged.expected,
        hex(&damaged.volume)
    )
}
