//! Archives: sets of volumes whose files lie in several of them.
//!
//! Every volume is sound, unless the kind says that one is damaged. A few
//! files name bytes that no volume has; such files are sound inodes still.

mod log;
mod spans;
mod spoil;

use crate::digest::Sha256;
use crate::rng::Rng;
use crate::{image, pair};
use log::{Log, Piece};

const TOP: u64 = u64::MAX;

/// How a set was made.
#[derive(Clone, Copy, Debug, PartialEq, Eq, PartialOrd, Ord)]
pub enum Kind {
    /// Volumes 0, 1, 2 and so on, none left out.
    Whole,
    /// At least one of them is left out.
    Gaps,
    /// Sequence numbers with much room between them, around 4,096 and at the top.
    Far,
    /// One volume has another file system ID.
    Foreign,
    /// Two volumes have the same sequence number.
    Double,
    /// One volume is refused.
    Damaged,
    /// One volume is refused, mostly for a text.
    NotText,
}

impl Kind {
    pub const ALL: [Kind; 7] = [
        Kind::Whole,
        Kind::Gaps,
        Kind::Far,
        Kind::Foreign,
        Kind::Double,
        Kind::Damaged,
        Kind::NotText,
    ];

    /// Whether such a set is one archive.
    pub fn is_sound(self) -> bool {
        matches!(self, Kind::Whole | Kind::Gaps | Kind::Far)
    }
}

/// A set of volumes and what to ask about it.
#[derive(Clone, Debug)]
pub struct Archive {
    pub seed: u64,
    pub kind: Kind,
    /// In the order in which they are handed over, which is any.
    pub volumes: Vec<Vec<u8>>,
    /// Inode numbers to ask for; some have no inode.
    pub numbers: Vec<u64>,
}

/// The archive of a seed: 1 to 12 volumes, mostly of a few KB. A double makes it 13.
/// Previous hashes are anything.
pub fn archive(seed: u64) -> Archive {
    made(seed, None)
}

/// The archive of the same seed, with true hashes: a volume has the digest of
/// the one whose number is one below, if that is made too. What is left out
/// or changed afterwards, as the kind says, breaks the chain there.
pub fn chained(seed: u64, sha256: Sha256) -> Archive {
    made(seed, Some(sha256))
}

fn made(seed: u64, sha256: Option<Sha256>) -> Archive {
    let mut rng = Rng::new(seed);
    let kind = match rng.below(20) {
        0..=9 => Kind::Whole,
        10 | 11 => Kind::NotText,
        12..=14 => Kind::Gaps,
        15 => Kind::Far,
        16 => Kind::Foreign,
        17 | 18 => Kind::Double,
        _ => Kind::Damaged,
    };
    of_kind(seed, rng, kind, sha256)
}

fn of_kind(seed: u64, mut rng: Rng, kind: Kind, sha256: Option<Sha256>) -> Archive {
    let sequences = sequences(&mut rng, kind);
    let mut log = Log::new(&mut rng);
    let mut volumes = volumes(&mut rng, &mut log, &sequences);
    if let Some(sha256) = sha256 {
        chain(&mut volumes, &sequences, sha256);
    }
    match kind {
        Kind::Whole | Kind::Far => {}
        Kind::Gaps => spoil::leave_out(&mut rng, &mut volumes),
        Kind::Foreign => spoil::foreign(&mut rng, &mut volumes),
        Kind::Double => spoil::double(&mut rng, &mut volumes),
        Kind::Damaged => spoil::damage(&mut rng, &mut volumes),
        Kind::NotText => spoil::bad_text(&mut rng, &mut volumes),
    }
    rng.shuffle(&mut volumes);
    let mut numbers = log.numbers;
    numbers.push(rng.number());
    Archive {
        seed,
        kind,
        volumes,
        numbers,
    }
}

/// The volumes' numbers, rising.
fn sequences(rng: &mut Rng, kind: Kind) -> Vec<u64> {
    // Where a volume is left out or changed, another one is needed.
    let least = if matches!(kind, Kind::Gaps | Kind::Foreign) {
        2
    } else {
        1
    };
    if kind != Kind::Far {
        return (0..rng.between(least, 12)).collect();
    }
    let mut far = [
        0,
        1,
        2,
        4_094,
        4_095,
        4_096,
        4_097,
        1 << 32,
        1 << 63,
        TOP - 1,
        TOP,
    ];
    rng.shuffle(&mut far);
    let mut sequences = far[..rng.between(1, 6) as usize].to_vec();
    sequences.sort_unstable();
    sequences
}

/// The volumes in rising order. All blocks are laid out first, so that every
/// extent can name any byte of any volume, before or after its inode.
fn volumes(rng: &mut Rng, log: &mut Log, sequences: &[u64]) -> Vec<Vec<u8>> {
    let plans: Vec<Vec<Piece>> = sequences
        .iter()
        .map(|&sequence| log.volume(rng, sequence))
        .collect();
    let length = |plan: &Vec<Piece>| -> u64 { plan.iter().map(Piece::length).sum() };
    let lengths: Vec<(u64, u64)> = sequences
        .iter()
        .zip(&plans)
        .map(|(&sequence, plan)| (sequence, length(plan)))
        .collect();
    plans
        .iter()
        .map(|plan| {
            let image = |piece: &Piece| spans::image(rng, &lengths, piece);
            plan.iter().flat_map(image).collect()
        })
        .collect()
}

/// Gives each volume the digest of the one before it, from the lowest number
/// on, since a hash is part of what is digested next.
fn chain(volumes: &mut [Vec<u8>], sequences: &[u64], sha256: Sha256) {
    for place in 1..volumes.len() {
        if sequences[place - 1].checked_add(1) == Some(sequences[place]) {
            let (before, after) = volumes.split_at_mut(place);
            pair::link(&before[place - 1], &mut after[0], sha256);
        }
    }
}

/// The archive as text, for reports of failures; the seed gives the bytes.
pub fn describe(archive: &Archive) -> String {
    let volumes: Vec<String> = archive.volumes.iter().map(|v| outline(v)).collect();
    format!(
        "archive of seed {}, {:?}\nvolumes {}\ninodes {:?}\n",
        archive.seed,
        archive.kind,
        volumes.join(", "),
        archive.numbers
    )
}

/// The number that stands where a header has its sequence number, and the length.
fn outline(volume: &[u8]) -> String {
    let sequence = volume.get(image::SEQUENCE).map_or(0, |field| {
        u64::from_le_bytes(field.try_into().expect("eight bytes"))
    });
    format!("{sequence}: {} bytes", volume.len())
}
