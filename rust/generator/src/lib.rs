//! Volumes and questions about them, made from a seed.
//!
//! The same seed gives the same case on every machine. Bytes are put
//! together here alone, so that a mistake in an implementation under test
//! cannot hide behind the same mistake in its inputs.

#![forbid(unsafe_code)]

pub mod archive;
pub mod bench;
pub mod damage;
pub mod digest;
pub mod draft;
pub mod edge;
pub mod extents;
pub mod fault;
pub mod image;
pub mod number;
pub mod pair;
mod question;
pub mod rng;
pub mod text;
pub mod texts;
pub mod time;
pub mod torn;
pub mod tree;

use std::fmt::Write;

use draft::Draft;
use rng::Rng;
use texts::Fault;

/// A made-up or true bookmark.
#[derive(Clone, Copy, Debug, PartialEq, Eq)]
pub struct Mark {
    pub offset: u64,
    pub due: bool,
    pub last: Option<u64>,
    /// How many blocks stand before it, or are said to.
    pub number: u64,
}

/// The verdict on the whole volume, as far as its making fixes it.
#[derive(Clone, Copy, Debug, PartialEq, Eq)]
pub enum Expected {
    Unknown,
    Accepted,
    Refused {
        number: u64,
        /// The text at fault, if the number is 10; else its numbers are 0.
        fault: Fault,
        offset: u64,
        blocks: u64,
    },
}

/// A volume and what to ask about it.
#[derive(Clone, Debug)]
pub struct Case {
    pub seed: u64,
    /// How it was made, for reports.
    pub kind: String,
    pub volume: Vec<u8>,
    /// Eight bytes for each volume; not always whole.
    pub lengths: Vec<u8>,
    /// Where to look for inodes; not all of these are inodes.
    pub inode_offsets: Vec<u64>,
    pub positions: Vec<u64>,
    pub ranges: Vec<(u64, u64)>,
    /// Room for runs, in numbers.
    pub room: usize,
    pub bookmarks: Vec<Mark>,
    /// A second volume, and what to fetch: number, offset, length.
    pub other: Vec<u8>,
    pub fetches: Vec<(u64, u64, u64)>,
    pub expected: Expected,
}

/// The case of a seed. Few have 16 MiB.
pub fn case(seed: u64) -> Case {
    let mut rng = Rng::new(seed);
    if rng.once_in(1_250) {
        if rng.once_in(3) {
            return by_plan(seed, rng, 1);
        }
        let kind = edge::SMALL + rng.below(edge::LARGE);
        return at_edge(seed, rng, kind);
    }
    match rng.below(1_000) {
        0..=80 => {
            let kind = rng.below(edge::SMALL);
            at_edge(seed, rng, kind)
        }
        81..=430 => {
            // A text has so many ways to be at fault that it is planned more often.
            let number = match rng.below(6) {
                0 => 10,
                _ => rng.pick(&fault::OF_A_VOLUME[1..]),
            };
            by_plan(seed, rng, number)
        }
        431..=680 => {
            let draft = damage::damaged(&mut rng);
            finish(seed, rng, "damaged".into(), draft, Expected::Unknown)
        }
        681..=700 => {
            let draft = noise(&mut rng);
            finish(seed, rng, "noise".into(), draft, Expected::Unknown)
        }
        _ => {
            let draft = Draft::sound(&mut rng);
            finish(seed, rng, "sound".into(), draft, Expected::Accepted)
        }
    }
}

/// Every kind of edge once, those of 16 MiB included.
pub fn edges() -> impl Iterator<Item = Case> {
    (0..edge::COUNT).map(|kind| {
        let mut case = at_edge(kind, Rng::new(kind), kind);
        case.bookmarks.extend(edge::bookmarks(kind));
        case
    })
}

fn at_edge(seed: u64, mut rng: Rng, kind: u64) -> Case {
    let (draft, expected) = edge::edge(&mut rng, kind);
    finish(seed, rng, format!("edge {kind}"), draft, expected)
}

fn by_plan(seed: u64, mut rng: Rng, number: u64) -> Case {
    let planned = fault::planned(&mut rng, number);
    let expected = Expected::Refused {
        number,
        fault: planned.fault,
        offset: planned.offset,
        blocks: planned.blocks,
    };
    let kind = format!("refusal {number}");
    finish(seed, rng, kind, planned.draft, expected)
}

/// A header and random bytes that begin like a block.
fn noise(rng: &mut Rng) -> Draft {
    let sequence = draft::any_sequence(rng);
    let mut draft = Draft::new(rng, sequence);
    for _ in 0..rng.between(1, 4) {
        let length = 1 + rng.index(200);
        let mut bytes = rng.bytes(length);
        bytes[0] = rng.below(10) as u8;
        // Many zeros, so that length fields are small.
        for byte in &mut bytes[1..] {
            if rng.once_in(2) {
                *byte = 0;
            }
        }
        draft.push(&bytes);
    }
    if rng.once_in(2) {
        image::mend(&mut draft.bytes);
    }
    draft
}

fn finish(seed: u64, mut rng: Rng, kind: String, draft: Draft, expected: Expected) -> Case {
    let mut case = Case {
        seed,
        kind,
        volume: Vec::new(),
        lengths: Vec::new(),
        inode_offsets: Vec::new(),
        positions: Vec::new(),
        ranges: Vec::new(),
        room: 0,
        bookmarks: Vec::new(),
        other: Vec::new(),
        fetches: Vec::new(),
        expected,
    };
    question::ask(&mut rng, &mut case, &draft);
    case.volume = draft.bytes;
    case
}

/// The case as text, for reports of failures. Of very long volumes only the
/// beginning and the end are printed; the seed gives the rest.
pub fn describe(case: &Case) -> String {
    let mut text = String::new();
    let mut line = |name: &str, value: String| {
        writeln!(text, "{name}: {value}").expect("a string takes all text");
    };
    line("seed", case.seed.to_string());
    line("kind", case.kind.clone());
    line("expected", format!("{:?}", case.expected));
    line("volume", hex(&case.volume));
    line("lengths", hex(&case.lengths));
    line("inode offsets", format!("{:?}", case.inode_offsets));
    line("positions", format!("{:?}", case.positions));
    line("ranges", format!("{:?}", case.ranges));
    line("room", case.room.to_string());
    line("bookmarks", format!("{:?}", case.bookmarks));
    line("other", hex(&case.other));
    line("fetches", format!("{:?}", case.fetches));
    text
}

/// The length and the bytes in hexadecimal.
pub fn hex(bytes: &[u8]) -> String {
    const MOST: usize = 1 << 17;
    const SHOWN: usize = 1 << 10;
    let mut text = format!("{} bytes ", bytes.len());
    let mut put = |part: &[u8]| {
        for byte in part {
            write!(text, "{byte:02x}").expect("a string takes all text");
        }
    };
    if bytes.len() <= MOST {
        put(bytes);
    } else {
        put(&bytes[..SHOWN]);
        let tail = hex(&bytes[bytes.len() - SHOWN..]);
        write!(text, " .. ends in {tail}").expect("a string takes all text");
    }
    text
}
