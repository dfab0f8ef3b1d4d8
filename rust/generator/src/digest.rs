//! Bytes to digest, cut into parts, and made-up states to feed the parts to.
//!
//! No digest is worked out here. Whoever needs one lends a function for it.

use std::fmt::Write;

use crate::hex;
use crate::image::LIMIT;
use crate::rng::Rng;

const TOP: u64 = u64::MAX;

/// Works out the digest of at most 16,777,216 bytes.
pub type Sha256 = fn(&[u8]) -> [u8; 32];

/// What a state has for words before anything is fed.
pub const START: [u32; 8] = [
    0x6A09E667, 0xBB67AE85, 0x3C6EF372, 0xA54FF53A, 0x510E527F, 0x9B05688C, 0x1F83D9AB, 0x5BE0CD19,
];

/// Lengths around one block and two, and around those from which the padding
/// takes a block more.
pub const EDGES: [usize; 16] = [
    0, 1, 2, 54, 55, 56, 57, 62, 63, 64, 65, 119, 120, 127, 128, 129,
];

/// A made-up or true state of a digest.
#[derive(Clone, Debug, PartialEq, Eq)]
pub struct State {
    pub words: [u32; 8],
    pub fed: u64,
    pub held: [u8; 64],
}

impl State {
    /// The state in the bytes that it is lent as.
    pub fn bytes(&self) -> [u8; 104] {
        let words = self.words.map(u32::to_le_bytes).concat();
        let bytes = [&words[..], &self.fed.to_le_bytes(), &self.held].concat();
        bytes.try_into().expect("104 bytes")
    }
}

/// Bytes to digest, as a whole and in parts.
#[derive(Clone, Debug)]
pub struct Digest {
    pub seed: u64,
    pub bytes: Vec<u8>,
    /// Where the bytes are cut, rising, and here and there twice at one place.
    pub cuts: Vec<usize>,
    /// A made-up state, to be fed the same parts.
    pub state: State,
    /// The state as it is lent, with bytes missing or with some behind it.
    pub lent: Vec<u8>,
    /// What is lent for a digest: mostly, but not always, enough.
    pub out: Vec<u8>,
}

impl Digest {
    /// The bytes part by part: one more than there are cuts.
    pub fn parts(&self) -> impl Iterator<Item = &[u8]> {
        let ends = self.cuts.iter().copied().chain([self.bytes.len()]);
        let mut from = 0;
        ends.map(move |end| {
            let part = &self.bytes[from..end];
            from = end;
            part
        })
    }
}

/// The digest of a seed. Few have 16 MiB, or one byte more or less.
pub fn digest(seed: u64) -> Digest {
    let mut rng = Rng::new(seed);
    let length = if rng.once_in(1_500) {
        LIMIT - 1 + rng.index(3)
    } else {
        any_length(&mut rng)
    };
    of_length(seed, rng, length)
}

/// Every edge of lengths and of numbers once, those of 16 MiB included.
pub fn edges() -> impl Iterator<Item = Digest> {
    let of_lengths = (0..=200).chain([LIMIT - 1, LIMIT, LIMIT + 1]);
    let lengths = of_lengths.zip(0..).map(|(length, seed)| {
        let mut digest = of_length(seed, Rng::new(seed), length);
        digest.lent = digest.state.bytes().to_vec();
        digest.out.resize(32, 7);
        digest
    });
    let numbers = numbers().into_iter().flat_map(|number| {
        [0, 1, 63, 64, 65, 130].map(|length| {
            let mut digest = of_length(number, Rng::new(number), length);
            digest.cuts.clear();
            digest.state.fed = number;
            digest.lent = digest.state.bytes().to_vec();
            digest.out.resize(32, 7);
            digest
        })
    });
    lengths.chain(numbers)
}

/// Numbers of bytes fed that stand at an edge.
fn numbers() -> Vec<u64> {
    let limit = LIMIT as u64;
    let mut list: Vec<u64> = (0..=130).chain(limit - 131..=limit + 65).collect();
    list.extend((TOP - 131)..=TOP);
    // Times eight these are powers of two, or a little more.
    for power in [32, 61, 63] {
        list.extend([(1 << power) - 1, 1 << power, (1 << power) + 3]);
    }
    list
}

fn of_length(seed: u64, mut rng: Rng, length: usize) -> Digest {
    let bytes = match rng.below(12) {
        0 => vec![0; length],
        1 => vec![rng.pick(&[0x80, 0xFF, b'a']); length],
        _ => rng.bytes(length),
    };
    let cuts = any_cuts(&mut rng, length);
    let state = any_state(&mut rng, length as u64);
    let lent = any_lent(&mut rng, &state);
    let room = match rng.below(12) {
        0 => rng.index(32),
        1 => 31,
        2 | 3 => 33 + rng.index(20),
        _ => 32,
    };
    let out = rng.bytes(room);
    Digest {
        seed,
        bytes,
        cuts,
        state,
        lent,
        out,
    }
}

fn any_length(rng: &mut Rng) -> usize {
    match rng.below(60) {
        0..=29 => rng.pick(&EDGES),
        30..=41 => rng.index(300),
        42..=53 => 64 * (1 + rng.index(40)) + rng.index(5) - 2,
        54..=58 => rng.index(5_000),
        _ => rng.index(70_000),
    }
}

/// Where so many bytes are cut.
fn any_cuts(rng: &mut Rng, length: usize) -> Vec<usize> {
    let mut cuts = match rng.below(7) {
        0 => vec![],
        1 | 2 => vec![rng.index(length + 1)],
        3 => {
            // All parts but the last of one length.
            let step = match rng.below(3) {
                0 => 1,
                1 => rng.pick(&[2, 63, 64, 65, 128]),
                _ => 1 + rng.index(200),
            };
            let step = step.max(length / 500);
            (step..length).step_by(step).collect()
        }
        4 => {
            // The first part ends near the end of a block.
            let ends = rng.pick(&EDGES).min(length);
            vec![ends, ends + rng.index(length - ends + 1)]
        }
        _ => {
            let many = rng.between(2, 12);
            (0..many).map(|_| rng.index(length + 1)).collect()
        }
    };
    // A part without bytes, at the front, at the end or anywhere.
    if rng.once_in(4) {
        let place = match rng.below(3) {
            0 => 0,
            1 => length,
            _ => cuts.first().copied().unwrap_or(0),
        };
        cuts.push(place);
    }
    cuts.sort_unstable();
    cuts
}

fn any_state(rng: &mut Rng, length: u64) -> State {
    let words = match rng.below(6) {
        0 => [0; 8],
        1 => [u32::MAX; 8],
        2 | 3 => START,
        _ => std::array::from_fn(|_| rng.word() as u32),
    };
    let mut held = [rng.pick(&[0, 0x80, 0xFF]); 64];
    if !rng.once_in(8) {
        held.fill_with(|| rng.word() as u8);
    }
    State {
        words,
        fed: any_number(rng, length),
        held,
    }
}

/// A made-up number, for a state that so many bytes are to be fed to.
fn any_number(rng: &mut Rng, length: u64) -> u64 {
    let limit = LIMIT as u64;
    let step = rng.below(5);
    match rng.below(15) {
        0 => step,
        1 | 2 => rng.below(200),
        3 | 4 => 64 * rng.below(limit / 64) + step,
        5 | 6 => 64 * rng.between(1, limit / 64) - step,
        7 => limit - rng.below(200),
        // All parts just fit, or do not.
        8..=10 => (limit + 2 - step).saturating_sub(length),
        11 => limit + 1 + rng.below(200),
        // With all parts it is 2^64, or nearly so.
        12 => step.wrapping_sub(2).wrapping_sub(length),
        13 => TOP - rng.below(200),
        _ => rng.number(),
    }
}

fn any_lent(rng: &mut Rng, state: &State) -> Vec<u8> {
    let mut lent = state.bytes().to_vec();
    match rng.below(12) {
        0 => lent.truncate(rng.index(104)),
        1 => lent.truncate(103),
        2 | 3 => {
            let many = 1 + rng.index(20);
            let behind = rng.bytes(many);
            lent.extend(behind);
        }
        _ => {}
    }
    lent
}

/// The digest as text, for reports of failures.
pub fn describe(digest: &Digest) -> String {
    let mut text = String::new();
    let mut line = |name: &str, value: String| {
        writeln!(text, "{name}: {value}").expect("a string takes all text");
    };
    line("digest of seed", digest.seed.to_string());
    line("bytes", hex(&digest.bytes));
    line("cuts", format!("{:?}", digest.cuts));
    line("state", hex(&digest.state.bytes()));
    line("number fed", digest.state.fed.to_string());
    line("lent", hex(&digest.lent));
    line("out", hex(&digest.out));
    text
}
