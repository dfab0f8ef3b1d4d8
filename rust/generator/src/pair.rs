//! Pairs of volumes of which the second follows on the first, or not.
//!
//! The digests that link them are not worked out here: see [`Sha256`].

use std::fmt::Write;

use crate::digest::Sha256;
use crate::draft::{any_sequence, Draft};
use crate::fault::{self, Planned};
use crate::hex;
use crate::image::{self, LIMIT};
use crate::rng::Rng;
use crate::texts::Fault;

const TOP: u64 = u64::MAX;

/// The refusal of a pair of accepted volumes.
pub const NOT_NEXT: u64 = 23;

/// How a pair was made.
#[derive(Clone, Copy, Debug, PartialEq, Eq, PartialOrd, Ord)]
pub enum Kind {
    /// The second follows on the first.
    Chained,
    /// The previous hash is not the first's digest.
    Hash,
    /// The file system IDs differ.
    Foreign,
    /// The second's number is not one above the first's.
    Number,
    /// The first's number is the highest, and the second is volume 0.
    Wrapped,
    /// Two or three of these differ.
    Several,
    /// The second follows on the first, but they are given the other way round.
    Exchanged,
    /// Both are one and the same volume.
    Same,
    /// The first is refused, the second not.
    FirstRefused,
    /// The second is refused, the first not.
    SecondRefused,
    /// Both are refused.
    BothRefused,
    /// The second followed on the first before a bit of one was changed.
    Damaged,
}

impl Kind {
    pub const ALL: [Kind; 12] = [
        Kind::Chained,
        Kind::Hash,
        Kind::Foreign,
        Kind::Number,
        Kind::Wrapped,
        Kind::Several,
        Kind::Exchanged,
        Kind::Same,
        Kind::FirstRefused,
        Kind::SecondRefused,
        Kind::BothRefused,
        Kind::Damaged,
    ];
}

/// The answer for a pair; all is 0 if it is accepted.
#[derive(Clone, Copy, Debug, Default, PartialEq, Eq)]
pub struct Expected {
    pub number: u64,
    /// The text at fault, if the number is 10; else its numbers are 0.
    pub fault: Fault,
    /// 1 or 2 for a volume's own refusal.
    pub which: u64,
    pub offset: u64,
}

impl Expected {
    const NOT_NEXT: Expected = Expected {
        number: NOT_NEXT,
        fault: Fault { text: 0, start: 0 },
        which: 0,
        offset: 0,
    };

    fn of(planned: &Planned, which: u64) -> Expected {
        Expected {
            number: planned.number,
            fault: planned.fault,
            which,
            offset: planned.offset,
        }
    }
}

/// Two volumes, and what is to be said of them.
#[derive(Clone, Debug)]
pub struct Pair {
    pub seed: u64,
    pub kind: Kind,
    pub first: Vec<u8>,
    pub second: Vec<u8>,
    /// The answer, as far as the making fixes it.
    pub expected: Option<Expected>,
}

/// The pair of a seed. Few volumes have 16 MiB.
pub fn pair(seed: u64, sha256: Sha256) -> Pair {
    let mut rng = Rng::new(seed);
    let kind = match rng.below(30) {
        0..=8 => Kind::Chained,
        9..=11 => Kind::Hash,
        12 | 13 => Kind::Foreign,
        14..=16 => Kind::Number,
        17 => Kind::Wrapped,
        18 | 19 => Kind::Several,
        20 => Kind::Exchanged,
        21 => Kind::Same,
        22 | 23 => Kind::FirstRefused,
        24..=26 => Kind::SecondRefused,
        27 => Kind::BothRefused,
        _ => Kind::Damaged,
    };
    of_kind(seed, &mut rng, kind, sha256)
}

fn of_kind(seed: u64, rng: &mut Rng, kind: Kind, sha256: Sha256) -> Pair {
    let (first, second, expected) = match kind {
        Kind::FirstRefused => first_refused(rng, sha256),
        Kind::SecondRefused => second_refused(rng, sha256),
        Kind::BothRefused => both_refused(rng, sha256),
        _ => {
            let (first, second) = accepted(rng, kind, sha256);
            let expected = match kind {
                Kind::Chained => Some(Expected::default()),
                Kind::Damaged => None,
                _ => Some(Expected::NOT_NEXT),
            };
            (first, second, expected)
        }
    };
    Pair {
        seed,
        kind,
        first,
        second,
        expected,
    }
}

/// A sound volume with this number.
fn sound(rng: &mut Rng, sequence: u64) -> Vec<u8> {
    let mut draft = Draft::new(rng, sequence);
    draft.table_if_due(rng);
    let many = rng.below(5);
    draft.blocks(rng, many);
    draft.bytes
}

/// The number that stands in a header.
fn sequence(volume: &[u8]) -> u64 {
    let field = volume[image::SEQUENCE].try_into();
    u64::from_le_bytes(field.expect("eight bytes"))
}

/// Puts the ID of the first into the header of the second and, unless that is
/// volume 0, the first's digest.
pub fn link(first: &[u8], second: &mut [u8], sha256: Sha256) {
    second[image::FILE_SYSTEM].copy_from_slice(&first[image::FILE_SYSTEM]);
    if sequence(second) > 0 {
        second[image::PREVIOUS].copy_from_slice(&sha256(first));
    }
    image::reseal(&mut second[..80]);
}

/// A number that has one above it.
fn first_sequence(rng: &mut Rng) -> u64 {
    any_sequence(rng).min(TOP - 1)
}

/// Two sound volumes, linked as far as the kind allows.
fn accepted(rng: &mut Rng, kind: Kind, sha256: Sha256) -> (Vec<u8>, Vec<u8>) {
    let number = match kind {
        Kind::Wrapped => TOP,
        Kind::Number => any_sequence(rng),
        _ => first_sequence(rng),
    };
    let first = sound(rng, number);
    let other_number = kind == Kind::Number || kind == Kind::Several && rng.once_in(2);
    let next = match kind {
        Kind::Wrapped => 0,
        _ if other_number => not_next(rng, number),
        _ => number + 1,
    };
    let mut second = sound(rng, next);
    link(&first, &mut second, sha256);
    match kind {
        Kind::Hash => other_hash(rng, &first, &mut second, sha256),
        Kind::Foreign => other_id(rng, &mut second),
        Kind::Several => {
            // Volume 0 can have no hash, right or wrong.
            if next > 0 {
                other_hash(rng, &first, &mut second, sha256);
            }
            other_id(rng, &mut second);
        }
        Kind::Exchanged => return (second, first),
        Kind::Same => return (first.clone(), first),
        Kind::Damaged => return damaged(rng, first, second),
        _ => {}
    }
    (first, second)
}

/// A number that is not one above this one, but mostly close to it.
fn not_next(rng: &mut Rng, number: u64) -> u64 {
    let other = match rng.below(9) {
        0 | 1 => number,
        2..=4 => number.wrapping_add(2),
        5 => number.wrapping_sub(1),
        6 => number.wrapping_add(1) ^ 1 << rng.below(64),
        7 => number.wrapping_add(1).swap_bytes(),
        _ => any_sequence(rng),
    };
    // Nothing comes after the highest number.
    if Some(other) == number.checked_add(1) {
        number
    } else {
        other
    }
}

/// Gives a volume another file system ID, mostly one bit apart.
fn other_id(rng: &mut Rng, volume: &mut [u8]) {
    let id = &mut volume[image::FILE_SYSTEM];
    match rng.below(6) {
        0 => id.iter_mut().for_each(|byte| *byte = !*byte),
        // The halves the other way round, unless both are the same.
        1 if id[..8] != id[8..] => id.rotate_left(8),
        _ => id[rng.index(16)] ^= 1 << rng.below(8),
    }
    image::reseal(&mut volume[..80]);
}

/// Gives the second volume a hash that is not the first's digest, but mostly
/// has something to do with it.
fn other_hash(rng: &mut Rng, first: &[u8], second: &mut [u8], sha256: Sha256) {
    let right = sha256(first);
    let mut hash = right;
    match rng.below(14) {
        0 => hash = [0; 32],
        1 => hash.reverse(),
        // As if the words of a digest were little-endian.
        2 => hash
            .as_chunks_mut::<4>()
            .0
            .iter_mut()
            .for_each(|w| w.reverse()),
        3 => hash = sha256(&first[..first.len() - 1]),
        4 => hash = sha256(&first[..80]),
        5 => hash = sha256(second),
        6 => hash.copy_from_slice(&first[image::PREVIOUS]),
        7 => hash = sha256(&right),
        8 => hash.fill_with(|| rng.word() as u8),
        9 => hash[31] ^= 1,
        10 => hash[0] ^= 0x80,
        _ => hash[rng.index(32)] ^= 1 << rng.below(8),
    }
    // The first may be nothing but a header.
    if hash == right {
        hash[rng.index(32)] ^= 1 << rng.below(8);
    }
    second[image::PREVIOUS].copy_from_slice(&hash);
    image::reseal(&mut second[..80]);
}

/// Changes a bit of one of both.
fn damaged(rng: &mut Rng, mut first: Vec<u8>, mut second: Vec<u8>) -> (Vec<u8>, Vec<u8>) {
    let volume = if rng.once_in(2) {
        &mut first
    } else {
        &mut second
    };
    let at = rng.index(volume.len());
    volume[at] ^= 1 << rng.below(8);
    if rng.once_in(2) {
        image::mend(volume);
    }
    (first, second)
}

/// A volume that is refused, seldom for being too long.
fn refused(rng: &mut Rng) -> Planned {
    let number = match rng.below(200) {
        0 => 1,
        1..=30 => 10,
        _ => rng.pick(&fault::OF_A_VOLUME[1..]),
    };
    fault::planned(rng, number)
}

/// Whether a volume has a header that a digest can be taken with.
fn can_be_linked(volume: &[u8]) -> bool {
    (80..=LIMIT).contains(&volume.len())
}

type Made = (Vec<u8>, Vec<u8>, Option<Expected>);

/// The second follows on the refused one where there is enough of it.
fn first_refused(rng: &mut Rng, sha256: Sha256) -> Made {
    let planned = refused(rng);
    let first = &planned.draft.bytes;
    let second = if can_be_linked(first) {
        let next = sequence(first).checked_add(1);
        let mut second = sound(rng, next.unwrap_or(TOP));
        link(first, &mut second, sha256);
        second
    } else {
        let next = any_sequence(rng);
        sound(rng, next)
    };
    let expected = Expected::of(&planned, 1);
    (planned.draft.bytes, second, Some(expected))
}

/// The refused one has all that it needs to follow on the first, if its
/// header is not what it is refused for.
fn second_refused(rng: &mut Rng, sha256: Sha256) -> Made {
    let mut planned = refused(rng);
    let (first, expected) = before(rng, &mut planned, sha256);
    (first, planned.draft.bytes, Some(expected))
}

/// A sound volume before a refused one.
fn before(rng: &mut Rng, planned: &mut Planned, sha256: Sha256) -> (Vec<u8>, Expected) {
    let second = &mut planned.draft.bytes;
    let in_header = planned.offset < 80;
    let first = match sequence_before(second) {
        Some(number) if !rng.once_in(5) => sound(rng, number),
        _ => {
            let number = any_sequence(rng);
            sound(rng, number)
        }
    };
    if !in_header && can_be_linked(second) {
        link(&first, second, sha256);
    }
    (first, Expected::of(planned, 2))
}

/// The number below the one of a header, if there are both.
fn sequence_before(volume: &[u8]) -> Option<u64> {
    if volume.len() < 80 {
        return None;
    }
    sequence(volume).checked_sub(1)
}

/// Both have a fault of their own, and the first one's decides.
fn both_refused(rng: &mut Rng, sha256: Sha256) -> Made {
    let one = refused(rng);
    let mut two = refused(rng);
    let first = &one.draft.bytes;
    if two.offset >= 80 && can_be_linked(first) && can_be_linked(&two.draft.bytes) {
        link(first, &mut two.draft.bytes, sha256);
    }
    let expected = Expected::of(&one, 1);
    (one.draft.bytes, two.draft.bytes, Some(expected))
}

/// Pairs that the rules name, and others with each byte that counts wrong.
pub fn edges(sha256: Sha256) -> Vec<Pair> {
    let id = [0; 16];
    let sample = [image::header(0, &id, &[0; 32]), image::data(7, b"1,5")].concat();
    // Volume 0 has neither a hash nor a table.
    let empty = |id: &[u8; 16], sequence: u64, previous: &[u8; 32]| match sequence {
        0 => image::header(0, id, &[0; 32]),
        _ => [image::header(sequence, id, previous), image::table(0, b"")].concat(),
    };
    let hash = sha256(&sample);
    let next = empty(&id, 1, &hash);
    let mut list = Vec::new();
    let mut add = |kind: Kind, first: &[u8], second: &[u8], expected: Expected| {
        let seed = list.len() as u64;
        list.push(Pair {
            seed,
            kind,
            first: first.to_vec(),
            second: second.to_vec(),
            expected: Some(expected),
        });
    };
    let no = Expected::NOT_NEXT;
    add(Kind::Chained, &sample, &next, Expected::default());
    add(Kind::Exchanged, &next, &sample, no);
    add(Kind::Same, &sample, &sample, no);
    add(Kind::Same, &next, &next, no);
    for byte in 0..32 {
        let mut hash = hash;
        hash[byte] ^= 1 << (byte % 8);
        add(Kind::Hash, &sample, &empty(&id, 1, &hash), no);
    }
    for byte in 0..16 {
        let mut id = id;
        id[byte] ^= 1 << (byte % 8);
        add(Kind::Foreign, &sample, &empty(&id, 1, &hash), no);
    }
    for number in [2, 3, 257, 1 << 32, 1 << 56, TOP] {
        add(Kind::Number, &sample, &empty(&id, number, &hash), no);
    }
    for number in [1, 255, 256, (1 << 32) - 1, 1 << 63, TOP - 1, TOP] {
        let first = empty(&id, number, &[9; 32]);
        let hash = sha256(&first);
        if let Some(next) = number.checked_add(1) {
            add(
                Kind::Chained,
                &first,
                &empty(&id, next, &hash),
                Expected::default(),
            );
        }
        add(Kind::Number, &first, &empty(&id, number, &hash), no);
        add(
            Kind::Number,
            &first,
            &empty(&id, number.wrapping_add(2), &hash),
            no,
        );
    }
    let highest = empty(&id, TOP, &[9; 32]);
    add(Kind::Wrapped, &highest, &empty(&id, 0, &[0; 32]), no);
    let refused = |number, which, offset| Expected {
        number,
        which,
        offset,
        ..Expected::default()
    };
    let mut bad_data = sample.clone();
    bad_data[97] ^= 1;
    let mut bad_magic = next.clone();
    bad_magic[0] ^= 1;
    add(Kind::BothRefused, &bad_data, &bad_magic, refused(5, 1, 80));
    add(Kind::FirstRefused, &bad_data, &next, refused(5, 1, 80));
    add(Kind::SecondRefused, &sample, &bad_magic, refused(3, 2, 0));
    add(Kind::BothRefused, b"", b"", refused(2, 1, 0));
    add(Kind::SecondRefused, &sample, b"", refused(2, 2, 0));
    // The longest, and one byte more.
    let mut first = image::header(0, &id, &[0; 32]);
    first.extend(image::data(1, &vec![5; LIMIT - 80 - 21]));
    let mut second = empty(&id, 1, &sha256(&first));
    add(Kind::Chained, &first, &second, Expected::default());
    second.extend(image::data(1, &vec![5; LIMIT - 93 - 21]));
    add(Kind::Chained, &first, &second, Expected::default());
    second.push(0);
    add(Kind::SecondRefused, &first, &second, refused(1, 2, 0));
    add(Kind::FirstRefused, &second, &first, refused(1, 1, 0));
    list
}

/// The pair as text, for reports of failures.
pub fn describe(pair: &Pair) -> String {
    let mut text = String::new();
    let mut line = |name: &str, value: String| {
        writeln!(text, "{name}: {value}").expect("a string takes all text");
    };
    line("pair of seed", pair.seed.to_string());
    line("kind", format!("{:?}", pair.kind));
    line("expected", format!("{:?}", pair.expected));
    line("first", hex(&pair.first));
    line("second", hex(&pair.second));
    text
}
