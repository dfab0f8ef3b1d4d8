//! Damage that looks like a volume cut short, or goes along with it.

use std::ops::Range;

use super::{kept, refused, small, Answer};
use crate::image;
use crate::rng::Rng;

/// How a volume was damaged.
#[derive(Clone, Copy, Debug, PartialEq, Eq, PartialOrd, Ord)]
pub enum Kind {
    /// A length field of a block, mostly with others behind it, is wrong.
    Length,
    /// Zeros stand behind a sound volume.
    Zeros,
    /// Some bytes stand behind a sound volume.
    Rubbish,
    /// One byte is wrong.
    Byte,
    /// The volume is cut, and one byte of what is left is wrong.
    CutAndByte,
}

impl Kind {
    pub const ALL: [Kind; 5] = [
        Kind::Length,
        Kind::Zeros,
        Kind::Rubbish,
        Kind::Byte,
        Kind::CutAndByte,
    ];
}

/// A damaged volume, and what repair says of it.
#[derive(Clone, Debug)]
pub struct Damaged {
    pub seed: u64,
    pub kind: Kind,
    pub volume: Vec<u8>,
    /// The answer, as far as the making fixes it.
    pub expected: Option<Answer>,
}

/// The damaged volume of a seed.
pub fn damaged(seed: u64) -> Damaged {
    let mut rng = Rng::new(seed);
    let kind = match rng.below(14) {
        0..=4 => Kind::Length,
        5 => Kind::Zeros,
        6 | 7 => Kind::Rubbish,
        8..=10 => Kind::Byte,
        _ => Kind::CutAndByte,
    };
    let mut volume = small(&mut rng).bytes;
    let expected = match kind {
        Kind::Length => length(&mut rng, &mut volume),
        Kind::Zeros => zeros(&mut rng, &mut volume),
        Kind::Rubbish => rubbish(&mut rng, &mut volume),
        Kind::Byte => byte(&mut rng, &mut volume),
        Kind::CutAndByte => cut_and_byte(&mut rng, &mut volume),
    };
    Damaged {
        seed,
        kind,
        volume,
        expected,
    }
}

/// Damages a length field of any block but the last, if there is another.
fn length(rng: &mut Rng, volume: &mut [u8]) -> Option<Answer> {
    let blocks = image::blocks(volume);
    let place = rng.index((blocks.len() - 1).max(1));
    let block = blocks[place].clone();
    let (at, width) = length_field(rng, &volume[block.clone()]);
    let field = block.start + at..block.start + at + width;
    let right = number(&volume[field.clone()]);
    let behind = (volume.len() - block.end) as u64;
    let wrong = other_length(rng, right, behind).to_le_bytes();
    volume[field.clone()].copy_from_slice(&wrong[..width]);
    if number(&volume[field.clone()]) == right {
        volume[field.start] ^= 1;
    }
    if rng.once_in(2) {
        image::mend(volume);
    }
    // The blocks before it are sound, so all depends on whether this one is
    // still there in full.
    let is_there = image::blocks(volume).len() > place;
    (!is_there).then(|| unfinished(volume, block))
}

/// The place and the width of a field that the length of a block depends on.
fn length_field(rng: &mut Rng, block: &[u8]) -> (usize, usize) {
    match block[0] {
        image::INODE => (63, 8),
        image::LINK | image::UNLINK => (25, 2),
        image::XATTR => rng.pick(&[(17, 1), (18, 2)]),
        image::REMOVED => (17, 1),
        image::DATA => (9, 8),
        image::RENAME => rng.pick(&[(9, 2), (11, 2)]),
        // The number of links, and the length of the first one's name.
        _ if block.len() > 13 => rng.pick(&[(1, 8), (25, 2)]),
        _ => (1, 8),
    }
}

fn number(field: &[u8]) -> u64 {
    let bytes = field.iter().rev();
    bytes.fold(0, |sum, &byte| sum << 8 | u64::from(byte))
}

/// Mostly not the right length, and often one by which the block would end
/// where the volume does, or near that. A narrow field takes the low bytes.
fn other_length(rng: &mut Rng, right: u64, behind: u64) -> u64 {
    let to_the_end = right.wrapping_add(behind);
    match rng.below(9) {
        0 => to_the_end,
        1 => to_the_end.wrapping_sub(rng.between(1, 4)),
        2 | 3 => to_the_end.wrapping_add(rng.between(1, 4)),
        4 => right ^ 1 << rng.below(16),
        5 => u64::MAX - rng.below(90),
        6 => rng.between(58_367, 58_370),
        7 => rng.below(256),
        _ => rng.number(),
    }
}

/// The answer where this block is the first that is not there in full. Its
/// fixed fields are, and limits are told before the end.
fn unfinished(volume: &[u8], block: Range<usize>) -> Answer {
    let start = block.start;
    let block = &volume[block];
    let is_regular = block[0] == image::INODE && block[18] >> 4 == 8;
    match block[0] {
        image::TABLE if number(&block[1..9]) > 4_096 => refused(9),
        image::TABLE => refused(2),
        _ if is_regular && number(&block[63..71]) > 58_368 => refused(9),
        _ => kept(start),
    }
}

/// What a file system leaves where it had given room and nothing was written.
fn zeros(rng: &mut Rng, volume: &mut Vec<u8>) -> Option<Answer> {
    let many = match rng.below(3) {
        0 => rng.between(1, 16),
        1 => rng.pick(&[17, 21, 75, 80, 512]),
        _ => rng.between(1, 200),
    };
    volume.resize(volume.len() + many as usize, 0);
    Some(refused(7))
}

/// Bytes that begin like a block or do not. Half of them are 0, so that
/// lengths are small.
fn rubbish(rng: &mut Rng, volume: &mut Vec<u8>) -> Option<Answer> {
    let end = volume.len();
    let many = 1 + rng.index(100);
    let mut bytes = rng.bytes(many);
    for byte in &mut bytes {
        *byte *= rng.below(2) as u8;
    }
    if !rng.once_in(5) {
        bytes[0] = rng.below(10) as u8;
    }
    volume.extend_from_slice(&bytes);
    match bytes[0] {
        0 | 9.. => Some(refused(7)),
        image::TABLE => Some(refused(8)),
        // No block has fewer bytes before its first variable part.
        _ if many < 13 => Some(kept(end)),
        _ => None,
    }
}

/// Damages one byte anywhere. A mended checksum lets what is told after it
/// come out.
fn byte(rng: &mut Rng, volume: &mut [u8]) -> Option<Answer> {
    let at = rng.index(volume.len());
    volume[at] ^= rng.between(1, 255) as u8;
    if rng.once_in(2) {
        image::mend(volume);
    }
    None
}

/// Cuts the volume and damages a byte, in half of them one of the last few.
fn cut_and_byte(rng: &mut Rng, volume: &mut Vec<u8>) -> Option<Answer> {
    let length = 1 + rng.index(volume.len() - 1);
    volume.truncate(length);
    let from = match rng.below(2) {
        0 => length.saturating_sub(40),
        _ => 0,
    };
    let at = from + rng.index(length - from);
    volume[at] ^= rng.between(1, 255) as u8;
    if rng.once_in(4) {
        image::mend(volume);
    }
    None
}
