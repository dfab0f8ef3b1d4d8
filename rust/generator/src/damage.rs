//! Damage done to the bytes of a volume.

use crate::draft::Draft;
use crate::image;
use crate::rng::Rng;

/// A sound volume, damaged in one to three places; the checksums are mended
/// in half of them.
pub fn damaged(rng: &mut Rng) -> Draft {
    let mut draft = Draft::sound(rng);
    for _ in 0..rng.between(1, 3) {
        harm(rng, &mut draft);
    }
    if rng.once_in(2) {
        image::mend(&mut draft.bytes);
    }
    draft
}

fn harm(rng: &mut Rng, draft: &mut Draft) {
    let length = draft.bytes.len();
    if length == 0 {
        return;
    }
    let at = spot(rng, draft);
    let bytes = &mut draft.bytes;
    match rng.below(13) {
        0 => bytes.truncate(rng.index(length)),
        1 => bytes.truncate(at),
        2 | 3 => bytes[at] ^= 1 << rng.below(8),
        4 => bytes[at] = rng.word() as u8,
        5 => {
            let many = 1 + rng.index(9);
            let new = rng.bytes(many);
            bytes.splice(at..at, new);
        }
        6 => {
            let end = length.min(at + 1 + rng.index(9));
            bytes.drain(at..end);
        }
        7 | 8 => {
            let number = rng.number().to_le_bytes();
            let end = length.min(at + 8);
            bytes[at..end].copy_from_slice(&number[..end - at]);
        }
        9 => {
            // One block once more, after itself or at the end.
            let (from, to) = some_block(rng, draft);
            let copy = draft.bytes[from..to].to_vec();
            let place = if rng.once_in(2) { to } else { length };
            draft.bytes.splice(place..place, copy);
        }
        10 => bad_text(rng, bytes),
        11 => {
            // One block moved behind the last.
            let (from, to) = some_block(rng, draft);
            let moved: Vec<u8> = draft.bytes.drain(from..to).collect();
            draft.bytes.extend(moved);
        }
        _ => {
            let many = 1 + rng.index(30);
            let new = rng.bytes(many);
            bytes.extend(new);
        }
    }
}

/// Puts a byte that stands in no text into one.
fn bad_text(rng: &mut Rng, bytes: &mut [u8]) {
    let mut places = Vec::new();
    for block in image::blocks(bytes) {
        for text in image::texts(&bytes[block.clone()]) {
            places.extend(text.map(|at| block.start + at));
        }
    }
    if !places.is_empty() {
        bytes[rng.pick(&places)] = rng.pick(&[0xC0, 0xFF]);
    }
}

/// Where damage is done: anywhere, or among the first fields of a block.
fn spot(rng: &mut Rng, draft: &Draft) -> usize {
    let length = draft.bytes.len();
    if rng.once_in(3) || draft.places.is_empty() {
        return rng.index(length);
    }
    let place = rng.pick(&draft.places) as usize;
    (place + rng.index(75)).min(length - 1)
}

/// The bounds of a block as they were before any damage, kept inside.
fn some_block(rng: &mut Rng, draft: &Draft) -> (usize, usize) {
    let length = draft.bytes.len();
    if draft.places.is_empty() {
        return (0, length.min(80));
    }
    let which = rng.index(draft.places.len());
    let end = draft
        .places
        .get(which + 1)
        .map_or(length, |&at| at as usize);
    let from = (draft.places[which] as usize).min(length);
    (from, end.clamp(from, length))
}
