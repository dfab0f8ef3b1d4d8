//! Extents that name bytes of an archive's volumes.

use super::log::Piece;
use crate::image::{self, Extent, COUNTED, REPEATED};
use crate::rng::Rng;

const TOP: u64 = u64::MAX;

/// The most volume lengths that a lookup is lent, so that a volume with a
/// number from here on is found by no file.
const ENTRIES: u64 = 4_096;

/// The bytes of a header or block. `lengths` are the volumes' numbers and lengths.
pub fn image(rng: &mut Rng, lengths: &[(u64, u64)], piece: &Piece) -> Vec<u8> {
    match piece {
        Piece::Image(image) => image.clone(),
        Piece::File { stat, extents } => {
            let mut stat = *stat;
            let (mut list, end) = list(rng, lengths, *extents);
            stat.size = size(rng, end);
            if rng.once_in(16) {
                lose(rng, lengths, &mut list);
            }
            image::inode(&stat, &image::extent_bytes(&list))
        }
    }
}

/// A sound list whose kept bytes are all there, and the first position above
/// all that it keeps.
fn list(rng: &mut Rng, lengths: &[(u64, u64)], many: usize) -> (Vec<Extent>, u64) {
    let mut list = Vec::with_capacity(many);
    let mut free = match rng.below(40) {
        0 => rng.pick(&[1 << 33, (1 << 63) - 9, 1 << 63]),
        1 => TOP - rng.below(4_000),
        _ => 0,
    };
    for _ in 0..many {
        let gap = if rng.once_in(3) { rng.below(40) } else { 0 };
        let extent = one(rng, lengths, free.saturating_add(gap));
        let (kept, _) = extent.measures();
        if kept > 0 {
            free = extent.logical + kept;
        }
        list.push(extent);
    }
    if rng.once_in(2) {
        rng.shuffle(&mut list);
    }
    (list, free)
}

/// An extent that keeps something from `at` on, or keeps nothing.
fn one(rng: &mut Rng, lengths: &[(u64, u64)], at: u64) -> Extent {
    let (volume, length) = rng.pick(lengths);
    if volume >= ENTRIES || rng.once_in(10) {
        return nothing(rng);
    }
    let multiplicity = rng.pick(&[COUNTED, REPEATED]);
    let (size, count) = product(rng, multiplicity, length);
    let raw = size * count;
    let (pre, post) = trims(rng, raw);
    if at.checked_add(raw - pre - post).is_none() {
        return nothing(rng);
    }
    let span = if multiplicity == REPEATED { size } else { raw };
    Extent {
        volume,
        start: start(rng, length - span),
        size,
        multiplicity,
        count,
        pre,
        post,
        logical: at,
    }
}

/// A block size and a count whose bytes fit into a volume of that length.
fn product(rng: &mut Rng, multiplicity: u8, length: u64) -> (u64, u64) {
    let most = rng.pick(&[3, 20, 20, 90, length]).min(length);
    let size = rng.between(0, most);
    let count = match rng.below(240) {
        0 if multiplicity == REPEATED => rng.between(0, TOP / size.max(1)),
        1..=40 if multiplicity == REPEATED => rng.below(60),
        41..=80 => 1,
        _ => rng.below(5),
    };
    if multiplicity == COUNTED && size > 0 {
        return (size, count.min(length / size));
    }
    (size, count)
}

/// Where the bytes of an extent begin, mostly at any place that leaves room.
fn start(rng: &mut Rng, last: u64) -> u64 {
    match rng.below(8) {
        0 => last,
        1 => 0,
        2 => last.min(97),
        _ => rng.between(0, last),
    }
}

/// What is taken off at both ends. Often more than one copy of a block.
fn trims(rng: &mut Rng, raw: u64) -> (u64, u64) {
    match rng.below(5) {
        0 | 1 => (0, 0),
        2 => (rng.between(0, raw.min(30)), 0),
        3 => {
            // Leaves little of a very long extent.
            let left = rng.below(60).min(raw);
            let pre = rng.between(0, raw - left);
            (pre, raw - left - pre)
        }
        _ => {
            let pre = rng.between(0, raw);
            (pre, rng.between(0, raw - pre))
        }
    }
}

/// An extent that keeps nothing: what it names need not be there.
fn nothing(rng: &mut Rng) -> Extent {
    let (size, count) = rng.pick(&[(0, 0), (0, 9), (7, 0), (5, 3), (1, 1)]);
    let pre = rng.between(0, size * count);
    Extent {
        volume: rng.number(),
        start: rng.number().min(TOP - 100),
        size,
        multiplicity: rng.pick(&[COUNTED, REPEATED]),
        count,
        pre,
        post: size * count - pre,
        logical: rng.number(),
    }
}

/// A size below, at or above the end of what is kept.
fn size(rng: &mut Rng, end: u64) -> u64 {
    match rng.below(24) {
        0 => 0,
        1 => end.saturating_sub(1),
        2 => end.saturating_add(1),
        3..=5 => end.saturating_add(rng.below(300)),
        6..=8 => rng.between(0, end),
        9 => rng.pick(&[1 << 40, (1 << 63) - 1, 1 << 63, TOP]),
        _ => end,
    }
}

/// Changes some extents that keep something, so that they name a volume that
/// is not there or reach beyond its end. The list stays sound.
fn lose(rng: &mut Rng, lengths: &[(u64, u64)], list: &mut [Extent]) {
    let kept: Vec<usize> = (0..list.len())
        .filter(|&k| list[k].measures().0 > 0)
        .collect();
    if kept.is_empty() {
        return;
    }
    for _ in 0..rng.between(1, 3) {
        let extent = &mut list[rng.pick(&kept)];
        let (_, stored) = extent.measures();
        if rng.once_in(2) {
            let last = lengths.last().map_or(0, |&(sequence, _)| sequence);
            let next = last.saturating_add(1);
            extent.volume = rng.pick(&[next, next.saturating_add(7), 4_095, 4_096, TOP]);
        } else {
            // One byte too far, or much further.
            let length = lengths
                .iter()
                .find(|entry| entry.0 == extent.volume)
                .map_or(0, |entry| entry.1);
            let beyond = length.saturating_sub(stored).saturating_add(1);
            let far = rng.pick(&[beyond, beyond, length, length + 5, TOP - stored]);
            extent.start = far.max(beyond).min(TOP - stored);
        }
    }
}
