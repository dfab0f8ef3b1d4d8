//! Lists of extents, sound and broken.

use crate::image::{Extent, COUNTED, REPEATED};
use crate::rng::Rng;

const TOP: u64 = u64::MAX;

/// A sound list and the first position above all that it keeps.
pub fn sound(rng: &mut Rng) -> (Vec<Extent>, u64) {
    let many = match rng.below(24) {
        0..=2 => 0,
        3..=20 => rng.between(1, 6),
        21 | 22 => rng.between(7, 40),
        _ => rng.between(40, 120),
    };
    sound_list(rng, many as usize)
}

/// A sound list of that many extents, not always in rising order.
pub fn sound_list(rng: &mut Rng, many: usize) -> (Vec<Extent>, u64) {
    let huge = rng.once_in(5);
    let mut list = Vec::with_capacity(many);
    let mut free = if huge { rng.number() / 2 } else { 0 };
    for _ in 0..many {
        let gap = if rng.once_in(2) { 0 } else { rng.below(6) };
        let much = huge && !rng.once_in(4);
        let extent = one(rng, much, free.saturating_add(gap));
        let (kept, _) = extent.measures();
        if kept > 0 {
            free = extent.logical + kept;
        }
        list.push(extent);
    }
    if rng.once_in(2) {
        rng.shuffle(&mut list);
    }
    (list, free)
}

/// A sound extent that keeps something from `at` on, or keeps nothing.
fn one(rng: &mut Rng, huge: bool, at: u64) -> Extent {
    let multiplicity = rng.pick(&[COUNTED, REPEATED]);
    let (size, count) = if huge {
        huge_product(rng)
    } else {
        (rng.below(7), rng.below(6))
    };
    let raw = size * count;
    let (mut pre, mut post) = trims(rng, raw, huge);
    let mut logical = at;
    if rng.once_in(12) || at.checked_add(raw - pre - post).is_none() {
        // Keeps nothing and may stand anywhere.
        pre = rng.between(0, raw);
        post = raw - pre;
        logical = rng.number();
    }
    let kept = raw - pre - post;
    let span = if multiplicity == REPEATED { size } else { raw };
    let start = match rng.below(4) {
        0 if huge => TOP - span,
        1 if huge => rng.number().min(TOP - span),
        _ => rng.below(300).min(TOP - span),
    };
    let volume = match rng.below(80) {
        0 => 4_095,
        1..=8 if kept == 0 => TOP,
        9..=16 if kept == 0 => rng.number(),
        _ => rng.below(4),
    };
    Extent {
        volume,
        start,
        size,
        multiplicity,
        count,
        pre,
        post,
        logical,
    }
}

/// A size and a count whose product is below 2^64.
fn huge_product(rng: &mut Rng) -> (u64, u64) {
    let wide = 1 << 32;
    let (a, b) = match rng.below(8) {
        0 => (1, 1 << 63),
        1 => (1, TOP),
        2 => (wide, wide - 1),
        3 => (wide - 1, wide + 1),
        4 => (0, rng.number()),
        5 => (3, 1 << 62),
        6 => (1 << 63, 1),
        _ => {
            let a = rng.number().max(1);
            (a, rng.number().min(TOP / a))
        }
    };
    if rng.once_in(2) {
        (a, b)
    } else {
        (b, a)
    }
}

/// What is taken off at both ends, at most `raw` together.
fn trims(rng: &mut Rng, raw: u64, huge: bool) -> (u64, u64) {
    match rng.below(5) {
        0 | 1 => (0, 0),
        2 if huge => {
            // Leaves a few.
            let left = rng.below(12).min(raw);
            let pre = rng.between(0, raw - left);
            (pre, raw - left - pre)
        }
        3 if huge => (rng.below(9).min(raw), 0),
        _ => {
            let pre = rng.between(0, raw);
            (pre, rng.between(0, raw - pre))
        }
    }
}

/// Breaks one rule of one extent in a list that is not empty.
pub fn break_one(rng: &mut Rng, list: &mut [Extent]) {
    let wide = 1 << 32;
    let place = rng.index(list.len());
    let extent = &mut list[place];
    match rng.below(9) {
        0 => extent.multiplicity = rng.pick(&[0, 66, 68, 81, 83, 99, 114, 255]),
        1 => (extent.size, extent.count) = (wide, wide),
        2 => {
            // The product wraps round to something small.
            (extent.size, extent.count) = (3, TOP / 3 + 1 + rng.below(5));
            (extent.pre, extent.post) = (0, 0);
        }
        3 => (extent.pre, extent.post) = (TOP, 1 + rng.below(3)),
        4 => {
            // One more than there is.
            let raw = extent.size * extent.count;
            match raw.checked_add(1) {
                Some(more) => {
                    extent.pre = rng.between(0, more);
                    extent.post = more - extent.pre;
                }
                None => (extent.pre, extent.post) = (TOP, TOP),
            }
        }
        5 => {
            // Kept bytes reach one position too far.
            (extent.size, extent.count, extent.pre, extent.post) = (5, 2, 1, 1);
            extent.logical = TOP - 7 + rng.below(8);
            extent.start = 0;
        }
        6 => {
            // Stored bytes reach one too far.
            extent.multiplicity = COUNTED;
            (extent.size, extent.count, extent.pre, extent.post) = (5, 2, 0, 0);
            extent.start = TOP - 9 + rng.below(10);
            extent.logical = 0;
        }
        7 => {
            // The same where nothing is kept.
            extent.multiplicity = REPEATED;
            (extent.size, extent.count, extent.pre, extent.post) = (2, 0, 0, 0);
            extent.start = TOP - rng.below(2);
        }
        _ => {
            (extent.size, extent.count) = (0, rng.number());
            (extent.pre, extent.post) = rng.pick(&[(0, 1), (1, 0), (TOP, 0)]);
        }
    }
}

/// A list that is sound but for two kept ranges that meet.
pub fn overlapping(rng: &mut Rng) -> Vec<Extent> {
    let many = rng.between(0, 5) as usize;
    let (mut list, _) = sound_list(rng, many);
    let kept = |e: &&Extent| e.measures().0 > 0;
    let victim = match list.iter().find(kept) {
        Some(extent) => *extent,
        None => {
            let extent = Extent {
                volume: 0,
                start: rng.below(50),
                size: rng.between(1, 5),
                multiplicity: rng.pick(&[COUNTED, REPEATED]),
                count: rng.between(1, 3),
                pre: 0,
                post: 0,
                logical: rng.below(40),
            };
            list.push(extent);
            extent
        }
    };
    let (length, _) = victim.measures();
    let shared = match rng.below(3) {
        0 => victim.logical,
        1 => victim.logical + length - 1,
        _ => victim.logical + rng.below(length),
    };
    // The second range ends or begins at the shared position.
    let own = rng.between(1, 4);
    let logical = if rng.once_in(2) || shared > TOP - own {
        shared.saturating_sub(own - 1)
    } else {
        shared
    };
    list.push(Extent {
        volume: 0,
        start: rng.below(50),
        size: own,
        multiplicity: rng.pick(&[COUNTED, REPEATED]),
        count: 1,
        pre: 0,
        post: 0,
        logical,
    });
    rng.shuffle(&mut list);
    list
}
