//! What is asked about a volume.

use crate::draft::Draft;
use crate::image::Extent;
use crate::rng::Rng;
use crate::{number, time, Case, Expected, Mark};

const TOP: u64 = u64::MAX;

/// Fills in everything of a case but the volume.
pub fn ask(rng: &mut Rng, case: &mut Case, draft: &Draft) {
    let large = draft.bytes.len() > 1 << 20;
    case.lengths = lengths(rng, draft);
    case.inode_offsets = offsets(rng, draft, if large { 3 } else { 6 });
    // A text at fault is told before the block's kind is, so it is asked for too.
    case.inode_offsets.extend(bad_text(case));
    let extents: Vec<Extent> = draft.files.iter().flat_map(|f| f.extents.clone()).collect();
    let points = points(rng, draft, &extents);
    case.positions = points
        .iter()
        .copied()
        .take(if large { 2 } else { 9 })
        .collect();
    case.ranges = ranges(rng, draft, &points, if large { 2 } else { 7 });
    case.room = match rng.below(24) {
        0..=3 => rng.index(12),
        4..=7 => rng.pick(&[24, 25, 26]),
        8 => 11_000,
        9 | 10 => 1_500,
        _ => rng.index(300),
    };
    case.bookmarks = bookmarks(rng, draft, if large { 3 } else { 8 });
    case.bookmarks.extend(at_bad_text(rng, case, draft));
    case.other = other(rng, draft, large);
    case.fetches = fetches(rng, draft, case);
}

/// Lengths that reach as far as the extents of the draft, or not quite.
fn lengths(rng: &mut Rng, draft: &Draft) -> Vec<u8> {
    let mut list: Vec<u64> = Vec::new();
    for extent in draft.files.iter().flat_map(|file| &file.extents) {
        let (kept, stored) = extent.measures();
        if kept == 0 || extent.volume >= 4_096 {
            continue;
        }
        let place = extent.volume as usize;
        if list.len() <= place {
            list.resize(place + 1, 0);
        }
        list[place] = list[place].max(extent.start.saturating_add(stored));
    }
    if rng.once_in(4) {
        for length in &mut list {
            *length = length.saturating_add(rng.below(50));
        }
    }
    match rng.below(40) {
        0..=2 if !list.is_empty() => {
            let place = rng.index(list.len());
            list[place] = list[place].saturating_sub(1);
        }
        3 => {
            list.pop();
        }
        4 => list.clear(),
        5 => list.resize(4_096, TOP),
        6 => list.resize(4_097, TOP),
        7 => list = (0..rng.below(6)).map(|_| rng.number()).collect(),
        _ => {}
    }
    let mut bytes: Vec<u8> = list
        .iter()
        .flat_map(|length| length.to_le_bytes())
        .collect();
    match rng.below(40) {
        0 => bytes.extend(vec![0; 1 + rng.index(7)]),
        1 => {
            bytes.pop();
        }
        _ => {}
    }
    bytes
}

/// Where inodes are looked for: at files, at other blocks and elsewhere.
fn offsets(rng: &mut Rng, draft: &Draft, most: usize) -> Vec<u64> {
    let mut list: Vec<u64> = draft.files.iter().map(|file| file.offset).collect();
    rng.shuffle(&mut list);
    list.truncate(most - 2);
    if !draft.places.is_empty() {
        list.push(rng.pick(&draft.places));
    }
    list.push(odd_offset(rng, draft));
    list
}

/// Where the block is that must be refused for a text, if one is.
fn bad_text(case: &Case) -> Option<u64> {
    match case.expected {
        Expected::Refused {
            number: 10, offset, ..
        } => Some(offset),
        _ => None,
    }
}

/// An offset that has little to do with the blocks.
fn odd_offset(rng: &mut Rng, draft: &Draft) -> u64 {
    let length = draft.bytes.len() as u64;
    match rng.below(8) {
        0 => rng.pick(&[0, 1, 79]),
        1 => 80,
        2 => length,
        3 => length + 1,
        4 => TOP - rng.below(80),
        5 => rng.number(),
        _ => rng.below(length + 1),
    }
}

/// Positions at and near the bounds of extents, copies and sizes.
fn points(rng: &mut Rng, draft: &Draft, extents: &[Extent]) -> Vec<u64> {
    let mut list = vec![0, TOP, rng.number()];
    for file in &draft.files {
        list.extend([file.size.saturating_sub(1), file.size]);
    }
    for _ in 0..extents.len().min(5) {
        let extent = rng.pick(extents);
        let (kept, _) = extent.measures();
        let end = extent.logical.saturating_add(kept);
        list.extend([extent.logical, extent.logical.saturating_sub(1)]);
        list.extend([end, end.saturating_sub(1)]);
        if kept > 0 {
            list.push(extent.logical.saturating_add(rng.below(kept)));
        }
        // Where the next copy of the block begins.
        if let Some(within) = extent.pre.checked_rem(extent.size) {
            let next = extent.logical.saturating_add(extent.size - within);
            list.extend([next, next.saturating_sub(1)]);
        }
    }
    rng.shuffle(&mut list);
    list
}

fn ranges(rng: &mut Rng, draft: &Draft, points: &[u64], most: usize) -> Vec<(u64, u64)> {
    let mut list = vec![(0, TOP)];
    if !draft.files.is_empty() {
        let which = rng.index(draft.files.len());
        list.push((0, draft.files[which].size));
    }
    while list.len() < most {
        let (a, b) = (rng.pick(points), rng.pick(points));
        list.push(match rng.below(6) {
            0 => (a, b),
            1 => (a, a.saturating_add(rng.below(40))),
            2 => (a.saturating_sub(rng.below(40)), a),
            _ => (a.min(b), a.max(b)),
        });
    }
    list.truncate(most);
    list
}

/// Bookmarks as a reading gives them, and others made up.
fn bookmarks(rng: &mut Rng, draft: &Draft, most: usize) -> Vec<Mark> {
    let mut list = true_bookmarks(draft);
    rng.shuffle(&mut list);
    list.truncate(most - 2);
    for (mark, time) in &mut list {
        match rng.below(10) {
            0 => mark.due = !mark.due,
            1 => mark.last = None,
            2 => mark.last = Some(rng.number()),
            3 | 4 => mark.last = time.map(|time| time::around(rng, time)),
            _ => {}
        }
        if rng.once_in(2) {
            mark.number = number::made_up(rng);
        }
    }
    let mut list: Vec<Mark> = list.into_iter().map(|(mark, _)| mark).collect();
    // One is always full: only few volumes are too long, and each has to show
    // that this is told first.
    for number in [number::FULL, number::made_up(rng)] {
        list.push(Mark {
            offset: odd_offset(rng, draft),
            due: rng.once_in(3),
            last: rng.once_in(2).then(|| rng.number()),
            number,
        });
    }
    list
}

/// Bookmarks at a text at fault, which is told before a lower time and before
/// a number that cannot be counted on.
fn at_bad_text(rng: &mut Rng, case: &Case, draft: &Draft) -> Vec<Mark> {
    let Some(offset) = bad_text(case) else {
        return Vec::new();
    };
    let due = offset == 80 && draft.sequence > 0;
    let mark = |last, number| Mark {
        offset,
        due,
        last,
        number,
    };
    let number = number::made_up(rng);
    vec![mark(None, number), mark(Some(TOP), number::FULL)]
}

/// The bookmarks of a reading, each with the time that its last time is
/// compared with: the block's or, since a table has none, that of the block
/// behind the table.
fn true_bookmarks(draft: &Draft) -> Vec<(Mark, Option<u64>)> {
    let time_at = |place: usize| {
        let offset = *draft.places.get(place)? as usize;
        time::of_block(draft.bytes.get(offset..)?)
    };
    let at = |(place, &offset)| {
        let mark = Mark {
            offset,
            due: place == 0 && draft.sequence > 0,
            last: draft.times[place],
            number: place as u64,
        };
        (mark, time_at(place).or_else(|| time_at(place + 1)))
    };
    let end = Mark {
        offset: draft.bytes.len() as u64,
        due: false,
        last: draft.last,
        number: draft.places.len() as u64,
    };
    let mut list: Vec<_> = draft.places.iter().enumerate().map(at).collect();
    list.push((end, None));
    list
}

/// A second volume, for fetching.
fn other(rng: &mut Rng, draft: &Draft, large: bool) -> Vec<u8> {
    match rng.below(8) {
        0 => Vec::new(),
        1 if !large => draft.bytes.clone(),
        2 => {
            let mut other = Draft::sound(rng);
            let at = rng.index(80);
            other.bytes[at] ^= 1 << rng.below(8);
            other.bytes
        }
        _ => Draft::sound(rng).bytes,
    }
}

/// Volume number, offset and length.
fn fetches(rng: &mut Rng, draft: &Draft, case: &Case) -> Vec<(u64, u64, u64)> {
    let second = match case.other.get(36..44) {
        Some(bytes) => u64::from_le_bytes(bytes.try_into().unwrap()),
        None => 0,
    };
    let mut list = Vec::new();
    for _ in 0..8 {
        let (number, length) = match rng.below(5) {
            0 => (rng.number(), draft.bytes.len()),
            1 | 2 => (second, case.other.len()),
            _ => (draft.sequence, draft.bytes.len()),
        };
        let length = length as u64;
        let offset = match rng.below(6) {
            0 => length,
            1 => rng.number(),
            _ => rng.below(length + 1),
        };
        let wanted = match rng.below(6) {
            0 => 0,
            1 => rng.number(),
            2 => length.saturating_sub(offset).saturating_add(1),
            3 => length.saturating_sub(offset),
            _ => rng.below(length.saturating_sub(offset) + 1),
        };
        list.push((number, offset, wanted));
    }
    list
}
