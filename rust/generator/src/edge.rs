//! Volumes at the edges of what sizes and numbers allow.

mod bad_text;

use crate::draft::{self, Draft, File};
use crate::image::{self, Extent, Stat, COUNTED, LIMIT, REPEATED};
use crate::number::FULL;
use crate::rng::Rng;
use crate::texts::Fault;
use crate::{time, Expected, Mark};

const TOP: u64 = u64::MAX;

/// How many kinds of edges there are. The last [`LARGE`] have 16 MiB.
pub const COUNT: u64 = SMALL + LARGE;
pub const SMALL: u64 = BAD_TEXT + bad_text::COUNT;
pub const LARGE: u64 = 4;

/// The sample volume, and the same with a damaged checksum.
const SAMPLE: u64 = 44;
const DAMAGED_SAMPLE: u64 = 45;

/// The first of those with a text at fault, or nearly so.
const BAD_TEXT: u64 = 46;

/// The volume of one kind, and the verdict on it where it is known.
pub fn edge(rng: &mut Rng, kind: u64) -> (Draft, Expected) {
    match kind {
        0..=4 => {
            let length = [0, 1, 79, 80, 81][kind as usize];
            let mut draft = Draft::new(rng, 0);
            draft.bytes = rng.bytes(length);
            let number = if length < 80 { 2 } else { 3 };
            (draft, refused(number, 0, 0))
        }
        5..=7 => {
            let mut draft = Draft::new(rng, 0);
            draft.bytes.truncate([0, 1, 79][kind as usize - 5]);
            (draft, refused(2, 0, 0))
        }
        8 => (Draft::new(rng, 0), Expected::Accepted),
        9 => {
            let sequence = draft::high_sequence(rng);
            (Draft::new(rng, sequence), refused(2, 80, 0))
        }
        10 => {
            // A header and one byte.
            let id = rng.between(0, 12) as u8;
            let mut draft = Draft::new(rng, 0);
            draft.push(&[id]);
            let number = match id {
                0 | 9.. => 7,
                8 => 8,
                _ => 2,
            };
            (draft, refused(number, 80, 0))
        }
        11 => {
            let id = rng.between(0, 12) as u8;
            let sequence = draft::high_sequence(rng);
            let mut draft = Draft::new(rng, sequence);
            draft.push(&[id]);
            let number = match id {
                0 | 9.. => 7,
                8 => 2,
                _ => 8,
            };
            (draft, refused(number, 80, 0))
        }
        12..=15 => {
            let n = [58_311, 58_367, 58_368, 58_369][kind as usize - 12];
            let mut bytes = image::extent_bytes(&rising(1_025));
            bytes.truncate(n);
            let draft = with_inode(rng, 0x81A4, 10, &bytes);
            let expected = match n {
                58_367 => refused(11, 80, 0),
                58_369 => refused(9, 80, 0),
                _ => Expected::Accepted,
            };
            (draft, expected)
        }
        16 | 17 => {
            // The same without the bytes.
            let n: u64 = if kind == 16 { 58_368 } else { 58_369 };
            let mut draft = with_inode(rng, 0x81A4, 10, b"");
            draft.bytes[143..151].copy_from_slice(&n.to_le_bytes());
            image::mend(&mut draft.bytes);
            (draft, refused(if kind == 16 { 2 } else { 9 }, 80, 0))
        }
        18..=20 => {
            let mut list = rising(1_024 + u64::from(kind == 20));
            if kind == 19 {
                rng.shuffle(&mut list);
            }
            let mut draft = Draft::new(rng, 0);
            draft.file(rng, 1, 20_000, list);
            let expected = if kind == 20 {
                refused(9, 80, 0)
            } else {
                Expected::Accepted
            };
            (draft, expected)
        }
        21 => {
            // The last of many meets the first.
            let mut list = rising(1_024);
            list[1_023].logical = 0;
            let mut draft = Draft::new(rng, 0);
            draft.file(rng, 1, 20_000, list);
            (draft, refused(12, 80, 0))
        }
        22..=25 => {
            let count = [4_095, 4_096, 4_097, 4_096][kind as usize - 22];
            let mut links = many_links(count);
            if kind == 25 {
                // The last has the name of the first.
                links[4_095] = image::table_link(9, 0, b"n0");
            }
            rng.shuffle(&mut links);
            let sequence = draft::high_sequence(rng);
            let mut draft = Draft::new(rng, sequence);
            draft.push(&image::table(count, &links.concat()));
            let expected = match kind {
                24 => refused(9, 80, 0),
                25 => refused(13, 80, 0),
                _ => Expected::Accepted,
            };
            (draft, expected)
        }
        26 => {
            // A data length near the top, for each way a sum could wrap.
            let n = TOP - rng.below(30);
            let mut draft = Draft::new(rng, 0);
            draft.push(&image::data(1, b"1,5"));
            draft.bytes[89..97].copy_from_slice(&n.to_le_bytes());
            let image = &mut draft.bytes[80..];
            image::reseal(image);
            (draft, refused(2, 80, 0))
        }
        27 => {
            let n = TOP - rng.below(90);
            let mode = rng.pick(&[0xA1FF, 0x41ED]);
            let mut draft = with_inode(rng, mode, 70, b"");
            draft.bytes[143..151].copy_from_slice(&n.to_le_bytes());
            image::reseal(&mut draft.bytes[80..]);
            (draft, refused(2, 80, 0))
        }
        28 => {
            let target = vec![b't'; 58_369];
            let draft = with_inode(rng, 0xA1FF, 70 + 58_369, &target);
            (draft, Expected::Accepted)
        }
        29 => {
            let draft = with_inode(rng, 0x41ED, 70, &[0; 58_369]);
            (draft, refused(11, 80, 0))
        }
        30 => {
            // The longest names, values and paths.
            let mut draft = Draft::new(rng, 0);
            let long = vec![b'l'; 65_535];
            draft.push_timed(1, &image::link(image::LINK, 1, TOP, TOP, &long));
            draft.push_timed(2, &image::xattr(2, TOP, &long[..255], &long));
            draft.push_timed(3, &image::removed(3, TOP, &long[..255]));
            draft.push_timed(TOP, &image::rename(TOP, &long, &long));
            (draft, Expected::Accepted)
        }
        31..=34 => (one_file(rng, repeats(kind - 31)), Expected::Accepted),
        35 => {
            // File A, and the same with two bytes taken off its end.
            let mut draft = sample(rng, 1);
            let file = extent(97, 3, COUNTED, 1, 0, 0, 0);
            draft.file(rng, 2, 3, vec![file]);
            draft.file(rng, 3, 3, vec![Extent { post: 2, ..file }]);
            (draft, Expected::Accepted)
        }
        36 => {
            // File B.
            let mut draft = sample(rng, 1);
            draft.file(rng, 2, 14, vec![extent(97, 3, REPEATED, 3, 1, 1, 4)]);
            (draft, Expected::Accepted)
        }
        37 => {
            let wide = 1 << 32;
            let multiplicity = rng.pick(&[COUNTED, REPEATED]);
            let list = vec![extent(0, wide, multiplicity, wide, 0, 0, 0)];
            (one_file(rng, list), refused(11, 80, 0))
        }
        38 => {
            let multiplicity = rng.pick(&[COUNTED, REPEATED]);
            let list = vec![extent(0, 0, multiplicity, TOP, 0, 0, 5)];
            (one_file(rng, list), Expected::Accepted)
        }
        39 => {
            // Ranges that touch, and ranges that share one position.
            let touch = rng.once_in(2);
            let second = extent(20, 3, COUNTED, 1, 0, 0, if touch { 3 } else { 2 });
            let list = vec![extent(10, 3, COUNTED, 1, 0, 0, 0), second];
            let expected = if touch {
                Expected::Accepted
            } else {
                refused(12, 80, 0)
            };
            (one_file(rng, list), expected)
        }
        40..=43 => times(rng, kind - 40),
        SAMPLE => (sample(rng, 7), Expected::Accepted),
        DAMAGED_SAMPLE => {
            let mut draft = sample(rng, 7);
            draft.bytes[103] ^= 1;
            (draft, refused(5, 80, 0))
        }
        BAD_TEXT..SMALL => bad_text::edge(rng, kind - BAD_TEXT),
        _ => large(rng, kind - SMALL),
    }
}

/// A volume as long as one may be, or a byte longer.
fn large(rng: &mut Rng, which: u64) -> (Draft, Expected) {
    let mut draft = Draft::new(rng, 0);
    match which {
        0 | 1 => {
            // One data block up to the last byte, and one byte more.
            let payload = vec![rng.word() as u8; LIMIT - 101 + which as usize];
            draft.push_timed(7, &image::data(7, &payload));
        }
        _ => {
            // A file at the very end, and one byte behind it.
            let list = vec![extent(97, 3, REPEATED, 3, 1, 1, 4)];
            let payload = vec![0; LIMIT - 80 - 21 - 75 - 57];
            draft.push_timed(7, &image::data(7, &payload));
            draft.file(rng, 8, 14, list);
            draft.bytes.extend(vec![6; which as usize - 2]);
        }
    }
    let is_over = which % 2 == 1;
    let expected = if is_over {
        refused(1, 0, 0)
    } else {
        Expected::Accepted
    };
    (draft, expected)
}

fn refused(number: u64, offset: u64, blocks: u64) -> Expected {
    Expected::Refused {
        number,
        fault: Fault::default(),
        offset,
        blocks,
    }
}

fn extent(
    start: u64,
    size: u64,
    multiplicity: u8,
    count: u64,
    pre: u64,
    post: u64,
    logical: u64,
) -> Extent {
    Extent {
        volume: 0,
        start,
        size,
        multiplicity,
        count,
        pre,
        post,
        logical,
    }
}

/// Extents of two bytes, one after another.
fn rising(many: u64) -> Vec<Extent> {
    (0..many)
        .map(|k| extent(k, 2, COUNTED, 1, 0, 0, 2 * k))
        .collect()
}

fn many_links(count: u64) -> Vec<Vec<u8>> {
    (0..count)
        .map(|k| image::table_link(k, 0, format!("n{k}").as_bytes()))
        .collect()
}

/// Volume 0 with the data block of the sample volume, at this time.
fn sample(rng: &mut Rng, time: u64) -> Draft {
    let mut draft = Draft::new(rng, 0);
    draft.push_timed(time, &image::data(time, b"1,5"));
    draft
}

/// The bookmarks at which a volume of this kind is read besides those that
/// are drawn. Each number stands beside all that may be told before it.
pub fn bookmarks(kind: u64) -> Vec<Mark> {
    let mut list = Vec::new();
    if ![SAMPLE, DAMAGED_SAMPLE].contains(&kind) {
        return list;
    }
    for offset in [79, 80, 104, 105] {
        for due in [false, true] {
            for last in [None, Some(7), Some(8)] {
                list.extend([0, 1, FULL - 1, FULL].map(|number| Mark {
                    offset,
                    due,
                    last,
                    number,
                }));
            }
        }
    }
    list
}

/// The same time twice, a lower one, a link with its inode at one time, and
/// time 0 behind a table.
fn times(rng: &mut Rng, which: u64) -> (Draft, Expected) {
    let last = rng.pick(&[1, 7, TOP]);
    let mut draft = Draft::new(rng, u64::from(which == 3));
    let data = |draft: &mut Draft, time| draft.push_timed(time, &image::data(time, b"1,5"));
    match which {
        0 => {
            let time = rng.pick(&[0, last]);
            data(&mut draft, time);
            data(&mut draft, time);
        }
        1 => {
            data(&mut draft, last);
            let lower = time::lower(rng, last);
            draft.push(&image::data(lower, b"1,5"));
            return (draft, refused(14, 104, 1));
        }
        2 => draft.linked_inode(rng, last),
        _ => {
            draft.push(&image::table(0, b""));
            data(&mut draft, 0);
        }
    }
    (draft, Expected::Accepted)
}

fn one_file(rng: &mut Rng, list: Vec<Extent>) -> Draft {
    let mut draft = Draft::new(rng, 0);
    let size = rng.pick(&[0, 9, 14, TOP]);
    draft.file(rng, 1, size, list);
    draft
}

/// Very many copies, or copies of very much.
fn repeats(which: u64) -> Vec<Extent> {
    match which {
        0 => vec![extent(7, 1, REPEATED, 1 << 63, 0, 0, 3)],
        1 => vec![extent(7, 1, REPEATED, TOP, 0, 0, 0)],
        2 => vec![
            extent(7, 1, REPEATED, 1 << 62, 5, 5, 1 << 62),
            extent(7, 2, REPEATED, 1 << 61, 0, 3, 3),
        ],
        _ => vec![extent(0, 1 << 32, REPEATED, (1 << 32) - 1, 1 << 33, 1, 1)],
    }
}

/// Volume 0 with one inode of this mode, size and variable part.
fn with_inode(rng: &mut Rng, mode: u16, size: u64, variable: &[u8]) -> Draft {
    let mut draft = Draft::new(rng, 0);
    let stat = Stat {
        mode,
        ..draft::any_stat(rng, 1, size)
    };
    draft.files.push(File {
        offset: 80,
        size,
        extents: rising(3),
    });
    draft.push_timed(1, &image::inode(&stat, variable));
    draft
}
