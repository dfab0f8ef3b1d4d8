//! Volumes made to be refused with one number, at a known place.

mod inside;

use crate::draft::{self, Draft, File};
use crate::image::{self, Stat, LIMIT};
use crate::rng::Rng;
use crate::texts::Fault;
use crate::{extents, time};

const TOP: u64 = u64::MAX;

/// The refusals that a whole volume can get.
pub const OF_A_VOLUME: [u64; 14] = [1, 2, 3, 4, 5, 6, 7, 8, 9, 10, 11, 12, 13, 14];

/// A volume and where it must be refused with `number`.
pub struct Planned {
    pub draft: Draft,
    pub number: u64,
    /// The text at fault, if the number is 10; else its numbers are 0.
    pub fault: Fault,
    pub offset: u64,
    pub blocks: u64,
}

/// Makes a volume that is refused with this number, one of
/// [`OF_A_VOLUME`]. Often faults that come later in the order are there too.
pub fn planned(rng: &mut Rng, number: u64) -> Planned {
    let in_header = match number {
        1 | 3 | 4 | 6 => true,
        2 => rng.once_in(5),
        5 => rng.once_in(4),
        _ => false,
    };
    if in_header {
        Planned {
            draft: header_fault(rng, number),
            number,
            fault: Fault::default(),
            offset: 0,
            blocks: 0,
        }
    } else {
        block_fault(rng, number)
    }
}

fn header_fault(rng: &mut Rng, number: u64) -> Draft {
    let mut draft = Draft::sound(rng);
    if number == 6 || rng.once_in(3) {
        draft.bytes[36..44].fill(0);
    }
    // Each fault may be joined by those judged after it.
    let also = |rng: &mut Rng, fault: u64| number == fault || number < fault && rng.once_in(2);
    if also(rng, 6) {
        let at = 44 + rng.index(32);
        draft.bytes[at] |= 1 << rng.below(8);
    }
    if also(rng, 4) {
        let at = rng.pick(&[17, 34, 35]);
        draft.bytes[at] = rng.between(1, 255) as u8;
    }
    if also(rng, 3) {
        let at = rng.index(17);
        draft.bytes[at] ^= 1 << rng.below(8);
    }
    image::reseal(&mut draft.bytes[..80]);
    if also(rng, 5) {
        spoil(rng, &mut draft.bytes[..80]);
    }
    if number == 2 {
        draft.bytes.truncate(rng.index(80));
    }
    if number == 1 {
        draft.bytes.resize(LIMIT + 1, rng.word() as u8);
    }
    draft
}

/// Puts a wrong checksum into the last four bytes.
fn spoil(rng: &mut Rng, image: &mut [u8]) {
    let end = image.len() - 4;
    let right = image::crc(&image[..end]);
    let wrong = match rng.below(6) {
        0 => !right,
        1 => right.swap_bytes(),
        2 => image::crc(image),
        3 => right.reverse_bits(),
        4 => rng.word() as u32,
        _ => right ^ (1 << rng.below(32)),
    };
    let wrong = if wrong == right { !right } else { wrong };
    image[end..].copy_from_slice(&wrong.to_le_bytes());
}

fn block_fault(rng: &mut Rng, number: u64) -> Planned {
    let in_table = match number {
        13 => true,
        2 | 5 | 7 | 8 | 9 | 10 => rng.once_in(3),
        _ => false,
    };
    let sequence = if in_table {
        draft::high_sequence(rng)
    } else {
        draft::any_sequence(rng)
    };
    let mut draft = Draft::new(rng, sequence);
    if !in_table {
        draft.table_if_due(rng);
        let many = rng.below(4);
        draft.blocks(rng, many);
        // Only after a time above 0 is there a lower one.
        while number == 14 && draft.last.unwrap_or(0) == 0 {
            let time = time::following(rng, draft.last);
            draft.block(rng, time);
        }
    }
    let offset = draft.offset();
    let blocks = draft.places.len() as u64;
    let mut closed = true;
    let mut fault = Fault::default();
    match number {
        7 => {
            let image = unknown(rng);
            draft.push(&image);
        }
        8 => {
            let image = out_of_place(rng, in_table);
            draft.push(&image);
        }
        9 => {
            let image = over_limit(rng, &mut draft, in_table);
            draft.push(&image);
        }
        2 => {
            let image = cut_short(rng, &mut draft, in_table);
            if !image.is_empty() {
                draft.push(&image);
            }
            closed = false;
        }
        _ => {
            let (image, told) = inside::wrong_inside(rng, &mut draft, number, in_table);
            draft.push(&image);
            fault = told;
        }
    }
    if closed && rng.once_in(2) {
        let many = rng.below(3);
        draft.blocks(rng, many);
    }
    Planned {
        draft,
        number,
        fault,
        offset,
        blocks,
    }
}

/// A block with an ID that has no meaning, or that ID alone.
fn unknown(rng: &mut Rng) -> Vec<u8> {
    let id = match rng.below(4) {
        0 => 0,
        1 => 9,
        2 => 255,
        _ => rng.between(9, 255) as u8,
    };
    if rng.once_in(3) {
        return vec![id];
    }
    let length = rng.index(40);
    let mut image = image::data(rng.number(), &rng.bytes(length));
    image[0] = id;
    image::reseal(&mut image);
    image
}

/// Another block where a table is due, or a table where none is.
fn out_of_place(rng: &mut Rng, due: bool) -> Vec<u8> {
    let mut image = if due {
        let time = rng.number();
        any_block(rng, time)
    } else {
        let links = draft::links(rng);
        image::table(links.len() as u64, &links.concat())
    };
    if rng.once_in(3) {
        image.truncate(1 + rng.index(image.len()));
    }
    if rng.once_in(3) {
        let at = 1 + rng.index(image.len());
        if at < image.len() {
            image[at] ^= 1 << rng.below(8);
        }
    }
    image
}

/// A block that is not a table, sound but perhaps for its time.
fn any_block(rng: &mut Rng, time: u64) -> Vec<u8> {
    let mut scrap = Draft::new(rng, 0);
    scrap.block(rng, time);
    scrap.bytes.split_off(80)
}

/// More bytes of extents, or more links, than may be; sometimes all there.
fn over_limit(rng: &mut Rng, draft: &mut Draft, in_table: bool) -> Vec<u8> {
    if in_table {
        let mut image = if rng.once_in(12) {
            let links: Vec<u8> = (0..4_097)
                .flat_map(|k| image::table_link(k, 0, &k.to_le_bytes()[..2]))
                .collect();
            image::table(4_097, &links)
        } else {
            let count = rng.pick(&[4_097, 4_098, 65_536, 1 << 32, 1 << 63, TOP]);
            image::table(count, &draft::links(rng).concat())
        };
        if rng.once_in(3) {
            image.truncate(9 + rng.index(image.len() - 8));
        }
        return image;
    }
    let lower = rng.once_in(4);
    let time = wished_time(rng, draft, lower);
    let size = rng.number();
    let stat = Stat {
        mode: 0x8000 | rng.below(4_096) as u16,
        ..draft::any_stat(rng, time, size)
    };
    let mut image = if rng.once_in(12) {
        let (list, _) = extents::sound_list(rng, 1_025);
        let mut bytes = image::extent_bytes(&list);
        if rng.once_in(2) {
            bytes.truncate(58_369);
        }
        image::inode(&stat, &bytes)
    } else {
        let (list, _) = extents::sound(rng);
        let mut image = image::inode(&stat, &image::extent_bytes(&list));
        let n = rng.pick(&[58_369, 58_425, 1 << 32, 1 << 63, TOP - 70, TOP - 74, TOP]);
        image[63..71].copy_from_slice(&n.to_le_bytes());
        image::reseal(&mut image);
        image
    };
    if rng.once_in(3) {
        image.truncate(71 + rng.index(image.len() - 70));
    }
    note_file(draft, size);
    image
}

/// Remembers a file that is about to be pushed, whatever its extents.
fn note_file(draft: &mut Draft, size: u64) {
    draft.files.push(File {
        offset: draft.offset(),
        size,
        extents: Vec::new(),
    });
}

/// A good time or, if there is one, a lower time than the last.
fn wished_time(rng: &mut Rng, draft: &Draft, wrong: bool) -> u64 {
    match draft.last {
        Some(last @ 1..) if wrong => time::lower(rng, last),
        last => time::following(rng, last),
    }
}

/// A block that the volume ends in, or that states more than there is.
fn cut_short(rng: &mut Rng, draft: &mut Draft, in_table: bool) -> Vec<u8> {
    if in_table {
        let links = draft::links(rng);
        // Links stated beyond the last find at most a checksum to stand in.
        let more = rng.below(3) * rng.below(40);
        let mut image = image::table(links.len() as u64 + more, &links.concat());
        if more == 0 {
            image.truncate(rng.index(image.len()));
        } else {
            image.truncate(image.len() - rng.index(5));
        }
        return image;
    }
    let lower = rng.once_in(4);
    let time = wished_time(rng, draft, lower);
    if rng.once_in(3) {
        return stating_more(rng, time);
    }
    let mut image = any_block(rng, time);
    image.truncate(1 + rng.index(image.len() - 1));
    image
}

/// A block whose length field goes beyond the end of the volume.
fn stating_more(rng: &mut Rng, time: u64) -> Vec<u8> {
    let long = [
        TOP,
        TOP - 3,
        TOP - 16,
        TOP - 17,
        TOP - 20,
        TOP - 21,
        TOP - 70,
        TOP - 74,
        1 << 63,
        1 << 32,
        LIMIT as u64,
    ];
    let n = rng.pick(&long);
    let length = rng.index(30);
    let payload = rng.bytes(length);
    let (mut image, at, field) = match rng.below(5) {
        0 => (image::data(time, &payload), 9, n.to_le_bytes().to_vec()),
        1 => {
            let mode = rng.pick(&[0xA1FF, 0x41ED]);
            let stat = Stat {
                mode,
                ..draft::any_stat(rng, time, n.wrapping_add(70))
            };
            (image::inode(&stat, &payload), 63, n.to_le_bytes().to_vec())
        }
        2 => {
            let id = rng.pick(&[image::LINK, image::UNLINK]);
            (image::link(id, time, 1, 2, b"name"), 25, vec![0xFF, 0xFF])
        }
        3 => (image::xattr(time, 1, b"k", b"v"), 18, vec![2, 0]),
        _ => {
            let at = rng.pick(&[9, 11]);
            (image::rename(time, b"a", b"b"), at, vec![2, 0])
        }
    };
    image[at..at + field.len()].copy_from_slice(&field);
    image::reseal(&mut image);
    image
}
