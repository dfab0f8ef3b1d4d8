//! Blocks that are whole and have something wrong in them.

use crate::draft::{self, Draft, File};
use crate::extents;
use crate::image::{self, Stat};
use crate::rng::Rng;
use crate::text::{self, Broken};
use crate::texts::{Fault, Texts};

use super::{spoil, wished_time};

const TOP: u64 = u64::MAX;

/// What is to be wrong inside a block.
#[derive(Clone, Copy)]
struct Wrong {
    text: bool,
    field: bool,
    overlap: bool,
    twice: bool,
    time: bool,
}

/// A whole block with something wrong in it, its checksum among that. Where
/// it is refused for a text, the second answer says which.
pub fn wrong_inside(
    rng: &mut Rng,
    draft: &mut Draft,
    number: u64,
    in_table: bool,
) -> (Vec<u8>, Fault) {
    let also = |rng: &mut Rng, fault: u64| number == fault || number < fault && rng.once_in(3);
    let wrong = Wrong {
        text: also(rng, 10),
        field: also(rng, 11),
        overlap: also(rng, 12),
        twice: also(rng, 13),
        time: also(rng, 14),
    };
    let mut texts = Texts::default();
    let mut image = if in_table {
        table_with(rng, wrong, &mut texts)
    } else {
        block_with(rng, draft, number, wrong, &mut texts)
    };
    if number == 5 {
        if rng.once_in(3) {
            flip_contents(rng, &mut image);
        } else {
            spoil(rng, &mut image);
        }
    }
    // Beside another number nothing is said of texts.
    let first = texts.first().filter(|_| number == 10);
    (image, first.unwrap_or_default())
}

/// Changes one bit that is not part of a length, a count, a mode or the ID.
fn flip_contents(rng: &mut Rng, image: &mut [u8]) {
    let at = match image[0] {
        image::INODE => rng.between(9, 16),
        image::TABLE => {
            let end = image.len() as u64;
            if end > 13 {
                rng.between(9, 24)
            } else {
                rng.between(9, 12)
            }
        }
        _ => rng.between(1, 8),
    };
    image[at as usize] ^= 1 << rng.below(8);
}

fn table_with(rng: &mut Rng, wrong: Wrong, texts: &mut Texts) -> Vec<u8> {
    let mut links = draft::links(rng);
    if wrong.twice {
        let (parent, name) = (rng.number(), text::sound(rng, 65_535));
        for _ in 0..2 {
            links.push(image::table_link(rng.number(), parent, &name));
        }
    }
    rng.shuffle(&mut links);
    let mut links: Vec<_> = links.into_iter().map(|link| (link, None)).collect();
    if wrong.text {
        break_links(rng, &mut links);
    }
    for (_, broken) in &links {
        match broken {
            Some(broken) => texts.broken(broken),
            None => texts.skip(),
        }
    }
    let count = links.len() as u64;
    let bytes: Vec<u8> = links.into_iter().flat_map(|(link, _)| link).collect();
    image::table(count, &bytes)
}

/// Puts one link or more with a broken name among the others: before all,
/// behind all, or anywhere. Now and then the broken ones are the same link.
fn break_links(rng: &mut Rng, links: &mut Vec<(Vec<u8>, Option<Broken>)>) {
    let many = match rng.below(3) {
        0 => rng.between(2, 5),
        _ => 1,
    };
    let is_same = rng.once_in(4);
    let mut key = (rng.number(), text::broken(rng, 65_535));
    for _ in 0..many {
        let end = links.len();
        let place = match rng.below(5) {
            0 => 0,
            1 => end,
            _ => rng.index(end + 1),
        };
        let link = image::table_link(rng.number(), key.0, &key.1.bytes);
        links.insert(place, (link, Some(key.1.clone())));
        if !is_same {
            key = (rng.number(), text::broken(rng, 300));
        }
    }
}

/// A block of a kind that can have the fault of this number. Faults that
/// this kind cannot have are left out.
fn block_with(
    rng: &mut Rng,
    draft: &mut Draft,
    number: u64,
    wrong: Wrong,
    texts: &mut Texts,
) -> Vec<u8> {
    let time = wished_time(rng, draft, wrong.time);
    let kinds: &[u8] = match number {
        10 => &[9, 2, 3, 4, 5, 7, 7],
        11 => &[1, 1, 9, 10],
        12 => &[1],
        _ => &[1, 9, 10, 2, 3, 4, 5, 6, 7],
    };
    match rng.pick(kinds) {
        1 => file_with(rng, draft, time, wrong),
        9 => {
            let target = texts.draw(rng, 70_000, wrong.text);
            target_with(rng, time, &target, wrong)
        }
        10 => other_inode_with(rng, time, wrong),
        4 => {
            let name = texts.draw(rng, 255, wrong.text);
            let length = rng.index(9);
            image::xattr(time, rng.number(), &name, &rng.bytes(length))
        }
        5 => {
            let name = texts.draw(rng, 255, wrong.text);
            image::removed(time, rng.number(), &name)
        }
        6 => {
            let length = rng.index(30);
            image::data(time, &rng.bytes(length))
        }
        7 => rename_with(rng, time, wrong, texts),
        id => {
            let name = texts.draw(rng, 65_535, wrong.text);
            image::link(id, time, rng.number(), rng.number(), &name)
        }
    }
}

/// A symbolic link with this target; its size may be wrong.
fn target_with(rng: &mut Rng, time: u64, target: &[u8], wrong: Wrong) -> Vec<u8> {
    let n = target.len() as u64;
    let size = if wrong.field {
        rng.pick(&[n, 69 + n, 71 + n, 70u64.wrapping_sub(n), 0, TOP])
    } else {
        70 + n
    };
    // A size that happens to be right is made wrong.
    let size = if wrong.field && size == 70 + n {
        71 + n
    } else {
        size
    };
    let stat = Stat {
        mode: 0xA000 | rng.below(4_096) as u16,
        ..draft::any_stat(rng, time, size)
    };
    image::inode(&stat, target)
}

/// Neither a regular file nor a symbolic link.
fn other_inode_with(rng: &mut Rng, time: u64, wrong: Wrong) -> Vec<u8> {
    let (size, variable) = match rng.below(3) {
        _ if !wrong.field => (70, Vec::new()),
        0 => (rng.pick(&[0, 69, 71, TOP]), Vec::new()),
        1 => (70, rng.bytes(1)),
        _ => (71, b"x".to_vec()),
    };
    let stat = Stat {
        mode: draft::other_mode(rng),
        ..draft::any_stat(rng, time, size)
    };
    image::inode(&stat, &variable)
}

/// A rename with one path at fault or both.
fn rename_with(rng: &mut Rng, time: u64, wrong: Wrong, texts: &mut Texts) -> Vec<u8> {
    if wrong.text && rng.once_in(6) {
        // A character torn between the two paths.
        texts.broken(&Broken {
            bytes: b"a\xc3".to_vec(),
            start: 1,
        });
        return image::rename(time, b"a\xc3", b"\xa4");
    }
    let most = rng.pick(&[99, 65_535]);
    let sound = rng.below(3);
    let old = texts.draw(rng, most, wrong.text && sound != 1);
    let new = texts.draw(rng, most, wrong.text && sound != 2);
    image::rename(time, &old, &new)
}

/// A regular file with broken or overlapping extents.
fn file_with(rng: &mut Rng, draft: &mut Draft, time: u64, wrong: Wrong) -> Vec<u8> {
    let mut list = if wrong.overlap {
        extents::overlapping(rng)
    } else {
        extents::sound(rng).0
    };
    let mut bytes = image::extent_bytes(&list);
    if wrong.field {
        if list.is_empty() || rng.once_in(3) {
            let length = rng.pick(&[1, 8, 56, 58, 113, 58_367]);
            bytes = rng.bytes(length);
        } else {
            extents::break_one(rng, &mut list);
            bytes = image::extent_bytes(&list);
        }
    }
    let size = draft::any_size(rng, 40);
    let stat = Stat {
        mode: 0x8000 | rng.below(4_096) as u16,
        ..draft::any_stat(rng, time, size)
    };
    draft.files.push(File {
        offset: draft.offset(),
        size,
        extents: list,
    });
    image::inode(&stat, &bytes)
}
