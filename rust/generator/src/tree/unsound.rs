//! Tables that are refused, or stand where none is read.

use super::shape::{Shape, LIMIT};
use super::stand::{any_mark, image_of, last, named, placed, stating, Made, Named};
use super::{Expected, Kind};
use crate::draft::Draft;
use crate::image;
use crate::number;
use crate::rng::Rng;
use crate::text;
use crate::texts::{Fault, Texts};

fn refused(number: u64) -> Expected {
    let fault = Fault::default();
    Expected::Refused { number, fault }
}

/// A table of this shape that is refused in this way. Its bookmark may have
/// the largest number: that is told after all else.
pub fn of_kind(rng: &mut Rng, kind: Kind, shape: &Shape) -> Made {
    let links = named(rng, &shape.links);
    let table = image_of(&links);
    let (mut made, expected) = match kind {
        Kind::Checksum => (checksum(rng, table), refused(5)),
        Kind::Twice => (twice(rng, links), refused(13)),
        Kind::Name => name(rng, links),
        Kind::Cut => (cut(rng, &links, table), refused(2)),
        Kind::TooMany => (too_many(rng, &links), refused(9)),
        Kind::NoTable => no_table(rng),
        Kind::Number => (full_number(rng, &table), refused(9)),
        Kind::Below => (below(rng, &table), refused(8)),
        Kind::Beyond => (beyond(rng, &table), refused(2)),
        Kind::TooLong => (too_long(rng, &table), refused(1)),
        _ => (damaged(rng, table), Expected::Unknown),
    };
    made.expected = Some(expected);
    made
}

fn checksum(rng: &mut Rng, mut table: Vec<u8>) -> Made {
    // In the checksum, or in the numbers of the first link.
    let at = match rng.below(3) {
        0 => 9 + rng.index(16),
        _ => table.len() - 1 - rng.index(4),
    };
    table[at] ^= 1 << rng.below(8);
    placed(rng, &table)
}

/// One link once more, with its child or another.
fn twice(rng: &mut Rng, mut links: Vec<Named>) -> Made {
    let mut link = links[rng.index(links.len())].clone();
    if rng.once_in(2) {
        link.child = rng.number();
    }
    links.insert(rng.index(links.len() + 1), link);
    placed(rng, &image_of(&links))
}

/// One name is at fault, or two are.
fn name(rng: &mut Rng, mut links: Vec<Named>) -> (Made, Expected) {
    let at_fault = [rng.index(links.len()), rng.index(links.len())];
    let most = rng.pick(&[8, 20, 300]);
    let mut texts = Texts::default();
    for (place, link) in links.iter_mut().enumerate() {
        if at_fault.contains(&place) {
            let broken = text::broken(rng, most);
            texts.broken(&broken);
            link.name = broken.bytes;
        } else {
            texts.skip();
        }
    }
    let fault = texts.first().expect("a name at fault");
    let expected = Expected::Refused { number: 10, fault };
    (placed(rng, &image_of(&links)), expected)
}

/// The volume ends too early, or one link more is stated than there is.
fn cut(rng: &mut Rng, links: &[Named], table: Vec<u8>) -> Made {
    if rng.once_in(4) {
        let more = links.len() as u64 + rng.between(1, 3);
        return last(rng, &stating(more, links));
    }
    let length = match rng.below(8) {
        0 => 0,
        1 | 2 => rng.index(12),
        3 | 4 => table.len() - 1 - rng.index(5),
        _ => rng.index(table.len()),
    };
    last(rng, &table[..length])
}

fn too_many(rng: &mut Rng, links: &[Named]) -> Made {
    let stated = match rng.below(3) {
        0 => LIMIT + 1,
        1 => u64::MAX - rng.below(3),
        _ => rng.between(LIMIT + 1, u64::MAX),
    };
    placed(rng, &stating(stated, links))
}

/// Another block, or nothing that is one.
fn no_table(rng: &mut Rng) -> (Made, Expected) {
    if rng.once_in(3) {
        let id = match rng.below(3) {
            0 => 0,
            1 => 9,
            _ => rng.between(9, 255),
        };
        let rest = rng.index(40);
        let image = [vec![id as u8], rng.bytes(rest)].concat();
        return (placed(rng, &image), refused(7));
    }
    let mut draft = Draft::new(rng, 0);
    let time = rng.number();
    draft.block(rng, time);
    (placed(rng, &draft.bytes[80..]), refused(8))
}

fn full_number(rng: &mut Rng, table: &[u8]) -> Made {
    let mut made = placed(rng, table);
    made.mark.number = number::FULL;
    made
}

/// The table stands at the bookmark, or where it should.
fn below(rng: &mut Rng, table: &[u8]) -> Made {
    let offset = match rng.below(3) {
        0 => 79,
        1 => 0,
        _ => rng.below(80),
    };
    let mut made = placed(rng, table);
    if rng.once_in(2) {
        let before = rng.bytes(offset as usize);
        made.volume = [&before[..], table].concat();
    }
    made.mark = any_mark(rng, offset);
    made
}

fn beyond(rng: &mut Rng, table: &[u8]) -> Made {
    let mut made = placed(rng, table);
    let end = made.volume.len() as u64;
    let offset = match rng.below(4) {
        0 | 1 => end,
        2 => end + rng.between(1, 90),
        _ => u64::MAX - rng.below(3),
    };
    made.mark = any_mark(rng, offset);
    made
}

fn too_long(rng: &mut Rng, table: &[u8]) -> Made {
    let mut made = placed(rng, table);
    made.volume.resize(image::LIMIT + 1 + rng.index(3), 0);
    // It comes before all else.
    if rng.once_in(2) {
        made.mark.offset = rng.number();
    }
    made
}

fn damaged(rng: &mut Rng, mut table: Vec<u8>) -> Made {
    let at = match rng.below(3) {
        0 => rng.index(table.len()),
        // Among the numbers of the first link.
        _ => 9 + rng.index(18),
    };
    table[at] ^= 1 << rng.below(8);
    if !rng.once_in(3) {
        image::reseal(&mut table);
    }
    placed(rng, &table)
}
