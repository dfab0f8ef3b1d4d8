//! Small sound volumes with every kind of block.

use generator::draft::{self, Draft};
use generator::image::{self, Extent, Stat, COUNTED, REPEATED};
use generator::rng::Rng;
use generator::{text, time};

/// The volume of a number. Every second has a link table.
#[must_use]
pub fn volume(number: u64) -> Draft {
    let mut rng = Rng::new(number);
    let rng = &mut rng;
    let mut draft = Draft::new(rng, number % 2 * (1 + number));
    if draft.sequence > 0 {
        draft.push(&image::table(3, &links(rng)));
    }
    let mut kinds = [0, 1, 2, 3, 4, 5, 6, 7, 8];
    rng.shuffle(&mut kinds);
    for kind in kinds {
        let time = time::following(rng, draft.last);
        if kind == 0 {
            let (size, list) = file(rng);
            draft.file(rng, time, size, list);
        } else {
            let image = block(rng, kind, time);
            draft.push_timed(time, &image);
        }
    }
    draft
}

/// Three links of a table. One byte more or less makes two of them the same.
fn links(rng: &mut Rng) -> Vec<u8> {
    let name = text::sound(rng, 6);
    let [one, two] = [b"1", b"2"].map(|end| [&name[..], end].concat());
    let links = [(1, &one), (2, &one), (2, &two)];
    let link = |(parent, name): (u64, &Vec<u8>)| image::table_link(rng.word(), parent, name);
    links.map(link).concat()
}

/// A size and three extents, of which the last keeps nothing.
fn file(rng: &mut Rng) -> (u64, Vec<Extent>) {
    let counted = extent(rng, COUNTED, 2);
    let gap = rng.below(3);
    let repeated = extent(rng, REPEATED, 2 + 12 + gap);
    let nothing = Extent {
        pre: 12,
        post: 0,
        ..counted
    };
    let mut list = vec![counted, repeated, nothing];
    rng.shuffle(&mut list);
    (25 + rng.below(9), list)
}

/// Keeps 9 to 12 positions.
fn extent(rng: &mut Rng, multiplicity: u8, logical: u64) -> Extent {
    Extent {
        volume: rng.below(2),
        start: 80 + rng.below(9),
        size: 4,
        multiplicity,
        count: 3,
        pre: rng.below(3),
        post: rng.below(2),
        logical,
    }
}

/// A block of one kind, other than a regular file.
fn block(rng: &mut Rng, kind: u8, time: u64) -> Vec<u8> {
    let name = text::sound(rng, 9);
    let second = text::sound(rng, 7);
    match kind {
        1 => inode(rng, 0xA1FF, time, &name),
        2 => image::link(image::LINK, time, 7, 1, &name),
        3 => image::link(image::UNLINK, time, 7, 1, &name),
        4 => image::xattr(time, 7, &name, &second),
        5 => image::removed(time, 7, &name),
        6 => image::data(time, &second),
        7 => image::rename(time, &name, &second),
        _ => inode(rng, 0x41ED, time, b""),
    }
}

fn inode(rng: &mut Rng, mode: u16, time: u64, variable: &[u8]) -> Vec<u8> {
    let size = 70 + variable.len() as u64;
    let stat = Stat {
        mode,
        ..draft::any_stat(rng, time, size)
    };
    image::inode(&stat, variable)
}
