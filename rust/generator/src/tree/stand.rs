//! Where a table stands, what its links are called, and the rooms to list it
//! into.

use std::collections::BTreeSet;

use super::listing::{End, Listing, MOST};
use super::shape::Shape;
use super::Expected;
use crate::draft::{high_sequence, Draft};
use crate::image;
use crate::number;
use crate::rng::Rng;
use crate::text;
use crate::Mark;

/// A volume with a bookmark, and what is told of the table there if that is
/// not its listing.
pub struct Made {
    pub volume: Vec<u8>,
    pub mark: Mark,
    pub expected: Option<Expected>,
}

/// A sound table somewhere in a volume.
pub fn sound(rng: &mut Rng, shape: &Shape) -> Made {
    let table = image_of(&named(rng, &shape.links));
    let mut made = placed(rng, &table);
    // The next number must still be one.
    made.mark.number = made.mark.number.min(number::FULL - 1);
    made
}

/// A link as it stands in a table.
#[derive(Clone, Debug)]
pub struct Named {
    pub child: u64,
    pub parent: u64,
    pub name: Vec<u8>,
}

/// Names for links, all different in one folder.
pub fn named(rng: &mut Rng, links: &[(u64, u64)]) -> Vec<Named> {
    let most = match rng.below(40) {
        0 if links.len() < 40 => 65_535,
        1 => 200,
        _ => 20,
    };
    let is_numbered = rng.once_in(4);
    let mut seen = BTreeSet::new();
    let mut list = Vec::new();
    for (place, &(child, parent)) in links.iter().enumerate() {
        let mut name = if is_numbered {
            format!("{place}").into_bytes()
        } else {
            text::sound(rng, most)
        };
        while !seen.insert((parent, name.clone())) {
            name.clear();
            name.extend_from_slice(format!("{place}.{}", seen.len() + rng.index(9)).as_bytes());
        }
        list.push(Named {
            child,
            parent,
            name,
        });
    }
    list
}

/// A table of just these links.
pub fn image_of(links: &[Named]) -> Vec<u8> {
    stating(links.len() as u64, links)
}

/// The same with another number of links stated.
pub fn stating(count: u64, links: &[Named]) -> Vec<u8> {
    let link = |link: &Named| image::table_link(link.child, link.parent, &link.name);
    let bytes: Vec<Vec<u8>> = links.iter().map(link).collect();
    image::table(count, &bytes.concat())
}

/// A volume in which this image stands at the bookmark, with something behind
/// it or nothing.
pub fn placed(rng: &mut Rng, image: &[u8]) -> Made {
    let mut made = last(rng, image);
    match rng.below(4) {
        0 => {
            let data = image::data(rng.number(), b"1,5");
            made.volume.extend_from_slice(&data);
        }
        1 => {
            let many = 1 + rng.index(40);
            let behind = rng.bytes(many);
            made.volume.extend_from_slice(&behind);
        }
        _ => {}
    }
    made
}

/// The same with nothing behind it.
pub fn last(rng: &mut Rng, image: &[u8]) -> Made {
    let mut volume = match rng.below(8) {
        0 => {
            // Nobody asks what stands before a bookmark.
            let many = 80 + rng.index(200);
            rng.bytes(many)
        }
        1 => {
            let mut draft = Draft::new(rng, 0);
            let many = rng.between(0, 2);
            draft.blocks(rng, many);
            draft.bytes
        }
        2 => {
            // Behind the volume's own table.
            let sequence = high_sequence(rng);
            let mut draft = Draft::new(rng, sequence);
            draft.table_if_due(rng);
            draft.bytes
        }
        _ => {
            let sequence = high_sequence(rng);
            Draft::new(rng, sequence).bytes
        }
    };
    let mark = any_mark(rng, volume.len() as u64);
    volume.extend_from_slice(image);
    Made {
        volume,
        mark,
        expected: None,
    }
}

/// A bookmark at this offset: true or made up.
pub fn any_mark(rng: &mut Rng, offset: u64) -> Mark {
    let last = match rng.below(4) {
        0 => Some(rng.number()),
        1 => Some(u64::MAX),
        _ => None,
    };
    let number = match rng.below(3) {
        0 => number::made_up(rng),
        _ => 0,
    };
    Mark {
        offset,
        due: rng.once_in(2),
        last,
        number,
    }
}

/// Rooms in which the answer is another one than in the next smaller, none at
/// all, and some others. What was not followed is not asked for.
pub fn rooms(rng: &mut Rng, listing: &Listing) -> Vec<usize> {
    let all = 2 * listing.lines.len();
    let mut rooms = vec![0, 1, all.saturating_sub(1), all, all + 1];
    rooms.extend([rng.index(all + 4), rng.index(all + 4), all + rng.index(70)]);
    if listing.end == End::More {
        rooms.retain(|&room| room < 2 * MOST);
    }
    rooms.sort_unstable();
    rooms.dedup();
    rooms
}
