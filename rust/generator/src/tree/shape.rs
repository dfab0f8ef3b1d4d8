//! Links without their names, and roots to list them from.

use super::Kind;
use crate::rng::Rng;

const TOP: u64 = u64::MAX;

/// The most links of a table.
pub const LIMIT: u64 = 4_096;

/// Where the links of a table lead.
#[derive(Clone, Debug)]
pub struct Shape {
    /// Child and parent of each.
    pub links: Vec<(u64, u64)>,
    pub root: u64,
}

/// Links from small numbers, of which 0 is the one to list from.
type Links = Vec<(u64, u64)>;

/// The shape of a sound table of this kind.
pub fn of_kind(rng: &mut Rng, kind: Kind) -> Shape {
    let links = match kind {
        Kind::Few => few(rng),
        Kind::Rising => rising(rng),
        Kind::Chain => with_chain(rng),
        Kind::Loop => with_loop(rng),
        Kind::Diamond => diamond(rng),
        Kind::DeepAndWide => deep_and_wide(rng),
        Kind::Full => full(rng),
        _ => Vec::new(),
    };
    finish(rng, links)
}

/// The shape of a small table with at least one link.
pub fn small(rng: &mut Rng) -> Shape {
    let links = match rng.below(4) {
        0 => few(rng),
        1 => with_chain(rng),
        2 => with_loop(rng),
        _ => rising(rng),
    };
    finish(rng, links)
}

/// Puts links in another order, and has other numbers for inodes.
fn finish(rng: &mut Rng, mut links: Links) -> Shape {
    match rng.below(4) {
        0 => links.reverse(),
        1 | 2 => rng.shuffle(&mut links),
        _ => {}
    }
    let inodes = renumbered(rng);
    let root = match rng.below(20) {
        0 => rng.number(),
        1 | 2 if !links.is_empty() => inodes(rng.pick(&links).1),
        3 => inodes(rng.below(40)),
        _ => inodes(0),
    };
    for (child, parent) in &mut links {
        (*child, *parent) = (inodes(*child), inodes(*parent));
    }
    Shape { links, root }
}

/// Inode numbers for small numbers, all different: near the largest and the
/// smallest, or with the same low bits, or any.
fn renumbered(rng: &mut Rng) -> impl Fn(u64) -> u64 {
    let (factor, more) = match rng.below(7) {
        0 | 1 => (1, 0),
        2 => (1, TOP - rng.below(6)),
        3 => (TOP, 0),
        4 => (1 << 32, rng.word()),
        5 => (1 << rng.below(44), rng.number()),
        _ => (rng.word() | 1, rng.word()),
    };
    move |number: u64| number.wrapping_mul(factor).wrapping_add(more)
}

/// Any links between a few inodes. Some lead from an inode that nothing leads
/// to.
fn few(rng: &mut Rng) -> Links {
    let inodes = rng.between(1, 9);
    let many = rng.between(1, 2 * inodes + 3);
    let link = |_| {
        let parent = match rng.below(9) {
            0 => 20 + rng.below(3),
            _ => rng.below(inodes),
        };
        (rng.below(inodes + 2), parent)
    };
    (0..many).map(link).collect()
}

/// Every link leads to a higher number.
fn rising(rng: &mut Rng) -> Links {
    let inodes = rng.between(2, 30);
    let many = rng.between(1, 45);
    let far = rng.between(1, 6);
    let link = |_| {
        let parent = rng.below(inodes);
        (parent + 1 + rng.below(far), parent)
    };
    (0..many).map(link).collect()
}

/// Each link holds the next.
fn chain(length: u64) -> Links {
    (0..length).map(|k| (k + 1, k)).collect()
}

/// Links that hold nothing, in any of so many folders.
fn leaves(rng: &mut Rng, many: u64, folders: u64) -> Links {
    let link = |k| (1_000 + k, rng.below(folders));
    (0..many).map(link).collect()
}

fn with_chain(rng: &mut Rng) -> Links {
    let length = match rng.below(12) {
        0 => rng.between(1, 29),
        1 | 2 => 31,
        3..=6 => 32,
        7..=9 => 33,
        10 => 34,
        _ => rng.between(30, 70),
    };
    let mut links = chain(length);
    if rng.once_in(2) {
        let many = rng.below(8);
        links.extend(leaves(rng, many, length + 1));
    }
    // Another way into the chain, or a way back.
    if rng.once_in(4) {
        links.push((rng.below(length + 1), rng.below(length + 1)));
    }
    links
}

fn with_loop(rng: &mut Rng) -> Links {
    let before = rng.pick(&[0, 0, 0, 1, 2, 29, 30, 31, 32]);
    let mut links = chain(before);
    let around = rng.pick(&[1, 1, 1, 2, 3, 7]);
    let next = |k| if k + 1 < around { k + 1 } else { 0 };
    links.extend((0..around).map(|k| (before + next(k), before + k)));
    let many = rng.below(5);
    links.extend(leaves(rng, many, before + around));
    links
}

/// Some levels, each with so many links to the next.
fn levels(rng: &mut Rng, many: u64, width: u64) -> Links {
    let vary = rng.once_in(4);
    let mut links = Vec::new();
    for level in 0..many {
        let width = if vary { rng.between(1, width) } else { width };
        links.extend((0..width).map(|_| (level + 1, level)));
    }
    links
}

/// Of a width of 2, eleven levels have 4,094 lines.
fn diamond(rng: &mut Rng) -> Links {
    let (many, width) = match rng.below(8) {
        0 => (rng.between(1, 7), 3),
        1 => (rng.between(1, 3), rng.between(4, 15)),
        2 => (rng.between(12, 31), 2),
        3 => (rng.between(32, 34), rng.between(2, 4)),
        _ => (rng.between(1, 11), 2),
    };
    let mut links = levels(rng, many, width);
    let extra = rng.below(4);
    links.extend(leaves(rng, extra, many + 1));
    links
}

/// Ends at the last depth or about that, with many links there.
fn deep_and_wide(rng: &mut Rng) -> Links {
    let length = rng.between(28, 33);
    let mut links = chain(length);
    for _ in 0..rng.between(1, 4) {
        let folder = match rng.below(3) {
            0 => rng.below(length),
            _ => length - rng.below(4),
        };
        let many = rng.between(1, 40);
        let first = 1_000 * (1 + links.len() as u64);
        links.extend((0..many).map(|k| (first + k, folder)));
        // One of them holds something too.
        if rng.once_in(2) {
            links.push((1, first + rng.below(many)));
        }
    }
    let extra = rng.below(10);
    links.extend(leaves(rng, extra, length + 1));
    links
}

fn full(rng: &mut Rng) -> Links {
    let many = LIMIT - u64::from(rng.once_in(4));
    let width = rng.pick(&[1, 2, 16, 64, 200, LIMIT]);
    match rng.below(4) {
        // As many links as folders with the same number of links have.
        0 | 1 => (0..many).map(|k| (k + 1, k / width)).collect(),
        2 => (0..many)
            .map(|k| (k + 1, rng.below(1 + k / width)))
            .collect(),
        _ => {
            let depth = rng.pick(&[2, 31, 32, 33]);
            (0..many).map(|k| (k % depth + 1, k % depth)).collect()
        }
    }
}
