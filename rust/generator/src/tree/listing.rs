//! Listings, followed line by line.

use std::collections::BTreeMap;

use super::{Answer, NO_ROOM, TOO_DEEP};
use crate::texts::Fault;

/// The most lines that are followed. There can be more than 2^64.
pub const MOST: usize = 5_000;

/// How many depths there are.
const DEPTHS: u64 = 32;

/// What comes after the lines that were followed.
#[derive(Clone, Copy, Debug, PartialEq, Eq, PartialOrd, Ord)]
pub enum End {
    /// Nothing.
    Whole,
    /// A line that is too deep.
    TooDeep,
    /// One line more at least, of which nothing is known.
    More,
}

/// The first lines of a listing, each with its depth and its place.
#[derive(Clone, Debug, PartialEq, Eq)]
pub struct Listing {
    pub lines: Vec<[u64; 2]>,
    pub end: End,
}

impl Listing {
    /// Follows links, child and parent each, from a root on.
    pub(super) fn new(links: &[(u64, u64)], root: u64) -> Listing {
        let mut folders: Folders = BTreeMap::new();
        for (place, &(child, parent)) in (0..).zip(links) {
            folders.entry(parent).or_default().push((place, child));
        }
        let mut lines = Vec::new();
        let end = follow(&folders, root, 0, &mut lines);
        Listing {
            lines,
            end: end.err().unwrap_or(End::Whole),
        }
    }

    /// What is told in so much room: a line needs two numbers. Where a line
    /// was not followed, nobody knows whether it is too deep.
    pub fn answer(&self, room: usize) -> Option<Answer<'_>> {
        let number = match self.end {
            _ if room / 2 < self.lines.len() => NO_ROOM,
            End::Whole => return Some(Answer::Lines(&self.lines)),
            End::TooDeep => TOO_DEEP,
            End::More => return None,
        };
        let fault = Fault::default();
        Some(Answer::Refused { number, fault })
    }
}

/// Place and child of each link, by parent.
type Folders = BTreeMap<u64, Vec<(u64, u64)>>;

fn follow(folders: &Folders, inode: u64, depth: u64, lines: &mut Vec<[u64; 2]>) -> Result<(), End> {
    for &(place, child) in folders.get(&inode).into_iter().flatten() {
        if depth == DEPTHS {
            return Err(End::TooDeep);
        }
        if lines.len() == MOST {
            return Err(End::More);
        }
        lines.push([depth, place]);
        follow(folders, child, depth + 1, lines)?;
    }
    Ok(())
}
