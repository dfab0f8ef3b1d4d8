//! Link tables to list as trees, from any root and into lists of any length.
//!
//! A listing has two numbers for each line: its depth and the place of its
//! link among all links of the table.

mod edge;
mod listing;
mod shape;
mod stand;
mod unsound;

pub use edge::{edges, Edge};
pub use listing::{End, Listing};

use std::fmt::Write;

use crate::hex;
use crate::rng::Rng;
use crate::texts::Fault;
use crate::Mark;

/// The refusals of a listing itself.
pub const NO_ROOM: u64 = 17;
pub const TOO_DEEP: u64 = 24;

/// What a table was made for.
#[derive(Clone, Copy, Debug, PartialEq, Eq, PartialOrd, Ord)]
pub enum Kind {
    /// Any links between few inodes.
    Few,
    /// No loops, and often more than one way to a link.
    Rising,
    /// Each link holds the next, up to the last depth or about that.
    Chain,
    /// A way back to the root, or around elsewhere.
    Loop,
    /// Level by level some links to one inode, which is the next level.
    Diamond,
    /// A chain with many links at some of its depths, and below it.
    DeepAndWide,
    /// No links.
    Empty,
    /// 4,096 links, or one less.
    Full,
    /// The checksum is wrong.
    Checksum,
    /// Two links with one parent and one name.
    Twice,
    /// A name that is not text, or some.
    Name,
    /// The volume ends within the table.
    Cut,
    /// More than 4,096 links are stated.
    TooMany,
    /// Something else stands there.
    NoTable,
    /// A sound table at a bookmark with the largest number.
    Number,
    /// The bookmark is below 80.
    Below,
    /// The bookmark is at the end or beyond it.
    Beyond,
    /// The volume has more than 16 MiB.
    TooLong,
    /// One byte of the table is wrong, and perhaps the checksum says so.
    Damaged,
}

impl Kind {
    pub const ALL: [Kind; 19] = [
        Kind::Few,
        Kind::Rising,
        Kind::Chain,
        Kind::Loop,
        Kind::Diamond,
        Kind::DeepAndWide,
        Kind::Empty,
        Kind::Full,
        Kind::Checksum,
        Kind::Twice,
        Kind::Name,
        Kind::Cut,
        Kind::TooMany,
        Kind::NoTable,
        Kind::Number,
        Kind::Below,
        Kind::Beyond,
        Kind::TooLong,
        Kind::Damaged,
    ];

    /// Whether the table is listed.
    pub fn is_sound(self) -> bool {
        self <= Kind::Full
    }
}

/// What is known of the answers to one tree.
#[derive(Clone, Debug, PartialEq, Eq)]
pub enum Expected {
    Unknown,
    /// The table is refused, whatever the root and the room.
    Refused {
        number: u64,
        /// The text at fault, if the number is 10; else its numbers are 0.
        fault: Fault,
    },
    Listing(Listing),
}

/// What is told in some room.
#[derive(Clone, Copy, Debug, PartialEq, Eq)]
pub enum Answer<'a> {
    /// These lines, and nothing behind them.
    Lines(&'a [[u64; 2]]),
    Refused {
        number: u64,
        fault: Fault,
    },
}

/// A volume, a bookmark in it, and what to list.
#[derive(Clone, Debug)]
pub struct Tree {
    pub seed: u64,
    pub kind: Kind,
    pub volume: Vec<u8>,
    /// Whether it says that a table is due makes no difference.
    pub mark: Mark,
    pub root: u64,
    /// The lengths of lists to try, in numbers, rising.
    pub rooms: Vec<usize>,
    pub expected: Expected,
}

impl Tree {
    /// What is told in so much room, as far as the making fixes it. It does
    /// for all of [`Tree::rooms`] unless nothing at all is known.
    pub fn answer(&self, room: usize) -> Option<Answer<'_>> {
        match &self.expected {
            Expected::Unknown => None,
            &Expected::Refused { number, fault } => Some(Answer::Refused { number, fault }),
            Expected::Listing(listing) => listing.answer(room),
        }
    }
}

/// The tree of a seed. Few have 4,096 links, and very few 16 MiB.
pub fn tree(seed: u64) -> Tree {
    let mut rng = Rng::new(seed);
    if rng.once_in(1_500) {
        return of_kind(seed, &mut rng, Kind::TooLong);
    }
    let kind = match rng.below(300) {
        0..=49 => Kind::Few,
        50..=94 => Kind::Rising,
        95..=129 => Kind::Chain,
        130..=154 => Kind::Loop,
        155..=184 => Kind::Diamond,
        185..=214 => Kind::DeepAndWide,
        215..=219 => Kind::Empty,
        220..=221 => Kind::Full,
        222..=228 => Kind::Checksum,
        229..=235 => Kind::Twice,
        236..=244 => Kind::Name,
        245..=251 => Kind::Cut,
        252..=257 => Kind::TooMany,
        258..=264 => Kind::NoTable,
        265..=271 => Kind::Number,
        272..=277 => Kind::Below,
        278..=283 => Kind::Beyond,
        _ => Kind::Damaged,
    };
    of_kind(seed, &mut rng, kind)
}

fn of_kind(seed: u64, rng: &mut Rng, kind: Kind) -> Tree {
    let shape = if kind.is_sound() {
        shape::of_kind(rng, kind)
    } else {
        shape::small(rng)
    };
    let listing = Listing::new(&shape.links, shape.root);
    let rooms = stand::rooms(rng, &listing);
    let made = if kind.is_sound() {
        stand::sound(rng, &shape)
    } else {
        unsound::of_kind(rng, kind, &shape)
    };
    Tree {
        seed,
        kind,
        volume: made.volume,
        mark: made.mark,
        root: shape.root,
        rooms,
        expected: made.expected.unwrap_or(Expected::Listing(listing)),
    }
}

/// The tree as text, for reports of failures.
pub fn describe(tree: &Tree) -> String {
    let mut text = String::new();
    let mut line = |name: &str, value: String| {
        writeln!(text, "{name}: {value}").expect("a string takes all text");
    };
    line("tree of seed", tree.seed.to_string());
    line("kind", format!("{:?}", tree.kind));
    line("bookmark", format!("{:?}", tree.mark));
    line("root", tree.root.to_string());
    line("rooms", format!("{:?}", tree.rooms));
    match &tree.expected {
        Expected::Listing(listing) => {
            let lines = listing.lines.len();
            line("expected", format!("{lines} lines, {:?}", listing.end));
        }
        other => line("expected", format!("{other:?}")),
    }
    line("volume", hex(&tree.volume));
    text
}
