//! Tables to list as trees.

use generator::bench::{tree_inputs, Tree, ROOT};
use generator::image;
use generator::rng::Rng;
use independent::links::Links;

/// A volume with a table at 80, and a list to lend.
pub struct Input {
    pub name: String,
    pub volume: Vec<u8>,
    /// How many numbers the list has.
    pub room: usize,
    /// How many lines there are, or the number of the refusal.
    pub expected: Result<u64, u64>,
    /// Calls in one measurement.
    pub calls: u32,
}

/// The most links of a table.
const FULL: u64 = 4_096;

/// How many depths there are.
const DEPTHS: usize = 32;

/// What is said of a list without room for all lines, and of a line that is too deep.
const NO_ROOM: u64 = 17;
const TOO_DEEP: u64 = 24;

/// Trees that are listed, with just enough room.
pub fn sound() -> impl Iterator<Item = Input> {
    tree_inputs()
        .map(listed)
        .chain(full_tables().filter(|input| input.name.ends_with(SHUFFLED)))
}

const SHUFFLED: &str = ", shuffled";

/// Those with as many links as a table may have, each also with its links in any order.
pub fn full_tables() -> impl Iterator<Item = Input> {
    tree_inputs()
        .filter(|tree| tree.links == FULL)
        .flat_map(|tree| {
            let other = Tree {
                volume: shuffled(&tree.volume),
                ..tree
            };
            let mut other = listed(other);
            other.name += SHUFFLED;
            [listed(tree), other]
        })
}

fn listed(tree: Tree) -> Input {
    Input {
        name: tree.name.into(),
        volume: tree.volume,
        room: 2 * tree.lines as usize,
        expected: Ok(tree.lines),
        calls: calls(tree.links + tree.lines),
    }
}

/// So many that a measurement takes some thousandths of a second: the work goes by links and lines.
fn calls(work: u64) -> u32 {
    (200_000 / work).clamp(2, 2_000) as u32
}

/// Tables whose trees are not listed.
pub fn hostile() -> impl Iterator<Item = Input> {
    let each_a_loop = |_| (ROOT, ROOT);
    // The loop comes last in its folder, so that all others are listed at every depth before.
    let then_a_loop = |k| (if k + 1 < FULL { k + 2 } else { ROOT }, ROOT);
    // No two links are in one folder.
    let chain = |k| (ROOT + k + 1, ROOT + k);
    let levels = |k| (ROOT + k / 128 + 1, ROOT + k / 128);
    let some = 2 * FULL as usize;
    let all = some * DEPTHS;
    let rows: [Row; 6] = [
        ("4,096 links, each a loop", each_a_loop, some, TOO_DEEP),
        ("4,095 links, then a loop", then_a_loop, all, TOO_DEEP),
        ("the same, a number too few", then_a_loop, all - 1, NO_ROOM),
        ("a chain of 4,096 links", chain, some, TOO_DEEP),
        (
            "32 levels of 128 links, 1,000 numbers",
            levels,
            1_000,
            NO_ROOM,
        ),
        ("the same, 2,000,000 numbers", levels, 2_000_000, NO_ROOM),
    ];
    let row = |(name, link, room, number): Row| refused(name, table(link), room, number);
    diamond_too_long().chain(rows.map(row))
}

/// A name, the child and the parent of the link at a place, how much room is lent, and the number of
/// the refusal.
type Row = (&'static str, fn(u64) -> (u64, u64), usize, u64);

/// The diamond with a number too few.
fn diamond_too_long() -> impl Iterator<Item = Input> {
    tree_inputs().last().into_iter().map(|tree| {
        let room = 2 * tree.lines as usize - 1;
        refused("a diamond, a number too few", tree.volume, room, NO_ROOM)
    })
}

fn refused(name: &str, volume: Vec<u8>, room: usize, number: u64) -> Input {
    Input {
        name: name.into(),
        volume,
        room,
        expected: Err(number),
        calls: calls(2 * FULL),
    }
}

/// Volume 1 with a full table. Of each link it is asked what child and parent it has.
fn table(link: impl Fn(u64) -> (u64, u64)) -> Vec<u8> {
    let links = (0..FULL).map(|place| {
        let (child, parent) = link(place);
        image::table_link(child, parent, format!("{place:05}").as_bytes())
    });
    volume(links.collect())
}

/// The same links in any order.
fn shuffled(of: &[u8]) -> Vec<u8> {
    // The links stand between the number of links and the checksum.
    let links = Links::new(&of[89..of.len() - 4]);
    let mut links: Vec<Vec<u8>> = links
        .map(|link| image::table_link(link.child, link.parent, link.name))
        .collect();
    Rng::new(1).shuffle(&mut links);
    volume(links)
}

fn volume(links: Vec<Vec<u8>>) -> Vec<u8> {
    let header = image::header(1, &[7; 16], &[1; 32]);
    let table = image::table(links.len() as u64, &links.concat());
    [header, table].concat()
}
