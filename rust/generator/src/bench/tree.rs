//! Short volumes whose tables are listed as trees.

use super::start;
use crate::image;

/// The root of every tree here.
pub const ROOT: u64 = 1;

/// A volume with a table, and what a listing from [`ROOT`] comes to. Room for two numbers a line
/// is enough.
pub struct Tree {
    pub name: &'static str,
    pub volume: Vec<u8>,
    pub links: u64,
    pub lines: u64,
    /// The depth of the deepest line.
    pub deepest: u64,
}

/// The volumes to list, made one at a time.
pub fn tree_inputs() -> impl Iterator<Item = Tree> {
    let list: [fn() -> Tree; 4] = [one_folder, chain, sixteens, diamond];
    list.into_iter().map(|make| make())
}

/// 4,096 links in one folder: 4,096 lines, all at depth 0.
fn one_folder() -> Tree {
    let links = (0..4_096).map(|k| (k + 2, ROOT));
    tree("4,096 links in one folder", links.collect(), 4_096, 0)
}

/// Each link holds the next: 32 lines, one at each depth from 0 to 31.
fn chain() -> Tree {
    let links = (0..32).map(|k| (ROOT + k + 1, ROOT + k));
    tree("a chain of 32 links", links.collect(), 32, 31)
}

/// Sixteen links in a folder, level by level. The third level would make 4,368 links, so it is
/// begun and left at 4,096: 16 + 256 + 3,824 lines, at depths 0 to 2.
fn sixteens() -> Tree {
    let links = (0..4_096).map(|k| (k + 2, ROOT + k / 16));
    tree("4,096 links, 16 in a folder", links.collect(), 4_096, 2)
}

/// How many levels [`diamond`] has below its root.
const LEVELS: u64 = 18;

/// Levels of two links each, both to the inode of the next level. With k levels below it a link
/// comes to 2^(k+1) - 1 lines, itself included. The root has eight links into the levels, of which
/// the sum is 1,000,000 lines: a list of 2,000,000 numbers is just filled. The deepest lines stand
/// at depth 18.
fn diamond() -> Tree {
    let below: [u64; 8] = [18, 17, 16, 15, 13, 8, 5, 2];
    let inode = |below: u64| ROOT + 1 + LEVELS - below;
    let into = below.iter().map(|&k| (inode(k), ROOT));
    let levels = (0..LEVELS).flat_map(|k| [(inode(k), inode(k + 1)); 2]);
    let links = into.chain(levels).collect();
    tree("a diamond of 1,000,000 lines", links, 1_000_000, 18)
}

/// Volume 1 with a table of these links, child and parent each, under names of five bytes that all
/// differ.
fn tree(name: &'static str, links: Vec<(u64, u64)>, lines: u64, deepest: u64) -> Tree {
    let bytes = links.iter().enumerate().map(|(place, &(child, parent))| {
        let name = format!("{place:05}");
        image::table_link(child, parent, name.as_bytes())
    });
    let bytes: Vec<Vec<u8>> = bytes.collect();
    let count = links.len() as u64;
    let mut volume = start(1);
    volume.extend_from_slice(&image::table(count, &bytes.concat()));
    volume.shrink_to_fit();
    Tree {
        name,
        volume,
        links: count,
        lines,
        deepest,
    }
}
