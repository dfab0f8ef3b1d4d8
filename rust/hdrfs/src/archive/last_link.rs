//! The last link to each inode: the name that it was given last, or that was taken away from it.

use std::cmp::Reverse;
use std::collections::HashMap;

use crate::blocks::{part, text};
use crate::{sys, Links};

/// The longest name that is kept, in bytes. A name may have 65,535, and there may be very many.
const NAME_MAX: usize = 255;

/// The last that the volumes say about a link to an inode: the last of all link blocks, unlink
/// blocks and links of link tables that have it as child, by volume and then by place. So the links
/// of a table, with which a volume begins, stand before the volume's other blocks and after all
/// lower volumes.
///
/// Renames are not followed: they have paths, and no inode numbers. After one, the name is the old
/// one until a link block or the table of the next volume says the new one.
///
/// ```
/// # std::env::set_current_dir("tests/gauge")?;
/// let archive = hdrfs::Archive::open(["0.vol", "1.vol", "2.vol"])?;
/// let link = archive.last_link(7).unwrap();
/// assert_eq!((link.name, link.parent, link.taken_away), ("river.csv", 1, false));
/// # Ok::<(), Box<dyn std::error::Error>>(())
/// ```
#[must_use]
#[non_exhaustive]
#[derive(Clone, Copy, Debug, PartialEq, Eq)]
pub struct LastLink<'a> {
    /// Whether it was taken away: it is an unlink block.
    pub taken_away: bool,
    /// The inode number of the folder that the name stands in, or stood in.
    pub parent: u64,
    /// The name. One of more than 255 bytes is cut after the last character that ends within them.
    pub name: &'a str,
    /// Whether the name is cut.
    pub cut: bool,
}

/// A link that stands in a volume. Its name is a part of the volume's bytes. There may be very many
/// of these, so they are kept small.
#[derive(Clone, Copy, Debug)]
struct Seen {
    child: u64,
    parent: u64,
    name: u32,
    name_len: u16,
    taken_away: bool,
}

impl Seen {
    /// A volume has at most 2^24 bytes, and a name at most 65,535.
    fn new(child: u64, parent: u64, name: u64, name_len: u64, taken_away: bool) -> Seen {
        Seen {
            child,
            parent,
            name: name.try_into().expect("a place in a volume"),
            name_len: name_len.try_into().expect("the length of a name"),
            taken_away,
        }
    }
}

/// Finds the links of one volume, which have to be handed in in their order.
#[derive(Debug)]
pub(super) struct LinkFinder<'a> {
    volume: &'a [u8],
    seen: Vec<Seen>,
}

impl<'a> LinkFinder<'a> {
    pub(super) fn new(volume: &'a [u8]) -> LinkFinder<'a> {
        let seen = Vec::new();
        LinkFinder { volume, seen }
    }

    /// Takes in a link or unlink block.
    pub(super) fn block(&mut self, block: &sys::Block, taken_away: bool) {
        let sys::Block { child, parent, .. } = *block;
        let link = Seen::new(child, parent, block.part, block.part_len, taken_away);
        self.seen.push(link);
    }

    /// Takes in the links of a table.
    pub(super) fn table(&mut self, block: &sys::Block) {
        let bytes = part(self.volume, block.part, block.part_len);
        let mut links = Links::of(bytes, block.count);
        while let Some(entry) = links.next_entry() {
            let sys::LinkEntry { child, parent, .. } = entry;
            let name = block.part + entry.name;
            let link = Seen::new(child, parent, name, entry.name_len, false);
            self.seen.push(link);
        }
    }

    /// The last link of each child. Only their names are copied out of the volume.
    pub(super) fn finish(self) -> VolumeLinks {
        let LinkFinder { volume, mut seen } = self;
        seen.sort_unstable_by_key(|link| (link.child, Reverse(link.name)));
        seen.dedup_by_key(|link| link.child);
        let mut links = VolumeLinks::default();
        links.rows.reserve_exact(seen.len());
        for link in seen {
            let name = text(part(volume, link.name.into(), link.name_len.into()));
            let kept = beginning(name);
            links.names.push_str(kept);
            links.rows.push(Row {
                child: link.child,
                parent: link.parent,
                name_end: links.names.len() as u32,
                taken_away: link.taken_away,
                cut: kept.len() < name.len(),
            });
        }
        links.names.shrink_to_fit();
        links
    }
}

/// As much of a name as is kept.
fn beginning(name: &str) -> &str {
    let mut end = name.len().min(NAME_MAX);
    while !name.is_char_boundary(end) {
        end -= 1;
    }
    &name[..end]
}

/// The last link of each child in one volume, by rising number of the child.
#[derive(Debug, Default)]
pub(super) struct VolumeLinks {
    rows: Vec<Row>,
    /// All names, one behind the other.
    names: String,
}

#[derive(Clone, Copy, Debug)]
struct Row {
    child: u64,
    parent: u64,
    /// Where its name ends among the names; they are no longer than the volume.
    name_end: u32,
    taken_away: bool,
    cut: bool,
}

impl VolumeLinks {
    /// Leaves out all but the link to one inode.
    pub(super) fn keep(self, number: u64) -> VolumeLinks {
        let mut kept = VolumeLinks::default();
        let mut links = self.iter();
        if let Some((_, link)) = links.find(|(child, _)| *child == number) {
            kept.names.push_str(link.name);
            kept.rows.push(Row {
                child: number,
                parent: link.parent,
                name_end: link.name.len() as u32,
                taken_away: link.taken_away,
                cut: link.cut,
            });
        }
        kept
    }

    /// The links with their children.
    fn iter(&self) -> impl Iterator<Item = (u64, LastLink<'_>)> {
        let mut start = 0;
        self.rows.iter().map(move |row| {
            let end = row.name_end as usize;
            let link = LastLink {
                taken_away: row.taken_away,
                parent: row.parent,
                name: &self.names[start..end],
                cut: row.cut,
            };
            start = end;
            (row.child, link)
        })
    }
}

/// The last link of each child in all volumes, whatever order the volumes come in.
#[derive(Debug, Default)]
pub(super) struct LastLinks {
    kept: HashMap<u64, Kept>,
}

#[derive(Debug)]
struct Kept {
    /// The sequence number of the volume.
    volume: u64,
    parent: u64,
    name: Box<str>,
    taken_away: bool,
    cut: bool,
}

impl LastLinks {
    /// Takes in the links of the volume with this sequence number. It must be the only one.
    pub(super) fn add(&mut self, volume: u64, links: VolumeLinks) {
        for (child, link) in links.iter() {
            if self
                .kept
                .get(&child)
                .is_some_and(|kept| volume < kept.volume)
            {
                continue;
            }
            let kept = Kept {
                volume,
                parent: link.parent,
                name: link.name.into(),
                taken_away: link.taken_away,
                cut: link.cut,
            };
            self.kept.insert(child, kept);
        }
    }

    pub(super) fn get(&self, child: u64) -> Option<LastLink<'_>> {
        let kept = self.kept.get(&child)?;
        Some(LastLink {
            taken_away: kept.taken_away,
            parent: kept.parent,
            name: &kept.name,
            cut: kept.cut,
        })
    }
}
