//! A set of volumes, read as one archive.
//!
//! This is for comparisons alone, so the plainest code is taken: volumes are
//! walked in rising order, and what comes later replaces what came before.

use std::collections::BTreeMap;
use std::ops::RangeInclusive;

use crate::block::{read, Block, Body, Part, Reading, Stat};
use crate::check::{check, Verdict};
use crate::content::{self, File, FileRefusal};
use crate::header::{read_header, Header};
use crate::links::Links;
use crate::refusal::Refusal;

/// A reason why some volumes are no set. Places count the volumes in the
/// order in which they were given, from 0.
#[derive(Clone, Copy, Debug, PartialEq, Eq, PartialOrd, Ord)]
pub enum SetFault {
    /// A volume is refused so, at the offset, after so many blocks.
    Refused {
        place: usize,
        refusal: Refusal,
        offset: u64,
        blocks: u64,
    },
    /// Two volumes have different file system IDs.
    Foreign { first: usize, second: usize },
    /// Two volumes have the same sequence number.
    Double {
        first: usize,
        second: usize,
        sequence: u64,
    },
}

/// All reasons why these volumes are no set: none if they are one. Two
/// volumes are only compared if both are accepted.
pub fn set_faults(volumes: &[&[u8]]) -> Vec<SetFault> {
    let mut faults = Vec::new();
    let mut headers: Vec<(usize, Header<'_>)> = Vec::new();
    for (place, volume) in volumes.iter().enumerate() {
        match check(volume) {
            Verdict::Accepted { .. } => headers.push((place, header(volume))),
            Verdict::Refused {
                refusal,
                offset,
                blocks,
            } => faults.push(SetFault::Refused {
                place,
                refusal,
                offset,
                blocks,
            }),
        }
    }
    for (k, one) in headers.iter().enumerate() {
        for two in &headers[k + 1..] {
            faults.extend(pair_faults(one, two));
        }
    }
    faults
}

/// Why two accepted volumes are not in one set.
fn pair_faults(one: &(usize, Header<'_>), two: &(usize, Header<'_>)) -> Vec<SetFault> {
    let mut faults = Vec::new();
    let (first, second) = (one.0, two.0);
    if one.1.id != two.1.id {
        faults.push(SetFault::Foreign { first, second });
    }
    if one.1.sequence == two.1.sequence {
        faults.push(SetFault::Double {
            first,
            second,
            sequence: one.1.sequence,
        });
    }
    faults
}

/// The header of an accepted volume.
pub(crate) fn header(volume: &[u8]) -> Header<'_> {
    read_header(volume).expect("an accepted volume has a header")
}

/// The blocks of an accepted volume, in order.
fn blocks(volume: &[u8]) -> Vec<Block<'_>> {
    let mut blocks = Vec::new();
    let mut mark = header(volume).next;
    while let Reading::Block(block, next) = read(volume, mark).expect("accepted blocks") {
        blocks.push(block);
        mark = next;
    }
    blocks
}

/// The link that was made or taken away last, of all with an inode as child.
#[derive(Clone, Copy, Debug, PartialEq, Eq)]
pub struct LastLink<'a> {
    /// Whether it was taken away. A link in a table was made.
    pub taken_away: bool,
    /// Whether it stands in a table.
    pub in_table: bool,
    /// The folder that the name stands or stood in.
    pub parent: u64,
    /// The name, as its bytes.
    pub name: &'a [u8],
}

/// The current inode block of an inode number.
#[derive(Clone, Copy, Debug)]
pub struct Inode<'a> {
    /// The sequence number of the volume that has it.
    pub volume: u64,
    /// Its number among the blocks there.
    pub block: u64,
    /// Its offset there.
    pub offset: u64,
    /// Its numbers.
    pub stat: Stat,
    /// Extents, a link target or nothing.
    pub variable: Part<'a>,
    /// Nothing if no link names it.
    pub last_link: Option<LastLink<'a>>,
}

/// Accepted volumes with one file system ID and different sequence numbers.
#[derive(Clone, Debug)]
pub struct Set<'a> {
    id: [u8; 16],
    volumes: BTreeMap<u64, &'a [u8]>,
    inodes: BTreeMap<u64, Inode<'a>>,
}

impl<'a> Set<'a> {
    /// The volumes, in any order, as a set of at least one.
    pub fn new(volumes: &[&'a [u8]]) -> Result<Set<'a>, Vec<SetFault>> {
        let faults = set_faults(volumes);
        if !faults.is_empty() || volumes.is_empty() {
            return Err(faults);
        }
        let mut by_number = BTreeMap::new();
        let mut id = [0; 16];
        for &volume in volumes {
            let header = header(volume);
            id = *header.id;
            by_number.insert(header.sequence, volume);
        }
        Ok(Set {
            id,
            inodes: inodes(&by_number),
            volumes: by_number,
        })
    }

    /// The file system ID of all volumes.
    pub fn id(&self) -> [u8; 16] {
        self.id
    }

    /// The volumes by their sequence numbers.
    pub fn volumes(&self) -> &BTreeMap<u64, &'a [u8]> {
        &self.volumes
    }

    /// The sequence numbers below the highest that no volume has, in rising
    /// ranges: there may be very many.
    pub fn missing(&self) -> Vec<RangeInclusive<u64>> {
        let mut missing = Vec::new();
        let mut expected = 0;
        for &sequence in self.volumes.keys() {
            if sequence > expected {
                missing.push(expected..=sequence - 1);
            }
            // Nothing comes after the highest number.
            expected = sequence.saturating_add(1);
        }
        missing
    }

    /// The current inode block of each inode number, by number.
    pub fn inodes(&self) -> &BTreeMap<u64, Inode<'a>> {
        &self.inodes
    }

    /// The current file with that inode number.
    pub fn file(&self, number: u64) -> Result<File<'_>, FileRefusal> {
        let inode = self.inodes.get(&number).ok_or(FileRefusal::NoInode)?;
        content::open(&self.volumes, inode)
    }
}

/// Each number's inode block that comes last, by volume and then by offset.
fn inodes<'a>(volumes: &BTreeMap<u64, &'a [u8]>) -> BTreeMap<u64, Inode<'a>> {
    let mut inodes = BTreeMap::new();
    for (&volume, &bytes) in volumes {
        for block in blocks(bytes) {
            if let Body::Inode { stat, variable } = block.body {
                let inode = Inode {
                    volume,
                    block: block.number,
                    offset: block.offset,
                    stat,
                    variable,
                    last_link: None,
                };
                inodes.insert(stat.inode, inode);
            }
        }
    }
    let last_links = last_links(volumes);
    for (number, inode) in &mut inodes {
        inode.last_link = last_links.get(number).copied();
    }
    inodes
}

/// The last link of each child. The links of a table stand in their order
/// before the other blocks of the volume: they are what the volume starts with.
fn last_links<'a>(volumes: &BTreeMap<u64, &'a [u8]>) -> BTreeMap<u64, LastLink<'a>> {
    let mut last = BTreeMap::new();
    let mut note = |child, taken_away, in_table, parent, name| {
        let link = LastLink {
            taken_away,
            in_table,
            parent,
            name,
        };
        last.insert(child, link);
    };
    for bytes in volumes.values() {
        for block in blocks(bytes) {
            match block.body {
                Body::Link {
                    child,
                    parent,
                    name,
                } => note(child, false, false, parent, name.bytes),
                Body::Unlink {
                    child,
                    parent,
                    name,
                } => note(child, true, false, parent, name.bytes),
                Body::Table { links, .. } => {
                    for link in Links::new(links.bytes) {
                        note(link.child, false, true, link.parent, link.name);
                    }
                }
                _ => {}
            }
        }
    }
    last
}
