//! Volumes put together block by block, sound unless told otherwise.

use std::collections::BTreeSet;

use crate::image::{self, Extent, Stat};
use crate::rng::Rng;
use crate::{extents, text, time};

const TOP: u64 = u64::MAX;

/// A regular file in a draft.
#[derive(Clone, Debug)]
pub struct File {
    pub offset: u64,
    pub size: u64,
    pub extents: Vec<Extent>,
}

/// A volume in the making.
#[derive(Clone, Debug)]
pub struct Draft {
    pub sequence: u64,
    pub bytes: Vec<u8>,
    /// Where each block begins.
    pub places: Vec<u64>,
    /// The last time before each block.
    pub times: Vec<Option<u64>>,
    pub last: Option<u64>,
    pub files: Vec<File>,
}

impl Draft {
    /// A header alone.
    pub fn new(rng: &mut Rng, sequence: u64) -> Draft {
        let id = rng.word().to_le_bytes();
        let id: Vec<u8> = [id, rng.word().to_le_bytes()].concat();
        let mut previous = [0; 32];
        if sequence > 0 && !rng.once_in(10) {
            previous.fill_with(|| rng.word() as u8);
        }
        Draft {
            sequence,
            bytes: image::header(sequence, &id.try_into().unwrap(), &previous),
            places: Vec::new(),
            times: Vec::new(),
            last: None,
            files: Vec::new(),
        }
    }

    /// A header, a table if the number asks for one, and some blocks.
    pub fn sound(rng: &mut Rng) -> Draft {
        let sequence = any_sequence(rng);
        let mut draft = Draft::new(rng, sequence);
        draft.table_if_due(rng);
        let many = match rng.below(30) {
            0 | 1 => 0,
            2 => rng.between(10, 40),
            _ => rng.between(1, 7),
        };
        draft.blocks(rng, many);
        draft
    }

    pub fn offset(&self) -> u64 {
        self.bytes.len() as u64
    }

    /// Adds an image of any kind.
    pub fn push(&mut self, image: &[u8]) {
        self.places.push(self.offset());
        self.times.push(self.last);
        self.bytes.extend_from_slice(image);
    }

    /// Adds an image with this time.
    pub fn push_timed(&mut self, time: u64, image: &[u8]) {
        self.push(image);
        self.last = Some(time);
    }

    pub fn table_if_due(&mut self, rng: &mut Rng) {
        if self.sequence > 0 {
            let links = links(rng);
            self.push(&image::table(links.len() as u64, &links.concat()));
        }
    }

    /// Adds that many sound blocks, now and then all at one time. Now and
    /// then a link brings its inode along.
    pub fn blocks(&mut self, rng: &mut Rng, many: u64) {
        let at_once = rng.once_in(12);
        for place in 0..many {
            let time = match self.last {
                Some(last) if at_once && place > 0 => last,
                last => time::following(rng, last),
            };
            if rng.once_in(20) {
                self.linked_inode(rng, time);
            } else {
                self.block(rng, time);
            }
        }
    }

    /// Adds a link and the inode that it names, at one time: a fast logger
    /// writes them in the same microsecond.
    pub fn linked_inode(&mut self, rng: &mut Rng, time: u64) {
        let stat = Stat {
            mode: other_mode(rng),
            ..any_stat(rng, time, 70)
        };
        let name = text::sound(rng, 65_535);
        let link = image::link(image::LINK, time, stat.inode, rng.number(), &name);
        self.push_timed(time, &link);
        self.push_timed(time, &image::inode(&stat, b""));
    }

    /// Adds a sound block with this time.
    pub fn block(&mut self, rng: &mut Rng, time: u64) {
        let image = match rng.below(12) {
            0..=4 => {
                self.regular(rng, time);
                return;
            }
            5 => symbolic_link(rng, time),
            6 => other_inode(rng, time),
            7 => {
                let id = rng.pick(&[image::LINK, image::UNLINK]);
                let name = text::sound(rng, 65_535);
                image::link(id, time, rng.number(), rng.number(), &name)
            }
            8 => {
                let name = text::sound(rng, 255);
                let length = any_length(rng, 65_535);
                let value = rng.bytes(length);
                image::xattr(time, rng.number(), &name, &value)
            }
            9 => {
                let name = text::sound(rng, 255);
                image::removed(time, rng.number(), &name)
            }
            10 => {
                let length = any_length(rng, 70_000);
                image::data(time, &rng.bytes(length))
            }
            _ => {
                let old = text::sound(rng, 65_535);
                let new = text::sound(rng, 65_535);
                image::rename(time, &old, &new)
            }
        };
        self.push_timed(time, &image);
    }

    fn regular(&mut self, rng: &mut Rng, time: u64) {
        let (list, end) = extents::sound(rng);
        let size = any_size(rng, end);
        self.file(rng, time, size, list);
    }

    /// Adds a regular file with these extents, sound or not.
    pub fn file(&mut self, rng: &mut Rng, time: u64, size: u64, list: Vec<Extent>) {
        let stat = Stat {
            mode: 0x8000 | rng.below(4_096) as u16,
            ..any_stat(rng, time, size)
        };
        let image = image::inode(&stat, &image::extent_bytes(&list));
        self.files.push(File {
            offset: self.offset(),
            size,
            extents: list,
        });
        self.push_timed(time, &image);
    }
}

pub fn any_sequence(rng: &mut Rng) -> u64 {
    match rng.below(8) {
        0..=3 => 0,
        4 => TOP - rng.below(2),
        5 => rng.number(),
        _ => rng.between(1, 3),
    }
}

/// A sequence number above 0.
pub fn high_sequence(rng: &mut Rng) -> u64 {
    any_sequence(rng).max(1)
}

/// A size that has something to do with where the kept positions end.
pub fn any_size(rng: &mut Rng, end: u64) -> u64 {
    match rng.below(10) {
        0 => end.saturating_sub(1),
        1 => end.saturating_add(1),
        2 => end.saturating_add(rng.below(20)),
        3 => end / 2,
        4 => TOP - rng.below(2),
        5 => rng.number(),
        6 => 0,
        _ => end,
    }
}

/// Mostly short, seldom the longest.
fn any_length(rng: &mut Rng, most: usize) -> usize {
    match rng.below(80) {
        0 => most,
        1 => rng.index(most + 1),
        2..=9 => 0,
        _ => rng.index(20),
    }
}

/// An inode's numbers; the mode is left at 0.
pub fn any_stat(rng: &mut Rng, time: u64, size: u64) -> Stat {
    Stat {
        inode: rng.number(),
        time,
        mode: 0,
        uid: rng.number() as u16,
        gid: rng.number() as u16,
        stamps: [rng.number(), rng.number(), rng.number(), rng.number()],
        size,
    }
}

pub fn symbolic_link(rng: &mut Rng, time: u64) -> Vec<u8> {
    let target = text::sound(rng, 70_000);
    let stat = Stat {
        mode: 0xA000 | rng.below(4_096) as u16,
        ..any_stat(rng, time, 70 + target.len() as u64)
    };
    image::inode(&stat, &target)
}

/// A mode of neither a regular file nor a symbolic link.
pub fn other_mode(rng: &mut Rng) -> u16 {
    let kind = rng.pick(&[0, 1, 2, 3, 4, 5, 6, 7, 9, 11, 12, 13, 14, 15u16]);
    kind << 12 | rng.below(4_096) as u16
}

pub fn other_inode(rng: &mut Rng, time: u64) -> Vec<u8> {
    let stat = Stat {
        mode: other_mode(rng),
        ..any_stat(rng, time, 70)
    };
    image::inode(&stat, b"")
}

/// Links that differ in parent or name, and often only a little.
pub fn links(rng: &mut Rng) -> Vec<Vec<u8>> {
    let many = match rng.below(20) {
        0..=3 => 0,
        4 => rng.between(20, 90),
        _ => rng.between(1, 6),
    };
    let stem = text::sound(rng, 200);
    let mut seen = BTreeSet::new();
    let mut list = Vec::new();
    for _ in 0..many {
        let parent = match rng.below(4) {
            0 => rng.number(),
            _ => rng.below(3),
        };
        let mut name = match rng.below(3) {
            0 => text::sound(rng, 65_535),
            _ => stem.clone(),
        };
        if rng.once_in(2) {
            name.extend_from_slice(&text::sound(rng, 4));
            name.truncate(65_535);
        }
        if std::str::from_utf8(&name).is_ok() && seen.insert((parent, name.clone())) {
            list.push(image::table_link(rng.number(), parent, &name));
        }
    }
    list
}
