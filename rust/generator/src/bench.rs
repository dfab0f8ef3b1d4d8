//! Inputs for benchmarks. All are accepted but those with a name at fault and those to repair, and
//! all volumes have 16 MiB but that of [`copies`], the one to repair that is cut, those with a tree
//! to list, and what is asked of [`data_blocks`].

mod torn;
mod tree;

pub use torn::{torn_inputs, Torn};
pub use tree::{tree_inputs, Tree, ROOT};

use std::ops::Range;

use crate::digest::Sha256;
use crate::image::{self, Extent, Stat, COUNTED, LIMIT, REPEATED};
use crate::pair;
use crate::rng::Rng;
use crate::texts::Fault;

/// The order in which extents or links stand.
#[derive(Clone, Copy, Debug, PartialEq, Eq)]
pub enum Order {
    Rising,
    Falling,
    Shuffled,
}

/// A volume with a name to print.
pub struct Input {
    pub name: &'static str,
    pub volume: Vec<u8>,
}

/// How an input is made.
type Make = fn() -> Vec<u8>;

fn made<const N: usize>(list: [(&'static str, Make); N]) -> impl Iterator<Item = Input> {
    list.into_iter().map(|(name, make)| Input {
        name,
        volume: make(),
    })
}

/// Volumes with nothing but data blocks, made one at a time.
pub fn data_inputs() -> impl Iterator<Item = Input> {
    made([
        ("one data block", one_data_block),
        ("data blocks of 1,000 bytes", || data_blocks(LIMIT, 1_000)),
        ("data blocks of 100 bytes", || data_blocks(LIMIT, 100)),
    ])
}

/// These and all others of this file that are accepted and have 16 MiB, made one at a time.
pub fn inputs() -> impl Iterator<Item = Input> {
    data_inputs().chain(made([
        ("mixed blocks of 100 bytes", small_mixed_blocks),
        ("1,024 extents, rising", || inodes(Order::Rising)),
        ("1,024 extents, falling", || inodes(Order::Falling)),
        ("1,024 extents, shuffled", || inodes(Order::Shuffled)),
        ("4,096 short names", || table_short_names(Order::Shuffled)),
        ("4,096 long names, rising", || {
            table_long_names(Order::Rising)
        }),
        ("4,096 long names, falling", || {
            table_long_names(Order::Falling)
        }),
        ("4,096 long names, shuffled", || {
            table_long_names(Order::Shuffled)
        }),
    ]))
}

/// A header that a benchmark input begins with.
fn start(sequence: u64) -> Vec<u8> {
    let mut volume = Vec::with_capacity(LIMIT);
    let previous = [u8::from(sequence > 0); 32];
    volume.extend_from_slice(&image::header(sequence, &[7; 16], &previous));
    volume
}

/// Fills up to 16 MiB with one data block, if there is room for one.
fn fill(volume: &mut Vec<u8>, time: u64) {
    fill_to(LIMIT, volume, time);
}

/// The same up to another length.
fn fill_to(end: usize, volume: &mut Vec<u8>, time: u64) {
    if let Some(length) = (end - volume.len()).checked_sub(21) {
        let payload = Rng::new(time).bytes(length);
        volume.extend_from_slice(&image::data(time, &payload));
    }
}

/// One data block.
pub fn one_data_block() -> Vec<u8> {
    let mut volume = start(0);
    fill(&mut volume, 1);
    volume
}

/// A volume of that length with data blocks of so many bytes; the last one takes what is left. So
/// with blocks as long as the volume there is one, or none where nothing is left.
pub fn data_blocks(length: usize, size: usize) -> Vec<u8> {
    let payload = Rng::new(5).bytes(size - 21);
    blocks_to(length, size, |time| image::data(time, &payload))
}

/// The lengths of the volumes that show what a check of a short one costs.
pub const SHORT: [usize; 7] = [80, 200, 400, 800, 1_500, 4_000, 20_000];

/// Links, unlinks, attributes, renames and data, 100 bytes each.
pub fn small_mixed_blocks() -> Vec<u8> {
    let name = "water level ünïcödé ".repeat(4);
    let name = name.as_bytes();
    blocks_to(LIMIT, 100, |time| match time % 6 {
        0 => image::link(image::LINK, time, time, 1, &name[..69]),
        1 => image::link(image::UNLINK, time, time, 1, &name[..69]),
        2 => image::xattr(time, time, &name[..17], &name[..59]),
        3 => image::removed(time, time, &name[..78]),
        4 => image::rename(time, &name[..14], &name[..69]),
        _ => image::data(time, &name[..79]),
    })
}

/// Blocks of so many bytes up to that length, and a data block for the rest.
fn blocks_to(end: usize, size: usize, make: impl Fn(u64) -> Vec<u8>) -> Vec<u8> {
    let mut volume = start(0);
    let mut time = 0;
    // What is left for the last one is at least a data block without bytes.
    while volume.len() + size + 21 <= end {
        time += 1;
        let image = make(time);
        assert_eq!(image.len(), size);
        volume.extend_from_slice(&image);
    }
    fill_to(end, &mut volume, time + 1);
    volume
}

/// Inodes of regular files with 1,024 extents each, the first at 80.
pub fn inodes(order: Order) -> Vec<u8> {
    let mut rng = Rng::new(11);
    let mut volume = start(0);
    let mut time = 0;
    while volume.len() + 58_443 <= LIMIT {
        time += 1;
        let mut list: Vec<Extent> = (0..1_024).map(bench_extent).collect();
        arrange(&mut rng, &mut list, order);
        let stat = Stat {
            inode: time,
            time,
            mode: 0x81A4,
            uid: 1,
            gid: 1,
            stamps: [time; 4],
            size: 1_024 * 100,
        };
        volume.extend_from_slice(&image::inode(&stat, &image::extent_bytes(&list)));
    }
    fill(&mut volume, time + 1);
    volume
}

/// Keeps the 90 positions from 100 k on.
fn bench_extent(k: u64) -> Extent {
    Extent {
        volume: k % 8,
        start: 80 + 128 * k,
        size: 32,
        multiplicity: [COUNTED, REPEATED][k as usize % 2],
        count: 3,
        pre: 5,
        post: 1,
        logical: 100 * k,
    }
}

/// Volume lengths that suffice for [`inodes`].
pub fn lengths() -> Vec<u8> {
    [LIMIT as u64; 8]
        .iter()
        .flat_map(|length| length.to_le_bytes())
        .collect()
}

fn arrange<T>(rng: &mut Rng, list: &mut [T], order: Order) {
    match order {
        Order::Rising => {}
        Order::Falling => list.reverse(),
        Order::Shuffled => rng.shuffle(list),
    }
}

/// A table of 4,096 links with names of a few bytes, and data behind it.
pub fn table_short_names(order: Order) -> Vec<u8> {
    table_of(order, 4_096, 5)
}

/// A table of 4,096 links that fills the volume; the names differ in their
/// last bytes only.
pub fn table_long_names(order: Order) -> Vec<u8> {
    table_of(order, 4_096, 4_077)
}

/// A table of links in one folder, with names of that length (at least 5),
/// equal but for the last five bytes, and data behind it if it fits.
pub fn table_of(order: Order, links: u64, length: usize) -> Vec<u8> {
    let mut list: Vec<Vec<u8>> = (0..links)
        .map(|k| {
            let mut name = vec![b'n'; length - 5];
            name.extend_from_slice(format!("{k:05}").as_bytes());
            image::table_link(k, 1, &name)
        })
        .collect();
    arrange(&mut Rng::new(13), &mut list, order);
    let mut volume = start(1);
    volume.extend_from_slice(&image::table(links, &list.concat()));
    fill(&mut volume, 1);
    volume
}

/// A volume, and the same with a byte at the end of its last name that stands in no text.
pub struct LastName {
    pub name: &'static str,
    pub sound: Vec<u8>,
    pub bad: Vec<u8>,
    /// Where the block with that name begins, and what it is refused for.
    pub offset: u64,
    pub fault: Fault,
}

/// The volumes whose last name is at fault, made one at a time.
pub fn last_names() -> impl Iterator<Item = LastName> {
    let list: [(&'static str, Make); 2] = [
        ("links of 100 bytes", links_to_the_end),
        ("4,096 long names", || table_long_names(Order::Rising)),
    ];
    list.into_iter()
        .map(|(name, make)| with_last_name(name, make()))
}

/// Links of 100 bytes up to the last byte. What is left over stands before them.
fn links_to_the_end() -> Vec<u8> {
    let name = "water level ünïcödé ".repeat(4);
    let mut volume = start(0);
    let payload = (LIMIT - volume.len()) % 100 - 21;
    volume.extend_from_slice(&image::data(0, &vec![b'5'; payload]));
    let mut time = 0;
    while volume.len() < LIMIT {
        time += 1;
        let name = &name.as_bytes()[..69];
        volume.extend_from_slice(&image::link(image::LINK, time, time, 1, name));
    }
    volume
}

fn with_last_name(name: &'static str, sound: Vec<u8>) -> LastName {
    let mut bad = sound.clone();
    let texts = |block: &Range<usize>| image::texts(&sound[block.clone()]);
    let mut blocks = image::blocks(&sound).into_iter();
    let block = blocks.rfind(|block| !texts(block).is_empty());
    let block = block.expect("a block with a name");
    let names = texts(&block);
    let last = names.last().expect("a name");
    bad[block.start + last.end - 1] = 0xFF;
    image::reseal(&mut bad[block.clone()]);
    let fault = Fault {
        text: names.len() as u64 - 1,
        start: last.len() as u64 - 1,
    };
    LastName {
        name,
        offset: block.start as u64,
        fault,
        sound,
        bad,
    }
}

/// The inode number of the file in [`archive`] and in [`copies`].
pub const FILE: u64 = 7;

/// How many volumes [`archive`] has.
pub const ARCHIVE_VOLUMES: u64 = 40;

/// How many of them hold bytes of the file: every second one.
pub const ARCHIVE_SOURCES: u64 = 20;

/// How many extents the file of [`archive`] has, and the bytes of each.
pub const ARCHIVE_EXTENTS: u64 = 1_024;
pub const ARCHIVE_EXTENT_SIZE: u64 = 4_096;

/// A set of 40 volumes, made one at a time since they take 640 MiB together. The file's extents go
/// round robin through 20 of them, and its inode stands in the last one.
pub fn archive() -> impl ExactSizeIterator<Item = Vec<u8>> {
    (0..ARCHIVE_VOLUMES as usize).map(|sequence| archive_volume(sequence as u64))
}

/// The volume of [`archive`] with this number. No two hold the same data.
pub fn archive_volume(sequence: u64) -> Vec<u8> {
    let mut volume = start(sequence);
    if sequence > 0 {
        let link = image::table_link(FILE, 1, b"gauge.csv");
        volume.extend_from_slice(&image::table(1, &link));
    }
    if sequence == ARCHIVE_VOLUMES - 1 {
        let list: Vec<Extent> = (0..ARCHIVE_EXTENTS).map(archive_extent).collect();
        let size = ARCHIVE_EXTENTS * ARCHIVE_EXTENT_SIZE;
        volume.extend_from_slice(&file(1, size, &list));
    }
    // The data follows from the time, so each volume has a time of its own.
    fill(&mut volume, 2 + sequence);
    volume
}

/// The first two volumes of [`archive`], the second with the hash that lets it follow on the first.
pub fn neighbours(sha256: Sha256) -> [Vec<u8>; 2] {
    let first = archive_volume(0);
    let mut second = archive_volume(1);
    pair::link(&first, &mut second, sha256);
    [first, second]
}

/// An extent of the file in [`archive`].
pub fn archive_extent(k: u64) -> Extent {
    Extent {
        volume: k % ARCHIVE_SOURCES * (ARCHIVE_VOLUMES / ARCHIVE_SOURCES),
        start: 1_000 + k / ARCHIVE_SOURCES * 300_000,
        size: ARCHIVE_EXTENT_SIZE,
        multiplicity: COUNTED,
        count: 1,
        pre: 0,
        post: 0,
        logical: k * ARCHIVE_EXTENT_SIZE,
    }
}

/// How many copies of one byte the file of [`copies`] has.
pub const COPIES: u64 = 20_000_000;

/// The byte that is copied.
pub const COPIED: u8 = b'7';

/// Where the inode block stands in [`copies`]: after a data block of one byte.
pub const COPIES_OFFSET: u64 = 80 + 22;

/// A short volume with a file of very many copies of one byte, each a run of its own.
pub fn copies() -> Vec<u8> {
    let mut volume = image::header(0, &[7; 16], &[0; 32]);
    let byte = Extent {
        volume: 0,
        start: 80 + 17,
        size: 1,
        multiplicity: REPEATED,
        count: COPIES,
        pre: 0,
        post: 0,
        logical: 0,
    };
    volume.extend_from_slice(&image::data(1, &[COPIED]));
    volume.extend_from_slice(&file(2, COPIES, &[byte]));
    volume
}

/// The inode block of the file.
fn file(time: u64, size: u64, list: &[Extent]) -> Vec<u8> {
    let stat = Stat {
        inode: FILE,
        time,
        mode: 0x81A4,
        uid: 1,
        gid: 1,
        stamps: [time; 4],
        size,
    };
    image::inode(&stat, &image::extent_bytes(list))
}
