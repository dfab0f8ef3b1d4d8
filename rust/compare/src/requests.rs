//! What an append is asked to write, at random: sound, or at fault in one way or another.

use generator::image::{extent_bytes, table_link};
use generator::rng::Rng;
use generator::{extents, text};
use hdrfs::sys;
use independent::block::{DATA, INODE, LINK, REMOVED_XATTR, RENAME, TABLE, UNLINK, XATTR};
use independent::Stat;

/// The arguments of one append.
#[derive(Clone, Debug)]
pub enum Request {
    Inode(Stat, Vec<u8>),
    Link(u64, [u64; 2], Vec<u8>),
    Unlink(u64, [u64; 2], Vec<u8>),
    Xattr(u64, u64, Vec<u8>, Vec<u8>),
    RemovedXattr(u64, u64, Vec<u8>),
    Data(u64, Vec<u8>),
    Rename(u64, Vec<u8>, Vec<u8>),
    Table(u64, Vec<u8>),
}

impl Request {
    /// Asks for a block that was read from a volume.
    #[must_use]
    pub fn of_block(volume: &[u8], block: &sys::Block) -> Request {
        let part = |start: u64, length: u64| volume[start as usize..][..length as usize].to_vec();
        let first = part(block.part, block.part_len);
        let second = part(block.second, block.second_len);
        let (time, inode) = (block.time, block.inode);
        let link = [block.child, block.parent];
        match block.id as u8 {
            INODE => Request::Inode(stat(block), first),
            LINK => Request::Link(time, link, first),
            UNLINK => Request::Unlink(time, link, first),
            XATTR => Request::Xattr(time, inode, first, second),
            REMOVED_XATTR => Request::RemovedXattr(time, inode, first),
            DATA => Request::Data(time, first),
            RENAME => Request::Rename(time, first, second),
            TABLE => Request::Table(block.count, first),
            id => unreachable!("a block with ID {id}"),
        }
    }

    /// The kinds, by [`Request::kind`].
    pub const KINDS: [&str; 8] = [
        "inode",
        "link",
        "unlink",
        "xattr",
        "removed xattr",
        "data",
        "rename",
        "table",
    ];

    /// Which of [`Request::KINDS`] it is.
    #[must_use]
    pub fn kind(&self) -> usize {
        match self {
            Request::Inode(..) => 0,
            Request::Link(..) => 1,
            Request::Unlink(..) => 2,
            Request::Xattr(..) => 3,
            Request::RemovedXattr(..) => 4,
            Request::Data(..) => 5,
            Request::Rename(..) => 6,
            Request::Table(..) => 7,
        }
    }

    /// Its texts, in the order of the layout.
    fn texts_mut(&mut self) -> Vec<&mut [u8]> {
        match self {
            Request::Inode(stat, target) if stat.is_symbolic_link() => vec![target],
            Request::Inode(..) | Request::Data(..) => Vec::new(),
            Request::Link(_, _, name)
            | Request::Unlink(_, _, name)
            | Request::Xattr(_, _, name, _)
            | Request::RemovedXattr(_, _, name) => vec![name],
            Request::Rename(_, old, new) => vec![old, new],
            Request::Table(_, links) => names_mut(links),
        }
    }

    /// How many texts it has, and which of them are at fault.
    #[must_use]
    pub fn faulty(&self) -> (usize, Vec<usize>) {
        let mut copy = self.clone();
        let texts = copy.texts_mut();
        let is_bad = |place: &usize| str::from_utf8(texts[*place]).is_err();
        (texts.len(), (0..texts.len()).filter(is_bad).collect())
    }

    /// Puts another text of its length in place of each that is at fault.
    pub fn mend_texts(&mut self) {
        for text in self.texts_mut() {
            if str::from_utf8(text).is_err() {
                text.fill(b'x');
            }
        }
    }

    /// The time that it asks for; a table has none.
    pub fn time_mut(&mut self) -> Option<&mut u64> {
        match self {
            Request::Inode(stat, _) => Some(&mut stat.time),
            Request::Link(time, ..)
            | Request::Unlink(time, ..)
            | Request::Xattr(time, ..)
            | Request::RemovedXattr(time, ..)
            | Request::Data(time, ..)
            | Request::Rename(time, ..) => Some(time),
            Request::Table(..) => None,
        }
    }
}

/// The numbers of an inode block that was read.
fn stat(block: &sys::Block) -> Stat {
    Stat {
        inode: block.inode,
        time: block.time,
        mode: block.mode as u16,
        uid: block.uid as u16,
        gid: block.gid as u16,
        atime: block.atime,
        mtime: block.mtime,
        ctime: block.ctime,
        btime: block.btime,
        size: block.size,
    }
}

/// The names of links; of bytes that are cut, those of the whole links at their front.
fn names_mut(mut links: &mut [u8]) -> Vec<&mut [u8]> {
    let mut names = Vec::new();
    while let Some(&[low, high]) = links.get(16..18).and_then(|field| field.first_chunk()) {
        let end = 18 + usize::from(u16::from_le_bytes([low, high]));
        let Some((link, rest)) = links.split_at_mut_checked(end) else {
            break;
        };
        names.push(&mut link[18..]);
        links = rest;
    }
    names
}

/// Modes of a regular file, a symbolic link, a folder, and of no known type.
const MODES: [u16; 4] = [0x81A4, 0xA1FF, 0x41ED, 0x0000];

/// A request of a random kind.
pub fn request(rng: &mut Rng) -> Request {
    let (time, number) = (rng.number(), rng.number());
    match rng.below(8) {
        0 => inode(rng, time),
        1 => Request::Link(time, [number, rng.number()], name(rng, 65_535)),
        2 => Request::Unlink(time, [number, rng.number()], name(rng, 65_535)),
        3 => Request::Xattr(time, number, name(rng, 255), value(rng)),
        4 => Request::RemovedXattr(time, number, name(rng, 255)),
        5 => Request::Data(time, value(rng)),
        6 => rename(rng, time),
        _ => table(rng),
    }
}

/// Mostly a short text; now and then one at fault, as long as its field allows, or longer.
fn name(rng: &mut Rng, most: usize) -> Vec<u8> {
    match rng.below(24) {
        0 | 1 => broken(rng, most),
        2 => vec![b'n'; most],
        3 => {
            let mut name = vec![b'n'; most + 1];
            if rng.once_in(2) {
                name[rng.index(most + 1)] = 0xFF;
            }
            name
        }
        _ => text::sound(rng, 40),
    }
}

/// A text at fault, mostly a short one.
fn broken(rng: &mut Rng, most: usize) -> Vec<u8> {
    let most = if rng.once_in(8) { most } else { 40 };
    text::broken(rng, most).bytes
}

/// Two paths. Now and then both are at fault, and then the first decides.
fn rename(rng: &mut Rng, time: u64) -> Request {
    if rng.once_in(12) {
        return Request::Rename(time, broken(rng, 65_535), broken(rng, 65_535));
    }
    Request::Rename(time, name(rng, 65_535), name(rng, 65_535))
}

fn value(rng: &mut Rng) -> Vec<u8> {
    let length = match rng.below(40) {
        0 => 65_535,
        1 => 65_536,
        _ => rng.index(60),
    };
    rng.bytes(length)
}

fn inode(rng: &mut Rng, time: u64) -> Request {
    let mode = rng.pick(&MODES);
    let (rest, size) = match mode {
        0x81A4 => list(rng),
        0xA1FF => {
            let target = name(rng, 4_096);
            let size = 70 + target.len() as u64;
            (target, size)
        }
        _ => (Vec::new(), 70),
    };
    let mut stat = Stat {
        inode: rng.number(),
        time,
        mode,
        uid: rng.word() as u16,
        gid: rng.word() as u16,
        atime: rng.number(),
        mtime: rng.number(),
        ctime: rng.number(),
        btime: rng.number(),
        size,
    };
    if rng.once_in(12) {
        stat.size = rng.number();
    }
    Request::Inode(stat, rest)
}

/// A regular file's extents, and its size: sound ones, or with a fault, or too many.
fn list(rng: &mut Rng) -> (Vec<u8>, u64) {
    let (mut list, size) = extents::sound(rng);
    match rng.below(12) {
        0 if !list.is_empty() => extents::break_one(rng, &mut list),
        1 => list = extents::overlapping(rng),
        _ => {}
    }
    let mut bytes = extent_bytes(&list);
    match rng.below(24) {
        0 => bytes.push(0),
        1 => bytes.resize(58_369, 0),
        _ => {}
    }
    (bytes, size)
}

/// Puts names at fault among the others, one or several, now and then the same twice.
fn break_names(rng: &mut Rng, names: &mut Vec<(u64, Vec<u8>)>) {
    let again = broken(rng, 65_535);
    let many = rng.pick(&[1, 1, 2, 3]);
    for _ in 0..many {
        let end = names.len();
        let any = rng.index(end + 1);
        let place = rng.pick(&[0, end, any]);
        let name = match rng.below(3) {
            0 => again.clone(),
            _ => text::broken(rng, 12).bytes,
        };
        names.insert(place, (9, name));
    }
}

/// Links, with their number or another, whole or cut, and now and then two that are the same. Names
/// may be at fault, one or several, anywhere.
fn table(rng: &mut Rng) -> Request {
    let mut names: Vec<(u64, Vec<u8>)> = Vec::new();
    for _ in 0..rng.below(6) {
        names.push((rng.below(3), text::sound(rng, 6)));
    }
    names.sort_unstable();
    names.dedup();
    if rng.once_in(8) && !names.is_empty() {
        names.push(names[rng.index(names.len())].clone());
    }
    if rng.once_in(4) {
        break_names(rng, &mut names);
    }
    let mut count = names.len() as u64;
    let mut bytes: Vec<u8> = Vec::new();
    for (parent, name) in &names {
        bytes.extend(table_link(rng.number(), *parent, name));
    }
    match rng.below(16) {
        0 => count += 1,
        1 => count = rng.number(),
        2 => bytes.push(0),
        3 => drop(bytes.pop()),
        _ => {}
    }
    Request::Table(count, bytes)
}
