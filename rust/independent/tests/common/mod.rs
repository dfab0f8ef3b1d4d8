//! Bytes of headers and blocks, put together by hand.
#![allow(dead_code)]

pub mod textbook;
pub mod texts;
pub mod torn;
pub mod tree;

use std::fs;
use std::path::PathBuf;

use independent::*;

pub const REGULAR: u16 = 0x81A4;
pub const SYMBOLIC: u16 = 0xA1FF;
pub const FOLDER: u16 = 0x41ED;
pub const TOP: u64 = u64::MAX;

/// Appends the checksum, worked out bit by bit.
pub fn sealed(mut bytes: Vec<u8>) -> Vec<u8> {
    let value = crc::bits(&bytes);
    bytes.extend(value.to_le_bytes());
    bytes
}

/// Sets bytes of an image and mends its checksum.
pub fn changed(image: &[u8], at: usize, new: &[u8]) -> Vec<u8> {
    let mut bytes = image[..image.len() - 4].to_vec();
    bytes[at..at + new.len()].copy_from_slice(new);
    sealed(bytes)
}

/// An image whose checksum is wrong.
pub fn spoiled(mut image: Vec<u8>) -> Vec<u8> {
    *image.last_mut().unwrap() ^= 1;
    image
}

pub fn header(sequence: u64) -> Vec<u8> {
    header_with([7; 16], sequence, [if sequence == 0 { 0 } else { 9 }; 32])
}

pub fn header_with(id: [u8; 16], sequence: u64, previous: [u8; 32]) -> Vec<u8> {
    let mut bytes = vec![
        0xD3, 0x48, 0x44, 0x52, 0x46, 0x53, 0x0D, 0x0A, 0x1A, 0x0A, 0x00, 0x48, 0x44, 0x52, 0x46,
        0x53, 0x00,
    ];
    bytes.push(0);
    bytes.extend(id);
    bytes.extend([0, 0]);
    bytes.extend(sequence.to_le_bytes());
    bytes.extend(previous);
    sealed(bytes)
}

pub fn inode_stating(time: u64, mode: u16, size: u64, n: u64, variable: &[u8]) -> Vec<u8> {
    let mut bytes = vec![1];
    bytes.extend(5u64.to_le_bytes());
    bytes.extend(time.to_le_bytes());
    bytes.extend(mode.to_le_bytes());
    bytes.extend([1, 0, 2, 0]);
    for stamp in [11u64, 12, 13, 14] {
        bytes.extend(stamp.to_le_bytes());
    }
    bytes.extend(size.to_le_bytes());
    bytes.extend(n.to_le_bytes());
    bytes.extend(variable);
    sealed(bytes)
}

pub fn inode(time: u64, mode: u16, size: u64, variable: &[u8]) -> Vec<u8> {
    inode_stating(time, mode, size, variable.len() as u64, variable)
}

/// The numbers that [`inode`] has.
pub fn stat(time: u64, mode: u16, size: u64) -> Stat {
    Stat {
        inode: 5,
        time,
        mode,
        uid: 1,
        gid: 2,
        atime: 11,
        mtime: 12,
        ctime: 13,
        btime: 14,
        size,
    }
}

pub fn link(id: u8, time: u64, name: &[u8]) -> Vec<u8> {
    let mut bytes = vec![id];
    for number in [time, 5, 1] {
        bytes.extend(number.to_le_bytes());
    }
    bytes.extend((name.len() as u16).to_le_bytes());
    bytes.extend(name);
    sealed(bytes)
}

pub fn xattr(time: u64, name: &[u8], value: &[u8]) -> Vec<u8> {
    let mut bytes = vec![4];
    for number in [time, 5] {
        bytes.extend(number.to_le_bytes());
    }
    bytes.push(name.len() as u8);
    bytes.extend((value.len() as u16).to_le_bytes());
    bytes.extend(name);
    bytes.extend(value);
    sealed(bytes)
}

pub fn removed_xattr(time: u64, name: &[u8]) -> Vec<u8> {
    let mut bytes = vec![5];
    for number in [time, 5] {
        bytes.extend(number.to_le_bytes());
    }
    bytes.push(name.len() as u8);
    bytes.extend(name);
    sealed(bytes)
}

pub fn data(time: u64, payload: &[u8]) -> Vec<u8> {
    let mut bytes = vec![6];
    bytes.extend(time.to_le_bytes());
    bytes.extend((payload.len() as u64).to_le_bytes());
    bytes.extend(payload);
    sealed(bytes)
}

pub fn rename(time: u64, old: &[u8], new: &[u8]) -> Vec<u8> {
    let mut bytes = vec![7];
    bytes.extend(time.to_le_bytes());
    bytes.extend((old.len() as u16).to_le_bytes());
    bytes.extend((new.len() as u16).to_le_bytes());
    bytes.extend(old);
    bytes.extend(new);
    sealed(bytes)
}

pub fn table_link(child: u64, parent: u64, name: &[u8]) -> Vec<u8> {
    let mut bytes = child.to_le_bytes().to_vec();
    bytes.extend(parent.to_le_bytes());
    bytes.extend((name.len() as u16).to_le_bytes());
    bytes.extend(name);
    bytes
}

pub fn table(count: u64, links: &[u8]) -> Vec<u8> {
    let mut bytes = vec![8];
    bytes.extend(count.to_le_bytes());
    bytes.extend(links);
    sealed(bytes)
}

/// Every block but a table, with one byte for each variable part.
pub fn one_of_each(time: u64) -> [Vec<u8>; 7] {
    [
        inode(time, SYMBOLIC, 71, b"t"),
        link(2, time, b"n"),
        link(3, time, b"n"),
        xattr(time, b"n", b"\xff"),
        removed_xattr(time, b"n"),
        data(time, b"\xff"),
        rename(time, b"o", b"n"),
    ]
}

pub type TimedAppend = fn(&mut [u8], Bookmark, u64) -> Result<Bookmark, Refusal>;

/// The appends of [`one_of_each`], in its order.
pub const APPENDS: [TimedAppend; 7] = [
    |buffer, mark, time| append_inode(buffer, mark, &stat(time, SYMBOLIC, 71), b"t"),
    |buffer, mark, time| append_link(buffer, mark, time, 5, 1, b"n"),
    |buffer, mark, time| append_unlink(buffer, mark, time, 5, 1, b"n"),
    |buffer, mark, time| append_xattr(buffer, mark, time, 5, b"n", b"\xff"),
    |buffer, mark, time| append_removed_xattr(buffer, mark, time, 5, b"n"),
    |buffer, mark, time| append_data(buffer, mark, time, b"\xff"),
    |buffer, mark, time| append_rename(buffer, mark, time, b"o", b"n"),
];

/// Volume, start, size, multiplicity, count, pre, post, logical start.
pub type Fields = (u64, u64, u64, u8, u64, u64, u64, u64);

pub fn extents(list: &[Fields]) -> Vec<u8> {
    let mut bytes = Vec::new();
    for &(volume, start, size, multiplicity, count, pre, post, logical) in list {
        for number in [volume, start, size] {
            bytes.extend(number.to_le_bytes());
        }
        bytes.push(multiplicity);
        for number in [count, pre, post, logical] {
            bytes.extend(number.to_le_bytes());
        }
    }
    bytes
}

/// A volume from its header's number and its blocks.
pub fn volume(sequence: u64, blocks: &[Vec<u8>]) -> Vec<u8> {
    let mut bytes = header(sequence);
    for block in blocks {
        bytes.extend(block);
    }
    bytes
}

/// Volume 0 with one regular file.
pub fn file(size: u64, list: &[Fields]) -> Vec<u8> {
    volume(0, &[inode(1, REGULAR, size, &extents(list))])
}

pub fn lengths(list: &[u64]) -> Vec<u8> {
    list.iter()
        .flat_map(|length| length.to_le_bytes())
        .collect()
}

/// One of the sample volumes that come with the rules.
pub fn sample(name: &str) -> Vec<u8> {
    let folder = PathBuf::from(env!("CARGO_MANIFEST_DIR")).join("../../crates/samples/data");
    let path = folder.join(name);
    fs::read(&path).unwrap_or_else(|error| panic!("{}: {error}", path.display()))
}

/// Bytes that look like nothing in particular, the same for the same seed.
pub fn noise(seed: u64, length: usize) -> Vec<u8> {
    let mut state = seed;
    let byte = |_| {
        state = state.wrapping_mul(6364136223846793005).wrapping_add(99);
        (state >> 56) as u8
    };
    (0..length).map(byte).collect()
}

/// Bytes in hexadecimal.
pub fn hex(bytes: &[u8]) -> String {
    bytes.iter().map(|byte| format!("{byte:02x}")).collect()
}

/// A bookmark with no block before it.
pub fn mark(offset: u64, due: bool, last: Option<u64>) -> Bookmark {
    Bookmark {
        due,
        last,
        ..Bookmark::at(offset)
    }
}

/// No table is due at the end of an accepted volume, and its number is that
/// of all blocks.
pub fn accepted(sequence: u64, blocks: u64, end: u64, last: Option<u64>) -> Verdict {
    let end = mark(end, false, last).numbered(blocks);
    Verdict::Accepted {
        sequence,
        blocks,
        end,
    }
}

/// A verdict by a number that says no more.
pub fn refused(number: u64, offset: u64, blocks: u64) -> Verdict {
    Verdict::Refused {
        refusal: Refusal::of(number),
        offset,
        blocks,
    }
}

/// A refusal by a number that says no more.
pub fn no<T>(number: u64) -> Result<T, Refusal> {
    Err(Refusal::of(number))
}

/// The number of an answer, 0 if it is no refusal. Only beside 10 may more
/// be said.
pub fn number<T>(answer: Result<T, Refusal>) -> u64 {
    let refusal = answer.err().unwrap_or(Refusal::of(0));
    let says_more = refusal != Refusal::of(refusal.number);
    assert!(!says_more || refusal.number == 10, "{refusal:?}");
    refusal.number
}
