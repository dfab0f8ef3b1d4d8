//! Bytes of headers, blocks and extents, sound or not.
//!
//! Nothing here is shared with an implementation under test, the checksum
//! included.

use std::ops::Range;

pub const LIMIT: usize = 16_777_216;

pub const INODE: u8 = 1;
pub const LINK: u8 = 2;
pub const UNLINK: u8 = 3;
pub const XATTR: u8 = 4;
pub const REMOVED: u8 = 5;
pub const DATA: u8 = 6;
pub const RENAME: u8 = 7;
pub const TABLE: u8 = 8;

/// Where a header has its file system ID, its sequence number and the previous hash.
pub const FILE_SYSTEM: Range<usize> = 18..34;
pub const SEQUENCE: Range<usize> = 36..44;
pub const PREVIOUS: Range<usize> = 44..76;

pub const COUNTED: u8 = b'C';
pub const REPEATED: u8 = b'R';

const MAGIC: [u8; 17] = [
    0xD3, b'H', b'D', b'R', b'F', b'S', 13, 10, 26, 10, 0, b'H', b'D', b'R', b'F', b'S', 0,
];

/// What shifting a byte out of the checksum's register adds to it.
const STEPS: [u32; 256] = {
    let mut steps = [0; 256];
    let mut byte = 1;
    while byte < 256 {
        let mut rest = byte as u32;
        let mut bit = 0;
        while bit < 8 {
            let low = rest % 2;
            rest /= 2;
            if low == 1 {
                rest ^= 0xEDB8_8320;
            }
            bit += 1;
        }
        steps[byte] = rest;
        byte += 1;
    }
    steps
};

/// The checksum of some bytes.
pub fn crc(bytes: &[u8]) -> u32 {
    let mut value = u32::MAX;
    for byte in bytes {
        let out = (value % 256) ^ u32::from(*byte);
        value = (value / 256) ^ STEPS[out as usize];
    }
    value ^ u32::MAX
}

/// Puts the checksum behind the bytes.
pub fn seal(mut bytes: Vec<u8>) -> Vec<u8> {
    let value = crc(&bytes);
    bytes.extend_from_slice(&value.to_le_bytes());
    bytes
}

/// Mends the checksum in the last four bytes.
pub fn reseal(image: &mut [u8]) {
    if let Some(end) = image.len().checked_sub(4) {
        let value = crc(&image[..end]);
        image[end..].copy_from_slice(&value.to_le_bytes());
    }
}

pub fn header(sequence: u64, id: &[u8; 16], previous: &[u8; 32]) -> Vec<u8> {
    let mut bytes = MAGIC.to_vec();
    bytes.push(0);
    bytes.extend_from_slice(id);
    bytes.extend_from_slice(&[0, 0]);
    bytes.extend_from_slice(&sequence.to_le_bytes());
    bytes.extend_from_slice(previous);
    seal(bytes)
}

/// The numbers of an inode.
#[derive(Clone, Copy, Debug)]
pub struct Stat {
    pub inode: u64,
    pub time: u64,
    pub mode: u16,
    pub uid: u16,
    pub gid: u16,
    pub stamps: [u64; 4],
    pub size: u64,
}

pub fn inode(stat: &Stat, variable: &[u8]) -> Vec<u8> {
    let mut bytes = vec![INODE];
    bytes.extend_from_slice(&stat.inode.to_le_bytes());
    bytes.extend_from_slice(&stat.time.to_le_bytes());
    for number in [stat.mode, stat.uid, stat.gid] {
        bytes.extend_from_slice(&number.to_le_bytes());
    }
    for stamp in stat.stamps {
        bytes.extend_from_slice(&stamp.to_le_bytes());
    }
    bytes.extend_from_slice(&stat.size.to_le_bytes());
    bytes.extend_from_slice(&(variable.len() as u64).to_le_bytes());
    bytes.extend_from_slice(variable);
    seal(bytes)
}

/// A link or an unlink.
pub fn link(id: u8, time: u64, child: u64, parent: u64, name: &[u8]) -> Vec<u8> {
    let mut bytes = vec![id];
    bytes.extend_from_slice(&time.to_le_bytes());
    bytes.extend_from_slice(&table_link(child, parent, name));
    seal(bytes)
}

pub fn xattr(time: u64, inode: u64, name: &[u8], value: &[u8]) -> Vec<u8> {
    let mut bytes = vec![XATTR];
    bytes.extend_from_slice(&time.to_le_bytes());
    bytes.extend_from_slice(&inode.to_le_bytes());
    bytes.push(name.len() as u8);
    bytes.extend_from_slice(&(value.len() as u16).to_le_bytes());
    bytes.extend_from_slice(name);
    bytes.extend_from_slice(value);
    seal(bytes)
}

pub fn removed(time: u64, inode: u64, name: &[u8]) -> Vec<u8> {
    let mut bytes = vec![REMOVED];
    bytes.extend_from_slice(&time.to_le_bytes());
    bytes.extend_from_slice(&inode.to_le_bytes());
    bytes.push(name.len() as u8);
    bytes.extend_from_slice(name);
    seal(bytes)
}

pub fn data(time: u64, payload: &[u8]) -> Vec<u8> {
    let mut bytes = Vec::with_capacity(payload.len() + 21);
    bytes.push(DATA);
    bytes.extend_from_slice(&time.to_le_bytes());
    bytes.extend_from_slice(&(payload.len() as u64).to_le_bytes());
    bytes.extend_from_slice(payload);
    seal(bytes)
}

pub fn rename(time: u64, old: &[u8], new: &[u8]) -> Vec<u8> {
    let mut bytes = vec![RENAME];
    bytes.extend_from_slice(&time.to_le_bytes());
    bytes.extend_from_slice(&(old.len() as u16).to_le_bytes());
    bytes.extend_from_slice(&(new.len() as u16).to_le_bytes());
    bytes.extend_from_slice(old);
    bytes.extend_from_slice(new);
    seal(bytes)
}

/// One link as it stands in a table.
pub fn table_link(child: u64, parent: u64, name: &[u8]) -> Vec<u8> {
    let mut bytes = child.to_le_bytes().to_vec();
    bytes.extend_from_slice(&parent.to_le_bytes());
    bytes.extend_from_slice(&(name.len() as u16).to_le_bytes());
    bytes.extend_from_slice(name);
    bytes
}

pub fn table(count: u64, links: &[u8]) -> Vec<u8> {
    let mut bytes = vec![TABLE];
    bytes.extend_from_slice(&count.to_le_bytes());
    bytes.extend_from_slice(links);
    seal(bytes)
}

#[derive(Clone, Copy, Debug, PartialEq, Eq)]
pub struct Extent {
    pub volume: u64,
    pub start: u64,
    pub size: u64,
    pub multiplicity: u8,
    pub count: u64,
    pub pre: u64,
    pub post: u64,
    pub logical: u64,
}

impl Extent {
    pub fn bytes(&self) -> [u8; 57] {
        let mut bytes = [0; 57];
        let numbers = [
            (0, self.volume),
            (8, self.start),
            (16, self.size),
            (25, self.count),
            (33, self.pre),
            (41, self.post),
            (49, self.logical),
        ];
        for (at, number) in numbers {
            bytes[at..at + 8].copy_from_slice(&number.to_le_bytes());
        }
        bytes[24] = self.multiplicity;
        bytes
    }

    /// The kept length and the stored length, worked out in wide numbers.
    /// Broken extents may give anything.
    pub fn measures(&self) -> (u64, u64) {
        let raw = u128::from(self.size) * u128::from(self.count);
        let trimmed = u128::from(self.pre) + u128::from(self.post);
        let stored = if self.multiplicity == REPEATED {
            u128::from(self.size)
        } else {
            raw
        };
        (raw.saturating_sub(trimmed) as u64, stored as u64)
    }
}

pub fn extent_bytes(list: &[Extent]) -> Vec<u8> {
    list.iter().flat_map(Extent::bytes).collect()
}

/// Mends the header's checksum and those of all blocks that can be measured,
/// one after another, up to the first that cannot.
pub fn mend(volume: &mut [u8]) {
    if volume.len() < 80 {
        return;
    }
    reseal(&mut volume[..80]);
    for block in blocks(volume) {
        reseal(&mut volume[block]);
    }
}

/// Where the blocks stand that can be measured, one after another, up to the
/// first that cannot.
pub fn blocks(volume: &[u8]) -> Vec<Range<usize>> {
    let mut list = Vec::new();
    let mut at = 80;
    while let Some(length) = volume.get(at..).and_then(measured) {
        list.push(at..at + length);
        at += length;
    }
    list
}

/// Where the texts of a block stand that is there in full, in the order of
/// its layout. The value of an attribute is no text, nor are an inode's bytes
/// unless they are a target.
pub fn texts(block: &[u8]) -> Vec<Range<usize>> {
    let end = block.len() - 4;
    let length = |at: usize| usize::from(u16::from_le_bytes([block[at], block[at + 1]]));
    let mut list = Vec::new();
    match block[0] {
        INODE if block[18] >> 4 == 10 => list.push(71..end),
        LINK | UNLINK => list.push(27..end),
        XATTR => list.push(20..20 + usize::from(block[17])),
        REMOVED => list.push(18..end),
        RENAME => {
            let middle = 13 + length(9);
            list.extend([13..middle, middle..end]);
        }
        TABLE => {
            let mut at = 9;
            while at < end {
                let name = at + 18;
                at = name + length(name - 2);
                list.push(name..at);
            }
        }
        _ => {}
    }
    list
}

/// The length of the block at the front, if it is there in full.
fn measured(bytes: &[u8]) -> Option<usize> {
    let number = |at: usize, width: usize| -> Option<u128> {
        let field = bytes.get(at..at + width)?;
        Some(
            field
                .iter()
                .rev()
                .fold(0, |sum, byte| sum << 8 | u128::from(*byte)),
        )
    };
    let length = match *bytes.first()? {
        INODE => 75 + number(63, 8)?,
        LINK | UNLINK => 31 + number(25, 2)?,
        XATTR => 24 + number(17, 1)? + number(18, 2)?,
        REMOVED => 22 + number(17, 1)?,
        DATA => 21 + number(9, 8)?,
        RENAME => 17 + number(9, 2)? + number(11, 2)?,
        TABLE => {
            let mut at = 9;
            for _ in 0..number(1, 8)?.min(5_000) {
                at += 18 + number(at + 16, 2)? as usize;
            }
            at as u128 + 4
        }
        _ => return None,
    };
    (length <= bytes.len() as u128).then_some(length as usize)
}

#[cfg(test)]
mod tests {
    #[test]
    fn published_check_values() {
        assert_eq!(super::crc(b"123456789"), 0xCBF4_3926);
        assert_eq!(super::crc(b""), 0);
    }
}
