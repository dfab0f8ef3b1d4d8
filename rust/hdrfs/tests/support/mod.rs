//! Volumes for tests, put together field by field.
#![allow(dead_code)] // Each test file uses a part of this one.

/// The mode of a regular file, of a folder, and of a symbolic link.
pub const REGULAR: u16 = 0o100_644;
pub const FOLDER: u16 = 0o040_755;
pub const SYMBOLIC_LINK: u16 = 0o120_777;

/// The kinds of blocks that [`link`] makes.
pub const LINK: u8 = 2;
pub const UNLINK: u8 = 3;

/// The multiplicity of an extent that lies in one piece, and of one that repeats its block.
pub const CONTIGUOUS: u8 = 67;
pub const REPEATED: u8 = 82;

const MAGIC: &[u8; 17] = b"\xD3HDRFS\r\n\x1A\n\0HDRFS\0";

/// The checksum, bit by bit.
pub fn crc32(bytes: &[u8]) -> u32 {
    let mut register = u32::MAX;
    for byte in bytes {
        register ^= u32::from(*byte);
        for _ in 0..8 {
            let low = register & 1;
            register = (register >> 1) ^ (0xEDB8_8320 * low);
        }
    }
    !register
}

/// A header or block with its checksum behind it.
pub fn sealed(body: Vec<u8>) -> Vec<u8> {
    let sum = crc32(&body);
    [body, sum.to_le_bytes().to_vec()].concat()
}

pub fn header(sequence: u64) -> Vec<u8> {
    header_of([0; 16], sequence, [0; 32])
}

/// A header with a file system ID and the hash of the previous volume.
pub fn header_of(id: [u8; 16], sequence: u64, previous: [u8; 32]) -> Vec<u8> {
    let mut body = MAGIC.to_vec();
    body.push(0);
    body.extend(id);
    body.extend([0; 2]);
    body.extend(sequence.to_le_bytes());
    body.extend(previous);
    sealed(body)
}

pub fn inode(time: u64, number: u64, mode: u16, size: u64, rest: &[u8]) -> Vec<u8> {
    let mut body = vec![1];
    body.extend(number.to_le_bytes());
    body.extend(time.to_le_bytes());
    body.extend(mode.to_le_bytes());
    body.extend([1, 0, 2, 0]);
    for number in [3, 4, 5, 6, size, rest.len() as u64] {
        body.extend(number.to_le_bytes());
    }
    body.extend(rest);
    sealed(body)
}

pub fn file(time: u64, number: u64, size: u64, extents: &[Extent]) -> Vec<u8> {
    let rest: Vec<u8> = extents.iter().flat_map(Extent::bytes).collect();
    inode(time, number, REGULAR, size, &rest)
}

/// A link or unlink block. Its name may be any bytes, like all texts here.
pub fn link(kind: u8, time: u64, child: u64, parent: u64, name: impl AsRef<[u8]>) -> Vec<u8> {
    let name = name.as_ref();
    let mut body = vec![kind];
    for number in [time, child, parent] {
        body.extend(number.to_le_bytes());
    }
    body.extend((name.len() as u16).to_le_bytes());
    body.extend(name);
    sealed(body)
}

pub fn xattr(time: u64, inode: u64, name: &[u8], value: &[u8]) -> Vec<u8> {
    let mut body = vec![4];
    for number in [time, inode] {
        body.extend(number.to_le_bytes());
    }
    body.push(name.len() as u8);
    body.extend((value.len() as u16).to_le_bytes());
    body.extend(name);
    body.extend(value);
    sealed(body)
}

pub fn removed_xattr(time: u64, inode: u64, name: &[u8]) -> Vec<u8> {
    let mut body = vec![5];
    for number in [time, inode] {
        body.extend(number.to_le_bytes());
    }
    body.push(name.len() as u8);
    body.extend(name);
    sealed(body)
}

pub fn rename(time: u64, old: &[u8], new: &[u8]) -> Vec<u8> {
    let mut body = vec![7];
    body.extend(time.to_le_bytes());
    for path in [old, new] {
        body.extend((path.len() as u16).to_le_bytes());
    }
    body.extend(old);
    body.extend(new);
    sealed(body)
}

pub fn data(time: u64, payload: &[u8]) -> Vec<u8> {
    let mut body = vec![6];
    body.extend(time.to_le_bytes());
    body.extend((payload.len() as u64).to_le_bytes());
    body.extend(payload);
    sealed(body)
}

pub fn table(links: &[(u64, u64, &[u8])]) -> Vec<u8> {
    let mut body = vec![8];
    body.extend((links.len() as u64).to_le_bytes());
    for (child, parent, name) in links {
        body.extend(child.to_le_bytes());
        body.extend(parent.to_le_bytes());
        body.extend((name.len() as u16).to_le_bytes());
        body.extend(*name);
    }
    sealed(body)
}

/// The fields of an extent, in the order of the layout.
#[derive(Clone, Copy, Debug)]
pub struct Extent {
    pub volume: u64,
    pub start: u64,
    pub size: u64,
    pub multiplicity: u8,
    pub count: u64,
    pub pre: u64,
    pub post: u64,
    pub logical: u64,
}

impl Extent {
    /// All of a block of `size` bytes, once.
    pub fn once(volume: u64, start: u64, size: u64, logical: u64) -> Extent {
        Extent {
            volume,
            start,
            size,
            multiplicity: CONTIGUOUS,
            count: 1,
            pre: 0,
            post: 0,
            logical,
        }
    }

    pub fn bytes(&self) -> Vec<u8> {
        let mut bytes = Vec::new();
        for number in [self.volume, self.start, self.size] {
            bytes.extend(number.to_le_bytes());
        }
        bytes.push(self.multiplicity);
        for number in [self.count, self.pre, self.post, self.logical] {
            bytes.extend(number.to_le_bytes());
        }
        bytes
    }
}

/// Volume 0 with one data block, 104 bytes; its payload `1,5` is at 97.
pub fn small_volume() -> Vec<u8> {
    [header(0), data(7, b"1,5")].concat()
}

/// A file of 14 positions that keeps the block at 97 three times, without its first and last byte,
/// from position 4 on.
pub fn repeated_extent() -> Extent {
    Extent {
        multiplicity: REPEATED,
        count: 3,
        pre: 1,
        post: 1,
        ..Extent::once(0, 97, 3, 4)
    }
}

/// A sequence of numbers that look random and are the same in every run.
pub struct Numbers(pub u64);

impl Numbers {
    pub fn below(&mut self, limit: u64) -> u64 {
        self.0 ^= self.0 << 13;
        self.0 ^= self.0 >> 7;
        self.0 ^= self.0 << 17;
        self.0 % limit
    }
}

/// Extents that do not overlap, in random order, and the position after the last of them. Some lie
/// end to end in the file and in the volume.
pub fn random_extents(numbers: &mut Numbers) -> (Vec<Extent>, u64) {
    let mut extents = Vec::new();
    let (mut at, mut start) = (0, 0);
    for _ in 0..numbers.below(12) {
        at += numbers.below(3) * numbers.below(1 << 20);
        let size = 1 + numbers.below(40);
        let count = numbers.below(120);
        let pre = numbers.below(1 + size * count / 2);
        let post = numbers.below(1 + size * count / 3);
        let extent = Extent {
            volume: numbers.below(2),
            start,
            size,
            multiplicity: [CONTIGUOUS, REPEATED][numbers.below(2) as usize],
            count,
            pre: pre * numbers.below(2),
            post: post * numbers.below(2),
            logical: at,
        };
        at += size * count - extent.pre - extent.post;
        start = [start + size * count, numbers.below(1000)][numbers.below(2) as usize];
        let place = numbers.below(1 + extents.len() as u64) as usize;
        extents.insert(place, extent);
    }
    (extents, at)
}
