//! Volumes of archives, written with the crate's own writer, and folders to put them into.
#![allow(dead_code)] // Each test file uses a part of this one.

use std::fs;
use std::path::{Path, PathBuf};
use std::process;
use std::sync::atomic::{AtomicUsize, Ordering};

use hdrfs::{Extent, Extents, Inode, Link, LinkList, Logical, Physical, Refusal, Writer};

/// The file system ID of the volumes, where nothing else is said.
pub const ID: [u8; 16] = *b"river gauges 019";

/// A volume with what `write` appends, behind an empty table where one is due.
pub fn volume<T>(sequence: u64, write: impl FnOnce(&mut Draft<'_>) -> T) -> Vec<u8> {
    volume_of(ID, sequence, write)
}

/// A volume of a file system with this ID.
pub fn volume_of<T>(
    id: [u8; 16],
    sequence: u64,
    write: impl FnOnce(&mut Draft<'_>) -> T,
) -> Vec<u8> {
    drafted(id, sequence, &[], write)
}

/// A volume above 0 with a table of these links: child, parent and name.
pub fn with_table<T>(
    sequence: u64,
    links: &[(u64, u64, &str)],
    write: impl FnOnce(&mut Draft<'_>) -> T,
) -> Vec<u8> {
    drafted(ID, sequence, links, write)
}

fn drafted<T>(
    id: [u8; 16],
    sequence: u64,
    links: &[(u64, u64, &str)],
    write: impl FnOnce(&mut Draft<'_>) -> T,
) -> Vec<u8> {
    let mut buf = vec![0; 400_000];
    let previous = [u8::from(sequence > 0); 32];
    let mut writer = Writer::create(&mut buf, &id, sequence, &previous).unwrap();
    if sequence > 0 {
        let mut table = LinkList::new();
        for &(child, parent, name) in links {
            let link = Link {
                child,
                parent,
                name,
            };
            table = table.push(link).unwrap();
        }
        writer.append_links(&table).unwrap();
    }
    let mut draft = Draft {
        writer,
        time: 0,
        step: 1,
    };
    write(&mut draft);
    draft.writer.written().to_vec()
}

/// A volume that is being written. The time of each block is `step` above that of the one before.
pub struct Draft<'a> {
    writer: Writer<'a>,
    time: u64,
    step: u64,
}

impl Draft<'_> {
    fn append(&mut self, append: impl FnOnce(&mut Writer<'_>, u64) -> Result<(), Refusal>) -> u64 {
        let at = self.writer.bookmark().offset;
        self.time += self.step;
        append(&mut self.writer, self.time).unwrap();
        at
    }

    /// From here on all blocks have the time of the last one.
    pub fn at_one_time(&mut self) {
        self.step = 0;
    }

    /// A data block; answers where its payload begins.
    pub fn data(&mut self, payload: &[u8]) -> Physical {
        Physical(self.append(|writer, time| writer.append_data(time, payload)) + 17)
    }

    /// A regular file; answers where its inode block begins.
    pub fn file(&mut self, number: u64, size: u64, extents: &[Extent]) -> u64 {
        let extents: Extents = extents.iter().copied().collect();
        let inode = Inode {
            size,
            rest: extents.as_bytes(),
            ..Inode::regular(number)
        };
        self.inode(&inode)
    }

    pub fn inode(&mut self, inode: &Inode<'_>) -> u64 {
        self.append(|writer, time| writer.append_inode(time, inode))
    }

    pub fn link(&mut self, child: u64, name: &str) -> u64 {
        let link = link(child, name);
        self.append(|writer, time| writer.append_link(time, link))
    }

    pub fn unlink(&mut self, child: u64, name: &str) -> u64 {
        let link = link(child, name);
        self.append(|writer, time| writer.append_unlink(time, link))
    }
}

fn link(child: u64, name: &str) -> Link<'_> {
    let parent = 1;
    Link {
        child,
        parent,
        name,
    }
}

/// All of the bytes at a place, once.
pub fn once(volume: u64, start: Physical, len: u64, logical: u64) -> Extent {
    Extent::once(volume, start, len, Logical(logical))
}

/// A sequence of numbers that look random and are the same in every run.
pub struct Numbers(pub u64);

impl Numbers {
    pub fn below(&mut self, limit: u64) -> u64 {
        self.0 ^= self.0 << 13;
        self.0 ^= self.0 >> 7;
        self.0 ^= self.0 << 17;
        self.0 % limit
    }
}

/// A folder of its own for a test, which goes with the value.
pub struct Folder(PathBuf);

impl Folder {
    pub fn new() -> Folder {
        static NUMBER: AtomicUsize = AtomicUsize::new(0);
        let number = NUMBER.fetch_add(1, Ordering::Relaxed);
        let name = format!("hdrfs-test-{}-{number}", process::id());
        let path = std::env::temp_dir().join(name);
        fs::create_dir(&path).unwrap();
        Folder(path)
    }

    pub fn path(&self, name: &str) -> PathBuf {
        self.0.join(name)
    }

    /// Writes a file, and answers its path.
    pub fn put(&self, name: &str, bytes: &[u8]) -> PathBuf {
        let path = self.path(name);
        fs::write(&path, bytes).unwrap();
        path
    }

    /// Writes volumes as 0.vol, 1.vol and so on, and answers their paths.
    pub fn put_all(&self, volumes: &[Vec<u8>]) -> Vec<PathBuf> {
        let put = |(number, bytes): (usize, &Vec<u8>)| self.put(&format!("{number}.vol"), bytes);
        volumes.iter().enumerate().map(put).collect()
    }
}

impl Drop for Folder {
    fn drop(&mut self) {
        let _ = fs::remove_dir_all(&self.0);
    }
}

impl AsRef<Path> for Folder {
    fn as_ref(&self) -> &Path {
        &self.0
    }
}
