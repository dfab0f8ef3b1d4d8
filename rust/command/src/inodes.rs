//! `hdrfs inodes`: the current state of every inode.

use std::collections::BTreeSet;
use std::fmt::{Display, Write};
use std::num::NonZeroUsize;
use std::path::PathBuf;

use hdrfs::{Archive, CurrentInode, FileType, LastLink};

use crate::commands::Request;
use crate::failure::{Failure, Status};
use crate::input;
use crate::json::Object;
use crate::output::Lines;
use crate::set;
use crate::text::{count, quoted};
use crate::words::Words;

#[derive(Debug)]
pub struct Inodes {
    pub files: Vec<PathBuf>,
    pub jobs: NonZeroUsize,
}

impl Request for Inodes {
    fn parse(words: &mut Words) -> Result<Inodes, String> {
        Ok(Inodes {
            jobs: words.jobs()?,
            files: words.files()?,
        })
    }

    fn run(&self, json: bool) -> Result<Status, Failure> {
        let archive = set::open(&input::volumes(&self.files)?, self.jobs, None)?;
        let mut lines = Lines::new();
        match json {
            true => objects(&archive, &mut lines)?,
            false => table(&archive, &mut lines)?,
        }
        lines.flush()?;
        Ok(Status::Accepted)
    }
}

fn objects(archive: &Archive, lines: &mut Lines) -> Result<(), Failure> {
    for inode in archive.inodes() {
        let object = Object::new()
            .number("inode", inode.number)
            .text("type", &inode.file_type().to_string())
            .number("size", inode.size)
            .number("volume", inode.volume)
            .number("block", inode.block)
            .number("offset", inode.offset)
            .number("mode", inode.mode.into())
            .number("uid", inode.uid.into())
            .number("gid", inode.gid.into())
            .number("time", inode.time)
            .number("atime", inode.atime)
            .number("mtime", inode.mtime)
            .number("ctime", inode.ctime)
            .number("btime", inode.btime)
            .truth("unlinked", inode.unlinked);
        let object = match archive.last_link(inode.number) {
            Some(link) => object
                .text("name", link.name)
                .number("parent", link.parent)
                .truth("cut", link.cut),
            None => object,
        };
        lines.put(&object.line())?;
    }
    Ok(())
}

/// The name that an inode has or had last. It stands between quotes, so that nothing in it can look
/// like what is said about it.
fn name(link: &LastLink<'_>) -> String {
    let cut = if link.cut { ".." } else { "" };
    let gone = if link.taken_away { ", taken away" } else { "" };
    format!("{}{cut} in {}{gone}", quoted(link.name), link.parent)
}

/// The columns, type and name aside.
const NUMBERS: [&str; 9] = [
    "inode", "size", "volume", "offset", "time", "mtime", "ctime", "btime", "atime",
];

fn numbers(inode: &CurrentInode) -> [u64; 9] {
    [
        inode.number,
        inode.size,
        inode.volume,
        inode.offset,
        inode.time,
        inode.mtime,
        inode.ctime,
        inode.btime,
        inode.atime,
    ]
}

/// Prints columns as wide as what stands in them. The inodes are gone through twice, so that the
/// lines of a large archive need not be kept.
fn table(archive: &Archive, lines: &mut Lines) -> Result<(), Failure> {
    let (mut most, mut types) = ([0; 9], BTreeSet::new());
    for inode in archive.inodes() {
        for (most, number) in most.iter_mut().zip(numbers(&inode)) {
            *most = number.max(*most);
        }
        types.insert(inode.file_type());
    }
    let widths = Widths::new(most, types);
    lines.put(&widths.row(NUMBERS, "type", "name"))?;
    for inode in archive.inodes() {
        let link = archive.last_link(inode.number);
        let name = link.map_or(String::new(), |link| name(&link));
        lines.put(&widths.row(numbers(&inode), inode.file_type(), &name))?;
    }
    let all = archive.inodes().len() as u64;
    lines.put(&format!("{}\n", count(all, "inode")))
}

/// How wide the columns are.
struct Widths {
    numbers: [usize; 9],
    kind: usize,
}

impl Widths {
    fn new(most: [u64; 9], types: BTreeSet<FileType>) -> Widths {
        let mut numbers = NUMBERS.map(str::len);
        for (width, most) in numbers.iter_mut().zip(most) {
            *width = most.to_string().len().max(*width);
        }
        let types = types.iter().map(|kind| kind.to_string().len());
        let kind = types.fold("type".len(), usize::max);
        Widths { numbers, kind }
    }

    /// A line with numbers to the right of their columns, and the type, in the second, to the left.
    fn row<T: Display>(&self, numbers: [T; 9], kind: impl ToString, last: &str) -> String {
        let mut line = String::new();
        for (place, (number, width)) in numbers.iter().zip(self.numbers).enumerate() {
            // To write into a text does not fail.
            let _ = write!(line, "{number:>width$}  ");
            if place == 0 {
                let (kind, width) = (kind.to_string(), self.kind);
                let _ = write!(line, "{kind:<width$}  ");
            }
        }
        line += last;
        line.truncate(line.trim_end().len());
        line.push('\n');
        line
    }
}
