//! `hdrfs extract`: the content of a file, written to a file or to standard output.

use std::fs::File;
use std::io::{self, IsTerminal, Write};
use std::num::NonZeroUsize;
use std::os::unix::fs::FileExt;
use std::path::PathBuf;

use hdrfs::{ArchiveFile, Chunk};

use crate::commands::Request;
use crate::failure::{Failure, Status};
use crate::input;
use crate::json::Object;
use crate::output;
use crate::progress::Progress;
use crate::set;
use crate::system;
use crate::target::Target;
use crate::temporary::Temporary;
use crate::text::{count, shown};
use crate::words::Words;

/// The most bytes that a file of the system can have, whatever its disk.
const MAX_FILE_LEN: u64 = i64::MAX as u64;

#[derive(Debug)]
pub struct Extract {
    pub files: Vec<PathBuf>,
    pub inode: u64,
    pub out: PathBuf,
    pub jobs: NonZeroUsize,
}

impl Request for Extract {
    fn parse(words: &mut Words) -> Result<Extract, String> {
        Ok(Extract {
            inode: words.inode()?,
            out: words.output()?,
            jobs: words.jobs()?,
            files: words.files()?,
        })
    }

    fn run(&self, json: bool) -> Result<Status, Failure> {
        let files = input::volumes(&self.files)?;
        if self.out.as_os_str() != "-" {
            let target = Target::find(&self.out, &files)?;
            let report = self.extract(&files, |file| self.to_file(&target, file))?;
            return output::print(&report.line(json));
        }
        // Standard output has the content, and so objects for machines go to standard error.
        match self.extract(&files, to_output) {
            Ok(report) if json => output::say(report.line(json).trim_end()),
            Ok(_) => (),
            Err(failure) => return output::fail_beside(failure, json),
        }
        Ok(Status::Accepted)
    }
}

impl Extract {
    /// Opens the file and hands it on to be written. Whatever is refused about it is refused before
    /// that. `write` answers how many bytes are stored.
    fn extract(
        &self,
        files: &[PathBuf],
        write: impl FnOnce(&ArchiveFile) -> Result<u64, Failure>,
    ) -> Result<Report, Failure> {
        let archive = set::open(files, self.jobs, Some(self.inode))?;
        let file = set::file(&archive, self.inode)?;
        let stored = write(&file)?;
        let inode = file.current();
        Ok(Report {
            out: self.out.clone(),
            inode: self.inode,
            volume: inode.volume,
            offset: inode.offset,
            size: inode.size,
            stored,
        })
    }

    fn to_file(&self, target: &Target, file: &ArchiveFile) -> Result<u64, Failure> {
        let unwritten = |error| Failure::Unwritten {
            path: self.out.clone(),
            error,
        };
        system::fail_on_long_files();
        let mode = file.current().mode.into();
        let temporary = Temporary::beside(target, mode).map_err(unwritten)?;
        set_len(&temporary.file, file.size()).map_err(unwritten)?;
        // It stays to the end, since it may take long until all is on the disk.
        let progress = progress(file);
        let stored = copy(file, Some(&progress), |chunk| match chunk {
            // The file is all hole at first.
            Chunk::Hole { .. } => Ok(()),
            Chunk::Bytes { start, bytes } => temporary
                .file
                .write_all_at(bytes, start.0)
                .map_err(unwritten),
        })?;
        temporary.place(target).map_err(unwritten)?;
        Ok(stored)
    }
}

fn set_len(file: &File, size: u64) -> io::Result<()> {
    if size > MAX_FILE_LEN {
        let why = format!("it has {size} bytes, and no file here can have more than 2^63 - 1");
        return Err(io::Error::other(why));
    }
    file.set_len(size)
}

fn to_output(file: &ArchiveFile) -> Result<u64, Failure> {
    let mut out = io::stdout().lock();
    let zeros = [0; 1 << 16];
    // On a terminal the content itself shows how far it is.
    let progress = (!out.is_terminal()).then(|| progress(file));
    let stored = copy(file, progress.as_ref(), |chunk| match chunk {
        Chunk::Hole { len, .. } => write_hole(&mut out, &zeros, len).map_err(Failure::Output),
        Chunk::Bytes { bytes, .. } => out.write_all(bytes).map_err(Failure::Output),
    })?;
    out.flush().map_err(Failure::Output)?;
    Ok(stored)
}

fn write_hole(out: &mut impl Write, zeros: &[u8], len: u64) -> io::Result<()> {
    let mut left = len;
    while left > 0 {
        let now = left.min(zeros.len() as u64);
        out.write_all(&zeros[..now as usize])?;
        left -= now;
    }
    Ok(())
}

fn progress(file: &ArchiveFile) -> Progress {
    Progress::new("byte", "written", file.size())
}

/// Hands on all of a file in rising order, and answers how many of its bytes are stored.
fn copy(
    file: &ArchiveFile,
    progress: Option<&Progress>,
    mut put: impl FnMut(Chunk) -> Result<(), Failure>,
) -> Result<u64, Failure> {
    let mut stored = 0;
    let mut chunks = file.chunks();
    while let Some(chunk) = chunks.next()? {
        put(chunk)?;
        let len = match chunk {
            Chunk::Hole { len, .. } => len,
            Chunk::Bytes { bytes, .. } => {
                stored += bytes.len() as u64;
                bytes.len() as u64
            }
        };
        if let Some(progress) = progress {
            progress.add(len);
        }
    }
    Ok(stored)
}

/// What was extracted.
struct Report {
    out: PathBuf,
    inode: u64,
    volume: u64,
    offset: u64,
    size: u64,
    stored: u64,
}

impl Report {
    fn line(&self, json: bool) -> String {
        let Report {
            inode,
            volume,
            offset,
            size,
            stored,
            ..
        } = *self;
        if json {
            return Object::new()
                .text("file", &self.out.to_string_lossy())
                .number("inode", inode)
                .number("volume", volume)
                .number("offset", offset)
                .number("size", size)
                .number("stored", stored)
                .line();
        }
        let from = format!("inode {inode} at {offset} of volume {volume}");
        let size = count(size, "byte");
        let out = shown(&self.out);
        format!("{out}: {from}, {size}, {stored} of them stored\n")
    }
}
