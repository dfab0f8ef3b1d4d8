//! `hdrfs list`: the blocks of a volume, in the form of the library's own listing or in a longer one.

use std::path::{Path, PathBuf};

use hdrfs::{BadText, Block, Bookmark, Heading, Refusal, Volume};

use crate::commands::Request;
use crate::failure::{Failure, Status};
use crate::input;
use crate::json::Object;
use crate::long;
use crate::output::Lines;
use crate::progress::Progress;
use crate::text::hex;
use crate::words::Words;

#[derive(Debug)]
pub struct List {
    pub file: PathBuf,
    pub long: bool,
}

impl Request for List {
    fn parse(words: &mut Words) -> Result<List, String> {
        Ok(List {
            long: words.flag("--long"),
            file: words.file("list")?,
        })
    }

    fn run(&self, json: bool) -> Result<Status, Failure> {
        let path = input::volume(&self.file, "list")?;
        // It may come slowly, through a pipe.
        let progress = Progress::new("volume", "read", 1);
        let volume = input::read(&path)?;
        drop(progress);
        self.list(&path, &volume, json)
    }
}

impl List {
    fn list(&self, path: &Path, volume: &[u8], json: bool) -> Result<Status, Failure> {
        let mut lines = Lines::new();
        // A header that is refused is told by the walk.
        if let Ok(heading) = Volume::header(volume) {
            lines.put(&self.first_line(path, &heading, json))?;
        }
        if !json {
            lines.put(if self.long { long::HEADING } else { HEADING })?;
        }
        let mut blocks = Volume::blocks(volume);
        for block in blocks.by_ref() {
            match block {
                Ok(block) => lines.put(&self.block_line(&block, json))?,
                Err(refusal) => {
                    if !json {
                        lines.put(&self.refused_line(&refusal, refusal.bad_text(volume)))?;
                    }
                    lines.flush()?;
                    return Err(Failure::refused(path, refusal, volume));
                }
            }
        }
        // The walk is over and nothing was refused, so that it stands at the end.
        if let Some(end) = blocks.bookmark() {
            lines.put(&end_line(end, json))?;
        }
        lines.flush()?;
        Ok(Status::Accepted)
    }

    /// What the header says. The short form for people has no place for it.
    fn first_line(&self, path: &Path, heading: &Heading, json: bool) -> String {
        let (id, previous) = (hex(&heading.id), hex(&heading.previous));
        let sequence = heading.sequence;
        if json {
            return Object::new()
                .text("file", &path.to_string_lossy())
                .number("sequence", sequence)
                .text("id", &id)
                .text("previous", &previous)
                .line();
        }
        match self.long {
            true => format!("volume {sequence}, file system {id}, previous hash {previous}\n"),
            false => String::new(),
        }
    }

    fn block_line(&self, block: &Block, json: bool) -> String {
        match (self.long, json) {
            (true, true) => long::object(block).line(),
            (true, false) => long::line(block),
            (false, true) => short_object(block).line(),
            (false, false) => format!("{} {} {}\n", block.offset, block.id, block.len()),
        }
    }

    /// The last line of a volume that is refused. That of the short form has no place for the block,
    /// and that of neither form for the name and the words; all are said with the failure.
    fn refused_line(&self, refusal: &Refusal, bad_text: Option<BadText>) -> String {
        let (number, offset) = (refusal.number, refusal.offset);
        let more = match self.long {
            true => long::fault(refusal, bad_text),
            false => String::new(),
        };
        format!("refused {number} at {offset}{more}\n")
    }
}

const HEADING: &str = "offset id length\n";

fn short_object(block: &Block) -> Object {
    Object::new()
        .number("block", block.number)
        .number("offset", block.offset)
        .number("id", block.id)
        .number("length", block.len())
}

fn end_line(end: Bookmark, json: bool) -> String {
    let (offset, blocks) = (end.offset, end.number);
    if json {
        return Object::new()
            .number("end", offset)
            .number("blocks", blocks)
            .line();
    }
    format!("end {offset} blocks {blocks}\n")
}
