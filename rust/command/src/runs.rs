//! `hdrfs runs`: where the bytes of a file are stored.

use std::io::{self, IsTerminal};
use std::num::NonZeroUsize;
use std::path::PathBuf;

use hdrfs::{ArchiveError, Logical, Run};

use crate::commands::Request;
use crate::failure::{Failure, Status};
use crate::input;
use crate::json::Object;
use crate::output::Lines;
use crate::progress::Progress;
use crate::set;
use crate::words::Words;

#[derive(Debug)]
pub struct Runs {
    pub files: Vec<PathBuf>,
    pub inode: u64,
    /// The first position, and the one after the last.
    pub from: u64,
    pub to: u64,
    pub jobs: NonZeroUsize,
}

impl Request for Runs {
    fn parse(words: &mut Words) -> Result<Runs, String> {
        Ok(Runs {
            inode: words.inode()?,
            from: words.number("--from")?.unwrap_or(0),
            to: words.number("--to")?.unwrap_or(u64::MAX),
            jobs: words.jobs()?,
            files: words.files()?,
        })
    }

    fn run(&self, json: bool) -> Result<Status, Failure> {
        let archive = set::open(&input::volumes(&self.files)?, self.jobs, Some(self.inode))?;
        // A refusal comes before everything else, and so before the heading.
        let file = set::file(&archive, self.inode)?;
        let mut lines = Lines::new();
        if !json {
            lines.put("start length kind volume offset\n")?;
        }
        // On a terminal the lines themselves show how far it is.
        let all = self.to.min(file.size()).saturating_sub(self.from);
        let progress =
            (!io::stdout().is_terminal()).then(|| Progress::new("position", "done", all));
        for run in file.runs(Logical(self.from), Logical(self.to)) {
            let run = run.map_err(|refusal| ArchiveError::Refused {
                path: file.path().to_path_buf(),
                refusal,
                blocks: None,
                // All texts of a volume that was checked are UTF-8.
                bad_text: None,
            })?;
            lines.put(&line(&run, json))?;
            if let Some(progress) = &progress {
                progress.add(run.len);
            }
        }
        lines.flush()?;
        Ok(Status::Accepted)
    }
}

fn line(run: &Run, json: bool) -> String {
    if json {
        return object(run).line();
    }
    let (start, len) = (run.start, run.len);
    match run.stored {
        Some(place) => format!("{start} {len} 1 {} {}\n", place.volume, place.offset),
        None => format!("{start} {len} 0 0 0\n"),
    }
}

fn object(run: &Run) -> Object {
    let object = Object::new()
        .number("start", run.start.0)
        .number("length", run.len);
    match run.stored {
        Some(place) => object
            .text("kind", "stored")
            .number("volume", place.volume)
            .number("offset", place.offset.0),
        None => object.text("kind", "hole"),
    }
}
