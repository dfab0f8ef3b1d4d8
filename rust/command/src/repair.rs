//! `hdrfs repair`: a copy of the sound beginning of a volume that is cut short.

use std::io::Write;
use std::path::{Path, PathBuf};
use std::slice;

use hdrfs::{Volume, WholeBlocks};

use crate::commands::Request;
use crate::failure::{Failure, Status};
use crate::input;
use crate::json::Object;
use crate::output;
use crate::progress::Progress;
use crate::system;
use crate::target::Target;
use crate::temporary::Temporary;
use crate::text::{count, shown};
use crate::words::Words;

/// The most bytes that are dropped without `--cut`. Before more go, a person should look: it may be a
/// damaged length field, and sound blocks behind it, and not the last block that was written.
const DROPPED_UNASKED: u64 = 65_536;

#[derive(Debug)]
pub struct Repair {
    pub file: PathBuf,
    pub out: PathBuf,
    pub cut: bool,
}

impl Request for Repair {
    fn parse(words: &mut Words) -> Result<Repair, String> {
        Ok(Repair {
            out: words.output()?,
            cut: words.flag("--cut"),
            file: words.file("repair")?,
        })
    }

    fn run(&self, json: bool) -> Result<Status, Failure> {
        if self.out.as_os_str() != "-" {
            let target = Target::find(&self.out, slice::from_ref(&self.file))?;
            let report = self.repair(|volume| self.to_file(&target, volume))?;
            return output::print(&report.line(json));
        }
        // Standard output has the volume. What is dropped has to be told all the same.
        match self.repair(output::print_bytes) {
            Ok(report) => output::say(report.line(json).trim_end()),
            Err(failure) => return output::fail_beside(failure, json),
        }
        Ok(Status::Accepted)
    }
}

impl Repair {
    /// Hands on the sound beginning to be written. Whatever is refused is refused before that.
    fn repair(
        &self,
        write: impl FnOnce(&[u8]) -> Result<Status, Failure>,
    ) -> Result<Report<'_>, Failure> {
        if self.file.is_dir() {
            let file = shown(&self.file);
            let why = format!("{file} is a folder, and repair takes one volume");
            return Err(Failure::Usage(why));
        }
        // It may come slowly, through a pipe.
        let progress = Progress::new("volume", "checked", 1);
        let volume = input::read(&self.file)?;
        let (beginning, report) = self.look_at(&volume)?;
        drop(progress);
        if report.dropped() > DROPPED_UNASKED && !self.cut {
            return Err(Failure::Usage(report.cut_is_missing()));
        }
        write(beginning)?;
        Ok(report)
    }

    /// The sound beginning, and what there is to say.
    fn look_at<'a>(&self, volume: &'a [u8]) -> Result<(&'a [u8], Report<'_>), Failure> {
        let refused = |refusal| Failure::refused(&self.file, refusal, volume);
        let length = Volume::repair(volume).map_err(refused)?;
        // The number of blocks is not in the answer.
        let beginning = Volume::check(&volume[..length]).map_err(|error| refused(error.refusal))?;
        let report = Report {
            file: &self.file,
            out: &self.out,
            all: volume.len() as u64,
            length: length as u64,
            blocks: beginning.block_count(),
            whole: Volume::whole_blocks_from(volume, length),
        };
        Ok((beginning.bytes(), report))
    }

    fn to_file(&self, target: &Target, volume: &[u8]) -> Result<Status, Failure> {
        let unwritten = |error| Failure::Unwritten {
            path: self.out.clone(),
            error,
        };
        system::fail_on_long_files();
        // As `cp` has it: a volume that others may not read is not shown to them by its copy.
        let mode = input::mode(&self.file)?;
        let mut temporary = Temporary::beside(target, mode).map_err(unwritten)?;
        temporary.file.write_all(volume).map_err(unwritten)?;
        temporary.place(target).map_err(unwritten)?;
        Ok(Status::Accepted)
    }
}

/// What is left of a volume, and what is dropped.
struct Report<'a> {
    file: &'a Path,
    out: &'a Path,
    /// How many bytes the volume has, and how many of them are left.
    all: u64,
    length: u64,
    /// How many blocks are left, and so the number of the block that is cut short.
    blocks: u64,
    /// Among what is dropped.
    whole: WholeBlocks,
}

impl Report<'_> {
    fn dropped(&self) -> u64 {
        self.all - self.length
    }

    fn line(&self, json: bool) -> String {
        match json {
            true => self.object().line(),
            false => format!("{}: {}\n", shown(self.out), self.words()),
        }
    }

    fn object(&self) -> Object {
        let object = Object::new()
            .text("file", &self.file.to_string_lossy())
            .text("out", &self.out.to_string_lossy())
            .number("length", self.length)
            .number("blocks", self.blocks)
            .number("dropped", self.dropped())
            .number("whole", self.whole.count)
            .truth("at_least", self.whole.may_be_more);
        match self.dropped() {
            0 => object,
            _ => object
                .number("offset", self.length)
                .number("block", self.blocks),
        }
    }

    fn words(&self) -> String {
        let (kept, file) = (self.kept(), shown(self.file));
        match (self.dropped(), self.whole.count, self.whole.may_be_more) {
            (0, ..) => format!("{kept}; nothing had to be dropped"),
            (_, 0, false) => format!("{kept}; dropped {}", self.lost()),
            // They are nowhere else.
            _ => format!("{kept}; dropped {}: keep {file}", self.lost()),
        }
    }

    fn cut_is_missing(&self) -> String {
        let (out, kept, lost) = (shown(self.out), self.kept(), self.lost());
        format!(
            "--cut is missing, which it takes to drop more than {DROPPED_UNASKED} bytes: \
             {out} would be {kept}; dropped would be {lost}"
        )
    }

    /// What is left.
    fn kept(&self) -> String {
        let (file, blocks) = (shown(self.file), count(self.blocks, "block"));
        let all = count(self.all, "byte");
        match self.dropped() {
            0 => format!("all {all} of {file}, {blocks}"),
            _ => format!("the first {} of {all} of {file}, {blocks}", self.length),
        }
    }

    /// What is dropped.
    fn lost(&self) -> String {
        let Report { length, blocks, .. } = self;
        let dropped = count(self.dropped(), "byte");
        let found = count(self.whole.count, "whole block");
        let whole = match (self.whole.count, self.whole.may_be_more) {
            (0, false) => "no whole block among them".to_string(),
            (0, true) => "whole blocks may be among them".to_string(),
            (_, false) => format!("{found} among them"),
            (_, true) => format!("at least {found} among them"),
        };
        format!("{dropped} from offset {length} (block {blocks}), which is cut short; {whole}")
    }
}

#[cfg(test)]
mod tests {
    use super::*;

    /// The example of the help and of the page for `man` is what would be printed, on two lines.
    #[test]
    fn the_help_shows_what_is_said() {
        let report = Report {
            file: Path::new("FILE"),
            out: Path::new("OUT"),
            all: 127,
            length: 104,
            blocks: 1,
            whole: Volume::whole_blocks_from(&[], 0),
        };
        let on_one_line = |text: &str| text.split_whitespace().collect::<Vec<_>>().join(" ");
        let line = on_one_line(&report.line(false));
        let page = include_str!("../../../man/hdrfs.1").replace("\\-", "-");
        for text in [crate::help::REPAIR, &page] {
            assert!(on_one_line(text).contains(&line), "{line}");
        }
    }
}
