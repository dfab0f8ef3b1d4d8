//! `hdrfs check`: whether volumes are sound, and whether they are one set.

use std::num::NonZeroUsize;
use std::ops::ControlFlow;
use std::path::PathBuf;

use hdrfs::{check_each, check_each_with_entry, Archive, ArchiveError, ChainEntry, Member};

use crate::chain::Links;
use crate::commands::Request;
use crate::failure::{Failure, Status};
use crate::input;
use crate::json::{list, Object};
use crate::output;
use crate::progress::Progress;
use crate::tally::Tally;
use crate::text::{count, hex, listed, shown};
use crate::words::Words;

#[derive(Debug)]
pub struct Check {
    pub files: Vec<PathBuf>,
    pub chain: bool,
    pub jobs: NonZeroUsize,
}

impl Request for Check {
    fn parse(words: &mut Words) -> Result<Check, String> {
        Ok(Check {
            chain: words.flag("--chain"),
            jobs: words.jobs()?,
            files: words.files()?,
        })
    }

    fn run(&self, json: bool) -> Result<Status, Failure> {
        let files = input::volumes(&self.files)?;
        let progress = Progress::new("volume", "checked", files.len() as u64);
        let mut report = Report::new(json, self.chain);
        let mut take_in = |verdict| {
            progress.add(1);
            match progress.hidden(|| report.take_in(verdict)) {
                Ok(()) => ControlFlow::Continue(()),
                Err(failure) => ControlFlow::Break(failure),
            }
        };
        let ended = match self.chain {
            true => check_each_with_entry(&files, self.jobs, |_, verdict| {
                take_in(verdict.map(|(member, entry)| (member, Some(entry))))
            }),
            false => check_each(&files, self.jobs, |_, verdict| {
                take_in(verdict.map(|member| (member, None)))
            }),
        };
        drop(progress);
        match ended {
            ControlFlow::Continue(()) => report.finish(),
            ControlFlow::Break(failure) => Err(failure),
        }
    }
}

/// What is printed: a line for each volume, then what holds of all, and whether they are a chain.
struct Report {
    json: bool,
    tally: Tally,
    set: Archive,
    /// Why the accepted volumes are no set.
    no_set: Option<Failure>,
    /// The accepted volumes, where it is asked whether they are a chain.
    links: Option<Links>,
}

impl Report {
    fn new(json: bool, chain: bool) -> Report {
        Report {
            json,
            tally: Tally::new(json),
            set: Archive::new(),
            no_set: None,
            links: chain.then(Links::default),
        }
    }

    fn take_in(
        &mut self,
        verdict: Result<(Member, Option<ChainEntry>), ArchiveError>,
    ) -> Result<(), Failure> {
        let (member, entry) = match verdict {
            Ok(accepted) => accepted,
            Err(error) => return self.tally.fail(&error.into()),
        };
        self.tally.accepted += 1;
        self.put(&member, entry.as_ref())?;
        if let (Some(links), Some(entry)) = (&mut self.links, entry) {
            links.add(member.path(), entry);
        }
        if self.no_set.is_none() {
            let inserted = self.set.insert(member.without_inodes());
            self.no_set = inserted.err().map(Failure::from);
        }
        Ok(())
    }

    fn put(&self, member: &Member, entry: Option<&ChainEntry>) -> Result<(), Failure> {
        let line = match self.json {
            true => object(member, entry).line(),
            false => format!("{}: {}\n", shown(member.path()), words(member)),
        };
        output::print(&line).map(|_| ())
    }

    /// What holds of all volumes.
    fn finish(mut self) -> Result<Status, Failure> {
        let Tally {
            accepted,
            refused,
            unread,
            ..
        } = self.tally;
        let all = self.tally.all();
        let mut text = String::new();
        if !self.json {
            let all = count(all, "file");
            let counts = format!("{accepted} accepted, {refused} refused, {unread} not read");
            text = format!("{all}: {counts}\n");
        }
        // One volume is always a set.
        if all > 1 && accepted > 0 {
            text += &match self.json {
                true => self.set_object().line(),
                false => self.set_words(),
            };
        }
        output::print(&text)?;
        let is_unbroken = match self.links.take() {
            Some(links) => links.tell(self.json, self.tally.whole())?,
            None => true,
        };
        Ok(self.tally.status(self.no_set.is_none() && is_unbroken))
    }

    fn set_words(&self) -> String {
        let whole = self.tally.whole();
        if let Some(failure) = &self.no_set {
            return format!("{whole}not one set: {failure}\n");
        }
        let id = hex(&self.set.id().unwrap_or_default());
        let mut sequences = self.set.volumes().map(Member::sequence);
        let first = sequences.next().unwrap_or(0);
        let volumes = match sequences.next_back() {
            Some(last) => format!("volumes {first} to {last}"),
            None => format!("volume {first}"),
        };
        let gap = |first: u64, last: u64| match first == last {
            true => first.to_string(),
            false => format!("{first} to {last}"),
        };
        let gaps = self.set.gaps();
        let gaps: Vec<String> = gaps
            .map(|range| gap(*range.start(), *range.end()))
            .collect();
        let missing = match gaps.is_empty() {
            true => "none missing".to_string(),
            false => format!("missing {}", listed(&gaps)),
        };
        format!("{whole}one set: file system {id}, {volumes}, {missing}\n")
    }

    fn set_object(&self) -> Object {
        let object = Object::new().truth("set", self.no_set.is_none());
        if let Some(failure) = &self.no_set {
            return object.text("error", &failure.to_string());
        }
        let pair = |first: u64, last: u64| list([first.to_string(), last.to_string()]);
        let gaps = self
            .set
            .gaps()
            .map(|range| pair(*range.start(), *range.end()));
        object
            .text("id", &hex(&self.set.id().unwrap_or_default()))
            .number("volumes", self.set.volumes().count() as u64)
            .raw("missing", &list(gaps))
    }
}

/// What an accepted volume says of itself.
fn words(member: &Member) -> String {
    let (sequence, blocks, end) = (member.sequence(), member.block_count(), member.end());
    let time = match end.last_time {
        Some(time) => format!("last time {time}"),
        None => "no time".to_string(),
    };
    let end = end.offset;
    format!("accepted, volume {sequence}, blocks {blocks}, end {end}, {time}")
}

/// The same for machines, with the digest if it was taken.
fn object(member: &Member, entry: Option<&ChainEntry>) -> Object {
    let end = member.end();
    let object = Object::new()
        .text("file", &member.path().to_string_lossy())
        .number("sequence", member.sequence())
        .text("id", &hex(&member.id()))
        .text("previous", &hex(&member.previous()))
        .number("blocks", member.block_count())
        .number("end", end.offset);
    let object = match end.last_time {
        Some(time) => object.number("time", time),
        None => object,
    };
    match entry {
        Some(entry) => object.text("digest", &hex(&entry.digest)),
        None => object,
    }
}
