//! `hdrfs chain`: whether each volume follows the one before it.

use std::num::NonZeroUsize;
use std::ops::ControlFlow;
use std::path::{Path, PathBuf};

use hdrfs::{check_each_with_entry, ChainEntry, Mismatch, Refusal};

use crate::commands::Request;
use crate::failure::{Failure, Status};
use crate::input;
use crate::json::{list, Object};
use crate::output::Lines;
use crate::progress::Progress;
use crate::tally::Tally;
use crate::text::{count, shown};
use crate::words::Words;

#[derive(Debug)]
pub struct Chain {
    pub files: Vec<PathBuf>,
    pub jobs: NonZeroUsize,
}

impl Request for Chain {
    fn parse(words: &mut Words) -> Result<Chain, String> {
        Ok(Chain {
            jobs: words.jobs()?,
            files: words.files()?,
        })
    }

    fn run(&self, json: bool) -> Result<Status, Failure> {
        let files = input::volumes(&self.files)?;
        let progress = Progress::new("volume", "checked", files.len() as u64);
        let (mut tally, mut links) = (Tally::new(json), Links::default());
        let ended = check_each_with_entry(&files, self.jobs, |_, verdict| {
            progress.add(1);
            let told = match verdict {
                Ok((member, entry)) => {
                    tally.accepted += 1;
                    links.add(member.path(), entry);
                    Ok(())
                }
                Err(error) => progress.hidden(|| tally.fail(&error.into())),
            };
            match told {
                Ok(()) => ControlFlow::Continue(()),
                Err(failure) => ControlFlow::Break(failure),
            }
        });
        drop(progress);
        match ended {
            ControlFlow::Continue(()) => Ok(tally.status(links.tell(json, tally.whole())?)),
            ControlFlow::Break(failure) => Err(failure),
        }
    }
}

/// Accepted volumes, which are compared by rising sequence number.
#[derive(Debug, Default)]
pub struct Links {
    volumes: Vec<(PathBuf, ChainEntry)>,
}

impl Links {
    pub fn add(&mut self, path: &Path, entry: ChainEntry) {
        self.volumes.push((path.to_path_buf(), entry));
    }

    /// Prints a line for each volume but the first, and then one for all, which begins with `whole`.
    /// Answers whether each follows the one before it.
    pub fn tell(mut self, json: bool, whole: &str) -> Result<bool, Failure> {
        // Those that have one number stay in the order given.
        self.volumes.sort_by_key(|(_, entry)| entry.sequence);
        let mut lines = Lines::new();
        let mut broken = 0;
        for pair in self.volumes.windows(2) {
            let ((first, before), (second, entry)) = (&pair[0], &pair[1]);
            let answer = entry.follows(before);
            broken += u64::from(answer.is_err());
            lines.put(&match json {
                true => pair_object(first, second, answer).line(),
                false => pair_words(first, second, answer),
            })?;
        }
        lines.put(&match json {
            true => self.object(broken).line(),
            false => self.words(broken, whole) + "\n",
        })?;
        lines.flush()?;
        Ok(broken == 0)
    }

    /// The lowest and the highest number; none where there is no volume.
    fn ends(&self) -> Option<(u64, u64)> {
        let number = |volume: &(PathBuf, ChainEntry)| volume.1.sequence;
        Some((number(self.volumes.first()?), number(self.volumes.last()?)))
    }

    /// How many places there are at which a chain may be broken.
    fn pairs(&self) -> u64 {
        self.volumes.len().saturating_sub(1) as u64
    }

    fn words(&self, broken: u64, whole: &str) -> String {
        let Some((first, last)) = self.ends() else {
            return "chain: no volume is accepted".to_string();
        };
        let volumes = match (self.pairs(), broken) {
            (0, _) => format!("volume {first} alone"),
            (_, 0) => format!("volumes {first} to {last}, unbroken"),
            (pairs, _) => {
                let places = count(pairs, "place");
                format!("volumes {first} to {last}, broken at {broken} of {places}")
            }
        };
        let before = match first {
            0 => String::new(),
            1 => "; volume 0 is not among them".to_string(),
            _ => format!("; volumes 0 to {} are not among them", first - 1),
        };
        format!("{whole}chain: {volumes}{before}")
    }

    fn object(&self, broken: u64) -> Object {
        let ends = self.ends();
        let object = Object::new().truth("chain", ends.is_some() && broken == 0);
        let object = match ends {
            Some((first, last)) => object.number("first", first).number("last", last),
            None => object,
        };
        object
            .number("pairs", self.pairs())
            .number("broken", broken)
    }
}

fn pair_words(first: &Path, second: &Path, answer: Result<(), Mismatch>) -> String {
    let (first, second) = (shown(first), shown(second));
    match answer {
        Ok(()) => format!("{second}: follows {first}\n"),
        Err(why) => {
            let number = Refusal::NOT_NEXT;
            format!("{second}: refused {number}: does not follow {first} ({why})\n")
        }
    }
}

fn pair_object(first: &Path, second: &Path, answer: Result<(), Mismatch>) -> Object {
    let object = Object::new()
        .text("file", &second.to_string_lossy())
        .text("other", &first.to_string_lossy())
        .truth("follows", answer.is_ok());
    let Err(why) = answer else {
        return object;
    };
    let refusal = Refusal::from(why);
    let object = object
        .number("refused", refusal.number)
        .text("words", refusal.words())
        .text("why", &why.to_string());
    // A list of gaps, as the check has them, though there is only one.
    let pair = |first: u64, last: u64| list([first.to_string(), last.to_string()]);
    match why.missing() {
        Some(gap) => object.raw("missing", &list([pair(*gap.start(), *gap.end())])),
        None => object,
    }
}

#[cfg(test)]
mod tests {
    use super::*;

    /// The examples of the help and of the documents are what would be printed.
    #[test]
    fn a_broken_place_is_one_line() {
        let why = Mismatch::PreviousHash;
        let words = pair_words(Path::new("05.vol"), Path::new("06.vol"), Err(why));
        let line = "06.vol: refused 23: does not follow 05.vol (previous hash differs)";
        assert_eq!(words, format!("{line}\n"));
        for text in [
            crate::help::CHAIN,
            include_str!("../../../man/hdrfs.1"),
            include_str!("../../../docs/REFUSALS.md"),
        ] {
            assert!(text.contains(line), "{text}");
        }
    }

    #[test]
    fn no_volume_is_no_chain() {
        let links = Links::default();
        let words = links.words(0, "of those accepted: ");
        assert_eq!(words, "chain: no volume is accepted");
        let line = "{\"chain\":false,\"pairs\":0,\"broken\":0}\n";
        assert_eq!(links.object(0).line(), line);
    }
}
