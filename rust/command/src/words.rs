//! The words of the command line, sorted: options, their values, and plain words.
//!
//! Every word is understood or refused: an option that a command does not have, one that is given
//! twice and a number that is none are wrong use, since the person meant something by them.

use std::ffi::{OsStr, OsString};
use std::num::NonZeroUsize;
use std::path::PathBuf;
use std::thread;

use crate::text::shown;

/// An option, and whether a value follows it.
struct Opt {
    long: &'static str,
    short: Option<&'static str>,
    valued: bool,
}

const fn opt(long: &'static str, short: Option<&'static str>, valued: bool) -> Opt {
    Opt {
        long,
        short,
        valued,
    }
}

/// All options of all commands.
const OPTIONS: [Opt; 13] = [
    opt("--help", Some("-h"), false),
    opt("--version", Some("-V"), false),
    opt("--json", None, false),
    opt("--long", Some("-l"), false),
    opt("--chain", None, false),
    opt("--cut", None, false),
    opt("--jobs", Some("-j"), true),
    opt("--inode", None, true),
    opt("--from", None, true),
    opt("--to", None, true),
    opt("--root", None, true),
    opt("--lines", None, true),
    opt("--output", Some("-o"), true),
];

/// The words, sorted.
#[derive(Debug, Default)]
pub struct Words {
    flags: Vec<&'static str>,
    values: Vec<(&'static str, OsString)>,
    /// The command, and then the files.
    plain: Vec<OsString>,
}

impl Words {
    /// Sorts all words, and says what is the matter with the first that is no option and looks like
    /// one. The rest is sorted all the same, since `--json` may come after it.
    pub fn sort(words: impl Iterator<Item = OsString>) -> (Words, Option<String>) {
        let mut words = words;
        let mut sorted = Words::default();
        let mut fault = None;
        while let Some(word) = words.next() {
            if word == "--" {
                sorted.plain.extend(words);
                break;
            }
            if word == "-" {
                // A name for those who take it for one, and an option that nobody else has.
                sorted.flags.push("-");
                sorted.plain.push(word);
            } else if !word.as_encoded_bytes().starts_with(b"-") {
                sorted.plain.push(word);
            } else if let Err(why) = sorted.take_in(&word, &mut words) {
                fault.get_or_insert(why);
            }
        }
        (sorted, fault)
    }

    /// Notes an option, with its value where it has one.
    fn take_in(
        &mut self,
        word: &OsStr,
        words: &mut impl Iterator<Item = OsString>,
    ) -> Result<(), String> {
        let (option, joined) = option(word)?;
        if !option.valued {
            self.flags.push(option.long);
            return Ok(());
        }
        let value = joined.map(OsString::from).or_else(|| words.next());
        let missing = || format!("{} needs a value", option.long);
        self.values.push((option.long, value.ok_or_else(missing)?));
        Ok(())
    }

    /// Whether a flag is given, which is taken away. More than once is the same as once.
    pub fn flag(&mut self, name: &str) -> bool {
        let before = self.flags.len();
        self.flags.retain(|flag| *flag != name);
        self.flags.len() < before
    }

    /// The first plain word, taken away.
    pub fn first(&mut self) -> Option<OsString> {
        (!self.plain.is_empty()).then(|| self.plain.remove(0))
    }

    /// An option that nobody took away.
    pub fn left(&self) -> Option<&'static str> {
        let value = self.values.first().map(|(name, _)| *name);
        value.or(self.flags.first().copied())
    }

    /// The value of an option, taken away.
    fn value(&mut self, name: &str) -> Result<Option<OsString>, String> {
        let Some(place) = self.values.iter().position(|(option, _)| *option == name) else {
            return Ok(None);
        };
        let (_, value) = self.values.remove(place);
        if self.values.iter().any(|(option, _)| *option == name) {
            return Err(format!("{name} is given twice"));
        }
        Ok(Some(value))
    }

    /// The number that an option has.
    pub fn number(&mut self, name: &str) -> Result<Option<u64>, String> {
        let Some(value) = self.value(name)? else {
            return Ok(None);
        };
        let digits = value
            .to_str()
            .filter(|text| text.bytes().all(|byte| byte.is_ascii_digit()));
        let number = digits.and_then(|text| text.parse().ok());
        let wrong = || format!("{name} {} is no number below 2^64", shown(value.as_ref()));
        number.map(Some).ok_or_else(wrong)
    }

    /// How much to do at a time: as much as there are cores, if nothing else is said.
    pub fn jobs(&mut self) -> Result<NonZeroUsize, String> {
        let Some(jobs) = self.number("--jobs")? else {
            return Ok(thread::available_parallelism().unwrap_or(NonZeroUsize::MIN));
        };
        let jobs = usize::try_from(jobs).unwrap_or(usize::MAX);
        NonZeroUsize::new(jobs).ok_or_else(|| "--jobs has to be at least 1".to_string())
    }

    pub fn inode(&mut self) -> Result<u64, String> {
        let missing = "--inode is missing: which file? hdrfs inodes shows them";
        self.number("--inode")?.ok_or_else(|| missing.to_string())
    }

    pub fn output(&mut self) -> Result<PathBuf, String> {
        let missing = || "-o is missing: where to write?".to_string();
        self.value("--output")?
            .map(PathBuf::from)
            .ok_or_else(missing)
    }

    /// All plain words that are left.
    pub fn files(&mut self) -> Result<Vec<PathBuf>, String> {
        if self.plain.is_empty() {
            return Err("the name of a volume is missing".to_string());
        }
        Ok(self.plain.drain(..).map(PathBuf::from).collect())
    }

    /// The only plain word that is left for a command.
    pub fn file(&mut self, command: &str) -> Result<PathBuf, String> {
        let mut files = self.files()?;
        match (files.pop(), files.is_empty()) {
            (Some(file), true) => Ok(file),
            _ => Err(format!("{command} takes one volume")),
        }
    }
}

/// The option that a word is, and the value joined to it, as in `--jobs=4` and `-j4`.
fn option(word: &OsStr) -> Result<(&'static Opt, Option<&str>), String> {
    let unknown = || format!("unknown option {}", shown(word.as_ref()));
    let word = word.to_str().ok_or_else(unknown)?;
    if let Some(found) = long(word) {
        return Ok(found);
    }
    // Not "-j" with the value "son", and so for every long option with a hyphen too few.
    let doubled = format!("-{word}");
    if word.len() > 2 {
        if let Some((option, _)) = long(&doubled) {
            return Err(format!("{}; {} is meant?", unknown(), option.long));
        }
    }
    short(word).ok_or_else(unknown)
}

fn long(word: &str) -> Option<(&'static Opt, Option<&str>)> {
    for option in &OPTIONS {
        match word.strip_prefix(option.long) {
            Some("") => return Some((option, None)),
            Some(rest) if option.valued && rest.starts_with('=') => {
                return Some((option, Some(&rest[1..])));
            }
            _ => (),
        }
    }
    None
}

fn short(word: &str) -> Option<(&'static Opt, Option<&str>)> {
    for option in &OPTIONS {
        match option.short.and_then(|short| word.strip_prefix(short)) {
            Some("") => return Some((option, None)),
            Some(rest) if option.valued => return Some((option, Some(rest))),
            _ => (),
        }
    }
    None
}

/// The names of all options.
#[cfg(test)]
pub fn names() -> impl Iterator<Item = &'static str> {
    let short = OPTIONS.iter().filter_map(|option| option.short);
    OPTIONS.iter().map(|option| option.long).chain(short)
}
