//! The commands: one table, from which the help, the parsers and the calls are taken.

use std::ffi::OsString;
use std::fmt;

use crate::chain::Chain;
use crate::check::Check;
use crate::digest::Digests;
use crate::extract::Extract;
use crate::failure::{Failure, Status};
use crate::help;
use crate::inodes::Inodes;
use crate::list::List;
use crate::repair::Repair;
use crate::runs::Runs;
use crate::text::shown;
use crate::tree::Tree;
use crate::words::Words;

/// A command.
pub struct Command {
    pub name: &'static str,
    /// How it is called and what it does, in lines of the general help.
    pub summary: &'static str,
    pub help: &'static str,
    /// Makes a request out of the words that come with it, and takes away those that it knows.
    pub parse: fn(&mut Words) -> Result<Box<dyn Request>, String>,
}

pub const COMMANDS: [Command; 9] = [
    Command {
        name: "check",
        summary: help::CHECK_SUMMARY,
        help: help::CHECK,
        parse: parse::<Check>,
    },
    Command {
        name: "chain",
        summary: help::CHAIN_SUMMARY,
        help: help::CHAIN,
        parse: parse::<Chain>,
    },
    Command {
        name: "digest",
        summary: help::DIGEST_SUMMARY,
        help: help::DIGEST,
        parse: parse::<Digests>,
    },
    Command {
        name: "list",
        summary: help::LIST_SUMMARY,
        help: help::LIST,
        parse: parse::<List>,
    },
    Command {
        name: "tree",
        summary: help::TREE_SUMMARY,
        help: help::TREE,
        parse: parse::<Tree>,
    },
    Command {
        name: "inodes",
        summary: help::INODES_SUMMARY,
        help: help::INODES,
        parse: parse::<Inodes>,
    },
    Command {
        name: "runs",
        summary: help::RUNS_SUMMARY,
        help: help::RUNS,
        parse: parse::<Runs>,
    },
    Command {
        name: "extract",
        summary: help::EXTRACT_SUMMARY,
        help: help::EXTRACT,
        parse: parse::<Extract>,
    },
    Command {
        name: "repair",
        summary: help::REPAIR_SUMMARY,
        help: help::REPAIR,
        parse: parse::<Repair>,
    },
];

/// What a command is asked to do.
pub trait Request: fmt::Debug {
    fn parse(words: &mut Words) -> Result<Self, String>
    where
        Self: Sized;

    /// Does it, and prints the answer, for machines or for people.
    fn run(&self, json: bool) -> Result<Status, Failure>;
}

fn parse<R: Request + 'static>(words: &mut Words) -> Result<Box<dyn Request>, String> {
    Ok(Box::new(R::parse(words)?))
}

/// What the command line asks for.
#[derive(Debug)]
pub enum Asked {
    /// A text to print.
    Text(String),
    Request(Box<dyn Request>),
}

/// What is asked for, and whether it is to be answered for machines.
pub fn read(words: impl Iterator<Item = OsString>) -> (Result<Asked, Failure>, bool) {
    let (mut words, fault) = Words::sort(words);
    let json = words.flag("--json");
    let asked = match fault {
        Some(why) => Err(usage(None, &why)),
        None => asked(&mut words),
    };
    (asked, json)
}

fn asked(words: &mut Words) -> Result<Asked, Failure> {
    let help = words.flag("--help");
    let version = words.flag("--version");
    let Some(word) = words.first() else {
        return match (help, version) {
            (true, _) => Ok(Asked::Text(help::general())),
            (_, true) => Ok(Asked::Text(help::VERSION.to_string())),
            _ => Err(usage(None, "no command is given")),
        };
    };
    if word == "help" {
        return help_on(words);
    }
    if word == "version" {
        return nothing_more(words, "version", help::VERSION.to_string());
    }
    let command = named(&word)?;
    match (help, version) {
        (true, _) => Ok(Asked::Text(command.help.to_string())),
        (_, true) => Ok(Asked::Text(help::VERSION.to_string())),
        _ => request(command, words).map_err(|why| usage(Some(command), &why)),
    }
}

/// `hdrfs help`, and `hdrfs help COMMAND`.
fn help_on(words: &mut Words) -> Result<Asked, Failure> {
    let text = match words.first() {
        None => help::general(),
        Some(word) if word == "help" || word == "version" => help::general(),
        Some(word) => named(&word)?.help.to_string(),
    };
    nothing_more(words, "help", text)
}

fn nothing_more(words: &mut Words, name: &str, text: String) -> Result<Asked, Failure> {
    match (words.first(), words.left()) {
        (None, None) => Ok(Asked::Text(text)),
        (Some(word), _) => {
            let word = shown(word.as_ref());
            Err(usage(None, &format!("{word} is too much after {name}")))
        }
        (_, Some(option)) => Err(usage(None, &format!("{name} has no option {option}"))),
    }
}

fn named(word: &OsString) -> Result<&'static Command, Failure> {
    let command = COMMANDS.iter().find(|command| word == command.name);
    command.ok_or_else(|| {
        let word = shown(word.as_ref());
        usage(None, &format!("unknown command {word}"))
    })
}

fn request(command: &Command, words: &mut Words) -> Result<Asked, String> {
    let request = (command.parse)(words)?;
    match words.left() {
        Some(option) => Err(format!("{} has no option {option}", command.name)),
        None => Ok(Asked::Request(request)),
    }
}

/// Wrong use, and where to read more.
fn usage(command: Option<&Command>, why: &str) -> Failure {
    let command = command.map_or(String::new(), |command| format!(" {}", command.name));
    Failure::Usage(format!("{why} (more with: hdrfs{command} --help)"))
}

#[cfg(test)]
mod tests;
