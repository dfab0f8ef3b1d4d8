//! The command `hdrfs`: checks, lists, extracts from and repairs HDRFS volumes.
//!
//! It opens files, calls the library and prints. Whatever is decided about the bytes of a volume,
//! the library decides.
#![deny(unsafe_code)]

mod chain;
mod check;
mod commands;
mod digest;
mod extract;
mod failure;
mod help;
mod inodes;
mod input;
mod json;
mod lack;
mod list;
mod long;
mod output;
mod progress;
mod repair;
mod runs;
mod set;
#[allow(unsafe_code)]
mod system;
mod tally;
mod target;
mod temporary;
mod text;
mod tree;
mod words;

use std::env;
use std::process::ExitCode;

use commands::Asked;
use failure::{Failure, Status};

fn main() -> ExitCode {
    let (asked, json) = commands::read(env::args_os().skip(1));
    let answer = asked.and_then(|asked| match asked {
        Asked::Text(text) => output::print(&text),
        Asked::Request(request) => request.run(json),
    });
    let status = answer.unwrap_or_else(|failure| tell(&failure, json));
    if status == Status::Unheard {
        system::end_by_closed_pipe();
    }
    ExitCode::from(status.code())
}

/// Says why nothing came of it: for machines in the place where they look for answers.
fn tell(failure: &Failure, json: bool) -> Status {
    if failure.status() == Status::Unheard {
        return Status::Unheard;
    }
    if json {
        match output::print(&failure.json()) {
            Ok(_) => return failure.status(),
            Err(unsaid) if unsaid.status() == Status::Unheard => return Status::Unheard,
            Err(_) => (),
        }
    }
    output::say(failure);
    failure.status()
}
