//! Standard output and standard error. Every failure to write an answer is passed on, so that a
//! full disk does not look like an answer.

use std::fmt;
use std::io::{self, BufWriter, StdoutLock, Write};

use crate::failure::{Failure, Status};

/// Standard output for many lines.
pub struct Lines(BufWriter<StdoutLock<'static>>);

impl Lines {
    pub fn new() -> Lines {
        Lines(BufWriter::new(io::stdout().lock()))
    }

    pub fn put(&mut self, text: &str) -> Result<(), Failure> {
        self.put_bytes(text.as_bytes())
    }

    fn put_bytes(&mut self, bytes: &[u8]) -> Result<(), Failure> {
        self.0.write_all(bytes).map_err(Failure::Output)
    }

    pub fn flush(&mut self) -> Result<(), Failure> {
        self.0.flush().map_err(Failure::Output)
    }
}

/// Prints a text at once.
pub fn print(text: &str) -> Result<Status, Failure> {
    print_bytes(text.as_bytes())
}

/// Prints bytes that may be no text, such as the name of a file as it is.
pub fn print_bytes(bytes: &[u8]) -> Result<Status, Failure> {
    let mut lines = Lines::new();
    lines.put_bytes(bytes)?;
    lines.flush()?;
    Ok(Status::Accepted)
}

/// Says something on standard error. If nobody can be told, the exit status still says it.
pub fn say(what: impl fmt::Display) {
    let _ = writeln!(io::stderr(), "{what}");
}

/// Says why nothing came of it where standard output is for content. Then machines, too, are told on
/// standard error.
pub fn fail_beside(failure: Failure, json: bool) -> Result<Status, Failure> {
    if !json || failure.status() == Status::Unheard {
        return Err(failure);
    }
    say(failure.json().trim_end());
    Ok(failure.status())
}
