//! `hdrfs digest`: the SHA-256 digests of files, in the form of `sha256sum`.

use std::fs::File;
use std::io;
use std::path::{Path, PathBuf};
use std::slice;

use hdrfs::{ArchiveError, Digest, Refusal};

use crate::commands::Request;
use crate::failure::{Failure, Status};
use crate::input;
use crate::json::Object;
use crate::output;
use crate::progress::Progress;
use crate::text::hex;
use crate::words::Words;

/// The name that stands for standard input.
const INPUT: &str = "-";

#[derive(Debug)]
pub struct Digests {
    pub files: Vec<PathBuf>,
}

impl Request for Digests {
    fn parse(words: &mut Words) -> Result<Digests, String> {
        words.flag(INPUT);
        Ok(Digests {
            files: words.files()?,
        })
    }

    fn run(&self, json: bool) -> Result<Status, Failure> {
        let files = named(&self.files)?;
        let progress = Progress::new("file", "digested", files.len() as u64);
        let mut status = Status::Accepted;
        for path in &files {
            let answer = digest_of(path);
            progress.add(1);
            let told = progress.hidden(|| tell(path, answer, json));
            status = status.max(told?);
        }
        Ok(status)
    }
}

/// The files that names stand for. As for `sha256sum`, a file with the name of standard input has to
/// be given as `./-`.
fn named(names: &[PathBuf]) -> Result<Vec<PathBuf>, Failure> {
    let mut files = Vec::new();
    for name in names {
        match name.as_os_str() == INPUT {
            true => files.push(name.clone()),
            false => files.extend(input::volumes(slice::from_ref(name))?),
        }
    }
    Ok(files)
}

/// Takes the digest part by part: a file may be of any length, and is read no further than it is taken.
fn digest_of(path: &Path) -> Result<[u8; Digest::LEN], Failure> {
    let mut digest = Digest::new();
    let copied = match path.as_os_str() == INPUT {
        true => io::copy(&mut io::stdin().lock(), &mut digest),
        false => File::open(path).and_then(|mut file| io::copy(&mut file, &mut digest)),
    };
    match copied.map_err(|error| error.downcast()) {
        Ok(_) => digest.finish().map_err(|refusal| refused(path, refusal)),
        Err(Ok(refusal)) => Err(refused(path, refusal)),
        Err(Err(error)) => Err(unread(path, error)),
    }
}

fn refused(path: &Path, refusal: Refusal) -> Failure {
    let (path, blocks, bad_text) = (path.to_path_buf(), None, None);
    Failure::Volume(ArchiveError::Refused {
        path,
        refusal,
        blocks,
        bad_text,
    })
}

fn unread(path: &Path, error: io::Error) -> Failure {
    let path = path.to_path_buf();
    Failure::Volume(ArchiveError::Io { path, error })
}

/// Prints a digest, or says why there is none; answers what that is for the exit status.
fn tell(
    path: &Path,
    answer: Result<[u8; Digest::LEN], Failure>,
    json: bool,
) -> Result<Status, Failure> {
    let failure = match answer {
        Ok(digest) if json => return output::print(&object(path, &digest).line()),
        Ok(digest) => return output::print_bytes(&line(path, &digest)),
        Err(failure) => failure,
    };
    match json {
        true => output::print(&failure.json()).map(|_| failure.status()),
        false => {
            output::say(&failure);
            Ok(failure.status())
        }
    }
}

fn object(path: &Path, digest: &[u8]) -> Object {
    Object::new()
        .text("file", &path.to_string_lossy())
        .text("digest", &hex(digest))
}

/// The line of `sha256sum`. Backslashes and ends of lines in a name are escaped, and then a backslash
/// stands before the digest; all other bytes stand as they are.
fn line(path: &Path, digest: &[u8]) -> Vec<u8> {
    let name = path.as_os_str().as_encoded_bytes();
    let mut escaped = Vec::new();
    for byte in name {
        match byte {
            b'\\' => escaped.extend(b"\\\\"),
            b'\n' => escaped.extend(b"\\n"),
            b'\r' => escaped.extend(b"\\r"),
            other => escaped.push(*other),
        }
    }
    let mark: &[u8] = match escaped.len() == name.len() {
        true => b"",
        false => b"\\",
    };
    [mark, hex(digest).as_bytes(), b"  ", &escaped, b"\n"].concat()
}
