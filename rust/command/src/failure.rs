//! Why a command did not do what it was asked, and the exit status that goes with it.

use std::fmt;
use std::io;
use std::path::{Path, PathBuf};

use hdrfs::{ArchiveError, BadText, Missing, Refusal};

use crate::json::Object;
use crate::lack;
use crate::text::{count, shown};

/// How a command ended.
#[derive(Clone, Copy, Debug, PartialEq, Eq, PartialOrd, Ord)]
pub enum Status {
    Accepted,
    Refused,
    WrongUse,
    /// Whoever read standard output has gone. There is nobody to complain to; but the rest of the
    /// answer is unsaid, and so this is no success.
    Unheard,
}

impl Status {
    pub fn code(self) -> u8 {
        match self {
            Status::Accepted => 0,
            Status::Refused => 1,
            Status::WrongUse => 2,
            // What a shell makes of the signal that other tools get.
            Status::Unheard => 141,
        }
    }
}

#[derive(Debug)]
pub enum Failure {
    /// The words of the command line make no request.
    Usage(String),
    /// A volume cannot be read or is refused, or volumes do not belong together.
    Volume(ArchiveError),
    /// A file is stored in places that the volumes given do not have.
    Lacking {
        /// The volume that has its inode block, and the refusal.
        path: PathBuf,
        refusal: Refusal,
        /// In a box, so that a failure stays small beside the answers that it stands for.
        missing: Box<Missing>,
    },
    /// A sound volume does not have what it is asked for.
    Explained {
        path: PathBuf,
        refusal: Refusal,
        /// What the refusal means there.
        why: String,
    },
    /// A file cannot be written.
    Unwritten { path: PathBuf, error: io::Error },
    /// Standard output cannot be written.
    Output(io::Error),
}

impl From<ArchiveError> for Failure {
    fn from(error: ArchiveError) -> Failure {
        Failure::Volume(error)
    }
}

impl Failure {
    /// A whole volume that is refused. All blocks before the one at fault were accepted.
    pub fn refused(path: &Path, refusal: Refusal, volume: &[u8]) -> Failure {
        Failure::Volume(ArchiveError::Refused {
            path: path.to_path_buf(),
            refusal,
            blocks: Some(refusal.block.unwrap_or(0)),
            bad_text: refusal.bad_text(volume),
        })
    }

    pub fn status(&self) -> Status {
        match self {
            Failure::Volume(ArchiveError::Io { .. }) => Status::WrongUse,
            Failure::Volume(_) | Failure::Lacking { .. } | Failure::Explained { .. } => {
                Status::Refused
            }
            Failure::Output(error) if error.kind() == io::ErrorKind::BrokenPipe => Status::Unheard,
            Failure::Usage(_) | Failure::Unwritten { .. } | Failure::Output(_) => Status::WrongUse,
        }
    }

    /// The file that it is about.
    fn path(&self) -> Option<&Path> {
        match self {
            Failure::Volume(error) => path_of(error),
            Failure::Lacking { path, .. }
            | Failure::Explained { path, .. }
            | Failure::Unwritten { path, .. } => Some(path),
            Failure::Usage(_) | Failure::Output(_) => None,
        }
    }

    /// What is the matter, without the name of the file.
    fn matter(&self) -> String {
        match self {
            Failure::Usage(why) => why.clone(),
            Failure::Volume(error) => matter_of(error),
            Failure::Lacking {
                refusal, missing, ..
            } => format!("{refusal}: {}", lack::words(missing)),
            Failure::Explained { refusal, why, .. } => format!("{refusal}: {why}"),
            Failure::Unwritten { error, .. } => format!("cannot be written: {error}"),
            Failure::Output(error) => format!("cannot write to standard output: {error}"),
        }
    }

    /// A line for machines.
    pub fn json(&self) -> String {
        let mut object = Object::new();
        if let Some(path) = self.path() {
            object = object.text("file", &path.to_string_lossy());
        }
        match self {
            Failure::Volume(ArchiveError::Refused {
                refusal,
                blocks,
                bad_text,
                ..
            }) => {
                let object = members(refusal, *bad_text, object);
                let add = |object: Object, blocks: &u64| object.number("blocks", *blocks);
                blocks.iter().fold(object, add)
            }
            Failure::Lacking {
                refusal, missing, ..
            } => lack::members(missing, members(refusal, None, object)),
            Failure::Explained { refusal, why, .. } => {
                members(refusal, None, object).text("why", why)
            }
            Failure::Volume(
                ArchiveError::TwoFileSystems { first, .. } | ArchiveError::Twice { first, .. },
            ) => object
                .text("other", &first.to_string_lossy())
                .text("error", &self.matter()),
            _ => object.text("error", &self.matter()),
        }
        .line()
    }
}

impl fmt::Display for Failure {
    fn fmt(&self, f: &mut fmt::Formatter<'_>) -> fmt::Result {
        let about = match self.path() {
            Some(path) => shown(path),
            None => "hdrfs".to_string(),
        };
        write!(f, "{about}: {}", self.matter())
    }
}

/// A refusal for people: of a text that is not UTF-8 also what it is in its block.
fn told(refusal: &Refusal, bad_text: Option<BadText>) -> String {
    match bad_text {
        Some(text) => format!("{refusal}: {text}"),
        None => refusal.to_string(),
    }
}

/// A refusal for machines. The block is left out where the header is at fault, or none is meant; what
/// is said of a text, where that is not what is wrong.
fn members(refusal: &Refusal, bad_text: Option<BadText>, object: Object) -> Object {
    let object = object
        .number("refused", refusal.number)
        .number("offset", refusal.offset);
    let object = match refusal.block {
        Some(block) => object.number("block", block),
        None => object,
    };
    let object = object.text("words", refusal.words());
    match bad_text {
        Some(text) => object
            .number("text", refusal.text)
            .number("start", refusal.start)
            .text("which", &text.to_string()),
        None => object,
    }
}

/// The volume that an error is about; where it is about two, the one that was given later.
fn path_of(error: &ArchiveError) -> Option<&Path> {
    match error {
        ArchiveError::Io { path, .. }
        | ArchiveError::Refused { path, .. }
        | ArchiveError::Changed { path }
        | ArchiveError::TwoFileSystems { second: path, .. }
        | ArchiveError::Twice { second: path, .. } => Some(path),
        _ => None,
    }
}

/// What is the matter with a volume or with volumes, without the name of the first.
fn matter_of(error: &ArchiveError) -> String {
    match error {
        ArchiveError::Io { error, .. } => format!("cannot be read: {error}"),
        ArchiveError::Refused {
            refusal,
            blocks,
            bad_text,
            ..
        } => {
            let told = told(refusal, *bad_text);
            match blocks {
                Some(blocks) => format!("{told}; {} accepted before", count(*blocks, "block")),
                None => told,
            }
        }
        ArchiveError::Changed { .. } => "changed while it was being read".to_string(),
        ArchiveError::TwoFileSystems { first, .. } => {
            let first = shown(first);
            format!("belongs to another file system than {first}: their IDs differ")
        }
        ArchiveError::Twice {
            sequence, first, ..
        } => format!("has sequence number {sequence}, as has {}", shown(first)),
        other => other.to_string(),
    }
}

#[cfg(test)]
mod tests {
    use super::*;

    fn refused(refusal: Refusal, blocks: Option<u64>, bad_text: Option<BadText>) -> Failure {
        let path = PathBuf::from("a.vol");
        Failure::Volume(ArchiveError::Refused {
            path,
            refusal,
            blocks,
            bad_text,
        })
    }

    #[test]
    fn a_refusal_is_one_line_with_words() {
        let failure = refused(Refusal::new(3, 0), None, None);
        assert_eq!(
            failure.to_string(),
            "a.vol: refused 3 at 0: not an HDRFS volume"
        );
        assert_eq!(failure.status().code(), 1);
    }

    /// The example of the help is what would be printed.
    #[test]
    fn a_refusal_says_which_block_is_at_fault() {
        let failure = refused(Refusal::new(5, 4711).with_block(Some(17)), Some(17), None);
        let line = failure.to_string();
        assert!(crate::help::general().contains(&line), "{line}");
        assert_eq!(
            failure.json(),
            "{\"file\":\"a.vol\",\"refused\":5,\"offset\":4711,\"block\":17,\
             \"words\":\"checksum wrong\",\"blocks\":17}\n"
        );
    }

    /// The examples of the help and of the page for `man` are a part of what would be printed.
    #[test]
    fn a_refusal_says_which_text_is_not_utf_8() {
        let refusal = Refusal::new(10, 80).with_block(Some(0));
        let refusal = refusal.with_text(1, 39_999);
        let failure = refused(refusal, Some(0), Some(BadText::NewPath));
        let told = told(&refusal, Some(BadText::NewPath));
        assert!(crate::help::general().contains(&told), "{told}");
        let page = include_str!("../../../man/hdrfs.1").replace("\\-", "-");
        assert!(page.contains(&told), "{told}");
        let line = format!("a.vol: {told}; 0 blocks accepted before");
        assert_eq!(failure.to_string(), line);
        assert_eq!(
            failure.json(),
            "{\"file\":\"a.vol\",\"refused\":10,\"offset\":80,\"block\":0,\
             \"words\":\"text is not UTF-8\",\"text\":1,\"start\":39999,\
             \"which\":\"new path\",\"blocks\":0}\n"
        );
    }
}
