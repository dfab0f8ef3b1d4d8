//! The file that `-o` names: where it is, and what may not be replaced.

use std::ffi::OsStr;
use std::fs::{self, File, FileType, Metadata};
use std::io;
use std::os::fd::AsFd;
use std::os::unix::fs::{FileTypeExt, MetadataExt};
use std::path::{Path, PathBuf};

use crate::failure::Failure;
use crate::text::shown;

/// The file to write, and what it was at the beginning.
#[derive(Debug)]
pub struct Target {
    /// Its own name: where a link leads to, so that the link stays.
    pub path: PathBuf,
    pub before: Option<Before>,
}

/// What is known about the file that is to be replaced.
#[derive(Debug)]
pub struct Before {
    device: u64,
    number: u64,
    pub mode: u32,
}

impl Target {
    /// The target that a name means. A link is followed or refused; only regular files are
    /// replaced, and no volume that is being read.
    pub fn find(out: &Path, volumes: &[PathBuf]) -> Result<Target, Failure> {
        let refused = |why: String| Failure::Usage(format!("{} {why}", shown(out)));
        let unwritten = |error| Failure::Unwritten {
            path: out.to_path_buf(),
            error,
        };
        if out.as_os_str().is_empty() {
            let why = "the name of the file to write is empty";
            return Err(Failure::Usage(why.to_string()));
        }
        let name = name_of(out).map_err(|why| refused(why.to_string()))?;
        match fs::symlink_metadata(out) {
            Err(error) if error.kind() == io::ErrorKind::NotFound => {
                let folder = folder_of(out).map_err(unwritten)?;
                let path = folder.join(name);
                return Ok(Target { path, before: None });
            }
            Err(error) => return Err(unwritten(error)),
            Ok(own) => existing(out, &own).map_err(refused),
        }
        .and_then(|target| match target.is_one_of(volumes) {
            true => Err(refused("is one of the volumes to read".to_string())),
            false => Ok(target),
        })
    }

    /// Whether it is one of these files, by whatever name: one that has two would lose one of them.
    fn is_one_of(&self, files: &[PathBuf]) -> bool {
        let is_same = |before: &Before, path: &PathBuf| {
            fs::metadata(path).is_ok_and(|about| before.is_same(&about))
        };
        let before = self.before.as_ref();
        before.is_some_and(|before| files.iter().any(|path| is_same(before, path)))
    }

    /// Whether the file is still the one that was looked at.
    pub fn is_unchanged(&self) -> bool {
        let now = fs::symlink_metadata(&self.path);
        match (&self.before, now) {
            (None, now) => now.is_err(),
            (Some(before), Ok(now)) => now.is_file() && before.is_same(&now),
            (Some(_), Err(_)) => false,
        }
    }
}

impl Before {
    fn is_same(&self, other: &Metadata) -> bool {
        (self.device, self.number) == (other.dev(), other.ino())
    }
}

/// The last part of a name, which has to be that of a file.
fn name_of(out: &Path) -> Result<&OsStr, &'static str> {
    let whole = out.as_os_str().as_encoded_bytes();
    match out.file_name() {
        Some(name) if whole.ends_with(name.as_encoded_bytes()) => Ok(name),
        _ => Err("names a folder, and not a file to write"),
    }
}

/// The folder that a new file goes to.
fn folder_of(out: &Path) -> io::Result<PathBuf> {
    match out.parent() {
        Some(folder) if !folder.as_os_str().is_empty() => fs::canonicalize(folder),
        _ => fs::canonicalize("."),
    }
}

/// The target behind a name that is there, or why it is none.
fn existing(out: &Path, own: &Metadata) -> Result<Target, String> {
    let link = match own.is_symlink() {
        true => "is a symbolic link",
        false => "",
    };
    let about = fs::metadata(out).map_err(|error| match error.kind() {
        io::ErrorKind::NotFound => format!("{link} that leads to no file"),
        _ => format!("{link} that cannot be followed: {error}"),
    })?;
    let before = Before {
        device: about.dev(),
        number: about.ino(),
        mode: about.mode(),
    };
    if standard_output().is_some_and(|output| before.is_same(&output)) {
        return Err("is where standard output goes; -o - writes there".to_string());
    }
    if !about.is_file() {
        let kind = kind(about.file_type());
        return Err(match own.is_symlink() {
            true => format!("{link} to {kind}, which is not replaced by a file"),
            false => format!("is {kind}, which is not replaced by a file"),
        });
    }
    let path = fs::canonicalize(out).map_err(|_| format!("{link} that leads to no name"))?;
    // A link in /proc may lead to an open file whose name is another file's by now.
    if !fs::symlink_metadata(&path).is_ok_and(|found| before.is_same(&found)) {
        return Err(format!("{link} that leads to no name"));
    }
    Ok(Target {
        path,
        before: Some(before),
    })
}

fn standard_output() -> Option<Metadata> {
    let own = io::stdout().as_fd().try_clone_to_owned().ok()?;
    File::from(own).metadata().ok()
}

fn kind(about: FileType) -> &'static str {
    if about.is_dir() {
        "a folder"
    } else if about.is_fifo() {
        "a pipe"
    } else if about.is_socket() {
        "a socket"
    } else if about.is_char_device() || about.is_block_device() {
        "a device"
    } else {
        "no regular file"
    }
}
