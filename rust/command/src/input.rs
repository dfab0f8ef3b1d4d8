//! The files that are given: folders stand for the volumes in them.

use std::fs::{self, File};
use std::io::{self, Read};
use std::os::unix::fs::MetadataExt;
use std::path::{Path, PathBuf};
use std::slice;

use hdrfs::{ArchiveError, MAX_VOLUME_LEN};

use crate::failure::Failure;

/// The volumes that names stand for: a folder for all files in it whose names end in `.vol`, in the
/// order of their names and without hidden ones, as a shell has it.
pub fn volumes(names: &[PathBuf]) -> Result<Vec<PathBuf>, Failure> {
    let mut volumes = Vec::new();
    for name in names {
        if name.is_dir() {
            volumes.extend(in_folder(name).map_err(|error| unread(name, error))?);
        } else {
            volumes.push(name.clone());
        }
    }
    Ok(volumes)
}

/// The volume that a name stands for, for a command that takes one.
pub fn volume(name: &PathBuf, command: &str) -> Result<PathBuf, Failure> {
    let mut volumes = volumes(slice::from_ref(name))?;
    match (volumes.len(), volumes.pop()) {
        (1, Some(volume)) => Ok(volume),
        (all, _) => {
            let why = format!("{command} takes one volume, and here are {all}");
            Err(Failure::Usage(why))
        }
    }
}

fn in_folder(folder: &Path) -> io::Result<Vec<PathBuf>> {
    let mut found = Vec::new();
    for entry in fs::read_dir(folder)? {
        let name = entry?.file_name();
        let is_hidden = name.as_encoded_bytes().starts_with(b".");
        let path = folder.join(name);
        let is_volume = path.extension().is_some_and(|extension| extension == "vol");
        if is_volume && !is_hidden && !path.is_dir() {
            found.push(path);
        }
    }
    if found.is_empty() {
        let why = "it is a folder, and no name in it ends in .vol";
        return Err(io::Error::other(why));
    }
    found.sort();
    Ok(found)
}

/// Reads a file, and of a file that is too long no more than it takes to have it refused.
pub fn read(path: &Path) -> Result<Vec<u8>, Failure> {
    let mut buffer = Vec::new();
    let enough = MAX_VOLUME_LEN as u64 + 1;
    let read = File::open(path).and_then(|file| file.take(enough).read_to_end(&mut buffer));
    read.map_err(|error| unread(path, error))?;
    Ok(buffer)
}

/// The mode of a file, which says who may read and write it.
pub fn mode(path: &Path) -> Result<u32, Failure> {
    let about = fs::metadata(path).map_err(|error| unread(path, error))?;
    Ok(about.mode())
}

fn unread(path: &Path, error: io::Error) -> Failure {
    let path = path.to_path_buf();
    ArchiveError::Io { path, error }.into()
}
