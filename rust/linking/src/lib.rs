//! Finds the archive of a proved crate, or has it made, and tells cargo to link it. For build scripts.
//!
//! A variable of the environment may name a ready archive. Otherwise the repository above the
//! package that is built is looked for, and `tools/build` is run there if its archive is missing or
//! older than a file under `crates/`.
#![deny(unsafe_code)]

#[allow(unsafe_code)]
mod lock;
mod making;

use std::env;
use std::fs;
use std::path::{Path, PathBuf};
use std::process;

/// An archive to link.
#[derive(Clone, Copy)]
pub struct Archive {
    /// The proved crate that it is made of.
    pub proved: &'static str,
    /// The variable of the environment that may name a ready one.
    pub variable: &'static str,
}

impl Archive {
    /// What it is called where `rt` makes it.
    fn name(self) -> String {
        format!("lib{}.a", self.proved)
    }

    /// What a person can do who does not have it made.
    fn ready(self) -> String {
        let (variable, name) = (self.variable, self.name());
        format!("set {variable} to the full path of a ready {name}")
    }
}

/// Has cargo link the archive, or ends the build script with what stands in the way.
pub fn link(archive: Archive) {
    println!("cargo::rerun-if-env-changed={}", archive.variable);
    let found = match env::var_os(archive.variable) {
        Some(named) => named_archive(archive, &PathBuf::from(named)),
        None => making::own_archive(archive),
    };
    match found {
        Ok(path) => link_file(&path),
        Err(message) => {
            println!("cargo::error={message}");
            process::exit(1);
        }
    }
}

/// The archive that the variable names.
fn named_archive(archive: Archive, named: &Path) -> Result<PathBuf, String> {
    let (variable, shown) = (archive.variable, named.display());
    match fs::canonicalize(named) {
        Ok(path) if path.is_file() => Ok(path),
        Ok(_) => Err(format!("{variable} names {shown}, which is not a file")),
        Err(error) => Err(format!("{variable} names {shown}: {error}")),
    }
}

/// The name is passed on as it is, so that an archive may have any name.
fn link_file(archive: &Path) {
    let folder = archive.parent().unwrap_or(Path::new("."));
    let name = archive.file_name().unwrap_or_default().to_string_lossy();
    println!("cargo::rerun-if-changed={}", archive.display());
    println!("cargo::rustc-link-search=native={}", folder.display());
    println!("cargo::rustc-link-lib=static:+verbatim={name}");
}
