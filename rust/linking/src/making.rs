//! The archive of the repository itself, made anew where it is not up to date.

use std::env;
use std::fs;
use std::path::{Path, PathBuf};
use std::process::{Command, Stdio};
use std::time::SystemTime;

use crate::{lock, Archive};

/// The archive of the repository that the package stands in, made anew where it is not up to date.
pub fn own_archive(archive: Archive) -> Result<PathBuf, String> {
    let root = repository(archive)?;
    let path = root.join("target/staticlib").join(archive.name());
    let crates = root.join("crates");
    let list = root.join("crates.txt");
    println!("cargo::rerun-if-changed={}", crates.display());
    println!("cargo::rerun-if-changed={}", list.display());
    let changed = newest(&crates).max(newest(&list));
    if is_made_since(&path, changed) {
        return Ok(path);
    }
    // Cargo runs the build scripts of several packages at once, and two runs of `rt` would write the
    // same files.
    let lock = root.join("target/linking.lock");
    let _alone = lock::wait_for(&lock)
        .map_err(|error| format!("{} cannot be locked: {error}", lock.display()))?;
    // Another build may have made it while this one waited.
    if !is_made_since(&path, changed) {
        make_archive(archive, &root)?;
    }
    if path.is_file() {
        return Ok(path);
    }
    Err(format!(
        "`tools/build {}` made no {}",
        archive.proved,
        path.display()
    ))
}

/// The nearest folder above the package that has the library's sources.
fn repository(archive: Archive) -> Result<PathBuf, String> {
    let here = PathBuf::from(env::var_os("CARGO_MANIFEST_DIR").unwrap_or_default());
    let is_root = |dir: &&Path| dir.join("crates.txt").is_file() && dir.join("crates").is_dir();
    here.ancestors()
        .find(is_root)
        .map(Path::to_path_buf)
        .ok_or_else(|| {
            format!(
                "no folder above {} has crates.txt and crates/, from which the proved library is \
                 made; {}",
                here.display(),
                archive.ready()
            )
        })
}

fn is_made_since(archive: &Path, changed: SystemTime) -> bool {
    let made = fs::metadata(archive).and_then(|about| about.modified());
    made.is_ok_and(|made| changed <= made)
}

/// When the newest file at or under a path was last changed, but for what `rt` keeps of a crate in its folder `out`. What
/// cannot be read counts as very old: `rt` will say more about it than we could.
fn newest(path: &Path) -> SystemTime {
    // The time of a crate's own folder says only when `out` was made.
    let own = match fs::metadata(path).and_then(|about| about.modified()) {
        Ok(changed) if !path.join("out").is_dir() => changed,
        _ => SystemTime::UNIX_EPOCH,
    };
    let Ok(entries) = fs::read_dir(path) else {
        return own;
    };
    entries
        .flatten()
        .filter(|entry| entry.file_name() != "out")
        .map(|entry| newest(&entry.path()))
        .fold(own, SystemTime::max)
}

/// Has the crate proved and its archive written. What `rt` prints goes to standard error, since
/// cargo reads standard output for orders.
fn make_archive(archive: Archive, root: &Path) -> Result<(), String> {
    let run = Command::new(root.join("tools/build"))
        .arg(archive.proved)
        .current_dir(root)
        .stdin(Stdio::null())
        .output();
    let command = format!("`tools/build {}`", archive.proved);
    let output = match run {
        // What a shell answers where it does not find a program.
        Ok(output) if output.status.code() == Some(127) => {
            return Err(format!(
                "target/staticlib/{} in {}, the proved library, is missing or older than its \
                 sources, and the program `rt` that makes it is not on the PATH: install the \
                 Rattle toolchain, or {}",
                archive.name(),
                root.display(),
                archive.ready()
            ));
        }
        Ok(output) => output,
        Err(error) => return Err(format!("{command} could not be run: {error}")),
    };
    eprint!("{}", String::from_utf8_lossy(&output.stdout));
    eprint!("{}", String::from_utf8_lossy(&output.stderr));
    if output.status.success() {
        return Ok(());
    }
    Err(format!(
        "{command} failed in {} ({}); what it printed stands below",
        root.display(),
        output.status
    ))
}
