//! An output file that appears whole or not at all.
//!
//! Where the file system can do it, the file has no name while it is being written: whatever ends
//! the command, nothing is left. Elsewhere it has a hidden name, which is removed in every way to
//! end but a sudden one (`kill -9`, loss of power).

use std::fs::{self, File, OpenOptions, Permissions};
use std::io;
use std::os::unix::fs::{OpenOptionsExt, PermissionsExt};
use std::path::{Path, PathBuf};
use std::process;

use crate::system;
use crate::target::Target;

/// All that says who may read and write.
const PERMISSIONS: u32 = 0o777;

/// A file that is being written. It is gone when it is dropped before it was put in its place.
#[derive(Debug)]
pub struct Temporary {
    pub file: File,
    /// The name that it has for now, if it has one.
    name: Option<PathBuf>,
    mode: u32,
}

impl Temporary {
    /// A new file in the folder of the target. Nobody may do more with it than `mode` says, nor
    /// than with the file that it replaces; for a new file the umask counts too.
    pub fn beside(target: &Target, mode: u32) -> io::Result<Temporary> {
        let before = target.before.as_ref();
        let mode = mode & before.map_or(PERMISSIONS, |before| before.mode) & PERMISSIONS;
        // Whatever the reason why a file without a name cannot be had, it is tried with one.
        match Temporary::nameless(&target.path, mode) {
            Ok(temporary) => Ok(temporary),
            Err(_) => Temporary::named(&target.path, mode),
        }
    }

    fn nameless(target: &Path, mode: u32) -> io::Result<Temporary> {
        // A name can be given later only by way of this folder.
        fs::metadata("/proc/self/fd")?;
        let mut options = OpenOptions::new();
        options.write(true).custom_flags(system::O_TMPFILE);
        let file = options.mode(mode).open(folder(target))?;
        let name = None;
        Ok(Temporary { file, name, mode })
    }

    fn named(target: &Path, mode: u32) -> io::Result<Temporary> {
        for name in hidden_names(target) {
            let mut options = OpenOptions::new();
            options.write(true).create_new(true).mode(mode);
            // An interrupt after the file is made and before it is known would leave it.
            let made = system::undisturbed(|| {
                let file = options.open(&name)?;
                system::remove_if_interrupted(&name).map(|()| file)
            });
            match made {
                Ok(file) => {
                    let name = Some(name);
                    return Ok(Temporary { file, name, mode });
                }
                // Another process with our number left it behind: it is not ours to remove.
                Err(error) if error.kind() == io::ErrorKind::AlreadyExists => (),
                Err(error) => return Err(error),
            }
        }
        Err(io::ErrorKind::AlreadyExists.into())
    }

    /// Puts the file in the place of the target. All of it is on the disk before that, so that not
    /// even a loss of power leaves a part of it there.
    pub fn place(mut self, target: &Target) -> io::Result<()> {
        if target.before.is_some() {
            self.file
                .set_permissions(Permissions::from_mode(self.mode))?;
        }
        self.file.sync_all()?;
        if !target.is_unchanged() {
            return Err(io::Error::other(
                "another file has taken its name meanwhile",
            ));
        }
        match (self.name.take(), target.before.is_some()) {
            (None, false) => system::give_name(&self.file, &target.path),
            (None, true) => system::undisturbed(|| self.replace(&target.path)),
            (Some(name), false) => rename_to_new(&name, &target.path),
            (Some(name), true) => rename(&name, &target.path),
        }
    }

    /// Puts a file that has no name in the place of another. For a moment it has a hidden name, since
    /// no call of the system replaces a file by one without a name.
    fn replace(&self, target: &Path) -> io::Result<()> {
        for name in hidden_names(target) {
            match system::give_name(&self.file, &name) {
                Ok(()) => return rename(&name, target),
                Err(error) if error.kind() == io::ErrorKind::AlreadyExists => (),
                Err(error) => return Err(error),
            }
        }
        Err(io::ErrorKind::AlreadyExists.into())
    }
}

impl Drop for Temporary {
    fn drop(&mut self) {
        if let Some(name) = &self.name {
            remove(name);
        }
    }
}

fn folder(target: &Path) -> &Path {
    target.parent().unwrap_or(Path::new("/"))
}

/// Names for a file beside the target.
fn hidden_names(target: &Path) -> impl Iterator<Item = PathBuf> + '_ {
    (0..100).map(|number| {
        let name = format!(".hdrfs-{}-{number}.part", process::id());
        folder(target).join(name)
    })
}

/// Gives a new name, and replaces nothing that has it by now. A file system without links is asked to
/// rename, which does not look.
fn rename_to_new(from: &Path, to: &Path) -> io::Result<()> {
    match fs::hard_link(from, to) {
        Err(error) if error.kind() != io::ErrorKind::AlreadyExists => rename(from, to),
        done => {
            remove(from);
            done
        }
    }
}

fn rename(from: &Path, to: &Path) -> io::Result<()> {
    let done = fs::rename(from, to);
    match done {
        Ok(()) => system::keep_if_interrupted(),
        Err(_) => remove(from),
    }
    done
}

fn remove(name: &Path) {
    // What went wrong is being said already; a file that cannot be removed would add nothing to it.
    let _ = fs::remove_file(name);
    system::keep_if_interrupted();
}

#[cfg(test)]
mod tests;
