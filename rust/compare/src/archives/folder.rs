//! An archive as files in a folder.

use std::fs;
use std::io;
use std::path::{Path, PathBuf};
use std::process;
use std::sync::atomic::{AtomicU64, Ordering};

use generator::archive::Archive;

/// A temporary folder; it is removed with all that is in it when it is dropped.
#[derive(Debug)]
pub struct Folder {
    path: PathBuf,
}

impl Folder {
    /// An empty folder that nobody else has.
    ///
    /// # Errors
    ///
    /// What the system says.
    pub fn new() -> io::Result<Folder> {
        static COUNT: AtomicU64 = AtomicU64::new(0);
        let count = COUNT.fetch_add(1, Ordering::Relaxed);
        let name = format!("hdrfs-compare-{}-{count}", process::id());
        let path = std::env::temp_dir().join(name);
        fs::create_dir(&path)?;
        Ok(Folder { path })
    }

    /// Where it is.
    #[must_use]
    pub fn path(&self) -> &Path {
        &self.path
    }

    /// Writes the volumes of an archive, and answers their paths in the archive's order. Since that is
    /// any order, names say nothing about sequence numbers.
    ///
    /// # Errors
    ///
    /// What the system says.
    pub fn store(&self, archive: &Archive) -> io::Result<Vec<PathBuf>> {
        let mut paths = Vec::new();
        for (place, volume) in archive.volumes.iter().enumerate() {
            let path = self.path.join(format!("{place:02}.vol"));
            fs::write(&path, volume)?;
            paths.push(path);
        }
        Ok(paths)
    }
}

impl Drop for Folder {
    fn drop(&mut self) {
        // A folder that is left behind is no reason to fail.
        let _ = fs::remove_dir_all(&self.path);
    }
}

#[cfg(test)]
mod tests {
    use super::Folder;
    use generator::archive::archive;

    #[test]
    fn volumes_are_stored_and_removed() {
        let archive = archive(1);
        let folder = Folder::new().expect("a folder");
        let paths = folder.store(&archive).expect("all written");
        let read = paths
            .iter()
            .map(|path| std::fs::read(path).expect("a volume"));
        assert!(read.eq(archive.volumes.iter().cloned()));
        let path = folder.path().to_path_buf();
        drop(folder);
        assert!(!path.exists());
    }
}
