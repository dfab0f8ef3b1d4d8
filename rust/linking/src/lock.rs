//! A lock between build scripts. The standard library has one from Rust 1.89 on.

use std::ffi::c_int;
use std::fs::{self, File};
use std::io;
use std::os::fd::AsRawFd;
use std::path::Path;

const EXCLUSIVE: c_int = 2;

extern "C" {
    fn flock(file: c_int, operation: c_int) -> c_int;
}

/// Waits until no other process has the lock of this file, which is made if it is missing. The lock
/// goes with the answer, or with the process.
pub fn wait_for(path: &Path) -> io::Result<File> {
    if let Some(folder) = path.parent() {
        fs::create_dir_all(folder)?;
    }
    let file = File::create(path)?;
    // SAFETY: the call touches no memory, and the file is open.
    match unsafe { flock(file.as_raw_fd(), EXCLUSIVE) } {
        0 => Ok(file),
        _ => Err(io::Error::last_os_error()),
    }
}

#[cfg(test)]
mod tests {
    use std::sync::atomic::{AtomicBool, Ordering};
    use std::thread;
    use std::time::Duration;

    use super::*;

    #[test]
    fn the_second_waits_for_the_first() {
        let path = std::env::temp_dir().join(format!("linking-{}.lock", std::process::id()));
        let first = wait_for(&path).unwrap();
        let is_gone = AtomicBool::new(false);
        thread::scope(|scope| {
            let second = scope.spawn(|| {
                let _lock = wait_for(&path).unwrap();
                is_gone.load(Ordering::SeqCst)
            });
            thread::sleep(Duration::from_millis(50));
            is_gone.store(true, Ordering::SeqCst);
            drop(first);
            assert!(second.join().unwrap(), "both had the lock at once");
        });
        fs::remove_file(&path).unwrap();
    }
}
