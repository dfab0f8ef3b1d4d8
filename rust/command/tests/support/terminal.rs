//! A terminal for the command to write to: the far end of a pair of pseudo terminals.
#![allow(unsafe_code)] // The standard library has no call for it.

use std::ffi::{c_char, c_int, CStr, OsStr};
use std::fs::File;
use std::io::Read;
use std::os::fd::FromRawFd;
use std::os::unix::ffi::OsStrExt;

const O_RDWR: c_int = 2;
const O_NOCTTY: c_int = 0o400;

extern "C" {
    fn posix_openpt(flags: c_int) -> c_int;
    fn grantpt(fd: c_int) -> c_int;
    fn unlockpt(fd: c_int) -> c_int;
    fn ptsname_r(fd: c_int, name: *mut c_char, len: usize) -> c_int;
}

/// Our end of a terminal.
pub struct Terminal {
    own: File,
    pub seen: String,
}

impl Terminal {
    /// A terminal, and the end of it that a command writes to, where the machine has one.
    pub fn open() -> Option<(Terminal, File)> {
        let mut name = [0; 128];
        // SAFETY: the calls get a descriptor that is open and a buffer with its length.
        let own = unsafe {
            let fd = posix_openpt(O_RDWR | O_NOCTTY);
            if fd < 0 {
                eprintln!("skipped: this machine has no terminal for the tests");
                return None;
            }
            let made = grantpt(fd) | unlockpt(fd) | ptsname_r(fd, name.as_mut_ptr(), name.len());
            assert_eq!(made, 0);
            File::from_raw_fd(fd)
        };
        // SAFETY: the call above has written a text with its end.
        let name = unsafe { CStr::from_ptr(name.as_ptr()) };
        let path = OsStr::from_bytes(name.to_bytes());
        let far = File::options().write(true).open(path).unwrap();
        let seen = String::new();
        Some((Terminal { own, seen }, far))
    }

    /// Reads until a text has been seen.
    pub fn wait_for(&mut self, text: &str) {
        while !self.seen.contains(text) {
            assert!(self.read() > 0, "{text} is not in {:?}", self.seen);
        }
    }

    /// Reads to the end: until nobody has the far end open.
    pub fn read_to_end(mut self) -> String {
        while self.read() > 0 {}
        self.seen
    }

    fn read(&mut self) -> usize {
        let mut buffer = [0; 4096];
        // The system answers an error when the far end is closed.
        let len = self.own.read(&mut buffer).unwrap_or(0);
        self.seen += &String::from_utf8_lossy(&buffer[..len]);
        len
    }
}
