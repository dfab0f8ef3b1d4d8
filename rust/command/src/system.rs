//! The calls of the operating system that the standard library does not have: signals, and giving a
//! name to a file that has none. The only unsafe code of the command stands here.
//!
//! The numbers are those of Linux on x86-64, the only system for which the proved library is made.

use std::ffi::{c_char, c_int, CString};
use std::fs::File;
use std::io;
use std::os::fd::AsRawFd;
use std::os::unix::ffi::OsStrExt;
use std::path::Path;
use std::ptr;
use std::sync::atomic::{AtomicPtr, Ordering};

#[cfg(not(all(target_os = "linux", target_arch = "x86_64")))]
compile_error!("the proved library is made for Linux on x86-64 only");

/// The flag with which a file is opened that has no name.
pub const O_TMPFILE: c_int = 0o20_200_000;

const SIGHUP: c_int = 1;
const SIGINT: c_int = 2;
const SIGQUIT: c_int = 3;
const SIGPIPE: c_int = 13;
const SIGTERM: c_int = 15;
const SIGXFSZ: c_int = 25;

/// What a person or the machine ends a command with.
const INTERRUPTS: [c_int; 4] = [SIGHUP, SIGINT, SIGQUIT, SIGTERM];

const SIG_DFL: usize = 0;
const SIG_IGN: usize = 1;
const SIG_BLOCK: c_int = 0;
const SIG_SETMASK: c_int = 2;

const AT_FDCWD: c_int = -100;
const AT_SYMLINK_FOLLOW: c_int = 0x400;

/// A set of signals: 128 bytes in both C libraries of Linux.
type SignalSet = [u64; 16];

extern "C" {
    fn signal(number: c_int, action: usize) -> usize;
    fn raise(number: c_int) -> c_int;
    fn sigemptyset(set: *mut SignalSet) -> c_int;
    fn sigaddset(set: *mut SignalSet, number: c_int) -> c_int;
    fn pthread_sigmask(how: c_int, set: *const SignalSet, old: *mut SignalSet) -> c_int;
    fn unlink(path: *const c_char) -> c_int;
    fn linkat(
        old_folder: c_int,
        old_path: *const c_char,
        new_folder: c_int,
        new_path: *const c_char,
        flags: c_int,
    ) -> c_int;
}

/// Ends the command as a closed pipe ends other tools: by the signal that they get, of which a
/// shell makes the exit status 141. It returns where the signal is blocked.
pub fn end_by_closed_pipe() {
    // SAFETY: both calls take numbers alone. Rust has set the signal to be ignored, and nothing of
    // ours depends on that any more.
    unsafe {
        signal(SIGPIPE, SIG_DFL);
        raise(SIGPIPE);
    }
}

/// Has a file that grows beyond what its owner may have fail as on a full disk, and not end the
/// command.
pub fn fail_on_long_files() {
    // SAFETY: the call takes numbers alone.
    unsafe { signal(SIGXFSZ, SIG_IGN) };
}

/// Does something during which no interrupt comes; one that is sent meanwhile comes after it. No
/// other thread may be running, since it could get the signal.
pub fn undisturbed<T>(work: impl FnOnce() -> T) -> T {
    let (mut set, mut before) = ([0; 16], [0; 16]);
    // SAFETY: both sets live longer than the calls, and are as large as the system's.
    unsafe {
        sigemptyset(&mut set);
        for number in INTERRUPTS {
            sigaddset(&mut set, number);
        }
        pthread_sigmask(SIG_BLOCK, &set, &mut before);
    }
    let result = work();
    // SAFETY: as above.
    unsafe { pthread_sigmask(SIG_SETMASK, &before, ptr::null_mut()) };
    result
}

/// The file to remove when an interrupt comes, or null.
static DOOMED: AtomicPtr<c_char> = AtomicPtr::new(ptr::null_mut());

/// Has a file removed when an interrupt comes, in place of the one that was named before. To be
/// called undisturbed. Signals that are ignored, as under `nohup`, stay so.
pub fn remove_if_interrupted(path: &Path) -> io::Result<()> {
    let path = CString::new(path.as_os_str().as_bytes())?;
    // The text is never freed: the signal may come at any time.
    DOOMED.store(path.into_raw(), Ordering::SeqCst);
    let action: extern "C" fn(c_int) = on_interrupt;
    for number in INTERRUPTS {
        // SAFETY: the function given calls nothing but what signals may call.
        unsafe {
            if signal(number, action as usize) == SIG_IGN {
                signal(number, SIG_IGN);
            }
        }
    }
    Ok(())
}

/// Forgets the file that was to be removed, which has its final name or is removed.
pub fn keep_if_interrupted() {
    DOOMED.store(ptr::null_mut(), Ordering::SeqCst);
}

/// Removes the file, and lets the signal do what it does to other commands.
extern "C" fn on_interrupt(number: c_int) {
    let path = DOOMED.load(Ordering::SeqCst);
    // SAFETY: the path, if there is one, is a text that is never freed; all three calls may be made
    // from a signal handler.
    unsafe {
        if !path.is_null() {
            unlink(path);
        }
        signal(number, SIG_DFL);
        raise(number);
    }
}

/// Gives a name to an open file that has none. It fails if the name is taken.
pub fn give_name(file: &File, name: &Path) -> io::Result<()> {
    let own = CString::new(format!("/proc/self/fd/{}", file.as_raw_fd()))?;
    let name = CString::new(name.as_os_str().as_bytes())?;
    // SAFETY: both texts live longer than the call.
    let failed = unsafe {
        linkat(
            AT_FDCWD,
            own.as_ptr(),
            AT_FDCWD,
            name.as_ptr(),
            AT_SYMLINK_FOLLOW,
        )
    };
    match failed {
        0 => Ok(()),
        _ => Err(io::Error::last_os_error()),
    }
}
