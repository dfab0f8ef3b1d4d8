//! How far the work has come: a line on standard error, if a person sees it there and has waited for
//! a second.
//!
//! A thread of its own writes the line, so that it also appears while one long step is being done,
//! such as waiting for a pipe.

use std::env;
use std::io::{self, IsTerminal, Write};
use std::sync::atomic::{AtomicU64, Ordering};
use std::sync::{Arc, Condvar, Mutex, MutexGuard, PoisonError};
use std::thread::{self, JoinHandle};
use std::time::Duration;

use crate::system;
use crate::text::count;

/// How long nothing is shown, and how long a line stands before it is renewed.
const FIRST: Duration = Duration::from_secs(1);
const NEXT: Duration = Duration::from_millis(250);

/// The line, from its making to its end. It is taken away when this is dropped.
pub struct Progress {
    shared: Arc<Shared>,
    thread: Option<JoinHandle<()>>,
}

struct Shared {
    done: AtomicU64,
    all: u64,
    /// What is counted, and what is done to it.
    thing: &'static str,
    deed: &'static str,
    line: Mutex<Line>,
    ended: Condvar,
}

#[derive(Default)]
struct Line {
    is_shown: bool,
    is_over: bool,
}

impl Progress {
    /// Begins to count to `all`: `1 of 2 volumes read` with the thing `volume` and the deed `read`.
    pub fn new(thing: &'static str, deed: &'static str, all: u64) -> Progress {
        let shared = Arc::new(Shared {
            done: AtomicU64::new(0),
            all,
            thing,
            deed,
            line: Mutex::default(),
            ended: Condvar::new(),
        });
        let for_thread = Arc::clone(&shared);
        // Interrupts are for the main thread, which knows when not to be disturbed.
        let spawn = || thread::Builder::new().spawn(move || for_thread.follow());
        let thread = match is_seen() {
            true => system::undisturbed(spawn).ok(),
            false => None,
        };
        Progress { shared, thread }
    }

    pub fn add(&self, number: u64) {
        self.shared.done.fetch_add(number, Ordering::Relaxed);
    }

    /// Takes the line away while something else is printed.
    pub fn hidden<T>(&self, print: impl FnOnce() -> T) -> T {
        let mut line = self.shared.lock();
        line.clear();
        print()
    }
}

impl Drop for Progress {
    fn drop(&mut self) {
        let Some(thread) = self.thread.take() else {
            return;
        };
        self.shared.lock().is_over = true;
        self.shared.ended.notify_all();
        // It cannot panic: failures to write are nothing to it.
        let _ = thread.join();
    }
}

impl Shared {
    /// What the line says cannot be wrong, even if another thread ended while it had the lock.
    fn lock(&self) -> MutexGuard<'_, Line> {
        self.line.lock().unwrap_or_else(PoisonError::into_inner)
    }

    fn follow(&self) {
        let mut line = self.lock();
        let mut pause = FIRST;
        while !line.is_over {
            let waited = self
                .ended
                .wait_timeout_while(line, pause, |line| !line.is_over);
            line = waited.unwrap_or_else(PoisonError::into_inner).0;
            if !line.is_over {
                line.show(&self.words());
                pause = NEXT;
            }
        }
        line.clear();
    }

    fn words(&self) -> String {
        let done = self.done.load(Ordering::Relaxed).min(self.all);
        format!("{done} of {} {}", count(self.all, self.thing), self.deed)
    }
}

/// Failures to write are no reason to stop: this is not an answer.
impl Line {
    fn show(&mut self, words: &str) {
        let _ = write!(io::stderr(), "\r{words}\x1b[K");
        self.is_shown = true;
    }

    fn clear(&mut self) {
        if self.is_shown {
            let _ = write!(io::stderr(), "\r\x1b[K");
            self.is_shown = false;
        }
    }
}

/// Whether standard error is a terminal on which a line can be taken away again.
fn is_seen() -> bool {
    let is_dumb = env::var_os("TERM").is_none_or(|term| term.is_empty() || term == "dumb");
    io::stderr().is_terminal() && !is_dumb
}
