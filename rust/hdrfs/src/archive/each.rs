//! Checking many volumes at once.

use std::collections::BTreeMap;
use std::num::NonZeroUsize;
use std::ops::ControlFlow;
use std::path::{Path, PathBuf};
use std::sync::atomic::{AtomicUsize, Ordering};
use std::sync::mpsc::{self, Receiver, Sender};
use std::thread;

use super::{ArchiveError, Checker, Member};
use crate::ChainEntry;

/// Checks volumes in so many threads, and hands on each answer, in the order of the paths, together
/// with the place of the path. To break ends it early.
///
/// ```
/// use std::num::NonZeroUsize;
/// use std::ops::ControlFlow;
/// use hdrfs::{check_each, Archive, ArchiveError};
/// # std::env::set_current_dir("tests/gauge")?;
///
/// let paths = ["0.vol", "1.vol", "2.vol"].map(Into::into);
/// let jobs = NonZeroUsize::new(2).unwrap();
/// let mut archive = Archive::new();
/// let ended = check_each(&paths, jobs, |place, checked| {
///     println!("{} of {}", place + 1, paths.len());
///     match checked.and_then(|member| archive.insert(member)) {
///         Ok(()) => ControlFlow::Continue(()),
///         Err(error) => ControlFlow::Break(error),
///     }
/// });
/// assert!(ended.is_continue());
/// assert_eq!(archive.volumes().count(), 3);
/// # Ok::<(), Box<dyn std::error::Error>>(())
/// ```
pub fn check_each<B>(
    paths: &[PathBuf],
    jobs: NonZeroUsize,
    each: impl FnMut(usize, Result<Member, ArchiveError>) -> ControlFlow<B>,
) -> ControlFlow<B> {
    judge_each(paths, jobs, |checker, path| checker.path(path), each)
}

/// The same, and takes the SHA-256 digests of the volumes, so that they can be compared with each
/// other. Each is read once.
///
/// ```
/// use std::num::NonZeroUsize;
/// use std::ops::ControlFlow;
/// use hdrfs::{check_each_with_entry, ArchiveError};
/// # std::env::set_current_dir("tests/gauge")?;
///
/// let paths = ["0.vol", "1.vol", "2.vol"].map(Into::into);
/// let mut entries = Vec::new();
/// let ended = check_each_with_entry(&paths, NonZeroUsize::MIN, |_, checked| match checked {
///     Ok((_, entry)) => {
///         entries.push(entry);
///         ControlFlow::Continue(())
///     }
///     Err(error) => ControlFlow::Break(error),
/// });
/// assert!(ended.is_continue());
/// assert!(entries.windows(2).all(|pair| pair[1].follows(&pair[0]).is_ok()));
/// # Ok::<(), Box<dyn std::error::Error>>(())
/// ```
pub fn check_each_with_entry<B>(
    paths: &[PathBuf],
    jobs: NonZeroUsize,
    each: impl FnMut(usize, Result<(Member, ChainEntry), ArchiveError>) -> ControlFlow<B>,
) -> ControlFlow<B> {
    judge_each(
        paths,
        jobs,
        |checker, path| checker.path_with_entry(path),
        each,
    )
}

/// Judges volumes in so many threads, and hands on each verdict, in the order of the paths.
fn judge_each<V: Send, B>(
    paths: &[PathBuf],
    jobs: NonZeroUsize,
    judge: impl Fn(&mut Checker, &Path) -> V + Sync,
    mut each: impl FnMut(usize, V) -> ControlFlow<B>,
) -> ControlFlow<B> {
    let jobs = jobs.get().min(paths.len());
    let next = &AtomicUsize::new(0);
    let judge = &judge;
    let (sender, receiver) = mpsc::channel();
    thread::scope(|scope| {
        let mut working = 0;
        while 1 < jobs && working < jobs {
            let sender = sender.clone();
            let worker = move || work(paths, next, judge, &sender);
            match thread::Builder::new().spawn_scoped(scope, worker) {
                Ok(_) => working += 1,
                // The machine has no more threads. Those that run will do all the work.
                Err(_) => break,
            }
        }
        drop(sender);
        if working > 0 {
            return in_order(receiver, each);
        }
        let mut checker = Checker::new();
        for (place, path) in paths.iter().enumerate() {
            each(place, judge(&mut checker, path))?;
        }
        ControlFlow::Continue(())
    })
}

/// Judges one volume after the other, until none is left or nobody listens any more.
fn work<V>(
    paths: &[PathBuf],
    next: &AtomicUsize,
    judge: impl Fn(&mut Checker, &Path) -> V,
    sender: &Sender<(usize, V)>,
) {
    let mut checker = Checker::new();
    loop {
        let place = next.fetch_add(1, Ordering::Relaxed);
        let Some(path) = paths.get(place) else {
            return;
        };
        if sender.send((place, judge(&mut checker, path))).is_err() {
            return;
        }
    }
}

/// Hands on verdicts in their order, whichever is ready first. Whoever still works sees by the
/// receiver, which is gone afterwards, that nobody listens.
fn in_order<V, B>(
    receiver: Receiver<(usize, V)>,
    mut each: impl FnMut(usize, V) -> ControlFlow<B>,
) -> ControlFlow<B> {
    let mut early = BTreeMap::new();
    let mut due = 0;
    for (place, verdict) in &receiver {
        early.insert(place, verdict);
        while let Some(verdict) = early.remove(&due) {
            each(due, verdict)?;
            due += 1;
        }
    }
    ControlFlow::Continue(())
}
