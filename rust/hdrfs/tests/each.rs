//! Many volumes checked at once.

#[path = "support/set.rs"]
mod set;

use std::num::NonZeroUsize;
use std::ops::ControlFlow;
use std::path::PathBuf;

use hdrfs::{check_each, ArchiveError};
use set::{volume, Folder};

fn jobs(number: usize) -> NonZeroUsize {
    NonZeroUsize::new(number).unwrap()
}

/// Volumes of very different lengths, one of them damaged and one not there.
fn paths(folder: &Folder) -> Vec<PathBuf> {
    let long = vec![7; 300_000];
    let mut volumes: Vec<Vec<u8>> = (0..20)
        .map(|sequence| {
            volume(sequence, |draft| {
                draft.data(&long[..sequence as usize * 15_000])
            })
        })
        .collect();
    volumes.reverse();
    *volumes[5].last_mut().unwrap() ^= 1;
    let mut paths = folder.put_all(&volumes);
    paths.insert(11, folder.path("not there"));
    paths
}

#[test]
fn answers_come_in_the_order_of_the_paths() {
    let folder = Folder::new();
    let paths = paths(&folder);
    for threads in [1, 2, 7, 100] {
        let mut seen = Vec::new();
        let ended = check_each::<()>(&paths, jobs(threads), |place, checked| {
            assert_eq!(place, seen.len());
            seen.push(match checked {
                Ok(member) => Ok((member.sequence(), member.len())),
                Err(ArchiveError::Refused {
                    path,
                    refusal,
                    blocks,
                    ..
                }) => {
                    assert_eq!(path, paths[place]);
                    Err((refusal.number, blocks))
                }
                Err(ArchiveError::Io { path, .. }) => {
                    assert_eq!(path, paths[place]);
                    Err((0, None))
                }
                Err(other) => panic!("{other}"),
            });
            ControlFlow::Continue(())
        });
        assert!(ended.is_continue());
        assert_eq!(seen.len(), 21);
        assert_eq!(seen[0].unwrap().0, 19);
        assert_eq!(seen[20].unwrap().0, 0);
        assert_eq!((seen[5], seen[11]), (Err((5, Some(1))), Err((0, None))));
    }
}

#[test]
fn to_break_ends_it() {
    let folder = Folder::new();
    let paths = paths(&folder);
    for threads in [1, 3] {
        let mut count = 0;
        let ended = check_each(&paths, jobs(threads), |place, _| {
            count += 1;
            match place {
                4 => ControlFlow::Break("enough"),
                _ => ControlFlow::Continue(()),
            }
        });
        assert_eq!((ended, count), (ControlFlow::Break("enough"), 5));
    }
}

#[test]
fn no_paths_are_no_work() {
    let ended = check_each::<()>(&[], jobs(4), |_, _| panic!("there is nothing to check"));
    assert!(ended.is_continue());
}
