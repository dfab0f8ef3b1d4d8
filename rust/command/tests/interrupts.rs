//! Interrupts by real signals: after each nothing is left beside the untouched old file.

mod support;

use std::fs;
use std::io::Write;
use std::os::unix::process::ExitStatusExt;
use std::path::Path;
use std::process::{Child, Command, Stdio};
use std::{thread, time::Duration};

use support::signals::{interrupts, send};
use support::volumes::{file, small_volume, Extent, REPEATED};
use support::Folder;

/// A file of so many single bytes that nobody will see the end of it, but each is soon written.
fn endless(folder: &Folder) {
    let copies = Extent {
        multiplicity: REPEATED,
        count: 1 << 40,
        ..Extent::once(0, 97, 1, 0)
    };
    folder.put(
        "v",
        &[small_volume(), file(8, 7, 1 << 40, &[copies])].concat(),
    );
}

/// Whether the command is writing: it has a file open that has been made long, in this folder.
fn is_writing(child: &Child, folder: &Path) -> bool {
    let open = format!("/proc/{}/fd", child.id());
    let Ok(entries) = fs::read_dir(open) else {
        return false;
    };
    let folder = fs::canonicalize(folder).unwrap();
    entries.flatten().any(|entry| {
        let is_here = fs::read_link(entry.path()).is_ok_and(|to| to.starts_with(&folder));
        is_here && fs::metadata(entry.path()).is_ok_and(|about| about.len() >= 1 << 40)
    })
}

fn wait_until_it_writes(child: &mut Child, folder: &Folder) {
    while !is_writing(child, &folder.0) {
        assert_eq!(child.try_wait().unwrap(), None, "it ended early");
        thread::sleep(Duration::from_millis(5));
    }
}

#[test]
fn an_interrupt_leaves_nothing() {
    for (name, number) in interrupts() {
        for existing in [false, true] {
            let folder = Folder::new(&format!("interrupts_{name}"));
            endless(&folder);
            if existing {
                folder.put("out", b"as it was");
            }
            let before = folder.names();
            // One of the signals would write an image of the memory, if that is allowed.
            let mut command = Command::new("sh");
            let line = "ulimit -c 0; exec \"$0\" extract v --inode 7 -o out";
            command.args(["-c", line, env!("CARGO_BIN_EXE_hdrfs")]);
            let mut child = command.current_dir(&folder.0).spawn().unwrap();
            wait_until_it_writes(&mut child, &folder);
            send(&child, name);
            let status = child.wait().unwrap();
            assert_eq!(status.signal(), Some(number as i32), "{name}: {status}");
            assert_eq!(folder.names(), before, "{name}");
            if existing {
                assert_eq!(folder.read("out"), b"as it was", "{name}");
            }
        }
    }
}

/// Even what no command can hear leaves nothing, where the file system has files without names.
#[test]
fn a_sudden_end_leaves_nothing() {
    let folder = Folder::new("interrupts_kill");
    endless(&folder);
    folder.put("out", b"as it was");
    let mut command = folder.command();
    command.args(["extract", "v", "--inode", "7", "-o", "out"]);
    let mut child = command.spawn().unwrap();
    wait_until_it_writes(&mut child, &folder);
    let has_name = folder.names().iter().any(|name| name.starts_with(".hdrfs"));
    child.kill().unwrap();
    child.wait().unwrap();
    if has_name {
        eprintln!("skipped: the file system of the tests has no files without names");
        return;
    }
    assert_eq!(folder.names(), ["out", "v"]);
    assert_eq!(folder.read("out"), b"as it was");
}

#[test]
fn an_interrupt_while_a_pipe_is_waited_for() {
    let folder = Folder::new("interrupts_pipe");
    folder.put("out", b"as it was");
    folder.make_pipe("v");
    let mut command = folder.command();
    command.args(["extract", "v", "--inode", "7", "-o", "out"]);
    let mut child = command.stderr(Stdio::piped()).spawn().unwrap();
    let mut pipe = folder.open_pipe("v", &mut child);
    pipe.write_all(&small_volume()[..90]).unwrap();
    send(&child, "TERM");
    assert_eq!(child.wait().unwrap().signal(), Some(15));
    assert_eq!(folder.names(), ["out", "v"]);
    assert_eq!(folder.read("out"), b"as it was");
}

/// What is ignored stays so: under `nohup` a command goes on when its terminal is closed.
#[test]
fn an_ignored_signal_does_not_end_it() {
    let folder = Folder::new("interrupts_nohup");
    endless(&folder);
    let mut command = Command::new("sh");
    let line = "trap '' HUP; exec \"$0\" extract v --inode 7 -o out";
    command.args(["-c", line, env!("CARGO_BIN_EXE_hdrfs")]);
    let mut child = command.current_dir(&folder.0).spawn().unwrap();
    wait_until_it_writes(&mut child, &folder);
    send(&child, "HUP");
    // A signal that is ignored is gone as soon as it is sent, so that it cannot end it later.
    assert_eq!(child.try_wait().unwrap(), None);
    assert!(is_writing(&child, &folder.0));
    send(&child, "TERM");
    assert_eq!(child.wait().unwrap().signal(), Some(15));
    assert_eq!(folder.names(), ["v"]);
}
