//! Files that have a name while they are written, as on file systems that know no others.
//!
//! The tests start this very program again with one test named, which waits to be interrupted.

use std::env;
use std::io::Write;
use std::os::unix::process::ExitStatusExt;
use std::process::{Child, Command, Stdio};
use std::thread;
use std::time::Duration;

use super::*;

const FOLDER: &str = "HDRFS_TEST_FOLDER";

/// An empty folder, whose path has no links in it.
fn empty_folder(name: &str) -> PathBuf {
    let path = env::temp_dir().join(format!("hdrfs-{}-{name}", process::id()));
    fs::create_dir_all(&path).unwrap();
    fs::canonicalize(path).unwrap()
}

fn names(folder: &Path) -> Vec<String> {
    let entries = fs::read_dir(folder).unwrap();
    let name = |entry: fs::DirEntry| entry.file_name().to_string_lossy().into_owned();
    let mut names: Vec<String> = entries.map(|entry| name(entry.unwrap())).collect();
    names.sort();
    names
}

fn target(folder: &Path) -> Target {
    Target::find(&folder.join("out"), &[]).unwrap()
}

#[test]
fn both_kinds_are_placed_or_leave_nothing() {
    let folder = empty_folder("kinds");
    for make in [Temporary::nameless, Temporary::named] {
        for content in [&b"new"[..], b"newer"] {
            let target = target(&folder);
            let mut dropped = make(&target.path, 0o600).unwrap();
            dropped.file.write_all(b"never seen").unwrap();
            drop(dropped);
            let mut placed = make(&target.path, 0o600).unwrap();
            placed.file.write_all(content).unwrap();
            placed.place(&target).unwrap();
            assert_eq!(names(&folder), ["out"]);
            assert_eq!(fs::read(folder.join("out")).unwrap(), content);
        }
        fs::remove_file(folder.join("out")).unwrap();
    }
    fs::remove_dir(folder).unwrap();
}

#[test]
fn what_takes_the_name_meanwhile_stays() {
    let folder = empty_folder("meanwhile");
    for make in [Temporary::nameless, Temporary::named] {
        let target = target(&folder);
        let temporary = make(&target.path, 0o600).unwrap();
        fs::write(folder.join("out"), b"another's").unwrap();
        assert!(temporary.place(&target).is_err());
        assert_eq!(names(&folder), ["out"]);
        assert_eq!(fs::read(folder.join("out")).unwrap(), b"another's");
        // The same where a file was there before, and is not that one any more.
        let target = self::target(&folder);
        let temporary = make(&target.path, 0o600).unwrap();
        fs::write(folder.join("new"), b"a third").unwrap();
        fs::rename(folder.join("new"), folder.join("out")).unwrap();
        assert!(temporary.place(&target).is_err());
        assert_eq!(names(&folder), ["out"]);
        assert_eq!(fs::read(folder.join("out")).unwrap(), b"a third");
        fs::remove_file(folder.join("out")).unwrap();
    }
    fs::remove_dir(folder).unwrap();
}

/// Run by the test below, in a process of its own.
#[test]
#[ignore = "waits to be interrupted"]
fn waits_with_a_name() {
    let folder = PathBuf::from(env::var_os(FOLDER).unwrap());
    let _temporary = Temporary::named(&target(&folder).path, 0o600).unwrap();
    loop {
        thread::sleep(Duration::from_secs(1));
    }
}

/// Starts the test above in a process of its own, after a line of the shell, and waits until it has
/// made its file.
fn start(folder: &Path, before: &str) -> Child {
    let line =
        format!("{before} exec \"$0\" --exact temporary::tests::waits_with_a_name --ignored");
    let mut command = Command::new("sh");
    command.args(["-c", &line]).arg(env::current_exe().unwrap());
    command.env(FOLDER, folder).stdout(Stdio::null());
    let mut child = command.spawn().unwrap();
    while names(folder).is_empty() {
        assert_eq!(child.try_wait().unwrap(), None, "it ended early");
        thread::sleep(Duration::from_millis(5));
    }
    child
}

fn send(child: &Child, name: &str) {
    let line = format!("kill -s {name} {}", child.id());
    let sent = Command::new("sh").args(["-c", &line]).status();
    assert!(sent.unwrap().success());
}

/// Whether a signal is ignored here, and so by every process that is started from here.
fn is_ignored(number: i32) -> bool {
    let status = fs::read_to_string("/proc/self/status").unwrap();
    let mut lines = status.lines();
    let ignored = lines.find_map(|line| line.strip_prefix("SigIgn:"));
    let ignored = u64::from_str_radix(ignored.unwrap().trim(), 16).unwrap();
    ignored >> (number - 1) & 1 == 1
}

#[test]
fn an_interrupt_removes_a_file_with_a_name() {
    let folder = empty_folder("interrupt");
    for (name, number) in [("TERM", 15), ("HUP", 1)] {
        // Under `nohup` the tests' own processes ignore the second, and would go on for ever.
        if is_ignored(number) {
            continue;
        }
        let mut child = start(&folder, "");
        send(&child, name);
        assert_eq!(child.wait().unwrap().signal(), Some(number), "{name}");
        assert_eq!(names(&folder), Vec::<String>::new(), "{name}");
    }
    fs::remove_dir(folder).unwrap();
}

#[test]
fn what_is_ignored_removes_nothing() {
    let folder = empty_folder("ignored");
    let mut child = start(&folder, "trap '' HUP;");
    let before = names(&folder);
    // If it were not ignored, it would end the process before the other signal does.
    send(&child, "HUP");
    assert_eq!(names(&folder), before);
    send(&child, "TERM");
    assert_eq!(child.wait().unwrap().signal(), Some(15));
    assert_eq!(names(&folder), Vec::<String>::new());
    fs::remove_dir(folder).unwrap();
}
