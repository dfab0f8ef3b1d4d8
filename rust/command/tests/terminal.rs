//! A terminal, tested as one: the line that shows progress, and that it is taken away.

mod support;

use std::process::{Child, Command, Stdio};
use std::thread;
use std::time::Duration;

use support::signals::send;
use support::terminal::Terminal;
use support::volumes::{file, header, small_volume, table, Extent, REPEATED};
use support::Folder;

/// A folder with a volume, and a pipe through which another will come.
fn folder(name: &str) -> Folder {
    let folder = Folder::new(name);
    folder.put("v0", &small_volume());
    folder.make_pipe("slow");
    folder
}

/// The volume that comes through the pipe.
fn slow() -> Vec<u8> {
    let extent = Extent::once(0, 97, 3, 0);
    [header(1), table(&[]), file(8, 7, 3, &[extent])].concat()
}

/// A volume with a file of so many single bytes that nobody will see the end of it.
fn endless() -> Vec<u8> {
    let copies = Extent {
        multiplicity: REPEATED,
        count: 1 << 40,
        ..Extent::once(0, 97, 1, 0)
    };
    [small_volume(), file(8, 7, 1 << 40, &[copies])].concat()
}

/// Runs a command with standard error, and perhaps standard output, on a terminal of this kind.
fn start(folder: &Folder, line: &str, kind: &str, both: bool) -> Option<(Child, Terminal)> {
    let (terminal, far) = Terminal::open()?;
    // A test that waits for what never comes has to end too.
    let mut command = Command::new("timeout");
    command.args(["--foreground", "120", env!("CARGO_BIN_EXE_hdrfs")]);
    command.args(line.split(' ')).env("TERM", kind);
    command.current_dir(&folder.0);
    match both {
        true => command.stdout(far.try_clone().unwrap()),
        false => command.stdout(Stdio::null()),
    };
    Some((command.stderr(far).spawn().unwrap(), terminal))
}

#[test]
fn a_check_that_takes_long_shows_how_far_it_is() {
    let folder = folder("terminal_check");
    let line = "check v0 slow -j 1";
    let Some((mut child, mut terminal)) = start(&folder, line, "xterm", true) else {
        return;
    };
    terminal.wait_for("\r1 of 2 volumes checked\x1b[K");
    folder.feed("slow", &mut child, &slow());
    assert!(child.wait().unwrap().success());
    let seen = terminal.read_to_end();
    // The line is taken away before anything else is printed, and at the end.
    assert!(
        seen.contains("\r\x1b[Kslow: accepted, volume 1"),
        "{seen:?}"
    );
    let (_, last) = seen.rsplit_once("\x1b[K").unwrap();
    assert!(!last.contains("volumes checked"), "{seen:?}");
    assert!(
        seen.ends_with("volumes 0 to 1, none missing\r\n"),
        "{seen:?}"
    );
}

#[test]
fn a_dumb_terminal_gets_no_codes() {
    for kind in ["dumb", ""] {
        let folder = folder(&format!("terminal_dumb{kind}"));
        let line = "check v0 slow -j 1";
        let Some((mut child, mut terminal)) = start(&folder, line, kind, true) else {
            return;
        };
        terminal.wait_for("v0: accepted");
        // On another terminal a line would be shown by now.
        thread::sleep(Duration::from_millis(1500));
        folder.feed("slow", &mut child, &slow());
        assert!(child.wait().unwrap().success());
        let seen = terminal.read_to_end();
        assert!(!seen.contains('\x1b'), "{seen:?}");
        assert_eq!(seen.lines().count(), 4, "{seen:?}");
    }
}

#[test]
fn a_short_check_shows_nothing_but_its_answer() {
    let folder = folder("terminal_short");
    let Some((mut child, terminal)) = start(&folder, "check v0", "xterm", false) else {
        return;
    };
    assert!(child.wait().unwrap().success());
    let seen = terminal.read_to_end();
    // A machine that is busy may take longer than a second all the same.
    assert!(seen.is_empty() || seen.ends_with("\r\x1b[K"), "{seen:?}");
}

#[test]
fn an_extract_that_takes_long_shows_how_far_it_is() {
    let folder = folder("terminal_extract");
    let line = "extract v0 slow --inode 7 -o out -j 1";
    let Some((mut child, mut terminal)) = start(&folder, line, "xterm", true) else {
        return;
    };
    terminal.wait_for("\r1 of 2 volumes read\x1b[K");
    folder.feed("slow", &mut child, &slow());
    assert!(child.wait().unwrap().success());
    let seen = terminal.read_to_end();
    let report = "\r\x1b[Kout: inode 7 at 93 of volume 1, 3 bytes, 3 of them stored\r\n";
    assert!(seen.ends_with(report), "{seen:?}");
    assert_eq!(folder.read("out"), b"1,5");
}

/// A file that nobody will see the end of shows how much of it is written.
#[test]
fn a_long_file_shows_how_much_is_written() {
    let folder = folder("terminal_long");
    folder.put("v", &endless());
    let line = "extract v --inode 7 -o -";
    let Some((mut child, mut terminal)) = start(&folder, line, "xterm", false) else {
        return;
    };
    terminal.wait_for(" of 1099511627776 bytes written\x1b[K");
    send(&child, "TERM");
    child.wait().unwrap();
}

/// Content on a terminal is not mixed with a line about it.
#[test]
fn content_on_a_terminal_is_alone() {
    let folder = folder("terminal_content");
    let line = "extract v0 slow --inode 7 -o - -j 1";
    let Some((mut child, mut terminal)) = start(&folder, line, "xterm", true) else {
        return;
    };
    terminal.wait_for("\r1 of 2 volumes read\x1b[K");
    folder.feed("slow", &mut child, &slow());
    assert!(child.wait().unwrap().success());
    let seen = terminal.read_to_end();
    assert!(seen.ends_with("\r\x1b[K1,5"), "{seen:?}");
}

#[test]
fn a_volume_that_comes_slowly_is_listed() {
    let folder = folder("terminal_list");
    let Some((mut child, mut terminal)) = start(&folder, "list slow", "xterm", true) else {
        return;
    };
    terminal.wait_for("\r0 of 1 volume read\x1b[K");
    folder.feed("slow", &mut child, &slow());
    assert!(child.wait().unwrap().success());
    let seen = terminal.read_to_end();
    assert!(
        seen.contains("\r\x1b[Koffset id length\r\n80 8 13\r\n"),
        "{seen:?}"
    );
}

/// Runs that nobody will see the end of, into a file.
#[test]
fn many_runs_show_how_far_they_are() {
    let folder = folder("terminal_runs");
    folder.put("v", &endless());
    let Some((mut child, mut terminal)) = start(&folder, "runs v --inode 7", "xterm", false) else {
        return;
    };
    terminal.wait_for(" of 1099511627776 positions done\x1b[K");
    send(&child, "TERM");
    child.wait().unwrap();
}
