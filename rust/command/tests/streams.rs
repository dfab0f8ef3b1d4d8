//! What becomes of output that nobody takes, and of volumes that come through pipes.

mod support;

use std::fs::File;
use std::io::{self, BufRead, BufReader, Read};
use std::os::unix::process::ExitStatusExt;
use std::process::Stdio;

use support::json::{self, object};
use support::volumes::{file, header, repeated_extent, small_volume, table, Extent, REPEATED};
use support::Folder;

const SIGPIPE: i32 = 13;

/// Volume 0 with stored bytes, and volume 1 with the inode of a file that keeps some of them three
/// times.
fn folder(name: &str) -> Folder {
    let folder = Folder::new(name);
    folder.put("v0", &small_volume());
    folder.put(
        "v1",
        &[header(1), table(&[]), file(8, 7, 14, &[repeated_extent()])].concat(),
    );
    folder
}

#[test]
fn a_reader_that_goes_away_ends_the_command() {
    let folder = Folder::new("streams_closed");
    // Its runs would take longer to print than anybody lives.
    let endless = Extent {
        multiplicity: REPEATED,
        count: u64::MAX,
        ..Extent::once(0, 97, 1, 0)
    };
    folder.put(
        "v0",
        &[small_volume(), file(8, 7, u64::MAX, &[endless])].concat(),
    );
    let mut command = folder.command();
    command.args(["runs", "v0", "--inode", "7"]);
    let mut child = command
        .stdout(Stdio::piped())
        .stderr(Stdio::piped())
        .spawn()
        .unwrap();
    let mut lines = BufReader::new(child.stdout.take().unwrap()).lines();
    assert_eq!(lines.nth(1).unwrap().unwrap(), "0 1 1 0 97");
    drop(lines);
    let output = child.wait_with_output().unwrap();
    assert_eq!(output.status.signal(), Some(SIGPIPE));
    assert_eq!(String::from_utf8_lossy(&output.stderr), "");
}

#[test]
fn output_that_cannot_be_written_is_no_success() {
    let folder = folder("streams_full");
    for line in [
        "runs v0 v1 --inode 7",
        "list v0",
        "check v0",
        "check v0 --chain",
        "chain v0",
        "digest v0",
        "repair v0 -o -",
        "tree v1",
        "--help",
        "check v0 --json",
    ] {
        let full = File::options().write(true).open("/dev/full").unwrap();
        let mut command = folder.command();
        let output = command.args(line.split(' ')).stdout(full).output().unwrap();
        assert_eq!(output.status.code(), Some(2), "{line}");
        let said = String::from_utf8_lossy(&output.stderr);
        assert!(
            said.starts_with("hdrfs: cannot write to standard output"),
            "{line}: {said}"
        );
    }
}

/// It ends as other tools do, and says nothing: `| head` is no wrong use.
#[test]
fn a_closed_pipe_ends_it_as_it_ends_others() {
    let folder = folder("streams_head");
    for line in [
        "list v0",
        "list v0 --json",
        "check v0 v1",
        "chain v0 v1",
        "digest v0 v1",
        "repair v0 -o -",
        "repair v0 -o - --json",
        "tree v1",
        "tree v1 --json",
        "check --fast --json",
        "runs v1 --inode 7 --json",
        "--help",
    ] {
        let (reader, writer) = io::pipe().unwrap();
        drop(reader);
        let mut command = folder.command();
        command.args(line.split(' ')).stdout(writer);
        let output = command.stderr(Stdio::piped()).output().unwrap();
        assert_eq!(output.status.signal(), Some(SIGPIPE), "{line}");
        assert_eq!(String::from_utf8_lossy(&output.stderr), "", "{line}");
    }
}

/// The exit status says what nobody can be told.
#[test]
fn words_that_nobody_takes_change_no_status() {
    let folder = folder("streams_mute");
    for (line, status) in [
        ("check none", 2),
        ("runs v1 --inode 7", 1),
        ("check --fast", 2),
        ("list v0", 0),
    ] {
        let full = File::options().write(true).open("/dev/full").unwrap();
        let mut command = folder.command();
        let output = command.args(line.split(' ')).stderr(full).output().unwrap();
        assert_eq!(output.status.code(), Some(status), "{line}");
    }
}

#[test]
fn the_content_goes_to_standard_output() {
    let folder = folder("streams_content");
    let content = "\0\0\0\0,51,51,\0\0\0";
    folder
        .run("extract v0 v1 --inode 7 -o -")
        .is(0, content, "");
    let answer = folder.run("extract v0 v1 --inode 7 --output=- --json");
    assert_eq!((answer.status, answer.out.as_str()), (0, content));
    let report = object([
        ("file", "-".into()),
        ("inode", 7.into()),
        ("volume", 1.into()),
        ("offset", 93.into()),
        ("size", 14.into()),
        ("stored", 7.into()),
    ]);
    assert_eq!(json::parse(answer.err.trim_end()), report);
    let answer = folder.run("extract v1 --inode 7 -o - --json");
    assert_eq!((answer.status, answer.out.as_str()), (1, ""));
    assert_eq!(json::parse(answer.err.trim_end())["refused"], 16.into());
    assert_eq!(folder.names(), ["v0", "v1"]);
}

/// A hole that would take years, to a reader that goes away.
#[test]
fn content_that_nobody_takes_ends_the_command() {
    let folder = Folder::new("streams_content_closed");
    folder.put("v", &[header(0), file(1, 7, u64::MAX, &[])].concat());
    let mut command = folder.command();
    command.args(["extract", "v", "--inode", "7", "-o", "-"]);
    let mut child = command
        .stdout(Stdio::piped())
        .stderr(Stdio::piped())
        .spawn()
        .unwrap();
    let mut begin = [1; 100_000];
    child.stdout.take().unwrap().read_exact(&mut begin).unwrap();
    assert_eq!(begin, [0; 100_000]);
    let output = child.wait_with_output().unwrap();
    assert_eq!(output.status.signal(), Some(SIGPIPE));
    assert_eq!(String::from_utf8_lossy(&output.stderr), "");
}

#[test]
fn content_that_cannot_be_written_is_no_success() {
    let folder = folder("streams_content_full");
    let full = File::options().write(true).open("/dev/full").unwrap();
    let mut command = folder.command();
    command.args(["extract", "v0", "v1", "--inode", "7", "-o", "-"]);
    let output = command.stdout(full).output().unwrap();
    assert_eq!(output.status.code(), Some(2));
    let said = String::from_utf8_lossy(&output.stderr);
    assert!(
        said.starts_with("hdrfs: cannot write to standard output"),
        "{said}"
    );
}
