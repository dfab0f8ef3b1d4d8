//! `hdrfs extract -o`: what is replaced, what is followed and what is refused.

mod support;

use std::fs;
use std::os::unix::fs::{symlink, FileTypeExt, PermissionsExt};
use std::os::unix::net::UnixListener;
use std::process::{Command, Stdio};

use support::volumes::{data, file, header, inode, repeated_extent, small_volume, table, Extent};
use support::Folder;

const CONTENT: &[u8] = b"\0\0\0\0,51,51,\0\0\0";

/// Two volumes, and a file of 14 positions in them.
fn folder(name: &str) -> Folder {
    let folder = Folder::new(name);
    folder.put("v0", &small_volume());
    folder.put(
        "v1",
        &[header(1), table(&[]), file(8, 7, 14, &[repeated_extent()])].concat(),
    );
    folder
}

#[test]
fn an_existing_file_is_replaced_and_a_link_stays() {
    let folder = folder("targets_replace");
    folder.put("old", b"as it was");
    let private = fs::Permissions::from_mode(0o600);
    fs::set_permissions(folder.0.join("old"), private).unwrap();
    symlink("old", folder.0.join("out")).unwrap();
    assert_eq!(folder.run("extract v0 v1 --inode 7 -o out").status, 0);
    assert_eq!(folder.read("old"), CONTENT);
    assert!(fs::symlink_metadata(folder.0.join("out"))
        .unwrap()
        .is_symlink());
    assert_eq!(folder.permissions("old"), 0o600);
    assert_eq!(folder.names(), ["old", "out", "v0", "v1"]);
}

#[test]
fn a_link_to_a_link_is_followed_into_its_folder() {
    let folder = folder("targets_chain");
    fs::create_dir(folder.0.join("far")).unwrap();
    fs::write(folder.0.join("far/old"), b"as it was").unwrap();
    symlink("old", folder.0.join("far/link")).unwrap();
    symlink("far/link", folder.0.join("out")).unwrap();
    assert_eq!(folder.run("extract v0 v1 --inode 7 -o out").status, 0);
    assert_eq!(folder.read("far/old"), CONTENT);
    symlink("far", folder.0.join("way")).unwrap();
    assert_eq!(folder.run("extract v0 v1 --inode 7 -o way/new").status, 0);
    assert_eq!(folder.read("far/new"), CONTENT);
}

#[test]
fn a_link_that_leads_nowhere_is_refused() {
    let folder = folder("targets_dangling");
    symlink("none", folder.0.join("out")).unwrap();
    let said = "hdrfs: out is a symbolic link that leads to no file\n";
    folder.run("extract v0 v1 --inode 7 -o out").is(2, "", said);
    symlink("ring", folder.0.join("ring")).unwrap();
    let answer = folder.run("extract v0 v1 --inode 7 -o ring");
    assert_eq!((answer.status, answer.out.as_str()), (2, ""));
    let said = "hdrfs: ring is a symbolic link that cannot be followed: ";
    assert!(answer.err.starts_with(said), "{answer:?}");
    assert_eq!(folder.names(), ["out", "ring", "v0", "v1"]);
    for name in ["out", "ring"] {
        let about = fs::symlink_metadata(folder.0.join(name)).unwrap();
        assert!(about.is_symlink(), "{name}");
    }
}

/// Links into `/proc` lead to what is open, and the names that they show lead nowhere or to others.
#[test]
fn links_to_what_is_open_are_not_replaced() {
    let folder = folder("targets_open");
    for (descriptor, name) in [(0, "in"), (1, "out"), (2, "err")] {
        let link = format!("/proc/self/fd/{descriptor}");
        symlink(link, folder.0.join(name)).unwrap();
    }
    let before = folder.names();
    let said = "hdrfs: out is where standard output goes; -o - writes there\n";
    folder.run("extract v0 v1 --inode 7 -o out").is(2, "", said);
    let said = "hdrfs: err is a symbolic link to a pipe, which is not replaced by a file\n";
    folder.run("extract v0 v1 --inode 7 -o err").is(2, "", said);
    let answer = folder.run("extract v0 v1 --inode 7 -o /proc/self/fd/2");
    assert_eq!((answer.status, answer.out.as_str()), (2, ""), "{answer:?}");
    assert_eq!(folder.names(), before);
    // The open file has lost its name, and another file has got the name that the link shows.
    for other in ["gone", "gone (deleted)"] {
        let gone = fs::File::create(folder.0.join("gone")).unwrap();
        fs::remove_file(folder.0.join("gone")).unwrap();
        if other != "gone" {
            folder.put(other, b"as it was");
        }
        let mut command = folder.command();
        command.args(["extract", "v0", "v1", "--inode", "7", "-o", "in"]);
        let output = command.stdin(gone).output().unwrap();
        assert_eq!(output.status.code(), Some(2));
        let said = "hdrfs: in is a symbolic link that leads to no name\n";
        assert_eq!(String::from_utf8_lossy(&output.stderr), said);
    }
    assert_eq!(folder.read("gone (deleted)"), b"as it was");
    for name in ["in", "out", "err"] {
        let about = fs::symlink_metadata(folder.0.join(name)).unwrap();
        assert!(about.is_symlink(), "{name}");
    }
}

#[test]
fn where_standard_output_goes_is_not_replaced() {
    let folder = folder("targets_stdout");
    let mut command = folder.command();
    command.args(["extract", "v0", "v1", "--inode", "7", "-o", "out"]);
    let out = fs::File::create(folder.0.join("out")).unwrap();
    let output = command.stdout(out).output().unwrap();
    assert_eq!(output.status.code(), Some(2));
    let said = "hdrfs: out is where standard output goes; -o - writes there\n";
    assert_eq!(String::from_utf8_lossy(&output.stderr), said);
    assert_eq!(folder.read("out"), b"");
}

/// A volume is not replaced by its other names either: a symbolic link to it, and a hard one.
#[test]
fn a_volume_is_not_replaced_under_another_name() {
    let folder = folder("targets_volume");
    symlink("v1", folder.0.join("link")).unwrap();
    fs::hard_link(folder.0.join("v1"), folder.0.join("twin")).unwrap();
    let before = (folder.names(), folder.read("v1"));
    for name in ["v1", "../targets_volume/v1", "link", "twin"] {
        let said = format!("hdrfs: {name} is one of the volumes to read\n");
        let line = format!("extract v0 v1 --inode 7 -o {name}");
        folder.run(&line).is(2, "", &said);
    }
    assert_eq!((folder.names(), folder.read("twin")), before);
}

#[test]
fn only_regular_files_are_replaced() {
    let folder = folder("targets_kinds");
    let refused = |name: &str, said: &str| {
        let said = format!("hdrfs: {name} {said}\n");
        folder
            .run(&format!("extract v0 v1 --inode 7 -o {name}"))
            .is(2, "", &said);
    };
    let said = "is a device, which is not replaced by a file";
    refused("/dev/null", said);
    assert!(!fs::metadata("/dev/null").unwrap().is_file());
    fs::create_dir(folder.0.join("sub")).unwrap();
    refused("sub", "is a folder, which is not replaced by a file");
    refused("sub/", "names a folder, and not a file to write");
    refused("sub/.", "names a folder, and not a file to write");
    refused("sub/..", "names a folder, and not a file to write");
    refused("new/", "names a folder, and not a file to write");
    folder.make_pipe("pipe");
    refused("pipe", "is a pipe, which is not replaced by a file");
    let fifo = fs::symlink_metadata(folder.0.join("pipe")).unwrap();
    assert!(fifo.file_type().is_fifo());
    let _socket = UnixListener::bind(folder.0.join("sock")).unwrap();
    refused("sock", "is a socket, which is not replaced by a file");
    symlink("sock", folder.0.join("link")).unwrap();
    let said = "is a symbolic link to a socket, which is not replaced by a file";
    refused("link", said);
    assert_eq!(folder.names(), ["link", "pipe", "sock", "sub", "v0", "v1"]);
}

/// Extracts a file with this mode, under a umask, and answers the permissions that it gets.
fn extracted(folder: &Folder, mode: u16, umask: &str) -> u32 {
    let rest = [Extent::once(0, 97, 3, 0).bytes()].concat();
    folder.put(
        "v",
        &[header(0), data(7, b"1,5"), inode(8, 7, mode, 3, &rest)].concat(),
    );
    let line = format!("umask {umask} && exec \"$0\" extract v --inode 7 -o out");
    let mut command = Command::new("sh");
    command.args(["-c", &line, env!("CARGO_BIN_EXE_hdrfs")]);
    let status = command
        .current_dir(&folder.0)
        .stdout(Stdio::null())
        .status();
    assert!(status.unwrap().success());
    assert_eq!(folder.read("out"), b"1,5");
    folder.permissions("out")
}

#[test]
fn a_file_is_for_no_more_people_than_its_inode_says() {
    let folder = Folder::new("targets_mode");
    for (mode, umask, expected) in [
        (0o100_600, "000", 0o600),
        (0o100_640, "022", 0o640),
        (0o100_666, "022", 0o644),
        (0o104_755, "077", 0o700),
        (0o100_400, "022", 0o400),
        (0o100_000, "000", 0o000),
    ] {
        let _ = fs::remove_file(folder.0.join("out"));
        assert_eq!(
            extracted(&folder, mode, umask),
            expected,
            "{mode:o} {umask}"
        );
    }
}

#[test]
fn a_replaced_file_is_for_no_more_people_than_before() {
    let folder = Folder::new("targets_mode_before");
    for (before, mode, expected) in [
        (0o644, 0o100_600, 0o600),
        (0o600, 0o100_644, 0o600),
        (0o666, 0o100_666, 0o666),
    ] {
        folder.put("out", b"as it was");
        let before = fs::Permissions::from_mode(before);
        fs::set_permissions(folder.0.join("out"), before).unwrap();
        assert_eq!(extracted(&folder, mode, "022"), expected, "{mode:o}");
    }
}
