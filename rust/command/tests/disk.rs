//! A disk that is full, as a small file system in memory where the machine allows to make one.

mod support;

use std::process::Command;

use support::volumes::{data, file, header, Extent};
use support::Folder;

/// What is done in the small file system, which is gone with the shell that made it.
const SCRIPT: &str = "
    mount -t tmpfs -o size=64k none disk || exit 77
    printf 'as it was' > disk/out
    \"$0\" extract v --inode 7 -o disk/out
    echo \"status $?\"
    ls -A disk
    cat disk/out
    \"$0\" extract v --inode 8 -o disk/small > /dev/null
    echo \" status $?\"
    ls -A disk
";

/// A volume with a file of 200,000 bytes, inode 7, and one of 100, inode 8.
fn folder(name: &str) -> Folder {
    let folder = Folder::new(name);
    let payload = vec![b'x'; 200_000];
    let large = file(8, 7, 200_000, &[Extent::once(0, 97, 200_000, 0)]);
    let small = file(9, 8, 100, &[Extent::once(0, 97, 100, 0)]);
    folder.put("v", &[header(0), data(7, &payload), large, small].concat());
    folder
}

#[test]
fn a_file_longer_than_allowed_leaves_nothing() {
    folder("disk_limit").too_large_to_write("extract v --inode 7 -o out");
}

#[test]
fn a_full_disk_leaves_nothing() {
    let folder = folder("disk_full");
    std::fs::create_dir(folder.0.join("disk")).unwrap();
    for own_users in [false, true] {
        let mut command = Command::new("unshare");
        command.args(if own_users {
            &["-r", "-m"][..]
        } else {
            &["-m"]
        });
        command.args(["sh", "-c", SCRIPT, env!("CARGO_BIN_EXE_hdrfs")]);
        let Ok(output) = command.current_dir(&folder.0).output() else {
            break;
        };
        let out = String::from_utf8_lossy(&output.stdout);
        if !out.starts_with("status") {
            continue;
        }
        assert_eq!(out, "status 2\nout\nas it was status 0\nout\nsmall\n");
        let said = String::from_utf8_lossy(&output.stderr);
        assert!(
            said.starts_with("disk/out: cannot be written: No space"),
            "{said}"
        );
        return;
    }
    eprintln!("skipped: this machine does not let the tests make a small file system");
}
