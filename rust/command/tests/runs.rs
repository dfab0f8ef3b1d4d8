//! `hdrfs runs`.

mod support;

use support::json::object;
use support::volumes::{file, header, repeated_extent, small_volume, table};
use support::Folder;

/// Volume 0 with stored bytes, and volume 1 with the inode of a file that keeps some of them three
/// times.
fn folder(name: &str) -> Folder {
    let folder = Folder::new(name);
    folder.put("v0", &small_volume());
    folder.put(
        "v1",
        &[header(1), table(&[]), file(8, 7, 14, &[repeated_extent()])].concat(),
    );
    folder
}

const HEADING: &str = "start length kind volume offset\n";

#[test]
fn all_runs() {
    let folder = folder("runs_all");
    let lines = "0 4 0 0 0\n4 2 1 0 98\n6 3 1 0 97\n9 2 1 0 97\n11 3 0 0 0\n";
    folder
        .run("runs v0 v1 --inode 7")
        .is(0, &format!("{HEADING}{lines}"), "");
    folder
        .run("runs v1 --inode 7 v0")
        .is(0, &format!("{HEADING}{lines}"), "");
}

#[test]
fn a_range() {
    let folder = folder("runs_range");
    let ask = |range: &str| folder.run(&format!("runs v0 v1 --inode 7 {range}"));
    ask("--from 5 --to 7").is(0, &format!("{HEADING}5 1 1 0 99\n6 1 1 0 97\n"), "");
    ask("--from 12").is(0, &format!("{HEADING}12 2 0 0 0\n"), "");
    ask("--to 2").is(0, &format!("{HEADING}0 2 0 0 0\n"), "");
    ask("--from 7 --to 5").is(0, HEADING, "");
    ask("--from 14").is(0, HEADING, "");
}

#[test]
fn objects_for_machines() {
    let answer = folder("runs_json").run("runs v0 v1 --inode 7 --to 6 --json");
    let hole = object([
        ("start", 0.into()),
        ("length", 4.into()),
        ("kind", "hole".into()),
    ]);
    let stored = object([
        ("start", 4.into()),
        ("length", 2.into()),
        ("kind", "stored".into()),
        ("volume", 0.into()),
        ("offset", 98.into()),
    ]);
    assert_eq!(answer.objects(), [hole, stored]);
    assert_eq!((answer.status, answer.err.as_str()), (0, ""));
}

#[test]
fn what_is_refused() {
    let folder = folder("runs_refused");
    let missing = "v1: refused 16 at 93 (block 1): volume or range is not there: \
                   it needs volume 0, which is not given\n";
    folder.run("runs v1 --inode 7").is(1, "", missing);
    folder
        .run("runs v1 --inode 7 --from 9 --to 2")
        .is(1, "", missing);
    let none = "hdrfs: no inode 8 in the volumes given\n";
    folder.run("runs v0 v1 --inode 8").is(1, "", none);
    let twice = "v0: has sequence number 0, as has v0\n";
    folder.run("runs v0 v1 v0 --inode 7").is(1, "", twice);
    folder.put("v0", &small_volume()[..103]);
    let cut = "v0: refused 2 at 80 (block 0): bytes end too early; 0 blocks accepted before\n";
    folder.run("runs v1 v0 --inode 7").is(1, "", cut);
    let answer = folder.run("runs v1 none --inode 7");
    assert_eq!((answer.status, answer.out.as_str()), (2, ""));
    assert!(answer.err.starts_with("none: cannot be read"), "{answer:?}");
}

#[test]
fn refusals_for_machines() {
    let folder = folder("runs_json_refused");
    let answer = folder.run("runs v1 --inode 7 --json");
    let refused = object([
        ("file", "v1".into()),
        ("refused", 16.into()),
        ("offset", 93.into()),
        ("block", 1.into()),
        ("words", "volume or range is not there".into()),
        ("inode", 7.into()),
        ("missing", vec![0_u64].into()),
        ("short", Vec::<u64>::new().into()),
    ]);
    assert_eq!(answer.objects(), [refused]);
    assert_eq!((answer.status, answer.err.as_str()), (1, ""));
    let answer = folder.run("runs v1 --inode 8 --json");
    let none = object([("error", "no inode 8 in the volumes given".into())]);
    assert_eq!(answer.objects(), [none]);
    assert_eq!((answer.status, answer.err.as_str()), (1, ""));
}
