//! Volumes taken together: what is one set and what is not, and what a file lacks.

mod support;

use std::fs;
use std::io::Write;
use std::process::Stdio;

use support::json::{object, Value};
use support::volumes::{data, file, header, small_volume, table, Extent};
use support::{of_file_system, Folder, NO_ID};

/// Volume 1, with a file of three bytes that are in volume 0.
fn second() -> Vec<u8> {
    let extent = Extent::once(0, 97, 3, 0);
    [header(1), table(&[]), file(8, 7, 3, &[extent])].concat()
}

/// A volume with nothing but an empty table.
fn empty(sequence: u64) -> Vec<u8> {
    [header(sequence), table(&[])].concat()
}

#[test]
fn volumes_of_two_file_systems_are_not_mixed() {
    let folder = Folder::new("sets_foreign");
    folder.put("v0", &small_volume());
    folder.put("v1", &of_file_system(second(), 7));
    folder.put("out", b"as it was");
    let said = "v1: belongs to another file system than v0: their IDs differ\n";
    folder.run("extract v0 v1 --inode 7 -o out").is(1, "", said);
    folder.run("extract v0 v1 --inode 7 -o -").is(1, "", said);
    folder.run("runs v0 v1 --inode 7").is(1, "", said);
    folder.run("inodes v0 v1").is(1, "", said);
    assert_eq!(folder.read("out"), b"as it was");
    assert_eq!(folder.names(), ["out", "v0", "v1"]);
    let answer = folder.run("extract v1 v0 --inode 7 -o out --json");
    let error = "belongs to another file system than v1: their IDs differ";
    let expected = object([
        ("file", "v0".into()),
        ("other", "v1".into()),
        ("error", error.into()),
    ]);
    assert_eq!((answer.status, answer.objects()), (1, vec![expected]));
    // Of one file system they are a set, whatever its ID is.
    folder.put("v0", &of_file_system(small_volume(), 7));
    assert_eq!(folder.run("extract v0 v1 --inode 7 -o out").status, 0);
    assert_eq!(folder.read("out"), b"1,5");
}

#[test]
fn check_says_whether_volumes_are_one_set() {
    let folder = Folder::new("sets_check");
    folder.put("v0", &small_volume());
    folder.put("v1", &second());
    folder.put("v4", &empty(4));
    folder.put("v9", &empty(9));
    folder.put("other", &of_file_system(empty(2), 0xab));
    let last = |line: &str| {
        let answer = folder.run(line);
        assert_eq!(answer.err, "", "{line}");
        let last = answer.out.lines().last().unwrap().to_string();
        (answer.status, last)
    };
    let set = |rest: &str| format!("one set: file system {NO_ID}, volumes {rest}");
    assert_eq!(last("check v1 v0"), (0, set("0 to 1, none missing")));
    assert_eq!(
        last("check v9 v1 v4"),
        (0, set("1 to 9, missing 0, 2 to 3 and 5 to 8"))
    );
    let foreign = "not one set: other: belongs to another file system than v0: their IDs differ";
    assert_eq!(last("check v0 other v1"), (1, foreign.to_string()));
    let twice = "not one set: v0: has sequence number 0, as has v0";
    assert_eq!(last("check v0 v1 v0"), (1, twice.to_string()));
    // One volume is no question, whatever its number is.
    assert_eq!(
        last("check v4"),
        (0, "1 file: 1 accepted, 0 refused, 0 not read".to_string())
    );
    let other = "abababababababababababababababab";
    let answer = folder.run("check other --json");
    assert_eq!(answer.objects()[0]["id"], other.into());
    let objects = folder.run("check v0 other --json").objects();
    let expected = object([
        ("set", false.into()),
        (
            "error",
            "other: belongs to another file system than v0: their IDs differ".into(),
        ),
    ]);
    assert_eq!(objects[2], expected);
}

#[test]
fn numbers_at_the_edge_are_a_set() {
    let folder = Folder::new("sets_edge");
    folder.put("v0", &small_volume());
    folder.put("high", &empty(u64::MAX));
    let answer = folder.run("check high v0");
    let last = format!(
        "one set: file system {NO_ID}, volumes 0 to 18446744073709551615, \
         missing 1 to 18446744073709551614\n"
    );
    assert!(answer.out.ends_with(&last), "{answer:?}");
    assert_eq!(answer.status, 0);
}

#[test]
fn what_a_file_lacks_is_told() {
    let folder = Folder::new("sets_lacking");
    folder.put("v0", &small_volume());
    let extents = [
        Extent::once(3, 97, 3, 0),
        Extent::once(0, 97, 3, 3),
        Extent::once(1, 1_000, 3, 6),
        Extent::once(12, 97, 3, 9),
        Extent::once(3, 80, 3, 12),
        Extent::once(0, 104, 1, 15),
    ];
    folder.put(
        "v1",
        &[header(1), table(&[]), file(8, 7, 20, &extents)].concat(),
    );
    let len = folder.read("v1").len();
    let said = format!(
        "v1: refused 16 at 93 (block 1): volume or range is not there: \
         it needs volumes 3 and 12, which are not given; \
         its extent 2, at 1000 of volume 1, reaches beyond the {len} bytes there; \
         its extent 5, at 104 of volume 0, reaches beyond the 104 bytes there\n"
    );
    folder.put("out", b"as it was");
    for line in ["extract v0 v1 --inode 7 -o out", "runs v0 v1 --inode 7"] {
        folder.run(line).is(1, "", &said);
    }
    assert_eq!(folder.read("out"), b"as it was");
    let answer = folder.run("runs v0 v1 --inode 7 --json");
    let short = |extent: u64, volume: u64, start: u64, length: u64| {
        object([
            ("extent", extent.into()),
            ("volume", volume.into()),
            ("start", start.into()),
            ("length", length.into()),
        ])
    };
    let expected = object([
        ("file", "v1".into()),
        ("refused", 16.into()),
        ("offset", 93.into()),
        ("block", 1.into()),
        ("words", "volume or range is not there".into()),
        ("inode", 7.into()),
        ("missing", vec![3_u64, 12].into()),
        (
            "short",
            vec![short(2, 1, 1000, len as u64), short(5, 0, 104, 104)].into(),
        ),
    ]);
    assert_eq!((answer.status, answer.objects()), (1, vec![expected]));
}

/// Only some are named in words, and all for machines.
#[test]
fn a_file_that_lacks_very_much() {
    let folder = Folder::new("sets_lacking_much");
    folder.put("v0", &small_volume());
    let extents: Vec<Extent> = (0..100)
        .map(|number| match number % 2 {
            0 => Extent::once(10 + number, 97, 3, 3 * number),
            _ => Extent::once(0, 200 + number, 3, 3 * number),
        })
        .collect();
    folder.put(
        "v1",
        &[header(1), table(&[]), file(8, 7, 300, &extents)].concat(),
    );
    let answer = folder.run("runs v0 v1 --inode 7");
    let volumes =
        "it needs volumes 10, 12, 14, 16, 18, 20, 22, 24 and 42 more, which are not given; ";
    assert!(answer.err.contains(volumes), "{answer:?}");
    let first = "; its extent 1, at 201 of volume 0, reaches beyond the 104 bytes there; ";
    assert!(answer.err.contains(first), "{answer:?}");
    assert!(answer.err.ends_with("; and so do 42 more\n"), "{answer:?}");
    assert_eq!(answer.err.matches("its extent").count(), 8);
    let objects = folder.run("runs v0 v1 --inode 7 --json").objects();
    let missing: Vec<u64> = (0..50).map(|number| 10 + 2 * number).collect();
    assert_eq!(objects[0]["missing"], missing.into());
    let Value::List(short) = &objects[0]["short"] else {
        panic!("no list");
    };
    assert_eq!(short.len(), 50);
}

#[test]
fn a_folder_stands_for_the_volumes_in_it() {
    let folder = Folder::new("sets_folder");
    fs::create_dir_all(folder.0.join("archive/more.vol")).unwrap();
    for (name, bytes) in [
        ("archive/b.vol", small_volume()),
        ("archive/a.vol", second()),
        ("archive/.hidden.vol", b"no volume".to_vec()),
        ("archive/notes.txt", b"no volume".to_vec()),
        ("late.vol", empty(2)),
    ] {
        folder.put(name, &bytes);
    }
    let answer = folder.run("check archive late.vol");
    let names: Vec<&str> = answer
        .out
        .lines()
        .map(|line| line.split(':').next().unwrap())
        .collect();
    assert_eq!(
        names,
        [
            "archive/a.vol",
            "archive/b.vol",
            "late.vol",
            "3 files",
            "one set"
        ]
    );
    assert_eq!(answer.status, 0);
    assert_eq!(folder.run("extract archive --inode 7 -o out").status, 0);
    assert_eq!(folder.read("out"), b"1,5");
    let wrong = "hdrfs: archive/a.vol is one of the volumes to read\n";
    folder
        .run("extract archive --inode 7 -o archive/a.vol")
        .is(2, "", wrong);
    let several = "hdrfs: list takes one volume, and here are 2\n";
    folder.run("list archive").is(2, "", several);
    let none = "archive/more.vol: cannot be read: it is a folder, and no name in it ends in .vol\n";
    folder.run("inodes archive/more.vol").is(2, "", none);
}

/// So many names that a folder does not have them in their order by chance.
#[test]
fn the_volumes_of_a_folder_stand_in_the_order_of_their_names() {
    let folder = Folder::new("sets_order");
    for number in (1..=30_u64).rev() {
        folder.put(&format!("{:02}.vol", number * 7 % 31), &empty(number));
    }
    let answer = folder.run("check . -j 4");
    let names: Vec<&str> = answer.out.lines().map(|line| &line[..4]).collect();
    let expected: Vec<String> = (1..=30).map(|number| format!("./{number:02}")).collect();
    assert_eq!(names[..30], expected);
    assert_eq!(answer.status, 0);
}

#[test]
fn a_volume_through_a_pipe_is_read_once_and_kept() {
    let folder = Folder::new("sets_pipe");
    folder.make_pipe("p0");
    folder.make_pipe("p1");
    // Longer than what a pipe holds, so that nothing could be read twice.
    let long = [header(0), data(7, &vec![b'x'; 300_000])].concat();
    let extent = Extent::once(0, 97, 300_000, 0);
    let last = [header(1), table(&[]), file(8, 7, 300_000, &[extent])].concat();
    let mut command = folder.command();
    command.args([
        "extract", "p0", "p1", "--inode", "7", "-o", "out", "-j", "1",
    ]);
    let child = command
        .stdout(Stdio::piped())
        .stderr(Stdio::piped())
        .spawn();
    let mut child = child.unwrap();
    folder.feed("p0", &mut child, &long);
    folder.feed("p1", &mut child, &last);
    let output = child.wait_with_output().unwrap();
    assert_eq!(String::from_utf8_lossy(&output.stderr), "");
    assert!(output.status.success());
    assert_eq!(folder.read("out"), vec![b'x'; 300_000]);
}

/// The volume with the stored bytes is another one, and as sound and as long as before, by the time
/// that its bytes are fetched.
#[test]
fn a_volume_that_changes_meanwhile_is_noticed() {
    let folder = Folder::new("sets_changed");
    folder.make_pipe("late");
    for changed in [
        [header(0), data(7, b"1,6")].concat(),
        [header(0), data(9, b"1,5")].concat(),
        [small_volume(), data(8, b"more")].concat(),
        small_volume()[..90].to_vec(),
        vec![],
    ] {
        folder.put("v0", &small_volume());
        folder.put("out", b"as it was");
        let mut command = folder.command();
        command.args(["extract", "v0", "late", "--inode", "7", "-o", "out", "-j1"]);
        let child = command
            .stdout(Stdio::piped())
            .stderr(Stdio::piped())
            .spawn();
        let mut child = child.unwrap();
        // One after the other: when the pipe is being read, the first volume has been.
        let mut pipe = folder.open_pipe("late", &mut child);
        folder.put("v0", &changed);
        pipe.write_all(&second()).unwrap();
        drop(pipe);
        let output = child.wait_with_output().unwrap();
        let said = String::from_utf8_lossy(&output.stderr);
        assert_eq!(said, "v0: changed while it was being read\n");
        assert_eq!(output.status.code(), Some(1));
        assert_eq!(folder.read("out"), b"as it was");
        assert_eq!(folder.names(), ["late", "out", "v0"]);
    }
}
