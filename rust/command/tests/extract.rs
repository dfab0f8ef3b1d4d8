//! `hdrfs extract`: what is written, and that nothing is where something is refused.

mod support;

use std::fs;

use support::json::object;
use support::volumes::{
    data, file, header, inode, repeated_extent, small_volume, table, Extent, FOLDER, REPEATED,
};
use support::Folder;

/// Volume 0 has stored bytes, volume 1 a file of 14 positions with them, volume 2 two versions of
/// it, the later with 6 positions: two bytes of its own, a hole, and the bytes of volume 0. Its
/// time is earlier than that in volume 1 on purpose, since the sequence number decides.
fn folder(name: &str) -> Folder {
    let folder = Folder::new(name);
    folder.put("v0", &small_volume());
    folder.put(
        "v1",
        &[header(1), table(&[]), file(8, 7, 14, &[repeated_extent()])].concat(),
    );
    folder.put("v2", &second());
    folder
}

fn second() -> Vec<u8> {
    let older = file(1, 7, 1, &[]);
    let own = data(2, b"2,");
    // The table takes 13 bytes, and the payload begins 17 bytes into the data block.
    let payload = 80 + 13 + older.len() as u64 + 17;
    let newer = file(
        3,
        7,
        6,
        &[Extent::once(0, 97, 3, 3), Extent::once(2, payload, 2, 0)],
    );
    let other = file(4, 8, 3, &[Extent::once(0, 97, 3, 0)]);
    [header(2), table(&[]), older, own, newer, other].concat()
}

const REPEATED_BYTES: &[u8] = b"\0\0\0\0,51,51,\0\0\0";

#[test]
fn the_bytes_at_their_places() {
    let folder = folder("extract_bytes");
    let answer = folder.run("extract v0 v1 --inode 7 -o out");
    answer.is(
        0,
        "out: inode 7 at 93 of volume 1, 14 bytes, 7 of them stored\n",
        "",
    );
    assert_eq!(folder.read("out"), REPEATED_BYTES);
    assert_eq!(folder.names(), ["out", "v0", "v1", "v2"]);
}

#[test]
fn the_current_version() {
    let folder = folder("extract_version");
    for order in ["v0 v1 v2", "v2 v1 v0", "v1 v2 v0"] {
        let answer = folder.run(&format!("extract {order} --inode 7 -o out"));
        assert_eq!(answer.status, 0, "{answer:?}");
        assert!(answer
            .out
            .contains("of volume 2, 6 bytes, 5 of them stored"));
        assert_eq!(folder.read("out"), b"2,\x001,5");
    }
    assert_eq!(folder.run("extract v0 v2 --inode 8 -o out").status, 0);
    assert_eq!(folder.read("out"), b"1,5");
}

#[test]
fn an_object_for_machines() {
    let answer = folder("extract_json").run("extract v0 v1 --inode 7 -o out --json");
    let expected = object([
        ("file", "out".into()),
        ("inode", 7.into()),
        ("volume", 1.into()),
        ("offset", 93.into()),
        ("size", 14.into()),
        ("stored", 7.into()),
    ]);
    assert_eq!(answer.objects(), [expected]);
    assert_eq!((answer.status, answer.err.as_str()), (0, ""));
}

#[test]
fn an_empty_file() {
    let folder = Folder::new("extract_empty");
    folder.put("v", &[header(0), file(1, 7, 0, &[])].concat());
    assert_eq!(folder.run("extract v --inode 7 -o out").status, 0);
    assert_eq!(folder.read("out"), b"");
}

#[cfg(unix)]
#[test]
fn holes_stay_holes() {
    use std::os::unix::fs::MetadataExt;
    let folder = Folder::new("extract_holes");
    let far = Extent::once(0, 97, 3, 1 << 33);
    folder.put("v", &[small_volume(), file(8, 7, 1 << 34, &[far])].concat());
    assert_eq!(folder.run("extract v --inode 7 -o out").status, 0);
    let about = fs::metadata(folder.0.join("out")).unwrap();
    assert_eq!(about.len(), 1 << 34);
    assert!(about.blocks() * 512 < 1 << 20);
}

#[test]
fn many_copies() {
    let folder = Folder::new("extract_copies");
    let copies = Extent {
        multiplicity: REPEATED,
        count: 100_000,
        ..Extent::once(0, 97, 3, 0)
    };
    folder.put(
        "v",
        &[small_volume(), file(8, 7, 300_001, &[copies])].concat(),
    );
    assert_eq!(folder.run("extract v --inode 7 -o out").status, 0);
    assert_eq!(
        folder.read("out"),
        [b"1,5".repeat(100_000), vec![0]].concat()
    );
}

#[test]
fn extents_in_many_volumes() {
    let folder = Folder::new("extract_volumes");
    let mut names = String::new();
    let mut extents = Vec::new();
    let mut expected = Vec::new();
    // More volumes than are held at a time, each used twice.
    for sequence in 0..20_u64 {
        let table = if sequence > 0 { table(&[]) } else { vec![] };
        let payload = 80 + table.len() as u64 + 17;
        let name = format!("v{sequence}");
        let stored = [b'a' + sequence as u8; 2];
        folder.put(&name, &[header(sequence), table, data(1, &stored)].concat());
        names += &format!(" {name}");
        extents.push(Extent::once(sequence, payload, 1, sequence));
        extents.push(Extent::once(sequence, payload + 1, 1, 20 + sequence));
        expected.push(stored[0]);
    }
    expected.extend_from_within(..);
    folder.put(
        "last",
        &[header(20), table(&[]), file(1, 7, 40, &extents)].concat(),
    );
    let answer = folder.run(&format!("extract{names} last --inode 7 -o out"));
    assert_eq!(answer.status, 0, "{answer:?}");
    assert_eq!(folder.read("out"), expected);
}

#[test]
fn a_volume_with_a_number_too_high_for_the_lengths() {
    let folder = Folder::new("extract_high");
    folder.put("v0", &small_volume());
    let high = |extent| [header(u64::MAX), table(&[]), file(8, 7, 3, &[extent])].concat();
    folder.put("high", &high(Extent::once(0, 97, 3, 0)));
    assert_eq!(folder.run("extract high v0 --inode 7 -o out").status, 0);
    assert_eq!(folder.read("out"), b"1,5");
    folder.put("high", &high(Extent::once(u64::MAX, 97, 3, 0)));
    let refused =
        "high: refused 16 at 93 (block 1): volume or range is not there: its extent 0 is \
                   in volume 18446744073709551615, a number too high for stored bytes\n";
    folder
        .run("extract high v0 --inode 7 -o out")
        .is(1, "", refused);
}

#[test]
fn nothing_is_written_where_something_is_refused() {
    let folder = folder("extract_refused");
    let refused = |line: &str, said: &str| folder.nothing_is_written(line, 1, said);
    let lacking = "v1: refused 16 at 93 (block 1): ";
    refused("extract v1 --inode 7 -o out", lacking);
    refused("extract v1 v2 --inode 7 -o out", "v2: refused 16 at ");
    refused(
        "extract v0 v1 --inode 9 -o out",
        "hdrfs: no inode 9 in the volumes given",
    );
    folder.put("twin", &[small_volume(), data(9, b"2,5")].concat());
    let twice = "twin: has sequence number 0, as has v0\n";
    refused("extract v0 twin v1 --inode 7 -o out", twice);
    folder.put(
        "folder",
        &[header(3), table(&[]), inode(9, 7, FOLDER, 70, &[])].concat(),
    );
    let kind = "folder: refused 15 at 93 (block 1): not the inode of a regular file\n";
    refused("extract v0 v1 folder --inode 7 -o out", kind);
    let mut damaged = second();
    let last = damaged.len() - 1;
    damaged[last] ^= 1;
    folder.put("v2", &damaged);
    // The damaged block is not even needed.
    refused("extract v0 v1 v2 --inode 7 -o out", "v2: refused 5 at ");
    folder.put("v0", &small_volume()[..90]);
    let cut = "v0: refused 2 at 80 (block 0): ";
    refused("extract v0 v1 --inode 7 -o out", cut);
}

#[test]
fn nothing_is_written_on_wrong_use() {
    let folder = folder("extract_wrong");
    let wrong = |line: &str, said: &str| folder.nothing_is_written(line, 2, said);
    wrong("extract v0 none --inode 7 -o out", "none: cannot be read: ");
    wrong(
        "extract v0 v1 --inode 7 -o v1",
        "hdrfs: v1 is one of the volumes to read",
    );
    wrong(
        "extract v0 v1 --inode 7 -o ./v1",
        "hdrfs: ./v1 is one of the volumes to read",
    );
    wrong(
        "extract v0 v1 --inode 7 -o .",
        "hdrfs: . names a folder, and not a file to write",
    );
    wrong(
        "extract v0 v1 --inode 7 -o none/out",
        "none/out: cannot be written: ",
    );
    wrong("extract v0 v1 --inode 7", "hdrfs: -o is missing");
    wrong(
        "extract v0 v1 --inode 7 -o",
        "hdrfs: --output needs a value",
    );
    assert_eq!(folder.read("v1").len(), 93 + 75 + 57);
    let answer = folder.run_words(["extract", "v0", "v1", "--inode", "7", "-o", ""]);
    answer.is(2, "", "hdrfs: the name of the file to write is empty\n");
}

#[test]
fn a_file_too_large_for_any_disk_leaves_nothing() {
    let folder = Folder::new("extract_large");
    folder.put("v", &[header(0), file(1, 7, u64::MAX, &[])].concat());
    folder.nothing_is_written(
        "extract v --inode 7 -o out",
        2,
        "out: cannot be written: it has 18446744073709551615 bytes, and no file here can have more",
    );
}
