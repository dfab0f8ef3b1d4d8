//! `hdrfs inodes`, and the long form of `hdrfs list`.

mod support;

use support::json::{object, Object};
use support::volumes::{data, file, header, inode, link, sealed, small_volume, table, Extent};
use support::volumes::{FOLDER, LINK, UNLINK};
use support::{of_file_system, Folder, NO_HASH, NO_ID};

/// A block of the other kinds, from the parts of its layout.
fn block(parts: &[&[u8]]) -> Vec<u8> {
    sealed(parts.concat())
}

fn blocks() -> Vec<Vec<u8>> {
    let number = |number: u64| number.to_le_bytes();
    vec![
        table(&[(7, 1, b"gauge")]),
        inode(1, 1, FOLDER, 70, &[]),
        file(2, 7, 3, &[Extent::once(0, 97, 3, 0)]),
        inode(3, 8, 0o120_777, 75, b"gauge"),
        link(LINK, 4, 8, 1, "a \"b\"\n\u{202e}\u{1b}[31m"),
        link(UNLINK, 5, 7, 1, "gauge"),
        block(&[
            &[4],
            &number(6),
            &number(7),
            &[4],
            &[2, 0],
            b"user",
            b"\xff\x00",
        ]),
        block(&[&[5], &number(7), &number(7), &[4], b"user"]),
        data(8, b"1"),
        block(&[&[7], &number(9), &[1, 0], &[3, 0], b"a", b"b/c"]),
    ]
}

/// A volume with a block of every kind.
fn all_kinds() -> Vec<u8> {
    [vec![header(1)], blocks()].concat().concat()
}

#[test]
fn the_long_form_of_a_listing() {
    let folder = Folder::new("inodes_long");
    folder.put("v", &of_file_system(all_kinds(), 0x0f));
    let answer = folder.run("list v --long");
    let first = format!(
        "volume 1, file system {}, previous hash {NO_HASH}",
        "0f".repeat(16)
    );
    let lines: Vec<&str> = answer.out.lines().collect();
    assert_eq!(lines[0], first);
    assert_eq!(
        lines[1],
        " block    offset  kind             length                  time  about"
    );
    let about: Vec<&str> = lines[2..13].iter().map(|line| &line[65..]).collect();
    assert_eq!(
        about,
        [
            "1 link",
            "link 7 in 1 \"gauge\"",
            "inode 1, folder",
            "inode 7, regular, 3 bytes",
            "inode 8, symbolic link to \"gauge\"",
            "link 8 in 1 \"a \\\"b\\\"\\n\\u{202e}\\u{1b}[31m\"",
            "unlink 7 in 1 \"gauge\"",
            "inode 7, attribute \"user\", 2 bytes",
            "inode 7, attribute \"user\" taken away",
            "1 byte",
            "\"a\" to \"b/c\"",
        ]
    );
    let table = "     0        80  link table           36                     -  1 link";
    assert_eq!(lines[2], table);
    let folder_line =
        "     1       116  inode                75                     1  inode 1, folder";
    assert_eq!(lines[4], folder_line);
    let end = all_kinds().len();
    assert_eq!(lines[13], format!("end {end} blocks 10"));
    assert_eq!(
        (lines.len(), answer.status, answer.err.as_str()),
        (14, 0, "")
    );
    assert!(!answer.out.contains('\x1b'));
}

#[test]
fn the_long_form_ends_with_a_refusal() {
    let folder = Folder::new("inodes_long_refused");
    folder.put("v", &[small_volume(), vec![9]].concat());
    let answer = folder.run("list v -l");
    assert_eq!(answer.status, 1);
    assert!(
        answer
            .out
            .ends_with("  3 bytes\nrefused 7 at 104 (block 1)\n"),
        "{answer:?}"
    );
    folder.put("v", b"");
    let answer = folder.run("list v -l");
    assert_eq!(answer.out.lines().count(), 2);
}

#[test]
fn the_long_form_for_machines() {
    let folder = Folder::new("inodes_long_json");
    folder.put("v", &all_kinds());
    let objects = folder.run("list v --long --json").objects();
    assert_eq!(objects.len(), 12);
    assert_eq!(objects[0]["id"], NO_ID.into());
    let link = object([
        ("child", 7.into()),
        ("parent", 1.into()),
        ("name", "gauge".into()),
    ]);
    let table = object([
        ("block", 0.into()),
        ("offset", 80.into()),
        ("id", 8.into()),
        ("kind", "link table".into()),
        ("length", 36.into()),
        ("links", vec![link].into()),
    ]);
    assert_eq!(objects[1], table);
    for (object, number) in objects[1..11].iter().zip(0_u64..) {
        assert_eq!(object["block"], number.into());
    }
    assert_eq!(objects[4]["target"], "gauge".into());
    assert_eq!(objects[5]["name"], "a \"b\"\n\u{202e}\u{1b}[31m".into());
    assert_eq!(objects[6]["child"], 7.into());
    assert_eq!(objects[7]["size"], 2.into());
    assert_eq!(objects[10]["new"], "b/c".into());
}

/// A set of two volumes: inode 7 is in both, and the link to it is taken away in the second.
fn set(name: &str) -> Folder {
    let folder = Folder::new(name);
    folder.put(
        "v0",
        &[
            small_volume(),
            file(8, 7, 3, &[Extent::once(0, 97, 3, 0)]),
            inode(9, 300, FOLDER, 70, &[]),
        ]
        .concat(),
    );
    folder.put("v1", &all_kinds());
    folder
}

#[test]
fn the_current_inodes() {
    let folder = set("inodes_current");
    let lines = [
        "inode  type           size  volume  offset  time  mtime  ctime  btime  atime  name",
        "    1  folder           70       1     116     1      4      5      6      3",
        "    7  regular           3       1     191     2      4      5      6      3  \"gauge\" in 1, \
         taken away",
        "    8  symbolic link    75       1     323     3      4      5      6      3  \
         \"a \\\"b\\\"\\n\\u{202e}\\u{1b}[31m\" in 1",
        "  300  folder           70       0     236     9      4      5      6      3",
        "4 inodes",
    ];
    for line in ["inodes v0 v1", "inodes v1 v0 -j 1", "inodes . v0 v1"] {
        let answer = folder.run(line);
        if line == "inodes . v0 v1" {
            assert_eq!(answer.status, 2, "{answer:?}");
            continue;
        }
        answer.is(0, &(lines.join("\n") + "\n"), "");
    }
    let answer = folder.run("inodes v0");
    assert!(answer.out.ends_with("2 inodes\n") && !answer.out.contains("taken"));
}

#[test]
fn inodes_for_machines() {
    let folder = set("inodes_json");
    let objects = folder.run("inodes v0 v1 --json").objects();
    assert_eq!(objects.len(), 4);
    let regular = object([
        ("inode", 7.into()),
        ("type", "regular".into()),
        ("size", 3.into()),
        ("volume", 1.into()),
        ("block", 2.into()),
        ("offset", 191.into()),
        ("mode", 0o100_644.into()),
        ("uid", 1.into()),
        ("gid", 2.into()),
        ("time", 2.into()),
        ("atime", 3.into()),
        ("mtime", 4.into()),
        ("ctime", 5.into()),
        ("btime", 6.into()),
        ("unlinked", true.into()),
        ("name", "gauge".into()),
        ("parent", 1.into()),
        ("cut", false.into()),
    ]);
    assert_eq!(objects[1], regular);
    assert_eq!(objects[2]["name"], "a \"b\"\n\u{202e}\u{1b}[31m".into());
    assert_eq!(objects[3]["unlinked"], false.into());
    for key in ["name", "parent", "cut"] {
        assert!(!objects[3].contains_key(key), "{key}");
    }
}

/// What the last column says of inode 7, and what is said for machines.
fn name_of_7(folder: &Folder, files: &str) -> (String, Object) {
    let answer = folder.run(&format!("inodes {files}"));
    let line = answer.out.lines().find(|line| line.starts_with("    7"));
    let (_, name) = line.unwrap().split_once("      6      3  ").unwrap();
    let objects = folder.run(&format!("inodes {files} --json")).objects();
    let mut objects = objects.into_iter();
    let object = objects.find(|object| object["inode"] == 7.into());
    (name.to_string(), object.unwrap())
}

#[test]
fn a_table_counts_as_links_before_the_other_blocks() {
    let folder = set("inodes_table");
    let later = [header(2), table(&[(7, 4, b"river"), (7, 5, b"again")])].concat();
    folder.put("v2", &later);
    let (name, object) = name_of_7(&folder, "v2 v1 v0");
    assert_eq!(name, "\"again\" in 5");
    assert_eq!(object["unlinked"], false.into());
    folder.put("v2", &[later, link(UNLINK, 10, 7, 4, "river")].concat());
    let (name, object) = name_of_7(&folder, "v0 v1 v2");
    assert_eq!(name, "\"river\" in 4, taken away");
    assert_eq!(object["unlinked"], true.into());
}

#[test]
fn a_long_name_is_cut() {
    let folder = set("inodes_long_name");
    let long = "é".repeat(128);
    let later = [header(2), table(&[(7, 1, long.as_bytes())])].concat();
    folder.put("v2", &later);
    let (name, object) = name_of_7(&folder, "v0 v1 v2");
    assert_eq!(name, format!("\"{}\".. in 1", &long[..254]));
    assert_eq!(object["name"], (&long[..254]).into());
    assert_eq!(object["cut"], true.into());
}

#[test]
fn what_is_refused() {
    let folder = set("inodes_refused");
    let twice = "v0: has sequence number 0, as has v0\n";
    folder.run("inodes v0 v0 v1").is(1, "", twice);
    folder.put("v1", &all_kinds()[..200]);
    let cut = "v1: refused 2 at 191 (block 2): bytes end too early; 2 blocks accepted before\n";
    folder.run("inodes v0 v1").is(1, "", cut);
    let answer = folder.run("inodes v0 none");
    assert_eq!((answer.status, answer.out.as_str()), (2, ""));
}
