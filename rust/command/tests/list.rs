//! `hdrfs list`.

mod support;

use support::json::object;
use support::volumes::{data, header, inode, small_volume, table, FOLDER};
use support::{Folder, NO_HASH, NO_ID};

#[test]
fn the_listing_of_the_rules() {
    let folder = Folder::new("list_small");
    folder.put("v", &small_volume());
    folder
        .run("list v")
        .is(0, "offset id length\n80 6 24\nend 104 blocks 1\n", "");
}

#[test]
fn two_blocks_at_one_time() {
    let folder = Folder::new("list_one_time");
    folder.put("v", &[small_volume(), data(7, b"1,5")].concat());
    let lines = "offset id length\n80 6 24\n104 6 24\nend 128 blocks 2\n";
    folder.run("list v").is(0, lines, "");
}

#[test]
fn a_header_alone() {
    let folder = Folder::new("list_header");
    folder.put("v", &header(0));
    folder
        .run("list v")
        .is(0, "offset id length\nend 80 blocks 0\n", "");
}

#[test]
fn accepted_blocks_come_before_the_refusal() {
    let folder = Folder::new("list_refused");
    let blocks = [
        table(&[(8, 1, b"log")]),
        inode(5, 2, FOLDER, 70, &[]),
        data(4, b"x"),
    ];
    folder.put("v", &[header(4), blocks.concat()].concat());
    let lines = "offset id length\n80 8 34\n114 1 75\nrefused 14 at 189\n";
    let words = "v: refused 14 at 189 (block 2): time lower than the last one; \
                 2 blocks accepted before\n";
    folder.run("list v").is(1, lines, words);
}

#[test]
fn a_refused_header() {
    let folder = Folder::new("list_no_header");
    folder.put("v", b"");
    let lines = "offset id length\nrefused 2 at 0\n";
    folder.run("list v").is(
        1,
        lines,
        "v: refused 2 at 0: bytes end too early; 0 blocks accepted before\n",
    );
}

#[test]
fn objects_for_machines() {
    let folder = Folder::new("list_json");
    folder.put("v", &small_volume());
    let answer = folder.run("list v --json");
    let first = object([
        ("file", "v".into()),
        ("sequence", 0.into()),
        ("id", NO_ID.into()),
        ("previous", NO_HASH.into()),
    ]);
    let block = |number: u64, offset: u64| {
        object([
            ("block", number.into()),
            ("offset", offset.into()),
            ("id", 6.into()),
            ("length", 24.into()),
        ])
    };
    let end = object([("end", 104.into()), ("blocks", 1.into())]);
    assert_eq!(answer.objects(), [first.clone(), block(0, 80), end]);
    assert_eq!((answer.status, answer.err.as_str()), (0, ""));

    let blocks = [small_volume(), data(7, b"2,5"), vec![9]];
    folder.put("v", &blocks.concat());
    let answer = folder.run("list v --json");
    let refused = object([
        ("file", "v".into()),
        ("refused", 7.into()),
        ("offset", 128.into()),
        ("block", 2.into()),
        ("words", "unknown block ID".into()),
        ("blocks", 2.into()),
    ]);
    let lines = [first, block(0, 80), block(1, 104), refused];
    assert_eq!(answer.objects(), lines);
    assert_eq!((answer.status, answer.err.as_str()), (1, ""));
}

#[test]
fn a_file_that_is_not_there() {
    let answer = Folder::new("list_missing").run("list none");
    assert_eq!((answer.status, answer.out.as_str()), (2, ""));
    assert!(
        answer.err.starts_with("none: cannot be read: "),
        "{answer:?}"
    );
}
