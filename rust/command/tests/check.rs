//! `hdrfs check`.

mod support;

use std::fs::File;

use support::json::{object, Object};
use support::volumes::{data, header, inode, link, small_volume, table, FOLDER, LINK};
use support::{Answer, Folder, NO_HASH, NO_ID};

/// A sound volume, a damaged one, one with nothing but a table, and one that is cut.
fn folder(name: &str) -> Folder {
    let folder = Folder::new(name);
    folder.put("sound", &small_volume());
    let mut damaged = small_volume();
    damaged[98] = b'.';
    folder.put("damaged", &damaged);
    folder.put("table", &[header(3), table(&[])].concat());
    folder.put("cut", &small_volume()[..79]);
    folder
}

#[test]
fn a_sound_volume() {
    let answer = folder("check_sound").run("check sound");
    let lines = "sound: accepted, volume 0, blocks 1, end 104, last time 7\n\
                 1 file: 1 accepted, 0 refused, 0 not read\n";
    answer.is(0, lines, "");
}

#[test]
fn a_link_and_its_inode_at_one_time() {
    let folder = Folder::new("check_one_time");
    let blocks = [link(LINK, 5, 8, 1, "a"), inode(5, 8, FOLDER, 70, &[])];
    folder.put("v", &[header(0), blocks.concat()].concat());
    let lines = "v: accepted, volume 0, blocks 2, end 187, last time 5\n\
                 1 file: 1 accepted, 0 refused, 0 not read\n";
    folder.run("check v").is(0, lines, "");
}

#[test]
fn a_refused_volume() {
    let answer = folder("check_refused").run("check damaged");
    let lines = "damaged: refused 5 at 80 (block 0): checksum wrong; 0 blocks accepted before\n\
                 1 file: 0 accepted, 1 refused, 0 not read\n";
    answer.is(1, lines, "");
}

#[test]
fn a_file_that_is_not_there() {
    let answer = folder("check_missing").run("check damaged none sound");
    assert_eq!(answer.status, 2);
    assert!(
        answer.err.starts_with("none: cannot be read: "),
        "{answer:?}"
    );
    assert_eq!(answer.err.lines().count(), 1);
    assert!(answer.out.contains("sound: accepted"), "{answer:?}");
    let set = format!("of those accepted: one set: file system {NO_ID}, volume 0, none missing\n");
    let end = format!("3 files: 1 accepted, 1 refused, 1 not read\n{set}");
    assert!(answer.out.ends_with(&end), "{answer:?}");
}

#[test]
fn a_folder_is_no_volume() {
    let folder = folder("check_folder");
    let answer = folder.run("check .");
    assert_eq!(answer.status, 2);
    assert!(answer.err.starts_with(".: cannot be read: "), "{answer:?}");
}

#[test]
fn lines_stand_in_the_order_given() {
    let folder = folder("check_order");
    let mut names = String::new();
    let mut expected = String::new();
    for number in 0..40 {
        // Volumes of very different length, so that threads end out of order.
        let len = if number % 7 == 0 { 2_000_000 } else { number };
        let name = format!("v{number}");
        let start = [header(number as u64 + 1), table(&[])].concat();
        folder.put(&name, &[start, data(number as u64, &vec![0; len])].concat());
        let (sequence, end) = (number + 1, 93 + 21 + len);
        expected += &format!(
            "{name}: accepted, volume {sequence}, blocks 2, end {end}, last time {number}\n"
        );
        names += &format!(" {name}");
    }
    expected += "40 files: 40 accepted, 0 refused, 0 not read\n";
    expected += &format!("one set: file system {NO_ID}, volumes 1 to 40, missing 0\n");
    for jobs in ["", " -j 1", " -j 3", " -j 1000"] {
        folder
            .run(&format!("check{names}{jobs}"))
            .is(0, &expected, "");
    }
}

fn json_answer(jobs: &str) -> Answer {
    folder(&format!("check_json{jobs}"))
        .run(&format!("check sound table damaged cut -j{jobs} --json"))
}

/// A refusal before which no block was accepted.
fn refused(file: &str, number: u64, offset: u64, words: &str) -> Object {
    object([
        ("file", file.into()),
        ("refused", number.into()),
        ("offset", offset.into()),
        ("words", words.into()),
        ("blocks", 0.into()),
    ])
}

#[test]
fn objects_for_machines() {
    for answer in [json_answer("1"), json_answer("4")] {
        let sound = object([
            ("file", "sound".into()),
            ("sequence", 0.into()),
            ("id", NO_ID.into()),
            ("previous", NO_HASH.into()),
            ("blocks", 1.into()),
            ("end", 104.into()),
            ("time", 7.into()),
        ]);
        let table = object([
            ("file", "table".into()),
            ("sequence", 3.into()),
            ("id", NO_ID.into()),
            ("previous", NO_HASH.into()),
            ("blocks", 1.into()),
            ("end", 93.into()),
        ]);
        let mut damaged = refused("damaged", 5, 80, "checksum wrong");
        damaged.insert("block".to_string(), 0.into());
        // The header is at fault, and no block.
        let cut = refused("cut", 2, 0, "bytes end too early");
        let set = object([
            ("set", true.into()),
            ("id", NO_ID.into()),
            ("volumes", 2.into()),
            ("missing", vec![vec![1_u64, 2]].into()),
        ]);
        assert_eq!(answer.objects(), [sound, table, damaged, cut, set]);
        assert_eq!((answer.status, answer.err.as_str()), (1, ""));
    }
}

#[test]
fn the_blocks_before_a_fault_are_counted() {
    let folder = Folder::new("check_blocks");
    let blocks = [
        table(&[]),
        data(2, b"1,5"),
        data(2, b"2,5"),
        data(1, b"3,5"),
    ];
    folder.put("v", &[header(4), blocks.concat()].concat());
    let lines = "v: refused 14 at 141 (block 3): time lower than the last one; \
                 3 blocks accepted before\n1 file: 0 accepted, 1 refused, 0 not read\n";
    folder.run("check v").is(1, lines, "");
    let answer = folder.run("check v --json");
    for key in ["block", "blocks"] {
        assert_eq!(answer.objects()[0][key], 3.into(), "{key}");
    }
}

#[test]
fn an_object_for_a_file_that_is_not_there() {
    let answer = folder("check_json_missing").run("check none --json");
    let objects = answer.objects();
    assert_eq!(objects.len(), 1);
    assert_eq!(objects[0]["file"], "none".into());
    assert!(objects[0].contains_key("error"));
    assert_eq!((answer.status, answer.err.as_str()), (2, ""));
}

#[test]
fn of_a_long_file_only_a_part_is_read() {
    let folder = folder("check_long");
    // It has a hole of a tebibyte, and would take minutes to read.
    let long = File::create(folder.0.join("long")).unwrap();
    long.set_len(1 << 40).unwrap();
    let lines = "long: refused 1 at 0: volume too long; 0 blocks accepted before\n\
                 1 file: 0 accepted, 1 refused, 0 not read\n";
    folder.run("check long").is(1, lines, "");
    let one_more = File::create(folder.0.join("long")).unwrap();
    one_more.set_len(16_777_217).unwrap();
    folder.run("check long").is(1, lines, "");
    one_more.set_len(16_777_216).unwrap();
    let lines = lines.replace("1 at 0: volume too long", "3 at 0: not an HDRFS volume");
    folder.run("check long").is(1, &lines, "");
}

#[cfg(unix)]
#[test]
fn strange_names_stay_on_their_line() {
    use std::ffi::OsStr;
    use std::os::unix::ffi::OsStrExt;
    let folder = folder("check_names");
    folder.put("a\"\n\\\u{1b}é", &small_volume());
    let answer = folder.run_words(["check", "a\"\n\\\u{1b}é"]);
    assert!(
        answer.out.starts_with("a\"\\n\\\\u{1b}é: accepted"),
        "{answer:?}"
    );
    let answer = folder.run_words(["check", "--json", "a\"\n\\\u{1b}é"]);
    assert_eq!(answer.objects()[0]["file"], "a\"\n\\\u{1b}é".into());
    let answer = folder.run_words([
        OsStr::new("check"),
        OsStr::new("--json"),
        OsStr::from_bytes(b"\xFF"),
    ]);
    assert_eq!(answer.objects()[0]["file"], "\u{FFFD}".into());
}
