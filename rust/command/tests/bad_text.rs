//! A text that is not UTF-8: every command says which text of the block it is and where in it.

mod support;

use std::io::Write;
use std::process::Stdio;

use support::json::{object, Object};
use support::volumes::{data, header, inode, link, removed_xattr, rename, table, xattr};
use support::volumes::{small_volume, LINK, SYMBOLIC_LINK, UNLINK};
use support::{Folder, NO_HASH, NO_ID};

/// A block with a text that is not UTF-8: which one, at which byte, and what it is.
struct Bad {
    block: Vec<u8>,
    text: u64,
    start: u64,
    which: &'static str,
}

impl Bad {
    fn new(block: Vec<u8>, text: u64, start: u64, which: &'static str) -> Bad {
        Bad {
            block,
            text,
            start,
            which,
        }
    }

    fn volume(&self) -> Vec<u8> {
        let sequence = u64::from(self.block[0] == 8);
        [header(sequence), self.block.clone()].concat()
    }

    /// What is said of it for people, and that nothing was accepted before it.
    fn words(&self) -> String {
        let (text, start, which) = (self.text, self.start, self.which);
        format!(
            "v: refused 10 at 80 (block 0): text is not UTF-8 (text {text}, byte {start}): \
             {which}; 0 blocks accepted before\n"
        )
    }

    fn object(&self) -> Object {
        object([
            ("file", "v".into()),
            ("refused", 10.into()),
            ("offset", 80.into()),
            ("block", 0.into()),
            ("words", "text is not UTF-8".into()),
            ("text", self.text.into()),
            ("start", self.start.into()),
            ("which", self.which.into()),
            ("blocks", 0.into()),
        ])
    }
}

/// A table of 20 links, of which two have a bad name.
fn bad_table() -> Vec<u8> {
    let mut names: Vec<Vec<u8>> = (0..20_u8).map(|place| vec![b'a' + place]).collect();
    names[17] = b"\xC3\xA9\x80".to_vec();
    names[19] = b"\xFF".to_vec();
    let links = (8..).zip(&names).map(|(child, name)| (child, 1, &name[..]));
    table(&links.collect::<Vec<_>>())
}

fn all() -> Vec<Bad> {
    let mut path = vec![b'p'; 40_010];
    path[39_999] = 0xFF;
    let target = inode(1, 7, SYMBOLIC_LINK, 75, b"ab\xED\xA0\x80");
    vec![
        Bad::new(link(LINK, 1, 8, 1, b"a\xFFb"), 0, 1, "name"),
        Bad::new(link(UNLINK, 1, 8, 1, b"\xFF"), 0, 0, "name"),
        Bad::new(xattr(1, 7, b"un\xE2\x28", b"\xFF"), 0, 2, "name"),
        Bad::new(removed_xattr(1, 7, b"\xF0\x9F\x92"), 0, 0, "name"),
        Bad::new(target, 0, 2, "target"),
        Bad::new(rename(1, &path, b"gauge"), 0, 39_999, "old path"),
        Bad::new(rename(1, b"gauge", &path), 1, 39_999, "new path"),
        Bad::new(bad_table(), 17, 2, "name of link 17"),
    ]
}

#[test]
fn a_check_says_which_text() {
    let folder = Folder::new("bad_text_check");
    for bad in all() {
        folder.put("v", &bad.volume());
        let lines = bad.words() + "1 file: 0 accepted, 1 refused, 0 not read\n";
        folder.run("check v").is(1, &lines, "");
        let answer = folder.run("check v --json");
        assert_eq!(answer.objects(), [bad.object()]);
        assert_eq!((answer.status, answer.err.as_str()), (1, ""));
    }
}

/// The last line of the short form has number and offset, whatever is refused.
#[test]
fn a_listing_says_which_text_on_standard_error() {
    let folder = Folder::new("bad_text_list");
    for bad in all() {
        folder.put("v", &bad.volume());
        let lines = "offset id length\nrefused 10 at 80\n";
        folder.run("list v").is(1, lines, &bad.words());
    }
}

#[test]
fn a_long_listing_says_which_text_in_its_last_line() {
    let folder = Folder::new("bad_text_long");
    for bad in all() {
        folder.put("v", &bad.volume());
        let answer = folder.run("list --long v");
        let (text, start, which) = (bad.text, bad.start, bad.which);
        let line = format!("refused 10 at 80 (block 0, text {text}, byte {start}): {which}");
        assert_eq!(answer.out.lines().last(), Some(line.as_str()));
        assert_eq!((answer.status, answer.err), (1, bad.words()));
    }
}

#[test]
fn listings_for_machines() {
    let folder = Folder::new("bad_text_list_json");
    for bad in all() {
        folder.put("v", &bad.volume());
        let sequence = u64::from(bad.block[0] == 8);
        let first = object([
            ("file", "v".into()),
            ("sequence", sequence.into()),
            ("id", NO_ID.into()),
            ("previous", NO_HASH.into()),
        ]);
        for line in ["list v --json", "list --long v --json"] {
            let answer = folder.run(line);
            assert_eq!(answer.objects(), [first.clone(), bad.object()], "{line}");
            assert_eq!((answer.status, answer.err.as_str()), (1, ""), "{line}");
        }
    }
}

/// Whoever needs all volumes sound says what `check` says of the one that is not.
#[test]
fn other_commands_say_which_text() {
    let folder = Folder::new("bad_text_others");
    folder.put("sound", &small_volume());
    for bad in all() {
        folder.put("v", &bad.volume());
        for line in [
            "inodes v",
            "inodes sound v",
            "runs v --inode 7",
            "extract v --inode 7 -o out",
            "extract v --inode 7 -o -",
        ] {
            folder.run(line).is(1, "", &bad.words());
        }
        for line in [
            "inodes v --json",
            "runs v --inode 7 --json",
            "extract v --inode 7 -o out --json",
        ] {
            let answer = folder.run(line);
            assert_eq!(answer.objects(), [bad.object()], "{line}");
            assert_eq!((answer.status, answer.err.as_str()), (1, ""), "{line}");
        }
    }
    assert_eq!(folder.names(), ["sound", "v"]);
}

/// A volume that comes through a pipe cannot be read a second time.
#[test]
fn a_volume_through_a_pipe() {
    let folder = Folder::new("bad_text_pipe");
    for bad in all() {
        let words = bad.words().replacen('v', "/dev/stdin", 1);
        for line in ["list /dev/stdin", "inodes /dev/stdin"] {
            let mut command = folder.command();
            command.args(line.split(' ')).stdin(Stdio::piped());
            command.stdout(Stdio::null()).stderr(Stdio::piped());
            let mut child = command.spawn().unwrap();
            let mut pipe = child.stdin.take().unwrap();
            pipe.write_all(&bad.volume()).unwrap();
            drop(pipe);
            let output = child.wait_with_output().unwrap();
            assert_eq!(String::from_utf8(output.stderr).unwrap(), words, "{line}");
            assert_eq!(output.status.code(), Some(1), "{line}");
        }
    }
}

#[test]
fn a_text_in_the_second_block() {
    let folder = Folder::new("bad_text_second");
    let blocks = [data(9, b""), link(LINK, 1, 8, 1, b"ab\xFF")];
    folder.put("v", &[header(0), blocks.concat()].concat());
    let words = "v: refused 10 at 101 (block 1): text is not UTF-8 (text 0, byte 2): name; \
                 1 block accepted before\n";
    let lines = "offset id length\n80 6 21\nrefused 10 at 101\n";
    folder.run("list v").is(1, lines, words);
    let summary = "1 file: 0 accepted, 1 refused, 0 not read\n";
    folder
        .run("check v")
        .is(1, &format!("{words}{summary}"), "");
}

/// The value of an xattr may be any bytes.
#[test]
fn a_value_is_no_text() {
    let folder = Folder::new("bad_text_value");
    folder.put("v", &[header(0), xattr(1, 7, b"unit", b"\xFF")].concat());
    let lines = "offset id length\n80 4 29\nend 109 blocks 1\n";
    folder.run("list v").is(0, lines, "");
}
