//! `hdrfs tree`.

mod support;

use std::fs;
use std::io::{BufRead, BufReader};
use std::os::unix::process::ExitStatusExt;
use std::process::Stdio;

use support::json::{object, Object};
use support::volumes::{data, header, link, small_volume, table, LINK};
use support::{fed, Answer, Folder};

const SIGPIPE: i32 = 13;

/// Child, parent and name of a link.
type Named<'a> = (u64, u64, &'a str);

/// Volume 1 with a table of these links.
fn volume(links: &[Named]) -> Vec<u8> {
    let links: Vec<_> = links
        .iter()
        .map(|&(child, parent, name)| (child, parent, name.as_bytes()))
        .collect();
    [header(1), table(&links)].concat()
}

/// A folder with such a volume.
fn folder(name: &str, links: &[Named]) -> Folder {
    let folder = Folder::new(name);
    folder.put("v", &volume(links));
    folder
}

const SMALL: [Named; 5] = [
    (2, 1, "north"),
    (7, 2, "gauge.csv"),
    (8, 1, "log"),
    (3, 2, "old"),
    (12, 3, "1999.csv"),
];

const SMALL_LINES: &str = "\
inode  name
    2  \"north\"
    7    \"gauge.csv\"
    3    \"old\"
   12      \"1999.csv\"
    8  \"log\"
5 lines below 1
";

#[test]
fn names_stand_below_their_folders() {
    let folder = folder("tree_plain", &SMALL);
    folder.run("tree v").is(0, SMALL_LINES, "");
    folder.run("tree v --root 1").is(0, SMALL_LINES, "");
    let below = "inode  name\n    7  \"gauge.csv\"\n    3  \"old\"\n   12    \"1999.csv\"\n\
                 3 lines below 2\n";
    folder.run("tree --root=2 v").is(0, below, "");
    let one = "inode  name\n   12  \"1999.csv\"\n1 line below 3\n";
    folder.run("tree v --root 3").is(0, one, "");
    for root in [0, 7, u64::MAX] {
        let none = format!("inode  name\n0 lines below {root}\n");
        folder
            .run(&format!("tree v --root {root}"))
            .is(0, &none, "");
    }
}

/// What comes behind the table is not taken in.
#[test]
fn the_table_is_what_is_listed() {
    let folder = Folder::new("tree_behind");
    let more = link(LINK, 9, 20, 1, "new");
    folder.put("v", &[volume(&SMALL), more].concat());
    folder.run("tree v").is(0, SMALL_LINES, "");
}

#[test]
fn a_link_once_for_each_path() {
    let links = [(2, 1, "a"), (2, 1, "b"), (3, 2, "c")];
    let lines = "inode  name\n    2  \"a\"\n    3    \"c\"\n    2  \"b\"\n    3    \"c\"\n\
                 4 lines below 1\n";
    folder("tree_twice", &links).run("tree v").is(0, lines, "");
}

#[test]
fn names_and_numbers_that_are_hard_to_show() {
    let wide = u64::MAX;
    let links = [
        (wide, 1, "a\" in 2\n\\"),
        (8, wide, ""),
        (9, wide, "pégel\u{202e} 1"),
    ];
    let folder = folder("tree_names", &links);
    let lines = "               inode  name\n18446744073709551615  \"a\\\" in 2\\n\\\\\"\n                   \
                 8    \"\"\n                   9    \"pégel\\u{202e} 1\"\n3 lines below 1\n";
    folder.run("tree v").is(0, lines, "");
    let names: Vec<_> = folder.run("tree v --json").objects()[..3]
        .iter()
        .map(|object| object["name"].clone())
        .collect();
    assert_eq!(names, links.map(|link| link.2.into()));
    // The column is as wide as what is listed, and not as the table is.
    let lines = "inode  name\n0 lines below 5\n";
    folder.run("tree v --root 5").is(0, lines, "");
}

fn line(depth: u64, place: u64, child: u64, name: &str) -> Object {
    object([
        ("depth", depth.into()),
        ("place", place.into()),
        ("child", child.into()),
        ("name", name.into()),
    ])
}

fn end(root: u64, lines: u64) -> Object {
    object([
        ("file", "v".into()),
        ("root", root.into()),
        ("lines", lines.into()),
    ])
}

#[test]
fn objects_for_machines() {
    let folder = folder("tree_json", &SMALL);
    let answer = folder.run("tree v --json");
    let expected = [
        line(0, 0, 2, "north"),
        line(1, 1, 7, "gauge.csv"),
        line(1, 3, 3, "old"),
        line(2, 4, 12, "1999.csv"),
        line(0, 2, 8, "log"),
        end(1, 5),
    ];
    assert_eq!((answer.status, answer.err.as_str()), (0, ""));
    assert_eq!(answer.objects(), expected);
    let none = folder.run("tree v --json --root 9");
    assert_eq!((none.status, none.objects()), (0, vec![end(9, 0)]));
}

#[test]
fn an_empty_table() {
    let folder = folder("tree_empty", &[]);
    folder
        .run("tree v")
        .is(0, "inode  name\n0 lines below 1\n", "");
    folder
        .run("tree v --root 9 --lines 0")
        .is(0, "inode  name\n0 lines below 9\n", "");
    assert_eq!(folder.run("tree v --json").objects(), [end(1, 0)]);
}

#[test]
fn another_root_is_told() {
    let folder = folder("tree_found", &[(7, 50, "a"), (50, 42, "b"), (42, 41, "c")]);
    let lines = "inode  name\n   42  \"c\"\n   50    \"b\"\n    7      \"a\"\n3 lines below 41\n";
    let told = "v: nothing is in 1, so the tree is below 41, the one folder that is in no other\n";
    folder.run("tree v").is(0, lines, told);
    folder.run("tree v --root 41").is(0, lines, "");
    folder
        .run("tree v --root 1")
        .is(0, "inode  name\n0 lines below 1\n", "");
    let answer = folder.run("tree v --json");
    assert_eq!((answer.status, answer.err.as_str()), (0, ""));
    assert_eq!(answer.objects().last(), Some(&end(41, 3)));
    // A loop beside it does not hide it, nor does a link to 1.
    folder.put("v", &volume(&[(1, 42, "a"), (5, 6, "b"), (6, 5, "c")]));
    let lines = "inode  name\n    1  \"a\"\n1 line below 42\n";
    folder.run("tree v").is(0, lines, &told.replace("41", "42"));
}

#[test]
fn a_root_has_to_be_chosen() {
    let said = |folder: &Folder, why: &str| {
        let why = format!("--root is missing: in v nothing is in 1, and {why}");
        folder.run("tree v").is(2, "", &format!("hdrfs: {why}\n"));
        let answer = folder.run("tree v --json");
        assert_eq!((answer.status, answer.err.as_str()), (2, ""));
        assert_eq!(answer.objects(), [object([("error", why.as_str().into())])]);
    };
    let two = folder("tree_two", &[(7, 43, "a"), (8, 42, "b"), (9, 42, "c")]);
    said(&two, "2 folders are in no other: 42 and 43");
    let circle = folder("tree_circle", &[(5, 6, "b"), (6, 5, "c"), (1, 5, "d")]);
    said(&circle, "every folder is in another, in a loop");
    let names: Vec<String> = (0..100).map(|number| format!("n{number}")).collect();
    let links: Vec<Named> = (10..)
        .zip(&names)
        .map(|(parent, name)| (7, parent, name.as_str()))
        .collect();
    let many = folder("tree_many", &links);
    said(
        &many,
        "100 folders are in no other: 10, 11, 12, 13, 14, 15, 16, 17 and 92 more",
    );
    many.put("v", &volume(&links[..9]));
    said(
        &many,
        "9 folders are in no other: 10, 11, 12, 13, 14, 15, 16, 17 and 1 more",
    );
}

/// A refusal of a sound volume: one line, and an object.
fn is_refused(folder: &Folder, line: &str, number: u64, words: &str, why: &str) {
    let said = format!("v: refused {number} at 80 (block 0): {words}: {why}\n");
    folder.run(line).is(1, "", &said);
    let answer = folder.run(&format!("{line} --json"));
    let expected = object([
        ("file", "v".into()),
        ("refused", number.into()),
        ("offset", 80.into()),
        ("block", 0.into()),
        ("words", words.into()),
        ("why", why.into()),
    ]);
    assert_eq!((answer.status, answer.err.as_str()), (1, ""));
    assert_eq!(answer.objects(), [expected]);
}

#[test]
fn links_that_lead_around() {
    let words = "listing too deep: a link at depth 32";
    let why =
        |root: u64| format!("below {root} links lead around in a loop, or folders are too deep");
    let around = folder("tree_loop", &[(2, 1, "a"), (1, 2, "b")]);
    is_refused(&around, "tree v", 24, words, &why(1));
    is_refused(&around, "tree v --root 2 --lines 32", 24, words, &why(2));
    // A root that was found is not told where nothing is listed.
    around.put("v", &volume(&[(5, 42, "a"), (5, 5, "b")]));
    is_refused(&around, "tree v", 24, words, &why(42));
    let names: Vec<String> = (0..33).map(|number| format!("n{number}")).collect();
    let chain: Vec<Named> = (1..)
        .zip(&names)
        .map(|(parent, name)| (parent + 1, parent, name.as_str()))
        .collect();
    around.put("v", &volume(&chain));
    is_refused(&around, "tree v", 24, words, &why(1));
    let answer = around.run("tree v --root 2");
    assert_eq!((answer.status, answer.out.lines().count()), (0, 34));
    let deepest = format!("   34  {:62}\"n32\"", "");
    assert_eq!(answer.out.lines().nth(32), Some(deepest.as_str()));
}

/// Folders in each other, each under two names.
fn doubled(len: u64) -> Vec<u8> {
    let links = (1..=len).flat_map(|parent| ["a", "b"].map(|name| (parent + 1, parent, name)));
    volume(&links.collect::<Vec<_>>())
}

#[test]
fn more_lines_than_are_listed() {
    let words = "no room for the result";
    let small = folder("tree_lines", &SMALL);
    small.run("tree v --lines 5").is(0, SMALL_LINES, "");
    let why = "below 1 are more than 4 lines (--lines N for more)";
    is_refused(&small, "tree v --lines 4", 17, words, why);
    let why = "below 3 are more than 0 lines (--lines N for more)";
    is_refused(&small, "tree v --root 3 --lines 0", 17, words, why);
    small.put("v", &doubled(16));
    let why = "below 1 are more than 65536 lines (--lines N for more)";
    is_refused(&small, "tree v", 17, words, why);
    let answer = small.run("tree v --lines 131070");
    let last = answer.out.lines().last();
    assert_eq!((answer.status, last), (0, Some("131070 lines below 1")));
}

#[test]
fn a_reader_that_goes_away_ends_a_long_listing() {
    let folder = Folder::new("tree_closed");
    folder.put("v", &doubled(15));
    for more in [&[][..], &["--json"]] {
        let mut command = folder.command();
        command.args(["tree", "v"]).args(more);
        command.stdout(Stdio::piped()).stderr(Stdio::piped());
        let mut child = command.spawn().unwrap();
        let mut lines = BufReader::new(child.stdout.take().unwrap()).lines();
        assert!(lines.nth(9).unwrap().is_ok());
        drop(lines);
        let output = child.wait_with_output().unwrap();
        assert_eq!(output.status.signal(), Some(SIGPIPE));
        assert_eq!(String::from_utf8_lossy(&output.stderr), "");
    }
}

#[test]
fn volume_0_has_no_table() {
    let folder = Folder::new("tree_volume_0");
    let why = "volume 0 has no link table";
    folder.put("v", &small_volume());
    is_refused(&folder, "tree v", 8, "block in the wrong place", why);
    folder.put("v", &header(0));
    is_refused(&folder, "tree v --root 7", 2, "bytes end too early", why);
}

/// All of it is checked before, and is refused as by the check.
#[test]
fn a_volume_that_is_not_sound() {
    let folder = Folder::new("tree_refused");
    let mut damaged = volume(&SMALL);
    damaged[100] ^= 1;
    for bytes in [
        vec![],
        header(1),
        damaged,
        [volume(&SMALL), data(7, b"x"), data(6, b"y")].concat(),
        volume(&[(2, 1, "a"), (3, 1, "a")]),
        [header(1), table(&[(2, 1, b"a"), (3, 1, b"b\xFF")])].concat(),
        [header(0), table(&[(2, 1, b"a")])].concat(),
    ] {
        folder.put("v", &bytes);
        let checked = folder.run("check v");
        let said = checked.out.lines().next().unwrap();
        assert!(said.starts_with("v: refused "), "{said}");
        folder
            .run("tree v --root 1")
            .is(1, "", &format!("{said}\n"));
        let answer = folder.run("tree v --json");
        assert_eq!(answer.objects(), folder.run("check v --json").objects());
        assert_eq!((answer.status, answer.err.as_str()), (1, ""));
    }
}

#[test]
fn one_volume() {
    let folder = folder("tree_one", &SMALL);
    for (line, said) in [
        ("tree v v", "hdrfs: tree takes one volume (more "),
        ("tree", "hdrfs: the name of a volume is missing"),
        ("tree none", "none: cannot be read: "),
        ("tree .", ".: cannot be read: it is a folder, and no name"),
    ] {
        let answer = folder.run(line);
        assert_eq!((answer.status, answer.out.as_str()), (2, ""), "{line}");
        assert!(answer.err.starts_with(said), "{line}: {answer:?}");
    }
    fs::rename(folder.0.join("v"), folder.0.join("1.vol")).unwrap();
    folder.run("tree .").is(0, SMALL_LINES, "");
    folder.put("2.vol", &volume(&SMALL));
    let said = "hdrfs: tree takes one volume, and here are 2\n";
    folder.run("tree .").is(2, "", said);
}

#[test]
fn a_volume_may_come_through_a_pipe() {
    let folder = Folder::new("tree_pipe");
    let mut command = folder.command();
    command.args(["tree", "/dev/stdin"]);
    Answer::new(fed(command, &volume(&SMALL))).is(0, SMALL_LINES, "");
}
