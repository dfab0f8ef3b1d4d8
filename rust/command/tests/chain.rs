//! `hdrfs chain`, and `hdrfs check --chain`.

mod support;

use std::process::Stdio;

use hdrfs::Volume;
use support::json::{object, Object};
use support::volumes::{data, header_of, table};
use support::{Answer, Folder, NO_ID};

/// A volume of a file system, with the hash of a previous volume.
fn volume(id: u8, sequence: u64, previous: [u8; 32]) -> Vec<u8> {
    let table = if sequence == 0 { vec![] } else { table(&[]) };
    [
        header_of([id; 16], sequence, previous),
        table,
        data(7, b"1,5"),
    ]
    .concat()
}

/// A chain of volumes from 0 on.
fn chain(id: u8, len: u64) -> Vec<Vec<u8>> {
    let mut volumes: Vec<Vec<u8>> = Vec::new();
    for sequence in 0..len {
        let last = volumes.last().map(|last| Volume::digest(last).unwrap());
        volumes.push(volume(id, sequence, last.unwrap_or([0; 32])));
    }
    volumes
}

/// A folder with a chain in it, each volume under its number with two digits.
fn folder(name: &str, len: u64) -> Folder {
    let folder = Folder::new(name);
    for (number, bytes) in chain(0, len).iter().enumerate() {
        folder.put(&format!("{number:02}.vol"), bytes);
    }
    folder
}

fn lines(lines: &[&str]) -> String {
    lines.iter().map(|line| format!("{line}\n")).collect()
}

#[test]
fn an_unbroken_chain_in_any_order() {
    let folder = folder("chain_unbroken", 3);
    let expected = lines(&[
        "01.vol: follows 00.vol",
        "02.vol: follows 01.vol",
        "chain: volumes 0 to 2, unbroken",
    ]);
    for order in [
        "00.vol 01.vol 02.vol",
        "02.vol 01.vol 00.vol",
        "01.vol 02.vol 00.vol",
    ] {
        for jobs in ["", " -j1", " -j7"] {
            folder
                .run(&format!("chain {order}{jobs}"))
                .is(0, &expected, "");
        }
    }
    let expected = lines(&[
        "./01.vol: follows ./00.vol",
        "./02.vol: follows ./01.vol",
        "chain: volumes 0 to 2, unbroken",
    ]);
    folder.run("chain .").is(0, &expected, "");
}

#[test]
fn an_altered_volume_breaks_the_chain_behind_it() {
    let folder = folder("chain_altered", 4);
    let digest = Volume::digest(&folder.read("00.vol")).unwrap();
    let other = [&volume(0, 1, digest)[..], &data(8, b"1,6")].concat();
    folder.put("01.vol", &other);
    let expected = lines(&[
        "01.vol: follows 00.vol",
        "02.vol: refused 23: does not follow 01.vol (previous hash differs)",
        "03.vol: follows 02.vol",
        "chain: volumes 0 to 3, broken at 1 of 3 places",
    ]);
    folder
        .run("chain 00.vol 01.vol 02.vol 03.vol")
        .is(1, &expected, "");
}

/// A mirror once held volume 5 of one set and 6 of another.
#[test]
fn a_volume_of_another_file_system() {
    let folder = folder("chain_foreign", 6);
    folder.put("06.vol", &chain(9, 7)[6]);
    let said = "06.vol: refused 23: does not follow 05.vol (other file system)";
    let answer = folder.run("chain 00.vol 01.vol 02.vol 03.vol 04.vol 05.vol 06.vol");
    assert_eq!(answer.status, 1);
    let end = lines(&[said, "chain: volumes 0 to 6, broken at 1 of 6 places"]);
    assert!(answer.out.ends_with(&end), "{answer:?}");
    assert_eq!(answer.out.lines().count(), 7);
    let answer = folder.run("chain 06.vol 05.vol");
    let last = "chain: volumes 5 to 6, broken at 1 of 1 place; volumes 0 to 4 are not among them";
    answer.is(1, &lines(&[said, last]), "");
}

#[test]
fn two_whole_chains_are_not_mixed() {
    let folder = folder("chain_two", 2);
    for (number, bytes) in chain(9, 2).iter().enumerate() {
        folder.put(&format!("1{number}.vol"), bytes);
    }
    let expected = lines(&[
        "10.vol: refused 23: does not follow 00.vol (other file system)",
        "01.vol: refused 23: does not follow 10.vol (other file system)",
        "11.vol: refused 23: does not follow 01.vol (other file system)",
        "chain: volumes 0 to 1, broken at 3 of 3 places",
    ]);
    folder
        .run("chain 00.vol 01.vol 10.vol 11.vol")
        .is(1, &expected, "");
}

#[test]
fn gaps_and_numbers_that_are_there_twice() {
    let folder = folder("chain_gaps", 9);
    folder.put("copy.vol", &folder.read("05.vol"));
    let expected = lines(&[
        "03.vol: refused 23: does not follow 01.vol (volume 2 is missing)",
        "05.vol: refused 23: does not follow 03.vol (volume 4 is missing)",
        "copy.vol: refused 23: does not follow 05.vol (it is volume 5 too)",
        "08.vol: refused 23: does not follow copy.vol (volumes 6 to 7 are missing)",
        "chain: volumes 1 to 8, broken at 4 of 4 places; volume 0 is not among them",
    ]);
    folder
        .run("chain 08.vol 05.vol copy.vol 01.vol 03.vol")
        .is(1, &expected, "");
    let expected = lines(&[
        "copy.vol: refused 23: does not follow 05.vol (it is volume 5 too)",
        "06.vol: follows copy.vol",
        "chain: volumes 5 to 6, broken at 1 of 2 places; volumes 0 to 4 are not among them",
    ]);
    folder
        .run("chain 06.vol 05.vol copy.vol")
        .is(1, &expected, "");
}

#[test]
fn a_chain_may_begin_above_0() {
    let folder = folder("chain_above", 6);
    let expected = lines(&[
        "04.vol: follows 03.vol",
        "05.vol: follows 04.vol",
        "chain: volumes 3 to 5, unbroken; volumes 0 to 2 are not among them",
    ]);
    folder
        .run("chain 05.vol 04.vol 03.vol")
        .is(0, &expected, "");
    folder
        .run("chain 00.vol")
        .is(0, "chain: volume 0 alone\n", "");
    let expected = "chain: volume 1 alone; volume 0 is not among them\n";
    folder.run("chain 01.vol").is(0, expected, "");
}

#[test]
fn numbers_at_the_edge() {
    let folder = Folder::new("chain_edge");
    let high = u64::MAX;
    folder.put("a", &volume(0, high - 1, [7; 32]));
    let digest = Volume::digest(&folder.read("a")).unwrap();
    folder.put("b", &volume(0, high, digest));
    folder.put("c", &volume(0, 0, [0; 32]));
    let expected = lines(&[
        &format!(
            "a: refused 23: does not follow c (volumes 1 to {} are missing)",
            high - 2
        ),
        "b: follows a",
        &format!("chain: volumes 0 to {high}, broken at 1 of 2 places"),
    ]);
    folder.run("chain a b c").is(1, &expected, "");
}

/// A refused volume has the line that the check gives it, and leaves a gap.
#[test]
fn a_volume_that_is_refused_by_itself() {
    let folder = folder("chain_refused", 3);
    let mut damaged = folder.read("01.vol");
    *damaged.last_mut().unwrap() ^= 1;
    folder.put("01.vol", &damaged);
    let refused = "01.vol: refused 5 at 93 (block 1): checksum wrong; 1 block accepted before";
    assert!(folder.run("check 01.vol").out.starts_with(refused));
    let expected = lines(&[
        refused,
        "02.vol: refused 23: does not follow 00.vol (volume 1 is missing)",
        "of those accepted: chain: volumes 0 to 2, broken at 1 of 1 place",
    ]);
    folder
        .run("chain 00.vol 01.vol 02.vol")
        .is(1, &expected, "");
    let expected = lines(&[refused, "of those accepted: chain: volume 0 alone"]);
    folder.run("chain 00.vol 01.vol").is(1, &expected, "");
    let expected = lines(&[refused, "chain: no volume is accepted"]);
    folder.run("chain 01.vol").is(1, &expected, "");
}

#[test]
fn a_file_that_cannot_be_read() {
    let folder = folder("chain_unread", 2);
    let answer = folder.run("chain 01.vol none 00.vol");
    assert_eq!((answer.status, answer.err.lines().count()), (2, 1));
    assert!(
        answer.err.starts_with("none: cannot be read: "),
        "{answer:?}"
    );
    let expected = lines(&[
        "01.vol: follows 00.vol",
        "of those accepted: chain: volumes 0 to 1, unbroken",
    ]);
    assert_eq!(answer.out, expected);
}

fn check_lines(chain: &[&str], counts: &str, set: &str) -> String {
    let volume = |number: u64, blocks: u64, end: u64| {
        format!(
            "0{number}.vol: accepted, volume {number}, blocks {blocks}, end {end}, last time 7\n"
        )
    };
    let set = format!("one set: file system {NO_ID}, {set}\n");
    let all = [
        volume(2, 2, 117),
        volume(0, 1, 104),
        counts.to_string() + "\n",
        set,
    ];
    all.concat() + &lines(chain)
}

#[test]
fn the_check_tells_of_the_chain_if_asked() {
    let folder = folder("chain_check", 3);
    let (counts, set) = (
        "2 files: 2 accepted, 0 refused, 0 not read",
        "volumes 0 to 2, missing 1",
    );
    // What is missing is a fault only of a chain.
    folder
        .run("check 02.vol 00.vol")
        .is(0, &check_lines(&[], counts, set), "");
    let chain = [
        "02.vol: refused 23: does not follow 00.vol (volume 1 is missing)",
        "chain: volumes 0 to 2, broken at 1 of 1 place",
    ];
    let answer = folder.run("check --chain 02.vol 00.vol");
    answer.is(1, &check_lines(&chain, counts, set), "");
    let answer = folder.run("check --chain .");
    assert_eq!(answer.status, 0);
    let end = lines(&[
        "./01.vol: follows ./00.vol",
        "./02.vol: follows ./01.vol",
        "chain: volumes 0 to 2, unbroken",
    ]);
    assert!(
        answer.out.ends_with(&format!("none missing\n{end}")),
        "{answer:?}"
    );
}

#[test]
fn the_check_of_volumes_that_are_no_set() {
    let folder = folder("chain_no_set", 1);
    folder.put("1.vol", &chain(9, 2)[1]);
    let answer = folder.run("check --chain 00.vol 1.vol");
    let end = lines(&[
        "not one set: 1.vol: belongs to another file system than 00.vol: their IDs differ",
        "1.vol: refused 23: does not follow 00.vol (other file system)",
        "chain: volumes 0 to 1, broken at 1 of 1 place",
    ]);
    assert_eq!(answer.status, 1);
    assert!(answer.out.ends_with(&end), "{answer:?}");
}

fn pair(file: &str, other: &str, why: Option<&str>) -> Object {
    let mut pair = object([
        ("file", file.into()),
        ("other", other.into()),
        ("follows", why.is_none().into()),
    ]);
    if let Some(why) = why {
        pair.extend(object([
            ("refused", 23.into()),
            ("words", "does not follow the volume before it".into()),
            ("why", why.into()),
        ]));
    }
    pair
}

fn whole(first: u64, last: u64, pairs: u64, broken: u64) -> Object {
    object([
        ("chain", (broken == 0).into()),
        ("first", first.into()),
        ("last", last.into()),
        ("pairs", pairs.into()),
        ("broken", broken.into()),
    ])
}

#[test]
fn objects_for_machines() {
    let folder = folder("chain_json", 6);
    let answer = folder.run("chain 01.vol 00.vol --json");
    let expected = [pair("01.vol", "00.vol", None), whole(0, 1, 1, 0)];
    assert_eq!((answer.status, answer.objects()), (0, expected.to_vec()));
    let mut gap = pair("05.vol", "01.vol", Some("volumes 2 to 4 are missing"));
    gap.insert("missing".to_string(), vec![vec![2_u64, 4]].into());
    let answer = folder.run("chain --json 05.vol 01.vol");
    let expected = [gap, whole(1, 5, 1, 1)];
    assert_eq!((answer.status, answer.objects()), (1, expected.to_vec()));
    let answer = folder.run("chain --json 05.vol none 05.vol");
    let objects = answer.objects();
    assert!(objects[0].contains_key("error"), "{answer:?}");
    let twice = pair("05.vol", "05.vol", Some("it is volume 5 too"));
    assert_eq!(objects[1..], [twice, whole(5, 5, 1, 1)]);
    assert_eq!((answer.status, answer.err.as_str()), (2, ""));
}

/// The check's objects have the digest, and those of the chain stand behind them.
#[test]
fn objects_of_the_check() {
    let folder = folder("chain_check_json", 2);
    let digest = |name: &str| {
        let answer = folder.run(&format!("digest --json {name}"));
        answer.objects()[0]["digest"].clone()
    };
    let answer = folder.run("check --chain --json 01.vol 00.vol");
    let objects = answer.objects();
    assert_eq!((answer.status, objects.len()), (0, 5));
    assert_eq!(objects[0]["digest"], digest("01.vol"));
    assert_eq!(objects[1]["digest"], digest("00.vol"));
    assert_eq!(objects[0]["previous"], digest("00.vol"));
    assert_eq!(objects[2]["set"], true.into());
    assert_eq!(
        objects[3..],
        [pair("01.vol", "00.vol", None), whole(0, 1, 1, 0)]
    );
    let plain = folder.run("check --json 01.vol").objects();
    assert!(!plain[0].contains_key("digest"));
}

/// What comes through a pipe can be read only once: for the check and the digest together.
#[test]
fn volumes_that_come_through_pipes() {
    let folder = folder("chain_pipes", 2);
    for (name, lines) in [("chain", 2), ("check --chain", 6)] {
        let _ = std::fs::remove_file(folder.0.join("pipe"));
        folder.make_pipe("pipe");
        let mut command = folder.command();
        command.args(name.split(' ')).args(["pipe", "00.vol"]);
        let mut child = command.stdout(Stdio::piped()).spawn().unwrap();
        folder.feed("pipe", &mut child, &folder.read("01.vol"));
        let output = child.wait_with_output().unwrap();
        let out = String::from_utf8(output.stdout).unwrap();
        let end = "pipe: follows 00.vol\nchain: volumes 0 to 1, unbroken\n";
        assert_eq!(
            (output.status.code(), out.lines().count()),
            (Some(0), lines)
        );
        assert!(out.ends_with(end), "{out}");
    }
}

#[test]
fn strange_names_stay_on_their_line() {
    let folder = Folder::new("chain_names");
    let volumes = chain(0, 2);
    folder.put("a\n", &volumes[0]);
    folder.put("b\u{1b}", &volumes[1]);
    let answer: Answer = folder.run_words(["chain", "a\n", "b\u{1b}"]);
    assert!(
        answer.out.starts_with("b\\u{1b}: follows a\\n\n"),
        "{answer:?}"
    );
    assert_eq!(answer.out.lines().count(), 2);
}
