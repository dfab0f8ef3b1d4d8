//! `hdrfs digest`, held to `sha256sum`.

mod support;

use std::ffi::{OsStr, OsString};
use std::fs::File;
use std::os::unix::ffi::{OsStrExt, OsStringExt};
use std::process::{Command, Output};

use support::json::object;
use support::volumes::small_volume;
use support::{fed, Folder};

const ABC: &str = "ba7816bf8f01cfea414140de5dae2223b00361a396177a9cb410ff61f20015ad";
const EMPTY: &str = "e3b0c44298fc1c149afbf4c8996fb92427ae41e4649b934ca495991b7852b855";

/// What `sha256sum` prints, with `abc` for standard input.
fn sha256sum(folder: &Folder, names: &[OsString]) -> Vec<u8> {
    let mut command = Command::new("sha256sum");
    command.current_dir(&folder.0).arg("--").args(names);
    fed(command, b"abc").stdout
}

fn digest(folder: &Folder, names: &[OsString]) -> Output {
    let mut command = folder.command();
    command.arg("digest").args(names);
    fed(command, b"abc")
}

#[test]
fn lines_are_those_of_sha256sum() {
    let folder = Folder::new("digest_lines");
    folder.put("abc", b"abc");
    folder.put("empty", b"");
    let lines = format!("{ABC}  abc\n{EMPTY}  empty\n");
    folder.run("digest abc empty").is(0, &lines, "");
    let mut names = Vec::new();
    for name in [
        &b"a b"[..],
        b" a  b ",
        b"*a",
        b"a\tb",
        b"a\nb",
        b"a\rb",
        b"a\\b",
        b"\\",
        b"\\n",
        b"a\xFFb",
        b"\xE2\x80\xAE",
        "pégel".as_bytes(),
        b"--json",
    ] {
        folder.put("v", &small_volume());
        let name = OsString::from_vec(name.to_vec());
        std::fs::rename(folder.0.join("v"), folder.0.join(&name)).unwrap();
        names.push(name);
    }
    names.push(OsString::from("-"));
    names.push(OsString::from("-"));
    names.insert(0, OsString::from("--"));
    let output = digest(&folder, &names);
    let expected = sha256sum(&folder, &names[1..]);
    assert_eq!(output.stdout, expected);
    assert_eq!((output.status.code(), output.stderr), (Some(0), vec![]));
    assert_eq!(expected.iter().filter(|byte| **byte == b'\n').count(), 15);
}

/// Lengths round those of a block, of the buffer that a file is read through, and of a volume.
#[test]
fn lengths_of_all_kinds() {
    let folder = Folder::new("digest_lengths");
    let mut names = Vec::new();
    for len in [1, 55, 56, 63, 64, 65, 8191, 8192, 8193, 70_000, 16_777_216] {
        let bytes: Vec<u8> = (0..len).map(|at: usize| (at * 7 / 3) as u8).collect();
        folder.put(&len.to_string(), &bytes);
        names.push(OsString::from(len.to_string()));
    }
    let output = digest(&folder, &names);
    assert_eq!(output.stdout, sha256sum(&folder, &names));
    assert_eq!(output.status.code(), Some(0));
}

#[test]
fn sha256sum_checks_the_lines() {
    let folder = Folder::new("digest_checked");
    folder.put("a\\\n", b"abc");
    folder.put("v", &small_volume());
    let answer = folder.run_words(["digest", "a\\\n", "v"]);
    let mut command = Command::new("sha256sum");
    command.current_dir(&folder.0).args(["--check", "--strict"]);
    let output = fed(command, answer.out.as_bytes());
    assert_eq!(output.status.code(), Some(0), "{output:?}");
}

#[test]
fn standard_input_has_the_name_of_a_hyphen() {
    let folder = Folder::new("digest_input");
    folder.put("a", b"");
    folder.put("-", b"a file of that name");
    let names = ["a", "-", "./-"].map(OsString::from);
    let output = digest(&folder, &names);
    assert_eq!(output.stdout, sha256sum(&folder, &names));
    let text = String::from_utf8(output.stdout).unwrap();
    assert!(
        text.starts_with(&format!("{EMPTY}  a\n{ABC}  -\n")),
        "{text}"
    );
}

#[test]
fn a_long_file_is_refused_and_the_others_go_on() {
    let folder = Folder::new("digest_long");
    folder.put("abc", b"abc");
    // It has a hole of a tebibyte, and would take minutes to read.
    let long = File::create(folder.0.join("long")).unwrap();
    long.set_len(1 << 40).unwrap();
    let (lines, said) = (
        format!("{ABC}  abc\n"),
        "long: refused 1 at 0: volume too long\n",
    );
    folder.run("digest long abc").is(1, &lines, said);
    long.set_len(16_777_217).unwrap();
    folder.run("digest abc long").is(1, &lines, said);
    long.set_len(16_777_216).unwrap();
    assert_eq!(folder.run("digest long").status, 0);
    let mut command = folder.command();
    command.args(["digest", "-"]);
    let output = fed(command, &vec![0; 16_777_216]);
    assert!(output.stdout.starts_with(b"080acf35a507ac98"), "{output:?}");
}

#[test]
fn a_file_that_cannot_be_read() {
    let folder = Folder::new("digest_unread");
    folder.put("abc", b"abc");
    File::create(folder.0.join("long"))
        .unwrap()
        .set_len(1 << 30)
        .unwrap();
    let answer = folder.run("digest none long abc");
    assert_eq!((answer.status, answer.out), (2, format!("{ABC}  abc\n")));
    let said: Vec<&str> = answer.err.lines().collect();
    assert!(said[0].starts_with("none: cannot be read: "), "{said:?}");
    assert_eq!(said[1..], ["long: refused 1 at 0: volume too long"]);
}

#[test]
fn a_folder_stands_for_the_volumes_in_it() {
    let folder = Folder::new("digest_folder");
    folder.put("1.vol", b"abc");
    folder.put("0.vol", b"");
    folder.put("note", b"no volume");
    let lines = format!("{EMPTY}  ./0.vol\n{ABC}  ./1.vol\n");
    folder.run("digest .").is(0, &lines, "");
}

#[test]
fn objects_for_machines() {
    let folder = Folder::new("digest_json");
    let name = OsStr::from_bytes(b"a\n\xFF");
    std::fs::write(folder.0.join(name), b"abc").unwrap();
    File::create(folder.0.join("long"))
        .unwrap()
        .set_len(1 << 30)
        .unwrap();
    let words = ["digest", "long", "--json"].map(OsString::from);
    let answer = folder.run_words([&words[..], &[name.to_os_string()]].concat());
    let refused = object([
        ("file", "long".into()),
        ("refused", 1.into()),
        ("offset", 0.into()),
        ("words", "volume too long".into()),
    ]);
    let digest = object([("file", "a\n\u{FFFD}".into()), ("digest", ABC.into())]);
    assert_eq!(answer.objects(), [refused, digest]);
    assert_eq!((answer.status, answer.err.as_str()), (1, ""));
    let answer = folder.run("digest none --json");
    assert!(answer.objects()[0].contains_key("error"));
    assert_eq!((answer.status, answer.err.as_str()), (2, ""));
}
