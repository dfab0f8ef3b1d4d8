//! What README, the page for `man` and the script that shows proofs say, held to what is so.

mod support;

use std::fs;
use std::os::unix::fs::PermissionsExt;
use std::path::{Path, PathBuf};
use std::process::Command;

use support::Folder;

fn repository() -> PathBuf {
    Path::new(env!("CARGO_MANIFEST_DIR")).join("../..")
}

fn readme() -> String {
    fs::read_to_string(repository().join("README.md")).unwrap()
}

/// The commands that README shows, each with the lines that it prints.
fn shown_runs(readme: &str) -> Vec<(String, String)> {
    let mut runs: Vec<(String, String)> = Vec::new();
    for block in readme.split("```console\n").skip(1) {
        let (block, _) = block.split_once("```").unwrap();
        for line in block.lines() {
            match line.strip_prefix("$ hdrfs ") {
                Some(words) => runs.push((words.to_string(), String::new())),
                None => runs.last_mut().unwrap().1 += &format!("{line}\n"),
            }
        }
    }
    runs
}

#[test]
fn readme_shows_what_is_printed() {
    let folder = Folder::new("documents_readme");
    let archive = folder.0.join("archive");
    fs::create_dir(&archive).unwrap();
    let gauge = Path::new(env!("CARGO_MANIFEST_DIR")).join("../hdrfs/tests/gauge");
    for name in ["0.vol", "1.vol", "2.vol"] {
        fs::copy(gauge.join(name), archive.join(name)).unwrap();
    }
    let last = fs::read(archive.join("2.vol")).unwrap();
    folder.put("torn.vol", &last[..500]);
    let runs = shown_runs(&readme());
    assert_eq!(runs.len(), 7);
    for (words, lines) in runs {
        let answer = folder.run(&words);
        assert_eq!(answer.out + &answer.err, lines, "hdrfs {words}");
    }
    let expected = fs::read(repository().join("tests/gauge/expected.csv")).unwrap();
    assert_eq!(folder.read("gauge.csv"), expected);
    assert_eq!(folder.read("whole.vol"), last[..210]);
}

#[test]
fn readme_states_the_version_of_rust() {
    let needed = format!("rustc {} or later", env!("CARGO_PKG_RUST_VERSION"));
    assert!(readme().contains(&needed), "{needed}");
}

/// Runs the script that shows proofs, with a program in the place of `rt` that prints some lines.
fn prove(folder: &Folder, status: i32) -> (Option<i32>, String, String) {
    let rt = "#!/bin/sh\necho \"asked $*\"\nfor name in number slicing folding crc32; do\n\
              echo \"rt: $name proved\"\ndone\necho the end\n";
    folder.put("rt", format!("{rt}exit {status}\n").as_bytes());
    let runs = fs::Permissions::from_mode(0o755);
    fs::set_permissions(folder.0.join("rt"), runs).unwrap();
    let path = format!("{}:{}", folder.0.display(), std::env::var("PATH").unwrap());
    let mut command = Command::new(repository().join("tools/prove"));
    command.arg(folder.0.join("log")).args(["check", "block"]);
    let output = command.env("PATH", path).env("RT_JOBS", "2").output();
    let output = output.unwrap();
    let text = |bytes: &[u8]| String::from_utf8_lossy(bytes).into_owned();
    (
        output.status.code(),
        text(&output.stdout),
        text(&output.stderr),
    )
}

#[test]
fn proofs_are_shown_with_a_count() {
    let folder = Folder::new("documents_prove");
    let (status, out, err) = prove(&folder, 0);
    let lines: Vec<&str> = out.lines().collect();
    assert_eq!(lines.len(), 5);
    assert!(lines[0].starts_with("0 of "), "{out}");
    assert!(
        lines[0].ends_with(" crates proved, now: number slicing"),
        "{out}"
    );
    assert!(lines[4].starts_with("4 of "), "{out}");
    assert_eq!((status, err.as_str()), (Some(0), ""));
    let log = String::from_utf8(folder.read("log")).unwrap();
    assert!(
        log.starts_with("asked check block\nrt: number proved\n"),
        "{log}"
    );
    assert!(log.ends_with("the end\n"), "{log}");
}

#[test]
fn a_proof_that_fails_is_shown() {
    let folder = Folder::new("documents_prove_fails");
    let (status, _, err) = prove(&folder, 3);
    assert_eq!(status, Some(1));
    assert!(
        err.ends_with("the end\nrt ended with exit status 3\n"),
        "{err}"
    );
}
