//! What the program prints, and its exit status.

use std::fs;
use std::path::Path;
use std::process::Command;

use crc_forms::FORMS;

/// What a run printed, and its exit status.
struct Answer {
    status: Option<i32>,
    out: String,
    err: String,
}

fn run(words: &[&str]) -> Answer {
    let output = Command::new(env!("CARGO_BIN_EXE_crc_bits"))
        .current_dir(env!("CARGO_TARGET_TMPDIR"))
        .args(words)
        .output()
        .unwrap();
    Answer {
        status: output.status.code(),
        out: String::from_utf8(output.stdout).unwrap(),
        err: String::from_utf8(output.stderr).unwrap(),
    }
}

/// Runs the program for one round on these bytes, in a file of this name.
fn run_on(name: &str, volume: &[u8]) -> Answer {
    fs::write(Path::new(env!("CARGO_TARGET_TMPDIR")).join(name), volume).unwrap();
    run(&[name, "1"])
}

/// A volume with blocks of all eight kinds, ten together.
fn all_kinds() -> Vec<u8> {
    let samples = Path::new(env!("CARGO_MANIFEST_DIR")).join("../../crates/samples/data");
    fs::read(samples.join("all_kinds.vol")).unwrap()
}

/// All forms find so many checksums right, of so many.
fn assert_right(answer: &Answer, right: usize, of: usize) {
    let (right, of) = (right.to_string(), of.to_string());
    let lines: Vec<&str> = answer.out.lines().skip(1).collect();
    assert_eq!(lines.len(), FORMS.len());
    for (line, form) in lines.iter().zip(FORMS) {
        let numbers = line.strip_prefix(form.name).unwrap();
        let words: Vec<&str> = numbers.split_whitespace().collect();
        assert_eq!(words[..2], [&right, &of], "{line}");
        assert!(words[2].parse::<f64>().is_ok(), "{line}");
    }
}

/// There is nothing but a message with these words.
fn assert_stopped(answer: &Answer, status: i32, words: &str) {
    assert_eq!(answer.status, Some(status));
    assert_eq!(answer.out, "");
    assert!(answer.err.contains(words), "{}", answer.err);
}

#[test]
fn all_checksums_of_a_sound_volume_are_right() {
    let answer = run_on("sound.vol", &all_kinds());
    assert_right(&answer, 11, 11);
    assert_eq!((answer.status, &answer.err[..]), (Some(0), ""));
}

#[test]
fn a_header_alone_is_a_volume() {
    let answer = run_on("header.vol", &all_kinds()[..80]);
    assert_right(&answer, 1, 1);
    assert_eq!(answer.status, Some(0));
}

/// Also where nothing but a checksum itself is damaged.
#[test]
fn a_wrong_checksum_is_counted() {
    let sound = all_kinds();
    for at in [40, 79, sound.len() - 1] {
        let mut volume = sound.clone();
        volume[at] ^= 1;
        let answer = run_on("damaged.vol", &volume);
        assert_right(&answer, 10, 11);
        assert_eq!(answer.status, Some(1));
    }
}

/// Where the cut falls between two blocks there is nothing to see of it.
#[test]
fn a_cut_is_told() {
    let volume = all_kinds();
    let ends: Vec<usize> = generator::image::blocks(&volume)
        .iter()
        .map(|block| block.end)
        .collect();
    assert_eq!(ends.len(), 10);
    for length in (0..volume.len()).filter(|length| *length != 80 && !ends.contains(length)) {
        let answer = run_on("cut.vol", &volume[..length]);
        assert_stopped(&answer, 1, "cut short in the header or block, at offset ");
    }
}

#[test]
fn lengths_that_are_no_lengths_are_cuts() {
    for (id, places) in [(1, 63..71), (6, 9..17), (8, 1..9)] {
        let mut volume = all_kinds()[..80].to_vec();
        volume.extend_from_slice(&[0; 200]);
        volume[80] = id;
        volume[80 + places.start..80 + places.end].fill(0xFF);
        let answer = run_on("length.vol", &volume);
        assert_stopped(&answer, 1, "cut short in the header or block, at offset 80");
    }
}

#[test]
fn an_unknown_id_is_told() {
    for id in [0, 9, 255] {
        let mut volume = all_kinds();
        volume[80] = id;
        let answer = run_on("unknown.vol", &volume);
        assert_stopped(&answer, 1, "a block with an unknown ID, at offset 80");
    }
}

#[test]
fn wrong_use() {
    fs::write(
        Path::new(env!("CARGO_TARGET_TMPDIR")).join("use.vol"),
        all_kinds(),
    )
    .unwrap();
    for words in [
        &[][..],
        &["use.vol", "0"],
        &["use.vol", "-1"],
        &["use.vol", "many"],
        &["use.vol", "1", "1"],
        &["no such.vol"],
    ] {
        assert_stopped(&run(words), 2, "usage: crc_bits VOLUME [ROUNDS]");
    }
    assert_eq!(run(&["use.vol"]).status, Some(0));
}
