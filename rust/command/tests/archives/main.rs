//! Archives from seeds, end to end: what the command says of the volumes in a folder and what it
//! extracts from them is what the independent implementation finds, byte for byte.
#![forbid(unsafe_code)]

mod expected;
mod given;

use std::fs::{self, Permissions};
use std::io;
use std::os::unix::fs::PermissionsExt;
use std::path::Path;

use compare::archives::folder::Folder;
use compare::archives::reading::WHOLE;
use compare::json::Json;
use compare::seeds::{Seeds, USUAL};
use compare::texts::Texts;
use generator::archive::{archive, describe, Archive};
use generator::rng::Rng;
use independent::{File, FileRefusal, Set, SetFault};

use expected::has;
use given::{place, Given};

/// One archive for so many of the seeds that are asked for.
const ONE_FOR: u64 = 40;

/// What was compared.
#[derive(Default)]
struct Counts {
    sets: u64,
    no_sets: u64,
    inodes: u64,
    extracted: u64,
    bytes: u64,
    refused: u64,
    /// Sets that are refused for a text.
    texts: Texts,
}

#[test]
fn the_command_agrees() {
    let asked = Seeds::asked();
    let seeds = Seeds {
        count: asked.count.div_ceil(ONE_FOR),
        ..asked
    };
    let counted = seeds.each(|seed, counts: &mut Counts| {
        let archive = archive(seed);
        compare(&archive, counts).map_err(|told| format!("{told}\n{}", describe(&archive)))
    });
    let counted = counted.unwrap_or_else(|told| panic!("{told}"));
    let sum = |of: fn(&Counts) -> u64| -> u64 { counted.iter().map(of).sum() };
    let sums = [
        ("sets", sum(|counts| counts.sets)),
        ("no sets", sum(|counts| counts.no_sets)),
        ("inodes", sum(|counts| counts.inodes)),
        ("extracted", sum(|counts| counts.extracted)),
        ("bytes", sum(|counts| counts.bytes)),
        ("refused", sum(|counts| counts.refused)),
    ];
    println!("{sums:?}");
    for (what, count) in sums {
        assert!(count > 10 || asked.count < USUAL, "{what}: {count}");
    }
    let mut texts = Texts::default();
    counted.iter().for_each(|counts| texts.add(&counts.texts));
    println!("{texts}");
    assert!(!texts.are_few(2) || asked.count < USUAL, "{texts}");
}

/// All that is asked of one archive.
fn compare(archive: &Archive, counts: &mut Counts) -> Result<(), String> {
    let rng = &mut Rng::new(archive.seed);
    let folder = Folder::new().map_err(|error| error.to_string())?;
    let paths = folder.store(archive).map_err(|error| error.to_string())?;
    let given = Given::new(rng, folder.path(), paths);
    let lent: Vec<&[u8]> = archive.volumes.iter().map(Vec::as_slice).collect();
    let set = Set::new(&lent);
    check(&given, &lent, &set)?;
    match set {
        Ok(set) => {
            counts.sets += 1;
            counts.inodes += inodes(&given, &set)?;
            for &number in &archive.numbers {
                extract(rng, &given, folder.path(), &set, number, counts)?;
            }
            Ok(())
        }
        Err(faults) => {
            counts.no_sets += 1;
            if let [SetFault::Refused { refusal, .. }] = faults[..] {
                counts.texts.note(refusal);
            }
            refused_set(&given, folder.path(), &lent, &faults, archive.numbers[0])
        }
    }
}

/// `hdrfs check`: every volume in the order given, and at the end whether they are a set.
fn check(
    given: &Given,
    volumes: &[&[u8]],
    set: &Result<Set<'_>, Vec<SetFault>>,
) -> Result<(), String> {
    let ran = given.run("check", &["--json"]);
    ran.ended(i32::from(set.is_err()))?;
    let mut objects = ran.objects()?;
    if volumes.len() > 1 {
        let last = objects.pop().unwrap_or(Json::Null);
        match set {
            Ok(set) => has(&last, &expected::summary(set))?,
            Err(faults) => {
                let apart = |fault: &SetFault| !matches!(fault, SetFault::Refused { .. });
                let one = !faults.iter().any(apart);
                has(&last, &vec![("set", Json::Bool(one))])?;
            }
        }
    }
    if objects.len() != volumes.len() {
        return Err(format!("{} verdicts: {ran:?}", objects.len()));
    }
    for (index, (object, volume)) in objects.iter().zip(volumes).enumerate() {
        has(object, &expected::verdict(volume))?;
        if place(object, "file") != Some(index) {
            return Err(format!("not volume {index}: {object:?}"));
        }
    }
    Ok(())
}

/// `hdrfs inodes`: all of them, by number.
fn inodes(given: &Given, set: &Set<'_>) -> Result<u64, String> {
    let ran = given.run("inodes", &["--json"]);
    ran.ended(0)?;
    let objects = ran.objects()?;
    if objects.len() != set.inodes().len() {
        return Err(format!("{} inodes: {ran:?}", objects.len()));
    }
    for (object, inode) in objects.iter().zip(set.inodes().values()) {
        has(object, &expected::inode(set, inode))?;
    }
    Ok(objects.len() as u64)
}

/// Volumes that are no set give the same reason to whoever asks, and nothing is written.
fn refused_set(
    given: &Given,
    folder: &Path,
    volumes: &[&[u8]],
    faults: &[SetFault],
    number: u64,
) -> Result<(), String> {
    let out = folder.join("out.bin");
    let out = out.to_str().expect("a path of text");
    let number = number.to_string();
    for (command, options) in [
        ("inodes", &["--json"][..]),
        ("runs", &["--json", "--inode", &number]),
        ("extract", &["--json", "--inode", &number, "-o", out]),
    ] {
        let ran = given.run(command, options);
        ran.ended(1)?;
        let told = expected::fault(volumes, &ran.object()?);
        if !told.is_some_and(|told| faults.contains(&told)) {
            return Err(format!("{told:?} is none of {faults:?}\n{ran:?}"));
        }
    }
    nothing_else(folder, &[])
}

/// `hdrfs extract` into a file or to standard output, and `hdrfs runs`.
fn extract(
    rng: &mut Rng,
    given: &Given,
    folder: &Path,
    set: &Set<'_>,
    number: u64,
    counts: &mut Counts,
) -> Result<(), String> {
    match set.file(number) {
        // Longer files take too long to write.
        Ok(file) if file.size() > WHOLE => runs(rng, given, &file, number),
        Ok(file) => {
            counts.extracted += 1;
            counts.bytes += file.size();
            if rng.once_in(3) {
                return to_standard_output(given, &file, number);
            }
            to_file(given, folder, set, &file, number)?;
            runs(rng, given, &file, number)
        }
        Err(refusal) => {
            counts.refused += 1;
            refused_file(given, folder, set, number, &refusal)
        }
    }
}

fn to_standard_output(given: &Given, file: &File<'_>, number: u64) -> Result<(), String> {
    let ran = given.run("extract", &["--inode", &number.to_string(), "-o", "-"]);
    ran.ended(0)?;
    let same = ran.out == file.bytes(0, u64::MAX);
    same.then_some(())
        .ok_or(format!("bytes of {number} differ"))
}

fn to_file(
    given: &Given,
    folder: &Path,
    set: &Set<'_>,
    file: &File<'_>,
    number: u64,
) -> Result<(), String> {
    let path = folder.join("out.bin");
    let out = path.to_str().expect("a path of text");
    let options = ["--json", "--inode", &number.to_string(), "-o", out];
    let ran = given.run("extract", &options);
    ran.ended(0)?;
    let inode = &set.inodes()[&number];
    let runs = file.runs(0, u64::MAX);
    let stored = runs.iter().filter(|run| run[2] == 1).map(|run| run[1]);
    let fields = vec![
        ("file", expected::text(out)),
        ("inode", expected::number(number)),
        ("volume", expected::number(inode.volume)),
        ("offset", expected::number(inode.offset)),
        ("size", expected::number(file.size())),
        ("stored", expected::number(stored.sum())),
    ];
    has(&ran.object()?, &fields)?;
    nothing_else(folder, &["out.bin"])?;
    let bytes = taken(&path, inode.stat.mode).map_err(|error| format!("{out}: {error}"))?;
    let same = bytes == file.bytes(0, u64::MAX);
    same.then_some(())
        .ok_or(format!("bytes of {number} differ"))
}

/// The bytes of a file, which is removed. It may give nobody more rights than its inode's mode.
fn taken(path: &Path, mode: u16) -> io::Result<Vec<u8>> {
    let given = fs::metadata(path)?.permissions().mode();
    if given & 0o777 & !u32::from(mode) != 0 {
        let told = format!("has mode {given:o}, its inode {mode:o}");
        return Err(io::Error::other(told));
    }
    // The inode may allow nobody to read it.
    fs::set_permissions(path, Permissions::from_mode(0o600))?;
    let bytes = fs::read(path)?;
    fs::remove_file(path)?;
    Ok(bytes)
}

/// A refused file leaves what stands under the name that it would get.
fn refused_file(
    given: &Given,
    folder: &Path,
    set: &Set<'_>,
    number: u64,
    refusal: &FileRefusal,
) -> Result<(), String> {
    let path = folder.join("old.bin");
    fs::write(&path, b"old").map_err(|error| error.to_string())?;
    let out = path.to_str().expect("a path of text");
    let options = ["--json", "--inode", &number.to_string(), "-o", out];
    let ran = given.run("extract", &options);
    ran.ended(1)?;
    let object = ran.object()?;
    if let Some(refused) = refusal.refusal() {
        let inode = &set.inodes()[&number];
        let fields = vec![
            ("refused", expected::number(refused.number)),
            ("offset", expected::number(inode.offset)),
            ("block", expected::block(set, inode)),
            ("text", Json::Null),
            ("start", Json::Null),
            ("which", Json::Null),
        ];
        has(&object, &fields)?;
    }
    if let FileRefusal::NotThere(lacking) = refusal {
        expected::lacks(&object, lacking)?;
    }
    nothing_else(folder, &["old.bin"])?;
    let left = fs::read(&path).map_err(|error| error.to_string())?;
    fs::remove_file(&path).map_err(|error| error.to_string())?;
    (left == b"old")
        .then_some(())
        .ok_or("the old file is gone".into())
}

/// The runs of a range.
fn runs(rng: &mut Rng, given: &Given, file: &File<'_>, number: u64) -> Result<(), String> {
    let from = match rng.below(3) {
        0 => rng.between(0, file.size()),
        _ => rng.below(200),
    };
    let to = from.saturating_add(rng.below(300));
    let [number, from_text, to_text] = [number, from, to].map(|value| value.to_string());
    let options = [
        "--json", "--inode", &number, "--from", &from_text, "--to", &to_text,
    ];
    let ran = given.run("runs", &options);
    ran.ended(0)?;
    let (objects, expected) = (ran.objects()?, file.runs(from, to));
    if objects.len() != expected.len() {
        return Err(format!(
            "{} runs from {from} to {to}: {ran:?}",
            objects.len()
        ));
    }
    for (object, run) in objects.iter().zip(&expected) {
        has(object, &expected::run(run))?;
    }
    Ok(())
}

/// Fails unless the folder has the volumes, these files and nothing else.
fn nothing_else(folder: &Path, names: &[&str]) -> Result<(), String> {
    for entry in fs::read_dir(folder).map_err(|error| error.to_string())? {
        let name = entry.map_err(|error| error.to_string())?.file_name();
        let name = name.to_string_lossy();
        if !name.ends_with(".vol") && !names.contains(&name.as_ref()) {
            return Err(format!("{name} is left in the folder"));
        }
    }
    Ok(())
}
