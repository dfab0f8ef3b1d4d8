//! Works out the checksums of a volume bit by bit: the header's and that of every block. It is what
//! the library's checksum is measured against.
//!
//! usage: crc_bits VOLUME [ROUNDS]
//!
//! It does so in the four forms of `crc_forms.rs`. The compiler makes look-ups in a table of `branch`
//! and `high bit first` by itself; `mask` and `message bits` stay loops over bits.
//!
//! For each form a line is printed: how many of the checksums in the volume are right by it, and its
//! time, the best of so many rounds (5 if not said) that the forms take in turns. The blocks are
//! looked for once, before that, so the times are of the checksums alone. Nothing else about a volume
//! is checked here.
//!
//! Exit status: 0 if all checksums are right by all forms; 1 if one is not, or the volume is cut
//! short or has a block with an unknown ID; 2 for wrong use, or a file that cannot be read.
//!
//! It needs nothing but the standard library: `rustc -O --edition 2021 docs/src/crc_bits.rs`.

mod crc_forms;

use std::env;
use std::ffi::OsString;
use std::fs;
use std::hint::black_box;
use std::process::ExitCode;
use std::time::{Duration, Instant};

use crc_forms::{Form, FORMS};

/// Rounds where nothing else is said.
const ROUNDS: u32 = 5;

/// Bytes of a header before its checksum, and of a checksum.
const HEADER: u64 = 76;
const CHECKSUM: usize = 4;

fn main() -> ExitCode {
    let words: Vec<OsString> = env::args_os().skip(1).collect();
    let (path, rounds) = match &words[..] {
        [path] => (path, ROUNDS),
        [path, rounds] => match rounds.to_str().map(str::parse) {
            Some(Ok(rounds @ 1..)) => (path, rounds),
            _ => return wrong_use("ROUNDS is a number from 1 on"),
        },
        _ => return wrong_use("a volume is to be named"),
    };
    let shown = path.display();
    let volume = match fs::read(path) {
        Ok(volume) => volume,
        Err(error) => return wrong_use(&format!("{shown}: {error}")),
    };
    match walk(&volume) {
        Ok(images) => report(&images, rounds),
        Err(message) => {
            eprintln!("crc_bits: {shown}: {message}");
            ExitCode::from(1)
        }
    }
}

fn wrong_use(message: &str) -> ExitCode {
    eprintln!("crc_bits: {message}");
    eprintln!("usage: crc_bits VOLUME [ROUNDS]");
    ExitCode::from(2)
}

/// The bytes of a header or block before its checksum, and the checksum that stands there.
struct Image<'a> {
    bytes: &'a [u8],
    told: u32,
}

/// The header and the blocks, in order.
fn walk(volume: &[u8]) -> Result<Vec<Image<'_>>, String> {
    let mut images = Vec::new();
    let mut rest = volume;
    while images.is_empty() || !rest.is_empty() {
        let is_header = images.is_empty();
        let covered = if is_header { Ok(HEADER) } else { covered(rest) };
        let image = covered.and_then(|covered| take(&mut rest, covered).ok_or(CUT));
        let at = volume.len() - rest.len();
        images.push(image.map_err(|why| format!("{why}, at offset {at}"))?);
    }
    Ok(images)
}

const CUT: &str = "cut short in the header or block";
const UNKNOWN: &str = "a block with an unknown ID";

/// Takes an image and its checksum off the front, if they are all there.
fn take<'a>(rest: &mut &'a [u8], covered: u64) -> Option<Image<'a>> {
    let (bytes, behind) = rest.split_at_checked(usize::try_from(covered).ok()?)?;
    let (told, behind) = behind.split_first_chunk::<CHECKSUM>()?;
    *rest = behind;
    let told = u32::from_le_bytes(*told);
    Some(Image { bytes, told })
}

/// How many bytes the checksum of the block at the front covers: the fixed fields, and as many more
/// as the lengths among them say. It may be more than there are.
fn covered(block: &[u8]) -> Result<u64, &'static str> {
    // Where the variable part begins, and the place and width of each length.
    let (fixed, lengths): (u64, &[(u64, usize)]) = match block[0] {
        1 => (71, &[(63, 8)]),
        2 | 3 => (27, &[(25, 2)]),
        4 => (20, &[(17, 1), (18, 2)]),
        5 => (18, &[(17, 1)]),
        6 => (17, &[(9, 8)]),
        7 => (13, &[(9, 2), (11, 2)]),
        8 => return table(block).ok_or(CUT),
        _ => return Err(UNKNOWN),
    };
    lengths.iter().try_fold(fixed, |sum, &(at, width)| {
        let length = number(block, at, width).ok_or(CUT)?;
        // A length is any 64-bit number. A sum that does not fit is beyond the end of every file.
        Ok(sum.saturating_add(length))
    })
}

/// A table has a number of links, each with the length of its name in it.
fn table(block: &[u8]) -> Option<u64> {
    let mut end = 9;
    // However great the number, the first link that is not there ends this.
    for _ in 0..number(block, 1, 8)? {
        end += 18 + number(block, end + 16, 2)?;
    }
    Some(end)
}

/// The number of so many bytes at this place, low byte first.
fn number(block: &[u8], at: u64, width: usize) -> Option<u64> {
    let field = block.get(usize::try_from(at).ok()?..)?.get(..width)?;
    let digits = field.iter().rev();
    Some(digits.fold(0, |number, &byte| number << 8 | u64::from(byte)))
}

/// How many checksums are right by a form, and the best time so far.
#[derive(Clone, Copy)]
struct Outcome {
    right: usize,
    best: Duration,
}

fn report(images: &[Image<'_>], rounds: u32) -> ExitCode {
    let outcomes = measure(images, rounds);
    println!("{:<16}{:>9}{:>9}{:>12}", "form", "right", "of", "ms");
    for (Form { name, .. }, Outcome { right, best }) in FORMS.iter().zip(outcomes) {
        let milliseconds = best.as_secs_f64() * 1e3;
        let all = images.len();
        println!("{name:<16}{right:>9}{all:>9}{milliseconds:>12.3}");
    }
    let is_right = |outcome: &Outcome| outcome.right == images.len();
    ExitCode::from(u8::from(!outcomes.iter().all(is_right)))
}

/// The forms take turns, so that all meet the same disturbances.
fn measure(images: &[Image<'_>], rounds: u32) -> [Outcome; FORMS.len()] {
    let none = Outcome {
        right: 0,
        best: Duration::MAX,
    };
    let mut outcomes = [none; FORMS.len()];
    for _ in 0..rounds {
        for (form, outcome) in FORMS.iter().zip(&mut outcomes) {
            let start = Instant::now();
            outcome.right = count_right(black_box(images), form);
            outcome.best = start.elapsed().min(outcome.best);
        }
    }
    outcomes
}

fn count_right(images: &[Image<'_>], form: &Form) -> usize {
    let is_right = |image: &&Image<'_>| (form.crc)(image.bytes) == image.told;
    images.iter().filter(is_right).count()
}
