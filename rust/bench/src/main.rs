//! Times the proved library against the independent implementation: same process, same input, in
//! turns, and the best of some rounds. `bench N` takes N rounds, `bench N NAME` only that part.
//!
//! The checksum is most of the work. So there are two ratios: to the independent implementation with
//! a look-up for each byte ("table"), and with the faster one that takes eight bytes at a time
//! ("slicing"). Where checksums are the matter, the same checksums alone are timed too: bit by bit,
//! by slicing, and by zlib. Digests need no checksum, and have one ratio.
#![deny(unsafe_code)]

mod appends;
mod archives;
mod beside;
mod chain;
mod checks;
mod clock;
mod digests;
mod files;
mod folder;
mod repair;
mod report;
mod short;
mod sums;
mod texts;
mod timing;
mod tree;
mod volumes;
mod zlib;

use std::process::ExitCode;

/// Rounds where nothing else is said.
const ROUNDS: usize = 9;

/// A part, which takes so many rounds.
type Part = fn(usize);

/// The parts, by name.
const PARTS: [(&str, Part); 12] = [
    ("sums", sums::run),
    ("volumes", volumes::run),
    ("checks", checks::run),
    ("short", short::run),
    ("texts", texts::run),
    ("repair", repair::run),
    ("tree", tree::run),
    ("files", files::run),
    ("appends", appends::run),
    ("digests", digests::run),
    ("chain", chain::run),
    ("archives", archives::run),
];

fn main() -> ExitCode {
    let mut words = std::env::args().skip(1);
    let rounds = match words.next().map(|text| text.parse()) {
        None => ROUNDS,
        Some(Ok(rounds @ 1..)) => rounds,
        Some(_) => return usage(),
    };
    let asked: Vec<String> = words.collect();
    if !asked
        .iter()
        .all(|word| PARTS.iter().any(|(name, _)| name == word))
    {
        return usage();
    }
    println!("{}, best of {rounds} rounds in turns", clock::NAME);
    println!("ratios above 1: the proved library is slower\n");
    for (name, run) in PARTS {
        if asked.is_empty() || asked.iter().any(|word| word == name) {
            run(rounds);
        }
    }
    ExitCode::SUCCESS
}

fn usage() -> ExitCode {
    let names = PARTS.map(|(name, _)| name).join("|");
    eprintln!("usage: bench [rounds [{names}..]]");
    ExitCode::FAILURE
}
