//! The check of a whole volume.

use std::hint::black_box;

use generator::bench::{inputs, Input};
use hdrfs::sys;
use independent::{check, check_with, crc, Verdict};

use crate::report::{self, Unit};
use crate::timing::{self, use_up};

pub fn run(rounds: usize) {
    report::heading("check of 16 MiB", Unit::Milliseconds);
    for input in inputs() {
        agree(&input);
        let volume = &input.volume[..];
        let times = timing::best(
            rounds,
            [
                &mut || use_up(sys::check(black_box(volume))),
                &mut || use_up(check_with(black_box(volume), crc::table)),
                &mut || use_up(check(black_box(volume))),
            ],
        );
        report::row(input.name, Unit::Milliseconds, times);
    }
    println!();
}

/// Times mean nothing where the answers differ.
fn agree(input: &Input) {
    let proved = sys::check(&input.volume);
    let Verdict::Accepted { blocks, .. } = check(&input.volume) else {
        panic!("{} is refused", input.name);
    };
    assert_eq!((proved.refusal, proved.blocks), (0, blocks));
}
