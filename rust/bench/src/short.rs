//! The check of short volumes, where what comes with a call counts.

use std::hint::black_box;
use std::time::Duration;

use generator::bench::{data_blocks, SHORT};
use hdrfs::sys;
use independent::{check, check_with, crc, Verdict};

use crate::report::{self, Unit};
use crate::timing::{self, each_call, use_up};

/// Calls in one measurement.
const CALLS: u32 = 2_000;

/// The bytes of a block where there are many.
const SIZE: usize = 40;

pub fn run(rounds: usize) {
    report::heading("check of a short volume, one call", Unit::Microseconds);
    for length in SHORT {
        let volume = data_blocks(length, length);
        let name = format!("{} bytes, at most one block", with_comma(length));
        row(&name, &volume, rounds);
    }
    // The first is a header without blocks.
    for length in SHORT.into_iter().skip(1) {
        let volume = data_blocks(length, SIZE);
        let name = format!("{} bytes, blocks of {SIZE}", with_comma(length));
        row(&name, &volume, rounds);
    }
    println!("the independent implementation takes the header by slicing in both columns\n");
}

/// A number below a million, written as in the names of the other inputs.
fn with_comma(number: usize) -> String {
    match (number / 1_000, number % 1_000) {
        (0, ones) => ones.to_string(),
        (thousands, ones) => format!("{thousands},{ones:03}"),
    }
}

fn row(name: &str, volume: &[u8], rounds: usize) {
    agree(volume);
    let times = timing::best(
        rounds,
        [
            &mut || each_call(CALLS, || use_up(sys::check(black_box(volume)))),
            &mut || each_call(CALLS, || use_up(check_with(black_box(volume), crc::table))),
            &mut || each_call(CALLS, || use_up(check(black_box(volume)))),
        ],
    );
    let one_call = |time: Duration| time / CALLS;
    report::row(name, Unit::Microseconds, times.map(one_call));
}

/// Times mean nothing where the answers differ.
fn agree(volume: &[u8]) {
    let proved = sys::check(volume);
    let Verdict::Accepted { blocks, .. } = check(volume) else {
        panic!("a short volume is refused");
    };
    assert_eq!((proved.refusal, proved.blocks), (0, blocks));
}
