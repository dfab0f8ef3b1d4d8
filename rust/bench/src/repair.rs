//! The repair of full volumes, accepted and cut and damaged, beside the check of the same.

use std::hint::black_box;
use std::time::Duration;

use generator::bench::{data_blocks, torn_inputs, Torn};
use generator::image::LIMIT;
use hdrfs::sys;
use independent::{crc, repair, repair_with};

use crate::report::{self, Unit};
use crate::timing::{self, each_call, use_up};

/// Calls in one measurement, where a volume ends too early in its first block: the bytes behind that
/// are not looked at.
const CALLS: u32 = 20_000;

pub fn run(rounds: usize) {
    let inputs = std::iter::once(accepted()).chain(torn_inputs());
    let (short, long): (Vec<Torn>, Vec<Torn>) = inputs.partition(|input| input.kept == 80);
    report::repair_heading("repair of 16 MiB", Unit::Milliseconds);
    for input in long {
        let times = measure(rounds, 1, &input);
        report::repair(input.name, Unit::Milliseconds, times);
    }
    println!();
    report::repair_heading(
        "repair of 16 MiB of which 80 bytes are left",
        Unit::Microseconds,
    );
    for input in short {
        let times = measure(rounds, CALLS, &input);
        report::repair(input.name, Unit::Microseconds, times);
    }
    println!();
}

/// The volume that the others are made of. All of it is kept.
fn accepted() -> Torn {
    Torn {
        name: "data blocks of 1,000 bytes",
        volume: data_blocks(LIMIT, 1_000),
        kept: LIMIT as u64,
    }
}

/// The time of one call of each: the proved repair, the independent one with a table and with
/// slicing, and the proved check.
fn measure(rounds: usize, calls: u32, input: &Torn) -> [Duration; 4] {
    agree(input);
    let volume = &input.volume[..];
    let times = timing::best(
        rounds,
        [
            &mut || each_call(calls, || use_up(sys::repair(black_box(volume)))),
            &mut || each_call(calls, || use_up(repair_with(black_box(volume), crc::table))),
            &mut || each_call(calls, || use_up(repair(black_box(volume)))),
            &mut || each_call(calls, || use_up(sys::check(black_box(volume)))),
        ],
    );
    times.map(|time| time / calls)
}

/// Times mean nothing where the answers differ.
fn agree(input: &Torn) {
    let volume = &input.volume[..];
    let expected = sys::Repaired {
        length: input.kept,
        ..Default::default()
    };
    assert_eq!(sys::repair(volume), expected, "{}", input.name);
    assert_eq!(repair(volume), Ok(input.kept), "{}", input.name);
    assert_eq!(repair_with(volume, crc::table), Ok(input.kept));
    let refusal = if input.kept == volume.len() as u64 {
        0
    } else {
        2
    };
    assert_eq!(sys::check(volume).refusal, refusal, "{}", input.name);
}
