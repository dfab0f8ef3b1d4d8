//! Positions and runs of a file with 1,024 extents.

use std::hint::black_box;
use std::time::Duration;

use generator::bench::{inodes, lengths, Order};
use hdrfs::sys;
use independent::{crc, lookup, lookup_with, runs, runs_with};

use crate::report::{self, Unit};
use crate::timing::{self, use_up};

/// Where the inode block stands, and the size of the file.
const OFFSET: u64 = 80;
const SIZE: u64 = 1_024 * 100;

/// Calls in one measurement.
const CALLS: u32 = 32;

/// Numbers in the list for the runs: more than the file needs.
const ROOM: usize = 5 * 4_096;

struct Input {
    volume: Vec<u8>,
    lengths: Vec<u8>,
}

pub fn run(rounds: usize) {
    report::heading("file with 1,024 extents, one call", Unit::Microseconds);
    let orders = [
        ("rising", Order::Rising),
        ("falling", Order::Falling),
        ("shuffled", Order::Shuffled),
    ];
    for (name, order) in orders {
        let input = Input {
            volume: inodes(order),
            lengths: lengths(),
        };
        agree(&input);
        let row = |what: &str, times: [Duration; 3]| {
            let times = times.map(|time| time / CALLS);
            report::row(&format!("{what}, {name}"), Unit::Microseconds, times);
        };
        row("position", positions(&input, rounds));
        row("all runs, list as it was", all_runs(&input, rounds, false));
        row("all runs, list cleared", all_runs(&input, rounds, true));
    }
    println!(
        "\"cleared\": the list of {ROOM} numbers is set to 0 before each call, and that is timed;"
    );
    println!("\"as it was\": the list has the runs of the call before.\n");
}

/// Positions all over the file.
fn each_position(mut ask: impl FnMut(u64)) {
    for call in 0..u64::from(CALLS) {
        ask(black_box(call * 7_919 % SIZE));
    }
}

fn positions(Input { volume, lengths }: &Input, rounds: usize) -> [Duration; 3] {
    let proved = |at| use_up(sys::lookup(black_box(volume), OFFSET, lengths, at));
    let table = |at| {
        use_up(lookup_with(
            black_box(volume),
            OFFSET,
            lengths,
            at,
            crc::table,
        ))
    };
    let slicing = |at| use_up(lookup(black_box(volume), OFFSET, lengths, at));
    timing::best(
        rounds,
        [
            &mut || each_position(proved),
            &mut || each_position(table),
            &mut || each_position(slicing),
        ],
    )
}

/// Calls with a list, cleared before each or not.
fn each_list(list: &mut [u64], cleared: bool, ask: impl Fn(&mut [u64])) {
    for _ in 0..CALLS {
        if cleared {
            list.fill(0);
        }
        ask(black_box(&mut *list));
    }
}

fn all_runs(input: &Input, rounds: usize, cleared: bool) -> [Duration; 3] {
    let Input { volume, lengths } = input;
    let [mut one, mut two, mut three] = [(); 3].map(|()| vec![0; ROOM]);
    let end = u64::MAX;
    let proved = |out: &mut [u64]| {
        use_up(sys::runs(black_box(volume), OFFSET, lengths, 0, end, out));
    };
    let table = |out: &mut [u64]| {
        let answer = runs_with(black_box(volume), OFFSET, lengths, 0, end, out, crc::table);
        use_up(answer);
    };
    let slicing = |out: &mut [u64]| {
        use_up(runs(black_box(volume), OFFSET, lengths, 0, end, out));
    };
    timing::best(
        rounds,
        [
            &mut || each_list(&mut one, cleared, proved),
            &mut || each_list(&mut two, cleared, table),
            &mut || each_list(&mut three, cleared, slicing),
        ],
    )
}

/// Times mean nothing where the answers differ.
fn agree(Input { volume, lengths }: &Input) {
    let [mut one, mut two] = [(); 2].map(|()| vec![0; ROOM]);
    let count = sys::runs(volume, OFFSET, lengths, 0, u64::MAX, &mut one);
    let expected = runs(volume, OFFSET, lengths, 0, u64::MAX, &mut two);
    assert_eq!((count.refusal, Ok(count.count)), (0, expected));
    assert_eq!(one, two);
}
