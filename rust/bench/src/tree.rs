//! Trees of link tables: sound ones, ones that are refused in the end, and the part of the time that
//! the reading of the table takes.

mod inputs;

use std::hint::black_box;
use std::time::Duration;

use generator::bench::ROOT;
use hdrfs::sys;
use independent::{crc, read, read_with, tree, tree_with, Bookmark, Reading};

use crate::report::{self, Unit};
use crate::timing::{self, each_call, use_up};
use inputs::{full_tables, hostile, sound, Input};

/// The table of every input.
const MARK: Bookmark = Bookmark {
    due: true,
    ..Bookmark::at(80)
};

pub fn run(rounds: usize) {
    rows("tree, one call", sound(), rounds);
    println!("the list has the lines of the call before\n");
    rows("tree that is refused, one call", hostile(), rounds);
    println!();
    readings(rounds);
}

fn rows(title: &str, inputs: impl Iterator<Item = Input>, rounds: usize) {
    report::heading(title, Unit::Microseconds);
    for input in inputs {
        agree(&input);
        let times = listings(&input, rounds);
        report::row(&input.name, Unit::Microseconds, times);
    }
}

/// The time of one call of each: the proved listing, and the independent one with a table and with
/// slicing.
fn listings(input: &Input, rounds: usize) -> [Duration; 3] {
    let volume = &input.volume[..];
    let [mut one, mut two, mut three] = [(); 3].map(|()| vec![0; input.room]);
    let proved = |out: &mut [u64]| use_up(sys_tree(black_box(volume), out));
    let table = |out: &mut [u64]| {
        use_up(tree_with(black_box(volume), MARK, ROOT, out, crc::table));
    };
    let slicing = |out: &mut [u64]| use_up(tree(black_box(volume), MARK, ROOT, out));
    let times = timing::best(
        rounds,
        [
            &mut || each_list(input.calls, &mut one, proved),
            &mut || each_list(input.calls, &mut two, table),
            &mut || each_list(input.calls, &mut three, slicing),
        ],
    );
    times.map(|time| time / input.calls)
}

/// Calls with a list, which each leaves to the next as it is.
fn each_list(calls: u32, list: &mut [u64], ask: impl Fn(&mut [u64])) {
    for _ in 0..calls {
        ask(black_box(&mut *list));
    }
}

fn sys_tree(volume: &[u8], out: &mut [u64]) -> sys::Lines {
    sys::tree(volume, MARK.offset, 0, 0, MARK.number, ROOT, out)
}

fn sys_read(volume: &[u8]) -> sys::Block {
    sys::read(volume, MARK.offset, 1, 0, 0, MARK.number)
}

/// The reading of the tables with the most links, by itself and as a part of the listing.
fn readings(rounds: usize) {
    let title = "reading of the table, one call";
    report::heading(title, Unit::Microseconds);
    for Input {
        name,
        volume,
        calls,
        ..
    } in full_tables()
    {
        assert_eq!(sys_read(&volume).refusal, 0, "{name}");
        assert!(matches!(read(&volume, MARK), Ok(Reading::Block(..))));
        let times = timing::best(
            rounds,
            [
                &mut || each_call(calls, || use_up(sys_read(black_box(&volume)))),
                &mut || {
                    each_call(calls, || {
                        use_up(read_with(black_box(&volume), MARK, crc::table));
                    });
                },
                &mut || each_call(calls, || use_up(read(black_box(&volume), MARK))),
            ],
        );
        report::row(&name, Unit::Microseconds, times.map(|time| time / calls));
    }
    println!();
    parts(rounds);
}

/// Both by the proved library, in turns.
fn parts(rounds: usize) {
    report::part_heading("reading as a part of the listing", Unit::Microseconds);
    for input in full_tables() {
        let mut list = vec![0; input.room];
        let volume = &input.volume[..];
        let times = timing::best(
            rounds,
            [
                &mut || each_call(input.calls, || use_up(sys_read(black_box(volume)))),
                &mut || {
                    each_list(input.calls, &mut list, |out| {
                        use_up(sys_tree(black_box(volume), out));
                    });
                },
            ],
        );
        let times = times.map(|time| time / input.calls);
        report::pair(&input.name, Unit::Microseconds, times);
    }
    println!("both by the proved library\n");
}

/// Times mean nothing where the answers differ.
fn agree(input: &Input) {
    let (name, volume) = (&input.name, &input.volume[..]);
    let [mut one, mut two] = [(); 2].map(|()| vec![0; input.room]);
    let answer = sys_tree(volume, &mut one);
    let proved = match answer.refusal {
        0 => Ok(answer.lines),
        number => Err(number),
    };
    assert_eq!(proved, input.expected, "{name}");
    let second = tree(volume, MARK, ROOT, &mut two);
    let second = second.map_err(|refusal| refusal.number);
    assert_eq!(second, input.expected, "{name}");
    assert!(one == two, "the two lists of {name} differ");
}
