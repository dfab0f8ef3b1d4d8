//! SHA-256 digests of many bytes and of few, at once and in parts, and beside the command `sha256sum`.

mod command;

use std::hint::black_box;
use std::time::Duration;

use generator::bench::one_data_block;
use hdrfs::{Digest, Volume};
use independent::sha256;
use independent::sha256::State;

use crate::report::{self, Unit};
use crate::timing::{self, each_call, use_up};

/// Calls in one measurement, where there are few bytes.
const CALLS: u32 = 2_000;

pub fn run(rounds: usize) {
    let bytes = one_data_block();
    report::pair_heading("SHA-256", Unit::Milliseconds);
    at_once("16 MiB", &bytes, rounds);
    at_once("1 MiB", &bytes[..1 << 20], rounds);
    in_parts("16 MiB, parts of 64 KiB", &bytes, 1 << 16, rounds);
    in_parts("16 MiB, parts of 1,000 bytes", &bytes, 1_000, rounds);
    println!();
    report::pair_heading("SHA-256 of few bytes, one call", Unit::Microseconds);
    one_call("1,000 bytes", &bytes[..1_000], rounds);
    one_call("100 bytes", &bytes[..100], rounds);
    one_call("0 bytes", &[], rounds);
    println!();
    command::run(rounds, &bytes);
}

fn at_once(name: &str, bytes: &[u8], rounds: usize) {
    agree(bytes, bytes.len());
    let times = timing::best(
        rounds,
        [
            &mut || use_up(Volume::digest(black_box(bytes))),
            &mut || use_up(sha256(black_box(bytes))),
        ],
    );
    report::pair(name, Unit::Milliseconds, times);
}

fn in_parts(name: &str, bytes: &[u8], size: usize, rounds: usize) {
    agree(bytes, size);
    let times = timing::best(
        rounds,
        [&mut || use_up(proved(black_box(bytes), size)), &mut || {
            use_up(independent(black_box(bytes), size))
        }],
    );
    report::pair(name, Unit::Milliseconds, times);
}

fn one_call(name: &str, bytes: &[u8], rounds: usize) {
    agree(bytes, 64);
    let times = timing::best(
        rounds,
        [
            &mut || each_call(CALLS, || use_up(Volume::digest(black_box(bytes)))),
            &mut || each_call(CALLS, || use_up(sha256(black_box(bytes)))),
        ],
    );
    let one_call = |time: Duration| time / CALLS;
    report::pair(name, Unit::Microseconds, times.map(one_call));
}

/// The digest of bytes that are fed in parts of this size.
fn proved(bytes: &[u8], size: usize) -> [u8; 32] {
    let mut digest = Digest::new();
    for part in bytes.chunks(size) {
        digest.feed(part).expect("no more than 16 MiB");
    }
    digest.finish().expect("no more than 16 MiB")
}

fn independent(bytes: &[u8], size: usize) -> [u8; 32] {
    let mut state = State::new();
    for part in bytes.chunks(size) {
        assert_eq!(state.feed(part), 0, "no more than 16 MiB");
    }
    state.finish().expect("no more than 16 MiB")
}

/// Times mean nothing where the digests differ.
fn agree(bytes: &[u8], size: usize) {
    let digest = Volume::digest(bytes).expect("no more than 16 MiB");
    assert_eq!(Ok(digest), sha256(bytes));
    let size = size.max(1);
    assert_eq!(digest, proved(bytes, size), "parts of {size}");
    assert_eq!(digest, independent(bytes, size), "parts of {size}");
}
