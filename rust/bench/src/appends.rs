//! Appending until a volume is full.

use std::hint::black_box;

use hdrfs::Writer;
use independent::{append_data, write_header};

use crate::report::{self, Unit};
use crate::timing;

/// What a volume may hold, and how much of it is header.
const LIMIT: usize = 16_777_216;
const HEADER: usize = 80;

/// What a data block takes besides its payload.
const BARE: usize = 21;

const ID: [u8; 16] = [7; 16];
const NO_HASH: [u8; 32] = [0; 32];

pub fn run(rounds: usize) {
    report::pair_heading("appends of 16 MiB", Unit::Milliseconds);
    for (name, payload) in [
        ("one data block", LIMIT - HEADER - BARE),
        ("data blocks of 1,000 bytes", 1_000 - BARE),
        ("data blocks of 100 bytes", 100 - BARE),
    ] {
        let payload = vec![b'5'; payload];
        agree(&payload);
        for (state, cleared) in [("as it was", false), ("cleared", true)] {
            let [mut one, mut two] = [(); 2].map(|()| vec![0; LIMIT]);
            let times = timing::best(
                rounds,
                [
                    &mut || each_buffer(&mut one, cleared, |buf| proved(buf, &payload)),
                    &mut || each_buffer(&mut two, cleared, |buf| independent(buf, &payload)),
                ],
            );
            report::pair(
                &format!("{name}, buffer {state}"),
                Unit::Milliseconds,
                times,
            );
        }
    }
    println!("the independent implementation appends with slicing\n");
}

fn each_buffer(buf: &mut [u8], cleared: bool, write: impl Fn(&mut [u8])) {
    if cleared {
        buf.fill(0);
    }
    write(black_box(buf));
}

/// Fills the buffer with blocks of this payload, each a time later than the one before.
fn proved(buf: &mut [u8], payload: &[u8]) {
    let mut writer = Writer::create(buf, &ID, 0, &NO_HASH).expect("a header fits");
    for time in 0..blocks(payload) {
        writer.append_data(time, payload).expect("a block fits");
    }
}

fn independent(buf: &mut [u8], payload: &[u8]) {
    let mut mark = write_header(buf, &ID, 0, &NO_HASH).expect("a header fits");
    for time in 0..blocks(payload) {
        mark = append_data(buf, mark, time, payload).expect("a block fits");
    }
}

fn blocks(payload: &[u8]) -> u64 {
    ((LIMIT - HEADER) / (BARE + payload.len())) as u64
}

/// Times mean nothing where the bytes differ.
fn agree(payload: &[u8]) {
    let [mut one, mut two] = [(); 2].map(|()| vec![0; LIMIT]);
    proved(&mut one, payload);
    independent(&mut two, payload);
    assert!(one == two, "the two volumes differ");
}
