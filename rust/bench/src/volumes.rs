//! The check and the appends of volumes with data blocks, beside the checksums of the same header and
//! blocks alone.

use std::hint::black_box;

use generator::bench::{data_inputs, Input};
use generator::image;
use hdrfs::{sys, Writer};

use crate::beside::{self, measure};
use crate::report::{self, Unit};
use crate::timing::use_up;

const HEADER: usize = 80;
const CHECKSUM: usize = 4;

/// The ID in the inputs' headers, and the hash there.
const ID: [u8; 16] = [7; 16];
const NO_HASH: [u8; 32] = [0; 32];

/// A data block: its time and its payload.
type Data<'a> = (u64, &'a [u8]);

pub fn run(rounds: usize) {
    report::beside_heading("check of 16 MiB", Unit::Milliseconds);
    for Input { name, volume } in data_inputs() {
        assert_eq!(sys::check(&volume).refusal, 0);
        let check = || use_up(sys::check(black_box(&volume)));
        let times = measure(rounds, &covered(&volume), check);
        report::beside(name, Unit::Milliseconds, &times);
    }
    println!();
    report::beside_heading("appends of 16 MiB", Unit::Milliseconds);
    for Input { name, volume } in data_inputs() {
        let blocks = data(&volume);
        let mut buf = vec![0; volume.len()];
        write(&mut buf, &blocks);
        assert!(buf == volume, "another volume was written");
        let append = || write(black_box(&mut buf), &blocks);
        let times = measure(rounds, &covered(&volume), append);
        report::beside(name, Unit::Milliseconds, &times);
    }
    beside::explain();
    println!();
}

/// What the checksums of a volume cover: the header and each block without its last four bytes.
fn covered(volume: &[u8]) -> Vec<&[u8]> {
    let header = 0..HEADER;
    let images = std::iter::once(header).chain(image::blocks(volume));
    images
        .map(|image| &volume[image.start..image.end - CHECKSUM])
        .collect()
}

/// The blocks of a volume that has data blocks alone.
fn data(volume: &[u8]) -> Vec<Data<'_>> {
    let blocks = covered(volume).into_iter().skip(1);
    blocks
        .map(|block| {
            let time = block[1..9].try_into().expect("eight bytes");
            (u64::from_le_bytes(time), &block[17..])
        })
        .collect()
}

/// Writes a volume with these blocks, which fill the buffer.
fn write(buf: &mut [u8], blocks: &[Data<'_>]) {
    let mut writer = Writer::create(buf, &ID, 0, &NO_HASH).expect("a header fits");
    for &(time, payload) in blocks {
        writer.append_data(time, payload).expect("a block fits");
    }
}
