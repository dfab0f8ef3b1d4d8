//! The checksum alone, and its share of a check.

use std::hint::black_box;
use std::time::Duration;

use generator::bench::one_data_block;
use hdrfs::sys;
use independent::{check, check_with, crc};

use crate::beside::{self, added, measure};
use crate::report::{self, Unit};
use crate::timing::{self, use_up};
use crate::zlib;

pub fn run(rounds: usize) {
    let volume = one_data_block();
    whole_and_in_parts(&volume, rounds);
    by_each_method(&volume, rounds);
    shares(&volume, rounds);
}

/// The proved checksum of all bytes and of all parts, beside the others of the same.
fn whole_and_in_parts(bytes: &[u8], rounds: usize) {
    report::beside_heading("checksum of 16 MiB", Unit::Milliseconds);
    let row = |name: &str, size: usize, proved: &dyn Fn(&[u8]) -> u32| {
        let parts: Vec<&[u8]> = bytes.chunks_exact(size).collect();
        assert_eq!(proved(bytes), added(&parts, crc::slicing), "{name}");
        let work = || use_up(proved(black_box(bytes)));
        let times = measure(rounds, &parts, work);
        report::beside(name, Unit::Milliseconds, &times);
    };
    row("whole, nothing lent", bytes.len(), &checksum::alone);
    row("whole, tables lent", bytes.len(), &checksum::lent);
    for (name, size) in [
        ("parts of 1,000 bytes, tables lent once", 1_000),
        ("parts of 100 bytes, tables lent once", 100),
    ] {
        row(name, size, &|bytes| checksum::of_parts(bytes, size));
    }
    beside::explain();
    println!();
}

/// All methods on the same bytes.
fn by_each_method(bytes: &[u8], rounds: usize) {
    println!(
        "{:<44}{:>10}{:>10}",
        "checksum of 16 MiB, by", "ms", "GiB/s"
    );
    for (form, time) in beside::each_form(rounds, bytes) {
        row(&format!("bits, form \"{}\"", form.name), time);
    }
    let [proved, table, slicing, of_zlib] = timing::best(
        rounds,
        [
            &mut || use_up(checksum::alone(black_box(bytes))),
            &mut || use_up(crc::table(black_box(bytes))),
            &mut || use_up(crc::slicing(black_box(bytes))),
            &mut || use_up(zlib::CRC.map(|crc| crc(black_box(bytes)))),
        ],
    );
    row("the proved library, nothing lent", proved);
    row("a table for one byte", table);
    row("slicing, with 8 tables", slicing);
    if zlib::CRC.is_some() {
        row("zlib", of_zlib);
    }
    println!();
}

fn shares(volume: &[u8], rounds: usize) {
    println!(
        "{:<44}{:>10}{:>10}",
        "one data block, checked", "ms", "GiB/s"
    );
    let [table, slicing, with_table, with_slicing, proved, by_proved] = timing::best(
        rounds,
        [
            &mut || use_up(crc::table(black_box(volume))),
            &mut || use_up(crc::slicing(black_box(volume))),
            &mut || use_up(check_with(black_box(volume), crc::table)),
            &mut || use_up(check(black_box(volume))),
            &mut || use_up(checksum::alone(black_box(volume))),
            &mut || use_up(sys::check(black_box(volume))),
        ],
    );
    row("check with table", with_table);
    row("check with slicing", with_slicing);
    row("check by the proved library", by_proved);
    share(
        "checksum's share of the check with table",
        table,
        with_table,
    );
    share("of the check with slicing", slicing, with_slicing);
    share("of the check by the proved library", proved, by_proved);
    println!();
}

fn row(name: &str, time: Duration) {
    let seconds = time.as_secs_f64();
    println!(
        "{name:<44}{:>10.3}{:>10.2}",
        seconds * 1e3,
        1.0 / 64.0 / seconds
    );
}

fn share(name: &str, part: Duration, whole: Duration) {
    let share = part.as_secs_f64() / whole.as_secs_f64();
    println!("{name:<44}{:>9.0}%", share * 100.0);
}
