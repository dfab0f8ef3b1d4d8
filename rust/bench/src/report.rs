//! Plain tables.

use std::time::Duration;

use crate::beside::Beside;

/// What a time is shown in.
#[derive(Clone, Copy)]
pub enum Unit {
    Milliseconds,
    Microseconds,
}

impl Unit {
    fn name(self) -> &'static str {
        match self {
            Unit::Milliseconds => "ms",
            Unit::Microseconds => "us",
        }
    }

    fn of(self, time: Duration) -> f64 {
        match self {
            Unit::Milliseconds => time.as_secs_f64() * 1e3,
            Unit::Microseconds => time.as_secs_f64() * 1e6,
        }
    }
}

/// The heading of a table of ratios.
pub fn heading(title: &str, unit: Unit) {
    let unit = unit.name();
    println!(
        "{title:<44}{:>10}{:>10}{:>11}{:>9}{:>11}",
        format!("proved {unit}"),
        format!("table {unit}"),
        format!("slicing {unit}"),
        "/ table",
        "/ slicing"
    );
}

/// One row: proved, with table, with slicing.
pub fn row(name: &str, unit: Unit, times: [Duration; 3]) {
    let [proved, table, slicing] = times.map(|time| unit.of(time));
    println!(
        "{name:<44}{proved:>10.3}{table:>10.3}{slicing:>11.3}{:>9.2}{:>11.2}",
        proved / table,
        proved / slicing
    );
}

/// The heading of a table of repairs, whose rows have long names.
pub fn repair_heading(title: &str, unit: Unit) {
    let unit = unit.name();
    println!(
        "{title:<50}{:>10}{:>10}{:>11}{:>9}{:>9}{:>11}{:>9}",
        format!("proved {unit}"),
        format!("table {unit}"),
        format!("slicing {unit}"),
        format!("check {unit}"),
        "/ table",
        "/ slicing",
        "/ check"
    );
}

/// One row: the proved repair, with table, with slicing, and the proved check of the same volume.
pub fn repair(name: &str, unit: Unit, times: [Duration; 4]) {
    let [proved, table, slicing, check] = times.map(|time| unit.of(time));
    println!(
        "{name:<50}{proved:>10.3}{table:>10.3}{slicing:>11.3}{check:>9.3}{:>9.2}{:>11.2}{:>9.2}",
        proved / table,
        proved / slicing,
        proved / check
    );
}

/// The heading of a table with one ratio.
pub fn pair_heading(title: &str, unit: Unit) {
    let unit = unit.name();
    println!(
        "{title:<44}{:>10}{:>15}{:>9}",
        format!("proved {unit}"),
        format!("independent {unit}"),
        "ratio"
    );
}

/// The heading of a table of volumes at fault and the same volumes sound.
pub fn sound_heading(title: &str, unit: Unit) {
    let unit = unit.name();
    println!(
        "{title:<44}{:>10}{:>15}{:>9}",
        format!("fault {unit}"),
        format!("sound {unit}"),
        "ratio"
    );
}

/// The heading of a table of works and the readings that are a part of them.
pub fn part_heading(title: &str, unit: Unit) {
    let unit = unit.name();
    println!(
        "{title:<44}{:>10}{:>15}{:>9}",
        format!("reading {unit}"),
        format!("all {unit}"),
        "part"
    );
}

/// One row of a table with one ratio: that of the first to the second.
pub fn pair(name: &str, unit: Unit, times: [Duration; 2]) {
    let [first, second] = times.map(|time| unit.of(time));
    println!(
        "{name:<44}{first:>10.3}{second:>15.3}{:>9.2}",
        first / second
    );
}

/// The heading of a table of works beside their checksums alone.
pub fn beside_heading(title: &str, unit: Unit) {
    let unit = unit.name();
    println!(
        "{title:<44}{:>10}{:>9}{:>11}{:>9}{:>8}{:>11}{:>8}",
        format!("proved {unit}"),
        format!("bits {unit}"),
        format!("slicing {unit}"),
        format!("zlib {unit}"),
        "/ bits",
        "/ slicing",
        "/ zlib"
    );
}

/// One row: the work, its checksums by three methods, and the ratios to these.
pub fn beside(name: &str, unit: Unit, times: &Beside) {
    let [proved, bits, slicing] =
        [times.proved, times.bits, times.slicing].map(|time| unit.of(time));
    let zlib = times.zlib.map(|time| unit.of(time));
    println!(
        "{name:<44}{proved:>10.3}{bits:>9.3}{slicing:>11.3}{:>9}{:>8.2}{:>11.2}{:>8}",
        zlib.map_or("-".into(), |zlib| format!("{zlib:.3}")),
        proved / bits,
        proved / slicing,
        zlib.map_or("-".into(), |zlib| format!("{:.2}", proved / zlib))
    );
}
