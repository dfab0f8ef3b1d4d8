//! The proved library's work beside the same checksums alone, by three other methods: bit by bit in
//! the fastest plain form, by slicing, and by zlib.

use std::hint::black_box;
use std::sync::LazyLock;
use std::time::Duration;

use crc_forms::{Form, FORMS};
use generator::rng::Rng;
use independent::crc;

use crate::timing::{self, use_up};
use crate::zlib;

/// The time of a work, and those of its checksums alone.
pub struct Beside {
    pub proved: Duration,
    pub bits: Duration,
    pub slicing: Duration,
    pub zlib: Option<Duration>,
}

/// Times the work in turns with the checksums of these parts, which are those that it needs.
pub fn measure(rounds: usize, parts: &[&[u8]], mut work: impl FnMut()) -> Beside {
    let form = fastest_form();
    let [proved, bits, slicing, zlib] = timing::best(
        rounds,
        [
            &mut work,
            &mut || use_up(added(black_box(parts), form.crc)),
            &mut || use_up(added(black_box(parts), crc::slicing)),
            &mut || use_up(zlib::CRC.map(|crc| added(black_box(parts), crc))),
        ],
    );
    Beside {
        proved,
        bits,
        slicing,
        zlib: zlib::CRC.map(|_| zlib),
    }
}

/// The checksums of the parts, all added by exclusive or.
pub fn added(parts: &[&[u8]], crc: impl Fn(&[u8]) -> u32) -> u32 {
    parts.iter().fold(0, |sum, part| sum ^ crc(part))
}

/// The plain form that is fastest here. It is looked for once.
fn fastest_form() -> Form {
    static FASTEST: LazyLock<Form> = LazyLock::new(|| {
        let bytes = Rng::new(1).bytes(1 << 20);
        let times = each_form(9, &bytes);
        let (form, _) = times.into_iter().min_by_key(|(_, time)| *time).unwrap();
        form
    });
    *FASTEST
}

/// The forms and their times on these bytes.
pub fn each_form(rounds: usize, bytes: &[u8]) -> [(Form, Duration); 4] {
    let mut works = FORMS.map(|form| move || use_up((form.crc)(black_box(bytes))));
    let works = works.each_mut().map(|work| work as &mut dyn FnMut());
    let times = timing::best(rounds, works);
    std::array::from_fn(|place| (FORMS[place], times[place]))
}

/// Says what stands in the columns.
pub fn explain() {
    let name = fastest_form().name;
    println!("beside it the same checksums alone: bit by bit in the fastest form, \"{name}\",");
    println!("by slicing with 8 tables, and by zlib");
    zlib::say_if_missing();
}
