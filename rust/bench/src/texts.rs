//! The check of a whole volume whose last name is at fault, beside the same with that name sound.

use std::hint::black_box;

use generator::bench::{last_names, LastName};
use hdrfs::sys;
use independent::{check, Refusal, Verdict};

use crate::report::{self, Unit};
use crate::timing::{self, use_up};

pub fn run(rounds: usize) {
    report::sound_heading("last name at fault in 16 MiB", Unit::Milliseconds);
    for input in last_names() {
        agree(&input);
        let (bad, sound) = (&input.bad[..], &input.sound[..]);
        let times = timing::best(
            rounds,
            [&mut || use_up(sys::check(black_box(bad))), &mut || {
                use_up(sys::check(black_box(sound)))
            }],
        );
        report::pair(input.name, Unit::Milliseconds, times);
    }
    println!("both by the proved library\n");
}

/// Times mean nothing where the answers differ.
fn agree(input: &LastName) {
    assert!(matches!(check(&input.sound), Verdict::Accepted { .. }));
    let LastName { offset, fault, .. } = *input;
    let refusal = Refusal::not_text(fault.text, fault.start);
    let verdict = check(&input.bad);
    assert!(matches!(verdict, Verdict::Refused { refusal: told, .. } if told == refusal));
    let proved = sys::check(&input.bad);
    let told = (proved.refusal, proved.text, proved.start, proved.offset);
    assert_eq!(told, (10, fault.text, fault.start, offset));
    assert_eq!(sys::check(&input.sound).refusal, 0);
}
