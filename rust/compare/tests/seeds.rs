//! Cases from seeds, and all edges.
#![forbid(unsafe_code)]

use compare::case;
use compare::seeds::{Seeds, USUAL};
use compare::tally::Tally;
use generator::{describe, Case};

/// Compares one case; what differs is told with its seed and bytes.
fn compare_case(case: &Case, tally: &mut Tally) -> Result<(), String> {
    case::compare(case, tally).map_err(|difference| format!("{difference}\n{}", describe(case)))
}

#[test]
fn seeds_agree_and_reach_every_refusal() {
    let seeds = Seeds::asked();
    let tallies = seeds.each(|seed, tally| compare_case(&generator::case(seed), tally));
    let mut sum = Tally::default();
    for tally in tallies.unwrap_or_else(|difference| panic!("{difference}")) {
        sum.add(&tally);
    }
    println!(
        "{} seeds from {}\n{}",
        seeds.count,
        seeds.first,
        sum.table()
    );
    if seeds.count >= USUAL {
        assert_eq!(sum.faults(), Vec::<String>::new());
    }
}

#[test]
fn edges_agree() {
    let mut tally = Tally::default();
    let mut lengths = Vec::new();
    for case in generator::edges() {
        lengths.push(case.volume.len());
        let compared = compare_case(&case, &mut tally);
        compared.unwrap_or_else(|difference| panic!("{difference}"));
    }
    println!("{}", tally.table());
    for length in [0, 1, 79, 80, 81, 16_777_216, 16_777_217] {
        assert!(lengths.contains(&length), "no edge of {length} bytes");
    }
}
