//! Every refusal that can occur is reached, and verdicts fixed by a case's
//! making are the ones given.

mod common;

use common::{bookmark, number};
use generator::number::FULL;
use generator::{case, describe, edges, Case, Expected};
use independent::refusal::LARGEST;
use independent::{check, fetch, lookup, read, runs, Place, Reading, Refusal, Verdict};

const SEEDS: u64 = 20_000;

/// One count for each refusal number; 0 stands for no refusal.
type Numbers = [u64; LARGEST + 1];

/// How often each answer was given.
#[derive(Default)]
struct Counts {
    check: Numbers,
    read: Numbers,
    /// Readings at the largest number, where 0 is the end.
    full: Numbers,
    lookup: Numbers,
    runs: Numbers,
    fetch: Numbers,
    holes: u64,
    stored: u64,
    past_end: u64,
    ends: u64,
    some_runs: u64,
}

impl Counts {
    fn add(&mut self, case: &Case) {
        let volume = &case.volume;
        let verdict = check(volume);
        let refusal = match verdict {
            Verdict::Accepted { .. } => 0,
            Verdict::Refused { refusal, .. } => refusal.number,
        };
        self.check[refusal as usize] += 1;
        compare(case, verdict);

        for mark in &case.bookmarks {
            let answer = read(volume, bookmark(mark));
            self.read[number(&answer) as usize] += 1;
            self.full[number(&answer) as usize] += u64::from(mark.number == FULL);
            self.ends += u64::from(answer == Ok(Reading::End));
        }
        for &offset in &case.inode_offsets {
            for &position in &case.positions {
                let answer = lookup(volume, offset, &case.lengths, position);
                self.lookup[number(&answer) as usize] += 1;
                match answer {
                    Ok(Place::Hole) => self.holes += 1,
                    Ok(Place::Stored { .. }) => self.stored += 1,
                    Ok(Place::PastEnd) => self.past_end += 1,
                    Err(_) => {}
                }
            }
            for &(from, to) in &case.ranges {
                let mut out = vec![3; case.room];
                let answer = runs(volume, offset, &case.lengths, from, to, &mut out);
                self.runs[number(&answer) as usize] += 1;
                self.some_runs += u64::from(matches!(answer, Ok(1..)));
                if answer.is_err() {
                    assert!(out.iter().all(|&n| n == 3), "{}", describe(case));
                }
            }
        }
        for &(volume_number, offset, length) in &case.fetches {
            let answer = fetch(volume, &case.other, volume_number, offset, length);
            self.fetch[number(&answer) as usize] += 1;
        }
    }

    fn print(&self) {
        println!("number     check      read      full    lookup      runs     fetch");
        for k in 0..=LARGEST {
            println!(
                "{k:6} {:9} {:9} {:9} {:9} {:9} {:9}",
                self.check[k],
                self.read[k],
                self.full[k],
                self.lookup[k],
                self.runs[k],
                self.fetch[k]
            );
        }
        println!(
            "holes {} stored {} past end {} ends {} ranges with runs {}",
            self.holes, self.stored, self.past_end, self.ends, self.some_runs
        );
    }
}

/// Fails if the making of the case promised another verdict.
fn compare(case: &Case, verdict: Verdict) {
    let fits = match case.expected {
        Expected::Unknown => true,
        Expected::Accepted => matches!(verdict, Verdict::Accepted { .. }),
        Expected::Refused {
            number,
            fault,
            offset,
            blocks,
        } => {
            let refusal = Refusal {
                number,
                text: fault.text,
                start: fault.start,
            };
            verdict
                == Verdict::Refused {
                    refusal,
                    offset,
                    blocks,
                }
        }
    };
    assert!(fits, "{verdict:?}\n{}", describe(case));
}

/// Fails unless exactly these refusals were reached.
fn reached(name: &str, counts: &Numbers, expected: &[usize]) {
    for (k, &count) in counts.iter().enumerate() {
        assert_eq!(count > 0, expected.contains(&k), "{name}, refusal {k}");
    }
}

#[test]
fn every_refusal_is_reached() {
    let mut counts = Counts::default();
    for seed in 0..SEEDS {
        counts.add(&case(seed));
    }
    counts.print();
    reached("check", &counts.check, &(0..=14).collect::<Vec<_>>());
    let by_bookmark = [0, 1, 2, 5, 7, 8, 9, 10, 11, 12, 13, 14];
    reached("read", &counts.read, &by_bookmark);
    reached("read at the largest number", &counts.full, &by_bookmark);
    // No last time, no table due, no header read: 3, 4, 6, 13 and 14 stay out.
    let own = [0, 1, 2, 5, 7, 8, 9, 10, 11, 12, 15, 16];
    reached("lookup", &counts.lookup, &own);
    reached("runs", &counts.runs, &[&own[..], &[17]].concat());
    reached("fetch", &counts.fetch, &[0, 1, 2, 3, 4, 5, 6, 16]);
    let others = [
        counts.holes,
        counts.stored,
        counts.past_end,
        counts.ends,
        counts.some_runs,
    ];
    assert!(others.iter().all(|&count| count > 1_000), "{others:?}");
}

#[test]
fn edges_are_as_expected() {
    let mut counts = Counts::default();
    for case in edges() {
        counts.add(&case);
    }
    counts.print();
}

#[test]
fn a_seed_gives_one_case() {
    for seed in 0..200 {
        assert_eq!(describe(&case(seed)), describe(&case(seed)));
    }
    assert_ne!(describe(&case(1)), describe(&case(2)));
}
