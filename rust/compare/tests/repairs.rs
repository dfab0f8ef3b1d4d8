//! Volumes to repair: cut at every byte, cut and written on, damaged, and all edges.
#![forbid(unsafe_code)]

use std::collections::BTreeMap;

use compare::repairs::{self, Repair};
use compare::requests::Request;
use compare::seeds::{sum, Seeds, USUAL};
use compare::tally::Repairs;
use compare::Difference;
use generator::torn::{self, describe, describe_damaged, Kind, Whole, MOST};
use generator::Case;

/// One volume, or one case, for so many of the seeds that are asked for.
const CUT: u64 = 25;
const AGAIN: u64 = 10;
const CASES: u64 = 20;
const DAMAGED: u64 = 2;

/// The seeds that are asked for, one for so many of them, and whether there are enough.
fn seeds(one_for: u64) -> (Seeds, bool) {
    let asked = Seeds::asked();
    let seeds = Seeds {
        count: asked.count.div_ceil(one_for),
        ..asked
    };
    (seeds, asked.count >= USUAL)
}

#[derive(Default)]
struct Counts {
    repairs: Repairs,
    kinds: BTreeMap<Kind, u64>,
}

impl Counts {
    /// Counts what both answered; what differs is told with the volume.
    fn note(
        &mut self,
        compared: Result<Repair, Difference>,
        describe: impl FnOnce() -> String,
    ) -> Result<(), String> {
        let repair = compared.map_err(|difference| format!("{difference}\n{}", describe()))?;
        self.repairs.note(&repair);
        Ok(())
    }

    /// Every beginning of a whole volume.
    fn whole(&mut self, whole: &Whole) -> Result<(), String> {
        (0..=whole.volume.len()).try_for_each(|length| {
            let told = || format!("{length} bytes of {}", describe(whole));
            self.note(repairs::cut(whole, length), told)
        })
    }

    /// Every beginning of the volume of a case, sound or not. Long ones are left out.
    fn case(&mut self, case: &Case) -> Result<(), String> {
        let all = case.volume.len();
        if all > MOST {
            return Ok(());
        }
        (0..=all).try_for_each(|length| {
            let compared = repairs::compare(&case.volume[..length]);
            let told = || format!("{length} bytes of\n{}", generator::describe(case));
            self.note(compared.map(|(_, repair)| repair), told)
        })
    }

    fn damaged(&mut self, seed: u64) -> Result<(), String> {
        let damaged = torn::damaged(seed);
        *self.kinds.entry(damaged.kind).or_default() += 1;
        self.note(repairs::damaged(&damaged), || describe_damaged(&damaged))
    }

    fn add(&mut self, other: &Counts) {
        self.repairs.add(&other.repairs);
        for (kind, count) in &other.kinds {
            *self.kinds.entry(*kind).or_default() += count;
        }
    }
}

/// Damaged volumes, the beginnings of all kinds of others, and the edges, since no other is too long.
#[test]
fn repairs_agree_and_reach_every_answer() {
    let (cases, enough) = seeds(CASES);
    let (damaged, _) = seeds(DAMAGED);
    let mut all = all_edges();
    let counted = cases.each(|seed, counts: &mut Counts| counts.case(&generator::case(seed)));
    all.add(&sum(counted, Counts::add));
    let counted = damaged.each(|seed, counts: &mut Counts| counts.damaged(seed));
    all.add(&sum(counted, Counts::add));
    println!("{} cases, {} damaged", cases.count, damaged.count);
    println!("with the edges\n{}\n{:?}", all.repairs.table(), all.kinds);
    if !enough {
        return;
    }
    assert_eq!(all.repairs.faults(), Vec::<String>::new());
    for kind in Kind::ALL {
        let count = all.kinds.get(&kind).copied().unwrap_or(0);
        assert!(count > 50, "{kind:?}: {count}");
    }
}

fn all_edges() -> Counts {
    let list = torn::edges();
    let places = Seeds {
        first: 0,
        count: list.len() as u64,
    };
    let counted = places.each(|place, counts: &mut Counts| {
        let edge = &list[place as usize];
        counts.note(repairs::edge(edge), || edge.name.clone())
    });
    let sum = sum(counted, Counts::add);
    println!("{} edges\n{}", list.len(), sum.repairs.table());
    // Each byte of nine kinds of blocks, and of a table.
    assert!(sum.repairs.block[0] > 400 && sum.repairs.table[2] > 30);
    assert!(sum.repairs.header[1] > 0 && sum.repairs.header[2] > 0);
    sum
}

/// The header's 2, the table's 2, what is left before a block that is cut, and sound beginnings.
#[test]
fn every_cut_of_a_whole_volume() {
    let (seeds, enough) = seeds(CUT);
    let counted = seeds.each(|seed, counts: &mut Counts| counts.whole(&torn::whole(seed)));
    let told = sum(counted, Counts::add).repairs;
    println!("{} volumes\n{}", seeds.count, told.table());
    // A header has 80 bytes, and no block fewer than 17.
    assert_eq!(told.header[2], 80 * seeds.count);
    assert!(told.sound[0] >= 2 * seeds.count && told.block[0] >= 16 * seeds.count);
    assert!(told.table[2] > 1_000 || !enough);
}

/// The last block, after every cut within it.
#[test]
fn what_is_appended_again_gives_the_same_volume() {
    let (seeds, enough) = seeds(AGAIN);
    let counted = seeds.each(|seed, kinds: &mut [u64; 8]| {
        let whole = torn::whole(seed);
        let again = repairs::append_again(&whole);
        let request = again.map_err(|difference| format!("{difference}\n{}", describe(&whole)))?;
        kinds[request.kind()] += 1;
        Ok(())
    });
    let counted = counted.unwrap_or_else(|told| panic!("{told}"));
    for (kind, name) in Request::KINDS.into_iter().enumerate() {
        let count: u64 = counted.iter().map(|kinds| kinds[kind]).sum();
        println!("{name}: {count}");
        let is_last = name != "table";
        assert!(is_last || count == 0, "{name} behind another block");
        assert!(count > 0 || !is_last || !enough, "{name}: {count}");
    }
}
