//! Trees of link tables: from seeds, by the bookmarks of cases, and at all edges.
#![forbid(unsafe_code)]

use std::collections::BTreeMap;

use compare::seeds::{sum, Seeds, USUAL};
use compare::texts::FEW;
use compare::trees::{self, Seen};
use generator::tree::{describe, edges, tree, Kind, Tree};

/// One tree, and one case, for so many of the seeds that are asked for.
const TREES: u64 = 2;
const CASES: u64 = 20;

/// The seeds that are asked for, one for so many of them.
fn seeds(one_for: u64) -> Seeds {
    let asked = Seeds::asked();
    Seeds {
        count: asked.count.div_ceil(one_for),
        ..asked
    }
}

#[derive(Default)]
struct Counts {
    seen: Seen,
    kinds: BTreeMap<Kind, u64>,
    /// Trees at bookmarks that say that no table is due.
    not_due: u64,
}

impl Counts {
    /// Compares one tree; what differs is told with its seed and bytes.
    fn tree(&mut self, made: &Tree) -> Result<(), String> {
        let compared = trees::compare(made, &mut self.seen);
        compared.map_err(|difference| format!("{difference}\n{}", describe(made)))?;
        *self.kinds.entry(made.kind).or_default() += 1;
        self.not_due += u64::from(!made.mark.due);
        Ok(())
    }

    /// Compares the trees of one case.
    fn case(&mut self, seed: u64) -> Result<(), String> {
        let case = generator::case(seed);
        let compared = trees::of_case(&case, &mut self.seen);
        compared.map_err(|difference| format!("{difference}\n{}", generator::describe(&case)))
    }

    fn add(&mut self, other: &Counts) {
        self.seen.add(&other.seen);
        self.not_due += other.not_due;
        for (kind, count) in &other.kinds {
            *self.kinds.entry(*kind).or_default() += count;
        }
    }

    fn print(&self, what: &str) {
        let Seen {
            numbers,
            texts,
            made,
            lines,
        } = &self.seen;
        println!("{what}\n{}\n{:?}", numbers.table(), self.kinds);
        println!("{made} answers that the making fixes, {lines} lines; {texts}");
        println!("{} trees with no table said to be due", self.not_due);
    }
}

/// The edges are counted too, since few seeds have a volume that is too long.
#[test]
fn trees_agree_and_reach_every_refusal() {
    let (random, cases) = (seeds(TREES), seeds(CASES));
    let mut all = all_edges();
    let counted = random.each(|seed, counts: &mut Counts| counts.tree(&tree(seed)));
    all.add(&sum(counted, Counts::add));
    let counted = cases.each(|seed, counts: &mut Counts| counts.case(seed));
    all.add(&sum(counted, Counts::add));
    let told = format!("{} trees, {} cases", random.count, cases.count);
    all.print(&format!("{told}, with the edges"));
    if Seeds::asked().count < USUAL {
        return;
    }
    assert_eq!(all.seen.numbers.faults(), Vec::<String>::new());
    for kind in Kind::ALL {
        let count = all.kinds.get(&kind).copied().unwrap_or(0);
        let least = match kind {
            Kind::TooLong => 1,
            Kind::Full => 15,
            _ => 50,
        };
        assert!(count >= least, "{kind:?}: {count}");
    }
    // One tree in 33 is refused for a name, and of these most for a later one.
    assert!(!all.seen.texts.are_few(FEW), "{}", all.seen.texts);
    assert!(all.not_due > random.count / 3, "{}", all.not_due);
}

/// Each has its answer written down, for all rooms.
fn all_edges() -> Counts {
    let list = edges();
    let places = Seeds {
        first: 0,
        count: list.len() as u64,
    };
    let counted = places.each(|place, counts: &mut Counts| {
        let edge = &list[place as usize];
        let compared = counts.tree(&edge.tree);
        compared.map_err(|told| format!("{}: {told}", edge.name))
    });
    let sum = sum(counted, Counts::add);
    sum.print(&format!("{} edges", list.len()));
    let numbers = &sum.seen.numbers;
    for number in [0, 1, 2, 5, 7, 8, 9, 10, 13, 17, 24] {
        assert!(numbers.tree[number] > 0, "no edge with {number}");
    }
    sum
}
