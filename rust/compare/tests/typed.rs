//! The calls that give Rust types: the check, the header, blocks, positions, and runs one by one.
#![forbid(unsafe_code)]

use compare::case::{self, Typed};
use compare::items::Asked;
use compare::seeds::{Seeds, USUAL};
use generator::describe;
use generator::draft::Draft;
use generator::image::{Extent, REPEATED};
use generator::rng::Rng;

/// Very many runs take long, so they are compared seldom.
fn most_runs(seed: u64) -> u64 {
    if seed.is_multiple_of(100) {
        200_000
    } else {
        3_000
    }
}

#[test]
fn typed_calls_agree() {
    let asked = Seeds::asked();
    let seeds = Seeds {
        count: asked.count.div_ceil(20),
        ..asked
    };
    let counts = seeds.each(|seed, typed: &mut Typed| {
        let case = generator::case(seed);
        let told = |difference| format!("{difference}\n{}", describe(&case));
        case::typed(&case, most_runs(seed), typed).map_err(told)
    });
    let counts = counts.unwrap_or_else(|difference| panic!("{difference}"));
    let mut sum = Typed::default();
    for typed in counts {
        sum.runs += typed.runs;
        sum.texts.add(&typed.texts);
    }
    println!("{} seeds from {}, {sum:?}", seeds.count, seeds.first);
    let enough = sum.runs > 50_000 && !sum.texts.are_few(5);
    assert!(enough || asked.count < USUAL);
}

/// Copies of a block, from a position on.
fn copies(size: u64, count: u64, logical: u64) -> Extent {
    Extent {
        volume: 0,
        start: 80,
        size,
        multiplicity: REPEATED,
        count,
        pre: 0,
        post: 0,
        logical,
    }
}

/// More runs than the iterator asks for at a time: next to each other, with holes between, and far
/// away from the beginning.
#[test]
fn runs_of_many_pieces_agree() {
    let far = 1 << 50;
    let files: [(u64, Vec<Extent>); 4] = [
        (300_003, vec![copies(1, 300_000, 3)]),
        (
            400_000,
            vec![copies(1, 150_000, 0), copies(2, 100_000, 150_000)],
        ),
        (u64::MAX, vec![copies(3, 90_000, far), copies(1, 70_000, 9)]),
        (far + 65_536, vec![copies(1, 200_000, far)]),
    ];
    for (size, extents) in files {
        let mut rng = Rng::new(size);
        let mut draft = Draft::new(&mut rng, 0);
        draft.file(&mut rng, 1, size, extents);
        let lengths = 100u64.to_le_bytes();
        let asked = Asked::new(&draft.bytes, 80, &lengths, u64::MAX);
        let all = asked.all_runs();
        let all = all.unwrap_or_else(|difference| panic!("{difference}"));
        assert!(all > 65_536, "only {all} runs");
        for (from, to) in [(5, 90_000), (70_008, far + 3), (far - 1, far + 140_001)] {
            let compared = asked.runs(from, to);
            compared.unwrap_or_else(|difference| panic!("{difference}"));
        }
    }
}
