//! Two faults in one call, in every pair of refusals: which of them is given,
//! and with which place, must be as the witness has it.

use std::collections::BTreeSet;

use outline::Outlines;
use tests::held::{assemble, refusal, turn_refusal, turns};
use witness::call::TurnCall;
use witness::checks::{BY_EDGE, IN_ORDER};
use witness::generate::{any, damage, damaged, Random, Seed};

#[test]
fn two_faults_in_every_pair() {
    let mut pairs = BTreeSet::new();
    for (at, second) in IN_ORDER.into_iter().enumerate() {
        for first in IN_ORDER.into_iter().take(at) {
            for seed in 0..if first == 2 { 4 } else { 40 } {
                let seed = Seed(1_000 * u64::from(20 * first + second) + seed);
                let random = &mut seed.random();
                let mut call = damaged(random, second);
                if !damage(random, &mut call, first) {
                    continue;
                }
                let got = refusal(assemble(random, &call));
                let either = BY_EDGE.contains(&first) && BY_EDGE.contains(&second);
                assert!(got == first || (either && got == second), "{}", got);
                pairs.insert((first, second));
            }
        }
    }
    assert_eq!(pairs.len(), 66);
}

/// The engine's numbering of some sheet, with its lists long enough to be
/// damaged.
fn numbering(random: &mut Random) -> TurnCall {
    loop {
        let outlines = Outlines::of(&any(random)).unwrap();
        if outlines.polygons().len() >= 4 {
            return TurnCall::fitting(outlines.polygons().to_vec(), outlines.sequences().to_vec());
        }
    }
}

/// Spoils a numbering so that this refusal is due, unless a lower one is.
fn spoil(random: &mut Random, call: &mut TurnCall, refusal: u32) {
    let edges = call.polygons.len();
    let (edge, other) = (random.below(edges), random.below(edges - 1));
    let other = if other >= edge { other + 1 } else { other };
    match refusal {
        11 => call.turns += 1,
        12 => call.polygons[edge] = 0,
        13 => {
            call.polygons[edge] = call.polygons[other];
            call.sequences[edge] = call.sequences[other];
        }
        _ => call.sequences[edge] = [u32::MAX, edges as u32, 1 << 31][random.below(3)],
    }
}

#[test]
fn two_faults_in_a_numbering() {
    for second in 12..=14 {
        for first in 11..second {
            for seed in 0..100 {
                let seed = Seed(1_000 * u64::from(20 * first + second) + seed);
                let random = &mut seed.random();
                let mut call = numbering(random);
                spoil(random, &mut call, second);
                spoil(random, &mut call, first);
                let got = turn_refusal(turns(random, &call));
                assert_eq!(got, first);
            }
        }
    }
}
