//! What comes out is compared before anything is timed: the engine is held to the
//! witness in its answer and in every number of the five lent slices, both joiners
//! to the engine in their three lists, on every sheet that is timed and on
//! thousands of random ones. A difference ends the benchmark, and its last line
//! says on which sheet.

use std::ops::Range;
use std::thread::panicking;

use ::tests::held;
use witness::call::{Call, Outcome, TurnCall};
use witness::checks::IN_ORDER;
use witness::generate::{any, damaged, Random, Sheet};
use witness::{Answer, Refusal};

use crate::hashed::{Joiner, Lent, FAST_JOINER, HASH_MAP};
use crate::laying;

/// What is being compared, which names itself on the error stream when it is
/// given up in a panic.
pub struct Named(pub String);

impl Drop for Named {
    fn drop(&mut self) {
        if panicking() {
            eprintln!("the benchmark ends: results differ on {}", self.0);
        }
    }
}

/// Compares all results on a sound sheet, lent rows more than enough, as many as
/// its peak, one more, and one fewer; gives the peak.
///
/// # Panics
/// When they differ.
pub fn sheet(random: &mut Random, sheet: &Sheet) -> usize {
    let peak = with_rows(random, sheet, outline::rows_enough(sheet));
    for rows in [peak, peak + 1] {
        assert_eq!(with_rows(random, sheet, rows), peak, "the peak");
    }
    if peak > 0 {
        let lacking = Call::fitting(sheet.clone(), peak - 1);
        assert_eq!(held::refusal(held::assemble(random, &lacking)), 10);
    }
    let call = Call::fitting(sheet.clone(), peak);
    let outcome = held::outcome(&call);
    joiners(&call, &outcome);
    turn_lists(random, outcome);
    peak
}

/// Compares the engine with the witness on a sound sheet, lent so many rows, which
/// are enough; gives the peak.
///
/// # Panics
/// When they differ.
pub fn with_rows(random: &mut Random, sheet: &Sheet, rows: usize) -> usize {
    match held::assemble(random, &Call::fitting(sheet.clone(), rows)) {
        Answer::Accepted { peak, .. } => peak as usize,
        Answer::Refused(refusal) => panic!("with {} rows: {:?}", rows, refusal),
    }
}

/// Compares both joiners with what the engine made of a call that it does not
/// refuse for want of rows.
fn joiners(call: &Call, engine: &Outcome) {
    let wanted = match engine.answer {
        Answer::Accepted { polygons, .. } => Ok(polygons),
        Answer::Refused(refusal) => Err(refusal),
    };
    let lists = [&engine.polygons, &engine.sequences, &engine.turns];
    for (name, joiner) in [("hash map", HASH_MAP), ("fast joiner", FAST_JOINER)] {
        let (answer, left) = joined(call, joiner);
        assert_eq!(answer, wanted, "the answer of the {}", name);
        let names = ["polygons", "sequences", "turns"];
        for (which, (left, wanted)) in names.iter().zip(left.iter().zip(lists)) {
            assert!(left == wanted, "the {} of the {} differ", which, name);
        }
    }
}

/// A joiner's answer to a call, and what the three lists hold then.
fn joined(call: &Call, joiner: Joiner) -> (Result<u32, Refusal>, [Vec<u32>; 3]) {
    let lengths = [call.polygons, call.sequences, call.turns];
    let mut lists = lengths.map(|length| vec![call.fill as u32; length]);
    let [polygons, sequences, turns] = &mut lists;
    let mut lent = Lent {
        polygons,
        sequences,
        turns,
        journal: call.journal,
    };
    let answer = joiner(&call.edges, &mut lent);
    (answer, lists)
}

/// Compares the turn list of an accepted call with the one that engine and
/// witness read from its numbers, and with the one laid by itself where that can
/// be.
fn turn_lists(random: &mut Random, outcome: Outcome) {
    let call = TurnCall::fitting(outcome.polygons, outcome.sequences);
    let answer = held::turns(random, &call);
    assert_eq!(held::turn_refusal(answer), 0);
    let read = call.outcome(witness::turns).turns;
    assert!(
        read == outcome.turns,
        "the turn list of the numbers differs"
    );
    let (polygons, sequences) = (&call.polygons, &call.sequences);
    let count = polygons.iter().max().map_or(0, |most| *most as usize);
    let mut laid = vec![call.fill; call.turns];
    if laying::lay(polygons, sequences, count, &mut laid) {
        assert!(laid == outcome.turns, "the turn list laid differs");
    }
}

/// Compares on a random sheet for each of these seeds.
///
/// # Panics
/// When results differ.
pub fn random_sheets(seeds: Range<u64>) {
    for seed in seeds {
        let _named = Named(format!("the random sheet of seed {}", seed));
        let random = &mut Random::new(seed);
        let any = any(random);
        sheet(random, &any);
    }
}

/// Compares on a call damaged for each refusal and seed. The joiners need no rows,
/// so they are not asked where the engine lacks one.
///
/// # Panics
/// When results differ.
pub fn damaged_calls(seeds: Range<u64>) {
    for refusal in IN_ORDER {
        for seed in seeds.clone() {
            let name = format!("the sheet of seed {} damaged for refusal {}", seed, refusal);
            let _named = Named(name);
            let random = &mut Random::new(seed);
            let call = damaged(random, refusal);
            assert_eq!(held::refusal(held::assemble(random, &call)), refusal);
            if refusal != 10 {
                joiners(&call, &held::outcome(&call));
            }
        }
    }
}

#[test]
fn nothing_differs_on_random_sheets() {
    random_sheets(0..1_000);
}

#[test]
fn nothing_differs_on_damaged_sheets() {
    damaged_calls(0..200);
}
