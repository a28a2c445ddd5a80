//! The turn list: valid numberings in any order are accepted, damaged ones get
//! the refusal that a statement over all pairs of edges gives, and so does
//! every short pair of lists of small numbers.

use std::collections::BTreeMap;

use witness::call::{TurnCall, TurnOutcome};
use witness::generate::Random;
use witness::{turns, Refusal, TurnAnswer};

/// What document 01 says of a call: the refusal and its place, or nothing.
fn stated(call: &TurnCall) -> Option<(u32, u32)> {
    let edges = call.polygons.len();
    if call.sequences.len() != edges || call.turns != edges || edges >= 4097 {
        return Some((11, 0));
    }
    let polygon = |edge: usize| u64::from(call.polygons[edge]);
    let sequence = |edge: usize| u64::from(call.sequences[edge]);
    let zero = |edge: usize| polygon(edge) == 0;
    let repeated = |edge: usize| {
        (0..edge).any(|other| polygon(other) == polygon(edge) && sequence(other) == sequence(edge))
    };
    let gap = |edge: usize| {
        let before =
            |other: usize| polygon(other) == polygon(edge) && sequence(other) + 1 == sequence(edge);
        let polygon_before = |other: usize| polygon(other) + 1 == polygon(edge);
        (sequence(edge) > 0 && !(0..edges).any(before))
            || (polygon(edge) > 1 && !(0..edges).any(polygon_before))
    };
    let first = |fault: &dyn Fn(usize) -> bool, number: u32| {
        let place = (0..edges).find(|edge| fault(*edge));
        place.map(|place| (number, place as u32))
    };
    first(&zero, 12)
        .or_else(|| first(&repeated, 13))
        .or_else(|| first(&gap, 14))
}

/// Checks the outcome of a call and gives its refusal's number, 0 if accepted.
fn check(call: &TurnCall, seed: u64) -> u32 {
    let outcome = call.outcome(turns);
    match stated(call) {
        Some((number, place)) => {
            let refusal = TurnAnswer::Refused(Refusal { number, place });
            assert_eq!(outcome.answer, refusal, "seed {}: {:?}", seed, call);
            assert_eq!(outcome.turns, vec![call.fill; call.turns]);
            number
        }
        None => {
            check_accepted(call, &outcome);
            0
        }
    }
}

/// The turns name every edge once; each next one is one further in its outline,
/// or the first of the next outline.
fn check_accepted(call: &TurnCall, outcome: &TurnOutcome) {
    let pair = |turn: &u32| {
        let edge = *turn as usize;
        (call.polygons[edge], call.sequences[edge])
    };
    let mut before = (0, 0);
    for here in outcome.turns.iter().map(pair) {
        let next_edge = (before.0, before.1 + 1);
        let next_outline = (before.0 + 1, 0);
        assert!(here == next_edge || here == next_outline, "{:?}", call);
        before = here;
    }
    assert_eq!(outcome.turns.len(), call.polygons.len());
    let polygons = before.0;
    assert_eq!(outcome.answer, TurnAnswer::Accepted { polygons });
}

/// A valid numbering of some outlines, its edges in random order.
fn numbering(random: &mut Random, outlines: usize, longest: usize) -> TurnCall {
    let mut pairs = Vec::new();
    for polygon in 1..=outlines as u32 {
        let length = 1 + random.below(longest) as u32;
        pairs.extend((0..length).map(|sequence| (polygon, sequence)));
    }
    random.shuffle(&mut pairs);
    let (polygons, sequences) = pairs.into_iter().unzip();
    TurnCall::fitting(polygons, sequences)
}

fn some_numbering(random: &mut Random) -> TurnCall {
    let (outlines, longest) = (1 + random.below(5), 1 + random.below(12));
    numbering(random, outlines, longest)
}

#[test]
fn valid_numberings_in_any_order() {
    for seed in 0..2_000 {
        let mut random = Random::new(seed);
        let call = some_numbering(&mut random);
        assert_eq!(check(&call, seed), 0, "seed {}", seed);
    }
}

#[test]
fn damaged_numberings() {
    let mut met: BTreeMap<u32, usize> = BTreeMap::new();
    for seed in 0..6_000 {
        let mut random = Random::new(seed);
        let mut call = some_numbering(&mut random);
        let extreme = [0, 1, 2, 5, u32::MAX, u32::MAX - 1, 1 << 31];
        for _ in 0..1 + random.below(2) {
            let edge = random.below(call.polygons.len());
            let (other, number) = (random.below(call.polygons.len()), random.below(7));
            match random.below(5) {
                0 => call.polygons[edge] = extreme[number],
                1 => call.sequences[edge] = extreme[number],
                2 => call.polygons[edge] = call.polygons[edge].wrapping_add(1),
                3 => call.sequences[edge] = call.sequences[edge].wrapping_add(1),
                _ => {
                    call.polygons[edge] = call.polygons[other];
                    call.sequences[edge] = call.sequences[other];
                }
            }
        }
        *met.entry(check(&call, seed)).or_insert(0) += 1;
    }
    for refusal in [12, 13, 14] {
        assert!(met[&refusal] > 200, "{:?}", met);
    }
}

#[test]
fn every_short_numbering() {
    let mut met: BTreeMap<u32, usize> = BTreeMap::new();
    for edges in 0..=4 {
        for choice in 0..16_u32.pow(edges) {
            let part = |edge: u32, shift: u32| (choice >> (4 * edge + shift)) & 3;
            let polygons = (0..edges).map(|edge| part(edge, 0)).collect();
            let sequences = (0..edges).map(|edge| part(edge, 2)).collect();
            let call = TurnCall::fitting(polygons, sequences);
            *met.entry(check(&call, 0)).or_insert(0) += 1;
        }
    }
    assert!(met[&0] > 50 && met[&12] > 500 && met[&13] > 500 && met[&14] > 500);
}

#[test]
fn lengths_that_differ() {
    let call = |polygons: usize, sequences: usize, turns: usize| TurnCall {
        polygons: (1..=polygons as u32).collect(),
        sequences: vec![0; sequences],
        turns,
        fill: 5,
    };
    for (polygons, sequences, turns) in [(2, 2, 3), (2, 3, 2), (3, 2, 2), (1, 0, 1), (0, 0, 1)] {
        assert_eq!(check(&call(polygons, sequences, turns), 0), 11);
    }
    assert_eq!(check(&call(0, 0, 0), 0), 0);
    assert_eq!(check(&call(4096, 4096, 4096), 0), 0);
    assert_eq!(check(&call(4097, 4097, 4097), 0), 11);
}

#[test]
fn the_longest_outline() {
    let sequences: Vec<u32> = (0..4096).rev().collect();
    let call = TurnCall::fitting(vec![1; 4096], sequences.clone());
    let outcome = call.outcome(turns);
    assert_eq!(outcome.answer, TurnAnswer::Accepted { polygons: 1 });
    assert_eq!(outcome.turns, sequences);
}

#[test]
fn order_of_the_refusals() {
    let refusal = |polygons: &[u32], sequences: &[u32]| {
        let call = TurnCall::fitting(polygons.to_vec(), sequences.to_vec());
        match call.outcome(turns).answer {
            TurnAnswer::Refused(refusal) => (refusal.number, refusal.place),
            TurnAnswer::Accepted { polygons } => (0, polygons),
        }
    };
    assert_eq!(refusal(&[1, 3, 1, 0], &[0, 0, 0, 0]), (12, 3));
    assert_eq!(refusal(&[1, 3, 1, 1], &[0, 0, 2, 0]), (13, 3));
    assert_eq!(refusal(&[1, 3, 1, 1], &[0, 0, 2, 1]), (14, 1));
    assert_eq!(refusal(&[2, 1, 2], &[1, 0, 3]), (14, 0));
    assert_eq!(refusal(&[2], &[0]), (14, 0));
    assert_eq!(refusal(&[1], &[1]), (14, 0));
    assert_eq!(refusal(&[u32::MAX], &[u32::MAX]), (14, 0));
    assert_eq!(refusal(&[0], &[u32::MAX]), (12, 0));
    assert_eq!(refusal(&[2, 1, 2], &[1, 0, 0]), (0, 2));
}
