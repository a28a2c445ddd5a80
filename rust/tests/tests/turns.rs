//! The turn list through the static library, held against the witness: on the
//! numberings of sheets, whole, shuffled and spoilt, on lists of small and of
//! any numbers, on every length that is wrong by one. And the turn list that
//! comes with a sheet's numbers, held against the one that is read from them and
//! against the edges themselves.

use std::collections::BTreeMap;

use outline::Outlines;
use tests::held::{turn_refusal, turned, turns};
use witness::call::TurnCall;
use witness::declared;
use witness::generate::{any, comb, patchwork, saw, squares, Random, Seed, Sheet};
use witness::geometry::{read_edges, Edge};
use witness::TurnAnswer;

/// The numbering that the rules declare for a sheet.
fn numbering(sheet: &Sheet) -> TurnCall {
    let numbering = declared::numbering(&read_edges(sheet));
    TurnCall::fitting(numbering.polygons, numbering.sequences)
}

/// The same numbering with the edges in another order.
fn shuffled(random: &mut Random, call: &TurnCall) -> TurnCall {
    let mut places: Vec<usize> = (0..call.polygons.len()).collect();
    random.shuffle(&mut places);
    let polygons = places.iter().map(|place| call.polygons[*place]);
    let sequences = places.iter().map(|place| call.sequences[*place]);
    TurnCall::fitting(polygons.collect(), sequences.collect())
}

/// Changes one number of the two lists, by a little or to anything.
fn spoil(random: &mut Random, call: &mut TurnCall) {
    let edge = random.below(call.polygons.len());
    let list = if random.one_in(2) {
        &mut call.polygons
    } else {
        &mut call.sequences
    };
    list[edge] = match random.below(4) {
        0 => list[edge].wrapping_add(1),
        1 => list[edge].wrapping_sub(1),
        2 => [0, 1, u32::MAX, 1 << 31][random.below(4)],
        _ => random.draw() as u32,
    };
}

#[test]
fn good_and_damaged_numberings() {
    let mut met: BTreeMap<u32, usize> = BTreeMap::new();
    for seed in 0..4_000 {
        let seed = Seed(seed);
        let random = &mut seed.random();
        let call = numbering(&any(random));
        assert_eq!(turn_refusal(turns(random, &call)), 0);
        let mut call = shuffled(random, &call);
        assert_eq!(turn_refusal(turns(random, &call)), 0);
        for _ in 0..if call.polygons.is_empty() { 0 } else { 4 } {
            spoil(random, &mut call);
            let refusal = turn_refusal(turns(random, &call));
            *met.entry(refusal).or_insert(0) += 1;
        }
    }
    for refusal in [12, 13, 14] {
        assert!(met[&refusal] > 500, "{:?}", met);
    }
}

#[test]
fn lists_of_small_numbers() {
    let mut met: BTreeMap<u32, usize> = BTreeMap::new();
    for seed in 0..10_000 {
        let seed = Seed(seed);
        let random = &mut seed.random();
        let edges = random.below(7);
        let mut list = |lowest: i32| -> Vec<u32> {
            let number = |_| random.between(lowest, 3) as u32;
            (0..edges).map(number).collect()
        };
        let call = TurnCall::fitting(list(1), list(0));
        let refusal = turn_refusal(turns(random, &call));
        *met.entry(refusal).or_insert(0) += 1;
    }
    assert!(
        met[&0] > 500 && met[&13] > 500 && met[&14] > 500,
        "{:?}",
        met
    );
}

#[test]
fn every_length_wrong_by_one() {
    let random = &mut Random::new(7);
    for edges in [0, 1, 2, 3, 4_095, 4_096, 4_097] {
        for wrong in 0..7 {
            let mut lengths = [edges; 3];
            if wrong < 6 {
                let length: &mut usize = &mut lengths[wrong / 2];
                *length = match wrong % 2 {
                    0 => *length + 1,
                    _ => length.saturating_sub(1),
                };
            }
            let call = TurnCall {
                polygons: vec![1; lengths[0]],
                sequences: (0..lengths[1] as u32).collect(),
                turns: lengths[2],
                fill: 0,
            };
            let fits = lengths == [edges; 3] && edges <= 4_096;
            let expected = if fits { 0 } else { 11 };
            assert_eq!(turn_refusal(turns(random, &call)), expected);
        }
    }
}

#[test]
fn the_longest_lists() {
    let random = &mut Random::new(8);
    let backwards = TurnCall::fitting(vec![1; 4_096], (0..4_096).rev().collect());
    let apart = TurnCall::fitting((1..=4_096).rev().collect(), vec![0; 4_096]);
    let accepted = |polygons| TurnAnswer::Accepted { polygons };
    assert_eq!(turns(random, &backwards), accepted(1));
    assert_eq!(turns(random, &apart), accepted(4_096));
    for sheet in [
        saw(random, 11),
        comb(random, 1_024),
        squares(random, 32, 32),
    ] {
        let call = numbering(&sheet);
        assert_eq!(turn_refusal(turns(random, &call)), 0);
        let call = shuffled(random, &call);
        assert_eq!(turn_refusal(turns(random, &call)), 0);
    }
}

/// Each edge ends where the next begins, and the last where the first does.
fn check_end_to_end(edges: &[Edge], places: &[u32]) {
    let following = places.iter().cycle().skip(1);
    for (place, next) in places.iter().zip(following) {
        let (edge, next) = (edges[*place as usize], edges[*next as usize]);
        assert_eq!(edge.head, next.tail);
    }
}

/// The turn list that comes with a sheet's numbers is the one that is read from
/// them, and lays each outline's edges end to end, from the edge numbered 0.
fn check_assembled(sheet: &Sheet) {
    let outlines = Outlines::of(sheet).unwrap();
    let polygons = outlines.count() as u32;
    let mut list = vec![0; outlines.turns().len()];
    let answer = outline::turns(outlines.polygons(), outlines.sequences(), &mut list);
    assert_eq!(turned(answer), TurnAnswer::Accepted { polygons });
    assert_eq!(outlines.turns(), list);
    let edges = read_edges(sheet);
    for outline in 1..=outlines.count() {
        let places = outlines.places(outline);
        assert_eq!(outlines.sequences()[places[0] as usize], 0);
        check_end_to_end(&edges, places);
    }
}

#[test]
fn what_is_assembled_is_in_turn() {
    for seed in 0..2_000 {
        let seed = Seed(seed);
        check_assembled(&any(&mut seed.random()));
    }
    let random = &mut Random::new(9);
    check_assembled(&saw(random, 11));
    check_assembled(&comb(random, 1_024));
    check_assembled(&squares(random, 32, 32));
    check_assembled(&patchwork(random, 32, 32));
}
