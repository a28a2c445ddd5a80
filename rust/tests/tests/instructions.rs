//! The instructions of both machines through the static library, held against
//! the witness to the bit: every one of the vectors' sheets, every coordinate,
//! random sheets and the longest ones, and every refusal, alone and before a
//! later one.

use std::collections::BTreeSet;

use outline::text::read_sheet;
use outline::Outlines;
use tests::held::{asked, engines, instruction, told};
use witness::call::CutCall;
use witness::generate::{any, any_cutting, comb, cutting, patchwork, spoil_cutting, squares};
use witness::generate::{Random, Seed, Sheet};
use witness::geometry::{Point, MOST_EDGES};
use witness::instructions::CUT_IN_ORDER;
use witness::vectors::{all_cases, Work};
use witness::{Answer, Instruction, Machine, Refusal};

/// The refusals that are tried edge by edge.
const BY_EDGE: [u32; 3] = [5, 16, 6];

/// The engine's answer for this k.
fn engine(call: &CutCall, k: u32) -> Result<Instruction, Refusal> {
    let lists: [&[u32]; 3] = [&call.polygons, &call.sequences, &call.turns];
    asked(call.machine, &call.edges, lists, k)
}

/// Holds every k of a good call, one past the last and the greatest, on both
/// machines; gives how many instructions there are.
fn hold_every_k(mut call: CutCall) -> usize {
    let mut count = 0;
    for machine in Machine::ALL {
        call.machine = machine;
        let all = call.answers().unwrap();
        for (k, wanted) in (0..).zip(&all) {
            assert_eq!(engine(&call, k), Ok(*wanted), "{} of {:?}", k, call);
        }
        for k in [all.len() as u32, u32::MAX] {
            assert_eq!(engine(&call, k), Err(Refusal::at(18, 0)), "{:?}", call);
        }
        count = all.len();
    }
    count
}

#[test]
fn every_instruction_of_the_vectors_sheets() {
    let (mut sheets, mut instructions) = (0, 0);
    for case in all_cases().unwrap() {
        let call = match case.work {
            Work::Assemble(call, outcome) if matches!(outcome.answer, Answer::Accepted { .. }) => {
                CutCall {
                    edges: call.edges,
                    polygons: outcome.polygons,
                    sequences: outcome.sequences,
                    turns: outcome.turns,
                    k: 0,
                    machine: Machine::Flatbed,
                }
            }
            Work::Instruction(call, Ok(_)) => call,
            Work::Program(input, output) if output.starts_with(b"accepted") => {
                cutting(read_sheet(&input).unwrap(), Machine::Flatbed)
            }
            _ => continue,
        };
        instructions += hold_every_k(call);
        sheets += 1;
    }
    assert_eq!((sheets, instructions), (201, 1_582));
}

/// How many edges the outlines have that every coordinate is tried with.
const ROUND: i32 = 16;

/// Outlines through the points (c, d) for some coordinates c, each with the next
/// one d, the last being followed by the first. So every coordinate is the x and
/// the y of a place.
fn hold_every_coordinate(machine: Machine) {
    let count = 2 * Point::LIMIT + 1;
    let coordinate = |number: i32| number % count - Point::LIMIT;
    let point = |number: i32| [coordinate(number), coordinate(number + 1)];
    let edges = ROUND as u32;
    let mut call = CutCall {
        edges: Vec::new(),
        polygons: vec![1; edges as usize],
        sequences: (0..edges).collect(),
        turns: (0..edges).collect(),
        k: 0,
        machine,
    };
    for first in (0..count).step_by(ROUND as usize) {
        call.edges.clear();
        for at in 0..ROUND {
            let (tail, head) = (first + at, first + (at + 1) % ROUND);
            call.edges.extend([point(tail), point(head)].concat());
            call.edges.push(0);
        }
        let all = call.answers().unwrap();
        for (k, wanted) in (0..).zip(all) {
            assert_eq!(engine(&call, k), Ok(wanted), "{:?}", call);
        }
    }
}

#[test]
fn every_coordinate_on_the_flatbed() {
    hold_every_coordinate(Machine::Flatbed);
}

#[test]
fn every_coordinate_on_the_roll_feeder() {
    hold_every_coordinate(Machine::RollFeeder);
}

/// All instructions as the crate lists them are those of the declared numbers.
#[test]
fn what_is_assembled_is_cut() {
    for seed in 0..1_000 {
        let seed = Seed(seed);
        let sheet = any(&mut seed.random());
        let outlines = Outlines::of(&sheet).unwrap();
        for machine in Machine::ALL {
            let listed = outlines.instructions(engines(machine));
            let wanted = cutting(sheet.clone(), machine).answers().unwrap();
            assert_eq!(listed.len(), wanted.len());
            assert_eq!(listed.map(told).collect::<Vec<_>>(), wanted);
        }
    }
}

#[test]
fn random_calls_and_each_refusal() {
    for seed in 0..1_500 {
        let seed = Seed(seed);
        let random = &mut seed.random();
        let call = any_cutting(random);
        assert!(instruction(random, &call).is_ok());
        for refusal in CUT_IN_ORDER {
            // Lists that are too long are slow to make.
            if refusal == 2 && seed.0 % 50 != 0 {
                continue;
            }
            let mut spoilt = call.clone();
            spoil_cutting(random, &mut spoilt, refusal);
            let given = instruction(random, &spoilt).unwrap_err();
            assert_eq!(given.number, refusal);
        }
    }
}

#[test]
fn two_faults_in_every_pair() {
    let mut pairs = BTreeSet::new();
    for (at, second) in CUT_IN_ORDER.into_iter().enumerate() {
        for first in CUT_IN_ORDER.into_iter().take(at) {
            for seed in 0..if first == 2 { 4 } else { 60 } {
                let seed = Seed(1_000 * u64::from(30 * first + second) + seed);
                let random = &mut seed.random();
                let mut call = any_cutting(random);
                spoil_cutting(random, &mut call, second);
                spoil_cutting(random, &mut call, first);
                let got = instruction(random, &call).unwrap_err().number;
                let either = BY_EDGE.contains(&first) && BY_EDGE.contains(&second);
                assert!(got == first || (either && got == second), "{}", got);
                pairs.insert((first, second));
            }
        }
    }
    assert_eq!(pairs.len(), 66);
}

/// Lists of any small numbers for a triangle: every refusal of numbers and turns
/// in any mixture.
#[test]
fn lists_of_small_numbers() {
    let mut met = BTreeSet::new();
    for seed in 0..10_000 {
        let seed = Seed(seed);
        let random = &mut seed.random();
        let mut call = cutting(witness::worked::TRIANGLE.to_vec(), Machine::RollFeeder);
        for list in [&mut call.polygons, &mut call.sequences, &mut call.turns] {
            let lowest = i32::from(!random.one_in(8));
            match random.below(3) {
                0 => list.iter_mut().for_each(|number| {
                    *number = random.between(lowest, 3) as u32;
                }),
                1 => list.swap(0, random.below(3)),
                _ => {}
            }
        }
        call.k = random.below(6) as u32;
        let refusal = instruction(random, &call).err();
        met.insert(refusal.map_or(0, |refusal| refusal.number));
    }
    assert_eq!(met, BTreeSet::from([0, 12, 13, 14, 18, 24, 25]));
}

fn refused(number: u32, place: usize) -> Result<Instruction, Refusal> {
    Err(Refusal::at(number, place))
}

#[test]
fn an_empty_sheet() {
    let random = &mut Random::new(1);
    for machine in Machine::ALL {
        for k in [0, 1, u32::MAX] {
            let mut call = cutting(Vec::new(), machine);
            call.k = k;
            assert_eq!(instruction(random, &call), refused(18, 0));
            call.turns.push(0);
            assert_eq!(instruction(random, &call), refused(11, 0));
        }
    }
}

/// Every length of the four lists from none to three edges.
#[test]
fn lengths_that_differ() {
    let random = &mut Random::new(2);
    let whole = cutting(witness::worked::TRIANGLE.to_vec(), Machine::Flatbed);
    for lengths in 0..16 * 4_usize.pow(3) {
        let mut call = whole.clone();
        let [p, s, t] = [lengths % 4, lengths / 4 % 4, lengths / 16 % 4];
        call.edges.truncate(lengths / 64);
        call.polygons.truncate(p);
        call.sequences.truncate(s);
        call.turns.truncate(t);
        let edges = call.edges.len() / 5;
        let given = instruction(random, &call)
            .err()
            .map(|refusal| refusal.number);
        if call.edges.len() % 5 != 0 {
            assert_eq!(given, Some(1));
        } else if [p, s, t] != [edges; 3] {
            assert_eq!(given, Some(11));
        } else {
            assert_ne!(given, Some(11));
        }
    }
}

/// Two edges an outline, one outline of all edges, and others between.
fn longest() -> [Sheet; 4] {
    let random = &mut Random::new(3);
    let pair = |at: i32| {
        let (low, high) = (2 * at, 2 * at + 1);
        [0, low, 1, high, 0, 1, high, 0, low, 0]
    };
    let pairs = (0..MOST_EDGES as i32 / 2).flat_map(pair).collect();
    [
        pairs,
        comb(random, 1_024),
        squares(random, 32, 32),
        patchwork(random, 32, 32),
    ]
}

#[test]
fn every_instruction_of_the_longest_sheets() {
    let counts = longest().map(|sheet| hold_every_k(cutting(sheet, Machine::Flatbed)));
    assert_eq!(counts, [8_192, 4_098, 6_144, 6_144]);
}

/// A fault at the last of the most edges is found there.
#[test]
fn faults_at_the_last_of_the_most_edges() {
    let random = &mut Random::new(4);
    let last = MOST_EDGES - 1;
    for sheet in longest() {
        let whole = cutting(sheet, Machine::RollFeeder);
        let mut hold = |spoil: &dyn Fn(&mut CutCall), wanted| {
            let mut call = whole.clone();
            spoil(&mut call);
            assert_eq!(instruction(random, &call), wanted);
        };
        hold(&|call| call.edges[5 * last] = 1_000_001, refused(5, last));
        hold(&|call| call.edges[5 * last + 4] = 256, refused(16, last));
        hold(
            &|call| call.edges.copy_within(5 * last..5 * last + 2, 5 * last + 2),
            refused(6, last),
        );
        hold(&|call| call.polygons[last] = 0, refused(12, last));
        hold(
            &|call| {
                call.polygons[last] = call.polygons[0];
                call.sequences[last] = call.sequences[0];
            },
            refused(13, last),
        );
        hold(&|call| call.polygons[last] = u32::MAX, refused_gap(&whole));
        hold(&|call| call.turns[last] = u32::MAX, refused(24, last));
        let last_cut = whole.turns[last] as usize;
        hold(
            &|call| call.edges[5 * last_cut + 2] -= 7,
            refused(25, last_cut),
        );
        hold(&|call| call.edges.extend([0; 5]), refused(2, 0));
        hold(&|call| call.edges.push(0), refused(1, 0));
        hold(&|call| call.turns.push(0), refused(11, 0));
        hold(&|call| call.k = 8_192, refused(18, 0));
    }
}

/// The witness's refusal where the last edge has a polygon number that nothing
/// leads up to: the edges that came after it may stand earlier.
fn refused_gap(whole: &CutCall) -> Result<Instruction, Refusal> {
    let mut call = whole.clone();
    *call.polygons.last_mut().unwrap() = u32::MAX;
    let answer = call.answer();
    assert_eq!(answer.unwrap_err().number, 14);
    answer
}
