//! The instructions: those of sheets by hand, and on any sheet, good or spoilt,
//! the answer that a statement gives which goes by positions in the turn list
//! and by the machine's own arithmetic. And that the outlines can be read back.

use std::collections::BTreeMap;

use witness::call::{CutCall, TurnCall};
use witness::generate::{any, any_cutting, cutting, spoil_cutting, Random};
use witness::geometry::Point;
use witness::instructions::{millimetres, CUT_IN_ORDER};
use witness::worked::{touching, TRIANGLE};
use witness::{turns, Instruction, Machine, Refusal, TurnAnswer};

/// The refusals that are tried edge by edge.
const BY_EDGE: [u32; 3] = [5, 16, 6];

/// A point as a machine takes it, by division of single-precision numbers.
fn place(machine: Machine, x: i32, y: i32) -> [u32; 2] {
    let numbers = match machine {
        Machine::Flatbed => [x, y],
        Machine::RollFeeder => [y, 0 - x],
    };
    numbers.map(|units| (units as f32 / 64.0).to_bits())
}

/// What request M-102 says of a call.
fn stated(call: &CutCall) -> Result<Instruction, (u32, u32)> {
    if call.edges.len() % 5 != 0 {
        return Err((1, 0));
    }
    let edges: Vec<&[i32]> = call.edges.chunks(5).collect();
    if edges.len() >= 4097 {
        return Err((2, 0));
    }
    for (at, edge) in edges.iter().enumerate() {
        let past = |number: &i32| !(-1_000_000..=1_000_000).contains(number);
        let faults = [
            edge[..4].iter().any(past),
            edge[4] < 0 || edge[4] > 255,
            edge[0] == edge[2] && edge[1] == edge[3],
        ];
        if let Some(fault) = faults.iter().position(|fault| *fault) {
            return Err((BY_EDGE[fault], at as u32));
        }
    }
    stated_of_numbers(call, edges.len())?;
    stated_of_outlines(call, &edges)
}

/// 11 to 14 as a call for the turn list gives them, which has tests of its own,
/// and 24.
fn stated_of_numbers(call: &CutCall, edges: usize) -> Result<(), (u32, u32)> {
    if [&call.polygons, &call.sequences, &call.turns]
        .iter()
        .any(|list| list.len() != edges)
    {
        return Err((11, 0));
    }
    let outcome = TurnCall::fitting(call.polygons.clone(), call.sequences.clone()).outcome(turns);
    if let TurnAnswer::Refused(refusal) = outcome.answer {
        return Err((refusal.number, refusal.place));
    }
    match (0..edges).find(|at| call.turns[*at] != outcome.turns[*at]) {
        Some(at) => Err((24, at as u32)),
        None => Ok(()),
    }
}

/// 25 and 18 and the instruction: an outline lies in the turn list from where a
/// sequence number is 0 to the next such place.
fn stated_of_outlines(call: &CutCall, edges: &[&[i32]]) -> Result<Instruction, (u32, u32)> {
    let turns: Vec<usize> = call.turns.iter().map(|turn| *turn as usize).collect();
    let mut starts: Vec<usize> = (0..turns.len())
        .filter(|at| call.sequences[turns[*at]] == 0)
        .collect();
    starts.push(turns.len());
    let outlines = || starts.windows(2).map(|ends| &turns[ends[0]..ends[1]]);
    for outline in outlines() {
        for at in 0..outline.len() {
            let next = outline[(at + 1) % outline.len()];
            if edges[outline[at]][2..4] != edges[next][..2] {
                return Err((25, outline[at] as u32));
            }
        }
    }
    let mut left = call.k as usize;
    for outline in outlines() {
        let first = edges[outline[0]];
        if left == 0 {
            return Ok(Instruction::Travel(place(call.machine, first[0], first[1])));
        } else if left <= outline.len() {
            let edge = edges[outline[left - 1]];
            return Ok(Instruction::Cut(place(call.machine, edge[2], edge[3])));
        } else if left == outline.len() + 1 {
            return Ok(Instruction::Lift);
        }
        left -= outline.len() + 2;
    }
    Err((18, 0))
}

/// Checks the answer to a call and gives its refusal's number, 0 if there is an
/// instruction.
fn check(call: &CutCall, seed: u64) -> u32 {
    let answer = call.answer();
    let wanted = stated(call).map_err(|(number, place)| Refusal { number, place });
    assert_eq!(answer, wanted, "seed {}: {:?}", seed, call);
    answer.err().map_or(0, |refusal| refusal.number)
}

/// The call for this k.
fn at(call: &CutCall, k: u32) -> CutCall {
    CutCall { k, ..call.clone() }
}

#[test]
fn every_coordinate_in_millimetres() {
    for units in -Point::LIMIT..=Point::LIMIT {
        let number = units as f32 / 64.0;
        assert_eq!(millimetres(units), (number + 0.0).to_bits());
        assert_eq!(f64::from(number) * 64.0, f64::from(units));
    }
    assert_eq!(millimetres(0), 0);
    assert_eq!(millimetres(-64), (-1.0_f32).to_bits());
}

#[test]
fn the_triangle() {
    let bits = |first: f32, second: f32| [first.to_bits(), second.to_bits()];
    let flat = [
        Instruction::Travel(bits(0.015625, 0.078125)),
        Instruction::Cut(bits(0.0, 0.0)),
        Instruction::Cut(bits(0.0625, 0.03125)),
        Instruction::Cut(bits(0.015625, 0.078125)),
        Instruction::Lift,
    ];
    let roll = [
        Instruction::Travel(bits(0.078125, -0.015625)),
        Instruction::Cut(bits(0.0, 0.0)),
        Instruction::Cut(bits(0.03125, -0.0625)),
        Instruction::Cut(bits(0.078125, -0.015625)),
        Instruction::Lift,
    ];
    for (machine, expected) in Machine::ALL.into_iter().zip([flat, roll]) {
        let call = cutting(TRIANGLE.to_vec(), machine);
        assert_eq!(call.answers(), Ok(expected.to_vec()));
        for (k, instruction) in (0..).zip(expected) {
            assert_eq!(at(&call, k).answer(), Ok(instruction));
        }
        for k in [5, 6, u32::MAX] {
            assert_eq!(at(&call, k).answer(), Err(Refusal::at(18, 0)));
        }
    }
}

#[test]
fn an_empty_sheet_has_none() {
    for machine in Machine::ALL {
        let call = cutting(Vec::new(), machine);
        assert_eq!(call.answers(), Ok(Vec::new()));
        for k in [0, 1, u32::MAX] {
            assert_eq!(at(&call, k).answer(), Err(Refusal::at(18, 0)));
        }
    }
}

#[test]
fn every_k_of_good_calls() {
    for seed in 0..400 {
        let call = any_cutting(&mut Random::new(seed));
        let all = call.answers().unwrap();
        for k in 0..all.len() as u32 {
            assert_eq!(stated(&at(&call, k)), Ok(all[k as usize]), "seed {}", seed);
        }
        assert_eq!(check(&at(&call, all.len() as u32), seed), 18);
    }
}

/// The corners of each outline, from the instructions alone: a head that follows
/// them and a way back from a machine's numbers.
fn read_back(machine: Machine, all: &[Instruction]) -> Vec<Vec<(i32, i32)>> {
    let units = |bits: u32| (f64::from(f32::from_bits(bits)) * 64.0) as i32;
    let point = |[first, second]: [u32; 2]| match machine {
        Machine::Flatbed => (units(first), units(second)),
        Machine::RollFeeder => (-units(second), units(first)),
    };
    let (mut head, mut is_down, mut outlines) = ((0, 0), false, Vec::new());
    for instruction in all {
        match instruction {
            Instruction::Travel(to) => (head, is_down) = (point(*to), false),
            Instruction::Lift => is_down = false,
            Instruction::Cut(to) => {
                if !is_down {
                    outlines.push(Vec::new());
                }
                outlines.last_mut().unwrap().push(head);
                (head, is_down) = (point(*to), true);
            }
        }
    }
    outlines
}

#[test]
fn outlines_are_read_back() {
    for seed in 0..400 {
        let mut random = Random::new(seed);
        let sheet = any(&mut random);
        for machine in Machine::ALL {
            let call = cutting(sheet.clone(), machine);
            let tails = call.turns.iter().map(|turn| {
                let edge = 5 * *turn as usize;
                (call.edges[edge], call.edges[edge + 1])
            });
            let outlines = read_back(machine, &call.answers().unwrap());
            assert_eq!(outlines.concat(), tails.collect::<Vec<_>>());
            let most = call.polygons.iter().max().copied().unwrap_or(0);
            assert_eq!(outlines.len(), most as usize, "seed {}", seed);
        }
    }
}

#[test]
fn each_refusal_on_purpose() {
    for refusal in CUT_IN_ORDER {
        for seed in 0..if refusal == 2 { 20 } else { 300 } {
            let random = &mut Random::new(seed);
            let mut call = any_cutting(random);
            spoil_cutting(random, &mut call, refusal);
            assert_eq!(check(&call, seed), refusal, "seed {}: {:?}", seed, call);
        }
    }
}

#[test]
fn two_faults_at_once() {
    for (at, second) in CUT_IN_ORDER.into_iter().enumerate() {
        for first in CUT_IN_ORDER.into_iter().take(at) {
            for seed in 0..if first == 2 { 5 } else { 60 } {
                let random = &mut Random::new(seed);
                let mut call = any_cutting(random);
                spoil_cutting(random, &mut call, second);
                spoil_cutting(random, &mut call, first);
                let got = check(&call, seed);
                let by_edge = BY_EDGE.contains(&first) && BY_EDGE.contains(&second);
                assert!(got == first || (by_edge && got == second), "{}", got);
            }
        }
    }
}

/// Every numbering and turn list of small numbers for a there-and-back.
#[test]
fn every_list_of_small_numbers() {
    let mut met: BTreeMap<u32, usize> = BTreeMap::new();
    for choice in 0..4_usize.pow(6) * 5 {
        let mut rest = choice;
        let mut next = |bound: usize| {
            let number = rest % bound;
            rest /= bound;
            number as u32
        };
        let call = CutCall {
            polygons: vec![next(4), next(4)],
            sequences: vec![next(4), next(4)],
            turns: vec![next(4), next(4)],
            k: next(5),
            edges: vec![0, 0, 1, 1, 3, 1, 1, 0, 0, 9],
            machine: Machine::RollFeeder,
        };
        *met.entry(check(&call, choice as u64)).or_insert(0) += 1;
    }
    let all: Vec<u32> = met.into_keys().collect();
    assert_eq!(all, [0, 12, 13, 14, 18, 24, 25]);
}

/// The refusal of a call.
fn refusal(call: &CutCall) -> (u32, u32) {
    let refusal = call.answer().unwrap_err();
    (refusal.number, refusal.place)
}

#[test]
fn what_is_looked_at() {
    let call = cutting(touching(0), Machine::Flatbed);
    assert_eq!(call.turns, [6, 2, 5, 4, 0, 1, 3]);
    let spoilt = |spoil: fn(&mut CutCall)| {
        let mut call = call.clone();
        spoil(&mut call);
        call
    };
    // Edge 5 leads elsewhere, and so does edge 0, which stands earlier in the
    // list and later in the turn list.
    let both = spoilt(|call| {
        call.edges[5 * 5 + 2] += 1;
        call.edges[2] += 1;
    });
    assert_eq!(refusal(&both), (25, 5));
    let last = spoilt(|call| call.edges[5 * 3 + 3] += 1);
    assert_eq!(refusal(&last), (25, 3));
    let swapped = spoilt(|call| call.turns.swap(3, 6));
    assert_eq!(refusal(&swapped), (24, 3));
    let all_short = spoilt(|call| {
        call.polygons.truncate(3);
        call.sequences.truncate(3);
        call.turns.truncate(3);
    });
    assert_eq!(refusal(&all_short), (11, 0));
    // Neither films nor the order of the sweep are.
    let films = spoilt(|call| call.edges[4] = 255);
    assert!(films.answer().is_ok());
    let mut order = cutting(TRIANGLE.to_vec(), Machine::Flatbed);
    let expected = order.answers();
    order.edges.rotate_left(5);
    order.sequences.rotate_left(1);
    order.turns = vec![1, 2, 0];
    assert_eq!(order.answers(), expected);
}
