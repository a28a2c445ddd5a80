//! Calls for an instruction: of sheets with the numbers that the rules give
//! them, or with edges and outlines in any other order and edges in any films;
//! and such calls spoilt on purpose, so that a chosen refusal must come.

use crate::call::CutCall;
use crate::declared;
use crate::geometry::{read_edges, write_edges, Edge, Point, MOST_EDGES, NUMBERS_PER_EDGE};
use crate::instructions::Machine;
use crate::turns::in_turn;

use super::damage::damage_edges;
use super::{any, Random, Sheet};

/// The call for the first instruction of a sheet, with the numbers that the
/// rules declare.
pub fn cutting(sheet: Sheet, machine: Machine) -> CutCall {
    let numbering = declared::numbering(&read_edges(&sheet));
    CutCall {
        turns: in_turn(&numbering.polygons, &numbering.sequences),
        edges: sheet,
        polygons: numbering.polygons,
        sequences: numbering.sequences,
        k: 0,
        machine,
    }
}

/// A call for some instruction of some sheet with four edges or more, in half of
/// the cases with its edges and its outlines in another order, at times with its
/// edges in any films.
pub fn any_cutting(random: &mut Random) -> CutCall {
    let machine = Machine::ALL[random.below(2)];
    let mut call = cutting(any(random), machine);
    while call.turns.len() < 4 {
        call = cutting(any(random), machine);
    }
    if random.one_in(2) {
        reorder(random, &mut call);
    }
    if random.one_in(4) {
        mix_films(random, &mut call);
    }
    call.k = random.below(last(&call)) as u32;
    call
}

/// How many instructions a call has that is not spoilt.
fn last(call: &CutCall) -> usize {
    let outlines = call.sequences.iter().filter(|sequence| **sequence == 0);
    call.sequences.len() + 2 * outlines.count()
}

/// Puts the edges in any order, and the outlines too: an instruction asks for no
/// order of the sweep.
fn reorder(random: &mut Random, call: &mut CutCall) {
    let mut places: Vec<usize> = (0..call.turns.len()).collect();
    random.shuffle(&mut places);
    let most = call.polygons.iter().copied().max().unwrap_or(0);
    let mut polygons: Vec<u32> = (1..=most).collect();
    random.shuffle(&mut polygons);
    let edges = read_edges(&call.edges);
    let moved: Vec<Edge> = places.iter().map(|place| edges[*place]).collect();
    let polygon = |place: &usize| polygons[call.polygons[*place] as usize - 1];
    let numbers = places.iter().map(polygon).collect();
    let sequences = places.iter().map(|place| call.sequences[*place]).collect();
    call.edges = write_edges(&moved);
    call.polygons = numbers;
    call.sequences = sequences;
    call.turns = in_turn(&call.polygons, &call.sequences);
}

/// Lays each edge in any film: an instruction does not compare them.
fn mix_films(random: &mut Random, call: &mut CutCall) {
    let edges = read_edges(&call.edges).into_iter();
    let mixed: Vec<Edge> = edges
        .map(|edge| edge.in_film(random.between(0, Edge::MOST_FILM)))
        .collect();
    call.edges = write_edges(&mixed);
}

/// Changes a call of [`any_cutting`], good or spoilt only for refusals that are
/// tried later, so that it must get this refusal, one of those of an instruction.
pub fn spoil_cutting(random: &mut Random, call: &mut CutCall, refusal: u32) {
    let edge = random.below(call.polygons.len());
    match refusal {
        1 | 2 | 5 | 16 | 6 => {
            damage_edges(random, &mut call.edges, refusal);
        }
        11 => other_length(random, call),
        12 => call.polygons[edge] = 0,
        13 => {
            let other = another(random, edge, call.polygons.len());
            call.polygons[edge] = call.polygons[other];
            call.sequences[edge] = call.sequences[other];
        }
        14 => {
            let beyond = [u32::MAX, MOST_EDGES as u32, 1 << 31];
            let list = if random.one_in(2) {
                &mut call.polygons
            } else {
                &mut call.sequences
            };
            list[edge] = beyond[random.below(3)];
        }
        24 => other_turn(random, call),
        25 => other_end(random, call),
        18 => {
            let last = last(call) as u32;
            let far = random.between(1 << 20, i32::MAX) as u32;
            call.k = [last, last + 1, far, u32::MAX][random.below(4)];
        }
        other => panic!("an instruction is never refused with {}", other),
    }
}

/// A number below the bound that is not this one.
fn another(random: &mut Random, number: usize, bound: usize) -> usize {
    (number + 1 + random.below(bound - 1)) % bound
}

/// Makes a list longer or shorter than the others, or all three than the edges.
fn other_length(random: &mut Random, call: &mut CutCall) {
    let longer = random.one_in(2);
    let resize = |list: &mut Vec<u32>| {
        if longer {
            list.push(1);
        } else {
            list.pop();
        }
    };
    match random.below(5) {
        0 => resize(&mut call.polygons),
        1 => resize(&mut call.sequences),
        2 => resize(&mut call.turns),
        3 => {
            let lists = [&mut call.polygons, &mut call.sequences, &mut call.turns];
            lists.into_iter().for_each(resize);
        }
        _ => call.edges.truncate(call.edges.len() - NUMBERS_PER_EDGE),
    }
}

/// Puts another edge at a position of the turn list, or two changed over.
fn other_turn(random: &mut Random, call: &mut CutCall) {
    let edges = call.turns.len();
    let position = random.below(edges);
    let other = another(random, position, edges);
    let beyond = [edges as u32, MOST_EDGES as u32, u32::MAX][random.below(3)];
    match random.below(3) {
        0 => call.turns.swap(position, other),
        1 => call.turns[position] = call.turns[other],
        _ => call.turns[position] = beyond,
    }
}

/// Moves one end of an edge to another point, at times into the corner of the
/// range.
fn other_end(random: &mut Random, call: &mut CutCall) {
    let mut edges = read_edges(&call.edges);
    let edge = &mut edges[random.below(call.turns.len())];
    let corner = Point::new(-Point::LIMIT, Point::LIMIT);
    let near = Point::new(random.between(-2, 9), random.between(-2, 9));
    let spots = [near, corner, Point::new(7, 77)].into_iter();
    let free: Vec<Point> = spots
        .filter(|spot| ![edge.tail, edge.head].contains(spot))
        .collect();
    let spot = free[random.below(free.len())];
    if random.one_in(2) {
        edge.tail = spot;
    } else {
        edge.head = spot;
    }
    call.edges = write_edges(&edges);
}
