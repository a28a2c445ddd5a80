//! The instructions of request M-102: for each outline travel to the tail of its
//! edge 0, cut to the head of each edge in sequence order, lift. The whole list
//! of a sheet is made, and the k-th of it is the answer. The two numbers of a
//! place are held as the bits of single-precision numbers, made of whole numbers
//! alone, so that they can be compared to the bit.

use std::collections::BTreeMap;

use crate::checks::{check_list, fault, Refusal};
use crate::geometry::{read_edges, Edge, Point};
use crate::turns::{check_turns, in_turn};

/// The refusals of an instruction, in the order in which they are tried; 5, 16
/// and 6 edge by edge, in that order within an edge.
pub const CUT_IN_ORDER: [u32; 12] = [1, 2, 5, 16, 6, 11, 12, 13, 14, 24, 25, 18];

/// A cutter.
#[derive(Clone, Copy, PartialEq, Eq, Hash, Debug)]
pub enum Machine {
    /// Takes x and y.
    Flatbed,
    /// Takes y and minus x.
    RollFeeder,
}

impl Machine {
    /// Both of them.
    pub const ALL: [Machine; 2] = [Machine::Flatbed, Machine::RollFeeder];

    /// A point as the machine takes it.
    fn place(self, point: Point) -> [u32; 2] {
        match self {
            Machine::Flatbed => [point.x, point.y],
            Machine::RollFeeder => [point.y, -point.x],
        }
        .map(millimetres)
    }
}

/// An instruction, a place being the bits of its two numbers.
#[derive(Clone, Copy, PartialEq, Eq, Hash, Debug)]
pub enum Instruction {
    /// Travel to a place.
    Travel([u32; 2]),
    /// Cut to a place.
    Cut([u32; 2]),
    /// Lift.
    Lift,
}

/// The bits of the single-precision number that is this many 64ths of a
/// millimetre, for a number that a coordinate may be. They are a sign, the power
/// of two that the number is not below, with 127 added, and how far it is above
/// that power, in 2 to the 23 parts of it.
pub fn millimetres(units: i32) -> u32 {
    let size = units.unsigned_abs();
    if size == 0 {
        return 0;
    }
    let power = 31 - size.leading_zeros();
    let above = (size << (23 - power)) - (1 << 23);
    let sign = u32::from(units < 0) << 31;
    sign | (power + 127 - 6) << 23 | above
}

/// The k-th instruction of a machine, or why not.
pub fn instruction(
    machine: Machine,
    edges: &[i32],
    polygons: &[u32],
    sequences: &[u32],
    turns: &[u32],
    k: u32,
) -> Result<Instruction, Refusal> {
    let all = instructions(machine, edges, polygons, sequences, turns)?;
    let asked = all.get(k as usize).copied();
    asked.ok_or(Refusal::at(18, 0))
}

/// All instructions of a machine, or why there are none.
pub fn instructions(
    machine: Machine,
    edges: &[i32],
    polygons: &[u32],
    sequences: &[u32],
    turns: &[u32],
) -> Result<Vec<Instruction>, Refusal> {
    check_list(edges.len())?;
    let edges = read_edges(edges);
    check_alone(&edges)?;
    check_numbers(edges.len(), polygons, sequences, turns.len())?;
    check_same_turns(&in_turn(polygons, sequences), turns)?;
    let outlines = Outlines::new(&edges, polygons, sequences);
    outlines.check_joined(turns)?;
    Ok(outlines.instructions(machine))
}

/// Refusals 5, 16 and 6: the first edge that is wrong by itself.
fn check_alone(edges: &[Edge]) -> Result<(), Refusal> {
    let faults = edges.iter().map(fault).enumerate();
    let mut faults = faults.filter_map(|(place, fault)| Some(Refusal::at(fault?, place)));
    faults.next().map_or(Ok(()), Err)
}

/// Refusals 11 to 14: the lists must be as long as the edges too.
fn check_numbers(
    edges: usize,
    polygons: &[u32],
    sequences: &[u32],
    turns: usize,
) -> Result<(), Refusal> {
    if polygons.len() != edges {
        return Err(Refusal::at(11, 0));
    }
    check_turns(polygons, sequences, turns)
}

/// Refusal 24: the turn list must be the sorted one.
fn check_same_turns(sorted: &[u32], turns: &[u32]) -> Result<(), Refusal> {
    let mut pairs = sorted.iter().zip(turns);
    match pairs.position(|(right, given)| right != given) {
        Some(position) => Err(Refusal::at(24, position)),
        None => Ok(()),
    }
}

/// The edges of a numbering, to be looked up by their two numbers; with each its
/// place in the list.
struct Outlines {
    edges: BTreeMap<(u32, u32), (usize, Edge)>,
}

impl Outlines {
    fn new(edges: &[Edge], polygons: &[u32], sequences: &[u32]) -> Outlines {
        let pairs = polygons.iter().copied().zip(sequences.iter().copied());
        let placed = edges.iter().copied().enumerate();
        Outlines {
            edges: pairs.zip(placed).collect(),
        }
    }

    /// The edge after this one: one further in its outline, else edge 0.
    fn next(&self, (polygon, sequence): (u32, u32)) -> Edge {
        let further = self.edges.get(&(polygon, sequence + 1));
        further.unwrap_or_else(|| &self.edges[&(polygon, 0)]).1
    }

    /// Refusal 25: every head must be the tail of the next edge. The edges are
    /// looked at in turn order.
    fn check_joined(&self, turns: &[u32]) -> Result<(), Refusal> {
        let pairs: BTreeMap<usize, (u32, u32)> = self
            .edges
            .iter()
            .map(|(pair, (place, _))| (*place, *pair))
            .collect();
        for turn in turns {
            let pair = pairs[&(*turn as usize)];
            let (place, edge) = self.edges[&pair];
            if edge.head != self.next(pair).tail {
                return Err(Refusal::at(25, place));
            }
        }
        Ok(())
    }

    /// The instructions of all outlines.
    fn instructions(&self, machine: Machine) -> Vec<Instruction> {
        let mut list = Vec::new();
        for ((polygon, sequence), (_, edge)) in &self.edges {
            if *sequence == 0 {
                list.push(Instruction::Travel(machine.place(edge.tail)));
            }
            list.push(Instruction::Cut(machine.place(edge.head)));
            if !self.edges.contains_key(&(*polygon, sequence + 1)) {
                list.push(Instruction::Lift);
            }
        }
        list
    }
}
