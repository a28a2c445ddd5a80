//! What the two cutters are told: travel to a place, cut to a place, lift.

use core::fmt;
use core::iter::FusedIterator;

use crate::engine;
use crate::refusal::Refusal;

/// A cutter that takes instructions.
///
/// ```
/// use outline::{Machine, Outlines};
///
/// let there_and_back = Outlines::of(&[0, 0, 64, 128, 7, 64, 128, 0, 0, 7])?;
/// let first = |machine| there_and_back.instructions(machine).next().map(|one| one.to_string());
/// assert_eq!(first(Machine::Flatbed), Some("travel 1 2".to_string()));
/// assert_eq!(first(Machine::RollFeeder), Some("travel 2 -1".to_string()));
/// # Ok::<(), outline::Refusal>(())
/// ```
#[derive(Clone, Copy, PartialEq, Eq, Hash, Debug)]
pub enum Machine {
    /// Takes x first, then y.
    Flatbed,
    /// Takes y first, then x negated.
    RollFeeder,
}

/// A place in millimetres, in the order in which the machine takes its two
/// numbers. A unit of the list is 1/64 mm, which a single-precision number holds
/// exactly; zero is always plus zero.
///
/// ```
/// use outline::{Place, UNITS_PER_MILLIMETRE};
///
/// let place = Place { first: 0.5, second: -15625.0 };
/// assert_eq!(place.to_string(), "0.5 -15625");
/// assert_eq!(place.first * UNITS_PER_MILLIMETRE as f32, 32.0);
/// ```
#[derive(Clone, Copy, PartialEq, Debug)]
pub struct Place {
    /// The number that the machine takes first.
    pub first: f32,
    /// The number that it takes second.
    pub second: f32,
}

/// One instruction. Its text is a line of what `outline-cut` prints, with every
/// decimal of the two numbers and none too many.
///
/// ```
/// use outline::{Instruction, Place};
///
/// let place = Place { first: 0.03125, second: -15625.0 };
/// assert_eq!(Instruction::Cut(place).to_string(), "cut 0.03125 -15625");
/// assert_eq!(Instruction::Lift.to_string(), "lift");
/// ```
#[derive(Clone, Copy, PartialEq, Debug)]
pub enum Instruction {
    /// Go to the place with the blade up.
    Travel(Place),
    /// Go to the place with the blade down.
    Cut(Place),
    /// Raise the blade where it is.
    Lift,
}

/// The k-th instruction of a machine, counted from 0, for edges that are
/// numbered and put in turn, by [`assemble()`] or elsewhere. For each outline in
/// the order of the polygon numbers there are: travel to the tail of the edge
/// numbered 0, a cut to the head of each edge in sequence order, lift. Nothing
/// is written or allocated, and no length and no number makes the call panic.
///
/// - `edges`: five numbers an edge, in any order.
/// - `polygons`, `sequences`: each edge's outline, from 1, and its place round
///   it, from 0.
/// - `turns`: the turn list of these two.
///
/// # Errors
///
/// Refused are edges by themselves ([`NotWhole`], [`TooMany`], [`PastRange`],
/// [`FilmPastRange`], [`EqualEnds`]), lists that are no numbering ([`TurnLengths`],
/// [`NoPolygon`], [`PairRepeated`], [`Gap`]), another turn list than theirs
/// ([`TurnsDiffer`]), outlines that are not closed ([`HeadNotTail`]) and a k that
/// is too great ([`PastLast`]), tried in this order.
///
/// ```
/// use outline::{instruction, Instruction, Machine, Place, Refusal};
///
/// let triangle = [0, 0, 4, 2, 7, 4, 2, 1, 5, 7, 1, 5, 0, 0, 7];
/// let ask = |machine, k| instruction(machine, &triangle, &[1, 1, 1], &[1, 2, 0], &[2, 0, 1], k);
/// let place = |first, second| Place { first, second };
/// let top = Instruction::Travel(place(0.015625, 0.078125));
/// assert_eq!(ask(Machine::Flatbed, 0), Ok(top));
/// let corner = Instruction::Cut(place(0.03125, -0.0625));
/// assert_eq!(ask(Machine::RollFeeder, 2), Ok(corner));
/// assert_eq!(ask(Machine::Flatbed, 4), Ok(Instruction::Lift));
/// assert_eq!(ask(Machine::Flatbed, 5), Err(Refusal::PastLast));
/// ```
///
/// [`assemble()`]: crate::assemble()
/// [`NotWhole`]: Refusal::NotWhole
/// [`TooMany`]: Refusal::TooMany
/// [`PastRange`]: Refusal::PastRange
/// [`FilmPastRange`]: Refusal::FilmPastRange
/// [`EqualEnds`]: Refusal::EqualEnds
/// [`TurnLengths`]: Refusal::TurnLengths
/// [`NoPolygon`]: Refusal::NoPolygon
/// [`PairRepeated`]: Refusal::PairRepeated
/// [`Gap`]: Refusal::Gap
/// [`TurnsDiffer`]: Refusal::TurnsDiffer
/// [`HeadNotTail`]: Refusal::HeadNotTail
/// [`PastLast`]: Refusal::PastLast
pub fn instruction(
    machine: Machine,
    edges: &[i32],
    polygons: &[u32],
    sequences: &[u32],
    turns: &[u32],
    k: u32,
) -> Result<Instruction, Refusal> {
    let cut = engine::instruction(machine, edges, polygons, sequences, turns, k);
    if let Some(refusal) = Refusal::of(cut.refusal, cut.place) {
        return Err(refusal);
    }
    let place = Place {
        first: cut.x,
        second: cut.y,
    };
    Ok(match cut.what {
        0 => Instruction::Travel(place),
        1 => Instruction::Cut(place),
        _ => Instruction::Lift,
    })
}

/// All instructions of a machine, in their order, for edges that are numbered and
/// put in turn, by [`assemble()`] or elsewhere. They end after the last one, where
/// [`instruction()`] has refusal 18. Any other refusal comes once, as an error, and
/// nothing after it. The lists are those of [`instruction()`], which is called for
/// each; nothing is written or allocated.
///
/// ```
/// use outline::{instructions, Instruction, Machine, Refusal};
///
/// let triangle = [0, 0, 4, 2, 7, 4, 2, 1, 5, 7, 1, 5, 0, 0, 7];
/// let told = instructions(Machine::Flatbed, &triangle, &[1, 1, 1], &[1, 2, 0], &[2, 0, 1]);
/// let told: Vec<Instruction> = told.collect::<Result<_, Refusal>>()?;
/// assert_eq!(told.len(), 5);
/// assert_eq!(told[4], Instruction::Lift);
/// let mut other = instructions(Machine::Flatbed, &triangle, &[1, 1, 1], &[1, 2, 0], &[2, 1, 0]);
/// assert_eq!(other.next(), Some(Err(Refusal::TurnsDiffer { position: 1 })));
/// assert_eq!(other.next(), None);
/// # Ok::<(), Refusal>(())
/// ```
///
/// [`assemble()`]: crate::assemble()
pub fn instructions<'a>(
    machine: Machine,
    edges: &'a [i32],
    polygons: &'a [u32],
    sequences: &'a [u32],
    turns: &'a [u32],
) -> Instructions<'a> {
    Instructions {
        machine,
        edges,
        polygons,
        sequences,
        turns,
        next: Some(0),
    }
}

/// All instructions of a machine, one after the other: what [`instructions()`]
/// gives.
///
/// ```
/// use outline::{instructions, Instructions, Machine};
///
/// let none: Instructions = instructions(Machine::RollFeeder, &[], &[], &[], &[]);
/// assert_eq!(none.count(), 0);
/// ```
#[derive(Clone, Debug)]
#[must_use = "nothing is asked for before it is looked through"]
pub struct Instructions<'a> {
    machine: Machine,
    edges: &'a [i32],
    polygons: &'a [u32],
    sequences: &'a [u32],
    turns: &'a [u32],
    /// Which instruction comes next, unless they are over.
    next: Option<u32>,
}

impl Iterator for Instructions<'_> {
    type Item = Result<Instruction, Refusal>;

    fn next(&mut self) -> Option<Result<Instruction, Refusal>> {
        let k = self.next.take()?;
        let (polygons, sequences) = (self.polygons, self.sequences);
        match instruction(self.machine, self.edges, polygons, sequences, self.turns, k) {
            Err(Refusal::PastLast) => None,
            Err(refusal) => Some(Err(refusal)),
            Ok(told) => {
                self.next = k.checked_add(1);
                Some(Ok(told))
            }
        }
    }
}

impl FusedIterator for Instructions<'_> {}

impl fmt::Display for Place {
    fn fmt(&self, to: &mut fmt::Formatter) -> fmt::Result {
        write!(to, "{} {}", exact(self.first), exact(self.second))
    }
}

impl fmt::Display for Instruction {
    fn fmt(&self, to: &mut fmt::Formatter) -> fmt::Result {
        match self {
            Instruction::Travel(place) => write!(to, "travel {}", place),
            Instruction::Cut(place) => write!(to, "cut {}", place),
            Instruction::Lift => write!(to, "lift"),
        }
    }
}

/// The same number in double precision, of which a text has all decimals of a
/// 64th; in single precision it has only as many as tell it from its neighbours.
/// Adding zero makes minus zero plus zero.
fn exact(number: f32) -> f64 {
    f64::from(number) + 0.0
}
