//! One instruction as one would write it in Rust: the same checks, each a pass
//! over the lists, and no sort. A right turn list shows by itself that the
//! numbers are right: along it the pairs begin at polygon 1, sequence 0, and go
//! on by one edge or to the next polygon's first. Where something is wrong the
//! witness says what.

use outline::{Instruction, Machine, Place};
use witness::checks::{check_list, Refusal};
use witness::geometry::{Edge, Point, NUMBERS_PER_EDGE};

/// A numbered sheet whose edges are put in turn.
pub struct Lists<'a> {
    /// The edge list.
    pub edges: &'a [i32],
    /// The polygon list.
    pub polygons: &'a [u32],
    /// The sequence list.
    pub sequences: &'a [u32],
    /// The turn list.
    pub turns: &'a [u32],
}

/// The k-th instruction, or why not. It is kept a call of its own, so that what
/// is the same for every k is not done once for all of them.
#[inline(never)]
pub fn instruction(machine: Machine, lists: &Lists, k: u32) -> Result<Instruction, Refusal> {
    if lists.are_right() {
        lists.kth(machine, k as usize).ok_or(Refusal::at(18, 0))
    } else {
        Err(lists.fault(k))
    }
}

impl Lists<'_> {
    /// Whether nothing is wrong, whatever the k.
    fn are_right(&self) -> bool {
        let count = self.edges.len() / NUMBERS_PER_EDGE;
        let lengths = [self.polygons, self.sequences, self.turns].map(<[u32]>::len);
        check_list(self.edges.len()).is_ok()
            && self.edges.chunks_exact(NUMBERS_PER_EDGE).all(is_right)
            && lengths == [count; 3]
            && self.are_in_turn()
            && self.are_closed()
    }

    /// Whether the pairs rise along the turn list as they must.
    fn are_in_turn(&self) -> bool {
        let (mut polygon, mut sequence) = (0, 0);
        for turn in self.turns {
            let at = *turn as usize;
            if at >= self.turns.len() {
                return false;
            }
            let pair = (self.polygons[at], self.sequences[at]);
            let further = polygon > 0 && pair == (polygon, sequence + 1);
            if !further && pair != (polygon + 1, 0) {
                return false;
            }
            (polygon, sequence) = pair;
        }
        true
    }

    /// Whether each head is the tail of the next edge, edge 0 following the last.
    fn are_closed(&self) -> bool {
        let mut start = 0;
        for (at, turn) in self.turns.iter().enumerate() {
            if self.sequences[*turn as usize] == 0 {
                start = at;
            }
            let next = match self.turns.get(at + 1) {
                Some(next) if self.sequences[*next as usize] != 0 => *next,
                _ => self.turns[start],
            };
            if self.edge(*turn)[2..4] != self.edge(next)[..2] {
                return false;
            }
        }
        true
    }

    fn edge(&self, place: u32) -> &[i32] {
        let at = NUMBERS_PER_EDGE * place as usize;
        &self.edges[at..at + NUMBERS_PER_EDGE]
    }

    /// The k-th instruction of lists that are right. The instruction after the
    /// edge at a position in turn is two further for every outline before it,
    /// and one further for its own travel.
    fn kth(&self, machine: Machine, k: usize) -> Option<Instruction> {
        let mut first = 0;
        for (at, turn) in self.turns.iter().enumerate() {
            let edge = self.edge(*turn);
            if self.sequences[*turn as usize] == 0 {
                first = at + 2 * (self.polygons[*turn as usize] as usize - 1);
                if k == first {
                    return Some(Instruction::Travel(place(machine, edge[0], edge[1])));
                }
            }
            let here = first + 1 + self.sequences[*turn as usize] as usize;
            if k == here {
                return Some(Instruction::Cut(place(machine, edge[2], edge[3])));
            }
            let next = self.turns.get(at + 1);
            let is_last = next.map_or(true, |next| self.sequences[*next as usize] == 0);
            if is_last && k == here + 1 {
                return Some(Instruction::Lift);
            }
        }
        None
    }

    fn fault(&self, k: u32) -> Refusal {
        let machine = witness::Machine::Flatbed;
        let (edges, polygons) = (self.edges, self.polygons);
        witness::instruction(machine, edges, polygons, self.sequences, self.turns, k)
            .expect_err("something is wrong")
    }
}

/// Whether an edge gets none of 5, 16 and 6.
fn is_right(edge: &[i32]) -> bool {
    let in_range = |number: &i32| (-Point::LIMIT..=Point::LIMIT).contains(number);
    edge[..4].iter().all(in_range)
        && (0..=Edge::MOST_FILM).contains(&edge[4])
        && edge[..2] != edge[2..4]
}

/// A point as a machine takes it.
fn place(machine: Machine, x: i32, y: i32) -> Place {
    let millimetres = |units: i32| units as f32 / outline::UNITS_PER_MILLIMETRE as f32;
    match machine {
        Machine::Flatbed => Place {
            first: millimetres(x),
            second: millimetres(y),
        },
        Machine::RollFeeder => Place {
            first: millimetres(y),
            second: millimetres(-x),
        },
    }
}

#[cfg(test)]
mod tests {
    use super::*;
    use witness::call::CutCall;
    use witness::generate::{any_cutting, spoil_cutting, Seed};
    use witness::instructions::CUT_IN_ORDER;

    /// The answer to a call, to the bit.
    fn answer(call: &CutCall) -> Result<witness::Instruction, Refusal> {
        let lists = Lists {
            edges: &call.edges,
            polygons: &call.polygons,
            sequences: &call.sequences,
            turns: &call.turns,
        };
        let machine = match call.machine {
            witness::Machine::Flatbed => Machine::Flatbed,
            witness::Machine::RollFeeder => Machine::RollFeeder,
        };
        let bits = |place: Place| [place.first.to_bits(), place.second.to_bits()];
        instruction(machine, &lists, call.k).map(|instruction| match instruction {
            Instruction::Travel(place) => witness::Instruction::Travel(bits(place)),
            Instruction::Cut(place) => witness::Instruction::Cut(bits(place)),
            Instruction::Lift => witness::Instruction::Lift,
        })
    }

    #[test]
    fn the_instructions_and_refusals_of_the_witness() {
        for seed in 0..300 {
            let seed = Seed(seed);
            let random = &mut seed.random();
            let call = any_cutting(random);
            assert_eq!(answer(&call), call.answer());
            for refusal in CUT_IN_ORDER {
                let mut spoilt = call.clone();
                spoil_cutting(random, &mut spoilt, refusal);
                assert_eq!(answer(&spoilt), spoilt.answer());
            }
        }
    }
}
