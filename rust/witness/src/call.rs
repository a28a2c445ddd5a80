//! One call of the engine as data: what is lent to it, and everything that can
//! be seen when it is over (document 01's answer sheet, slice by slice). A call
//! is made with any function that has the engine's shape, so that two engines
//! can be given the same call and their outcomes compared.

use crate::assemble::Answer;
use crate::checks::{Refusal, JOURNAL_NUMBERS_PER_EDGE};
use crate::geometry::NUMBERS_PER_EDGE;
use crate::instructions::{instruction, instructions, Instruction, Machine};
use crate::steps::NUMBERS_PER_ROW;
use crate::turns::TurnAnswer;

/// An assembling call: the list, the lengths of the five lent slices, and the
/// number that all of them are filled with beforehand.
#[derive(Clone, PartialEq, Eq, Debug)]
pub struct Call {
    /// The edge list.
    pub edges: Vec<i32>,
    /// The length of the polygon list.
    pub polygons: usize,
    /// The length of the sequence list.
    pub sequences: usize,
    /// The length of the turn list.
    pub turns: usize,
    /// The length of the journal, in numbers.
    pub journal: usize,
    /// The length of the rows slice, in numbers.
    pub rows: usize,
    /// What every lent slice holds before the call.
    pub fill: i32,
}

impl Call {
    /// A call that lends a list all it needs and this many rows.
    pub fn fitting(edges: Vec<i32>, rows: usize) -> Call {
        let mut call = Call {
            edges,
            polygons: 0,
            sequences: 0,
            turns: 0,
            journal: 0,
            rows: NUMBERS_PER_ROW * rows,
            fill: 77,
        };
        call.fit();
        call
    }

    /// Makes the three lists and the journal as long as the edge list asks.
    pub fn fit(&mut self) {
        let edges = self.edges.len() / NUMBERS_PER_EDGE;
        self.polygons = edges;
        self.sequences = edges;
        self.turns = edges;
        self.journal = JOURNAL_NUMBERS_PER_EDGE * edges;
    }

    /// Makes the call and keeps all that can be seen of it.
    pub fn outcome<F>(&self, assemble: F) -> Outcome
    where
        F: FnOnce(&[i32], &mut [u32], &mut [u32], &mut [u32], &mut [i32], &mut [i32]) -> Answer,
    {
        let mut polygons = vec![self.fill as u32; self.polygons];
        let mut sequences = vec![self.fill as u32; self.sequences];
        let mut turns = vec![self.fill as u32; self.turns];
        let mut journal = vec![self.fill; self.journal];
        let mut rows = vec![self.fill; self.rows];
        let answer = assemble(
            &self.edges,
            &mut polygons,
            &mut sequences,
            &mut turns,
            &mut journal,
            &mut rows,
        );
        Outcome {
            answer,
            polygons,
            sequences,
            turns,
            journal,
            rows,
        }
    }
}

/// What is to be seen after an assembling call.
#[derive(Clone, PartialEq, Eq, Debug)]
pub struct Outcome {
    /// The answer.
    pub answer: Answer,
    /// The polygon list.
    pub polygons: Vec<u32>,
    /// The sequence list.
    pub sequences: Vec<u32>,
    /// The turn list.
    pub turns: Vec<u32>,
    /// The journal.
    pub journal: Vec<i32>,
    /// The rows.
    pub rows: Vec<i32>,
}

/// A turn list call: the two lists that are read, the length of the turn list,
/// and the number that it is filled with beforehand.
#[derive(Clone, PartialEq, Eq, Debug)]
pub struct TurnCall {
    /// The polygon list.
    pub polygons: Vec<u32>,
    /// The sequence list.
    pub sequences: Vec<u32>,
    /// The length of the turn list.
    pub turns: usize,
    /// What the turn list holds before the call.
    pub fill: u32,
}

impl TurnCall {
    /// A call with a turn list as long as the polygon list.
    pub fn fitting(polygons: Vec<u32>, sequences: Vec<u32>) -> TurnCall {
        let turns = polygons.len();
        TurnCall {
            polygons,
            sequences,
            turns,
            fill: 77,
        }
    }

    /// Makes the call and keeps all that can be seen of it.
    pub fn outcome<F>(&self, turns: F) -> TurnOutcome
    where
        F: FnOnce(&[u32], &[u32], &mut [u32]) -> TurnAnswer,
    {
        let mut list = vec![self.fill; self.turns];
        let answer = turns(&self.polygons, &self.sequences, &mut list);
        TurnOutcome {
            answer,
            turns: list,
        }
    }
}

/// What is to be seen after a turn list call.
#[derive(Clone, PartialEq, Eq, Debug)]
pub struct TurnOutcome {
    /// The answer.
    pub answer: TurnAnswer,
    /// The turn list.
    pub turns: Vec<u32>,
}

/// A call for an instruction. It is lent nothing to be written, so that its
/// answer is all that can be seen.
#[derive(Clone, PartialEq, Eq, Debug)]
pub struct CutCall {
    /// The edge list.
    pub edges: Vec<i32>,
    /// The polygon list.
    pub polygons: Vec<u32>,
    /// The sequence list.
    pub sequences: Vec<u32>,
    /// The turn list.
    pub turns: Vec<u32>,
    /// Which instruction, from 0.
    pub k: u32,
    /// Whose instruction.
    pub machine: Machine,
}

impl CutCall {
    /// The witness's answer.
    pub fn answer(&self) -> Result<Instruction, Refusal> {
        let (polygons, sequences) = (&self.polygons, &self.sequences);
        let (machine, k) = (self.machine, self.k);
        instruction(machine, &self.edges, polygons, sequences, &self.turns, k)
    }

    /// What the witness answers for every k.
    pub fn answers(&self) -> Result<Vec<Instruction>, Refusal> {
        let (polygons, sequences) = (&self.polygons, &self.sequences);
        instructions(self.machine, &self.edges, polygons, sequences, &self.turns)
    }
}
