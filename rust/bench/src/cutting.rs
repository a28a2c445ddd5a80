//! All instructions of a sheet, each asked for by a call of its own: of the
//! engine, and of plain Rust that does the same checks. Before anything is timed
//! they are compared, for both machines.

use outline::{Instruction, Machine, Outlines, Refusal};
use witness::generate::Sheet;

use crate::plain::{self, Lists};
use crate::timing::best;

/// A sheet that is numbered and put in turn.
pub struct Cutting {
    outlines: Outlines,
    /// How many instructions it has.
    pub count: u32,
}

impl Cutting {
    /// A sheet whose instructions are the same from both.
    ///
    /// # Panics
    /// When they differ.
    pub fn of(sheet: &Sheet) -> Cutting {
        let outlines = Outlines::of(sheet).expect("a sheet that is accepted");
        let count = outlines.instructions(Machine::Flatbed).len() as u32;
        let cutting = Cutting { outlines, count };
        for machine in [Machine::Flatbed, Machine::RollFeeder] {
            for k in 0..count {
                let engine = cutting.engine(machine, k).map(to_the_bit);
                let plain = cutting.plain(machine, k).map(to_the_bit);
                assert_eq!(engine.ok(), plain.ok(), "instruction {}", k);
            }
            assert_eq!(cutting.engine(machine, count), Err(Refusal::PastLast));
            let past = cutting.plain(machine, count).unwrap_err();
            assert_eq!(past.number, Refusal::PastLast.number());
        }
        cutting
    }

    /// How many edges the sheet has.
    pub fn edges(&self) -> usize {
        self.outlines.turns().len()
    }

    /// Times the engine on all instructions of the flatbed, in nanoseconds.
    pub fn time_engine(&self) -> f64 {
        best(|| self.ask_all(|k| self.engine(Machine::Flatbed, k).is_ok()))
    }

    /// Times plain Rust, likewise.
    pub fn time_plain(&self) -> f64 {
        best(|| self.ask_all(|k| self.plain(Machine::Flatbed, k).is_ok()))
    }

    fn ask_all(&self, is_told: impl Fn(u32) -> bool) {
        assert!((0..self.count).all(is_told));
    }

    fn engine(&self, machine: Machine, k: u32) -> Result<Instruction, Refusal> {
        let lists = self.lists();
        let (polygons, sequences) = (lists.polygons, lists.sequences);
        outline::instruction(machine, lists.edges, polygons, sequences, lists.turns, k)
    }

    fn plain(&self, machine: Machine, k: u32) -> Result<Instruction, witness::Refusal> {
        plain::instruction(machine, &self.lists(), k)
    }

    fn lists(&self) -> Lists<'_> {
        Lists {
            edges: self.outlines.edges(),
            polygons: self.outlines.polygons(),
            sequences: self.outlines.sequences(),
            turns: self.outlines.turns(),
        }
    }
}

/// An instruction as numbers, with its place to the bit.
fn to_the_bit(instruction: Instruction) -> [u32; 3] {
    match instruction {
        Instruction::Travel(place) => [0, place.first.to_bits(), place.second.to_bits()],
        Instruction::Cut(place) => [1, place.first.to_bits(), place.second.to_bits()],
        Instruction::Lift => [2, 0, 0],
    }
}
