//! One call made of the engine and of the witness, on slices that hold the same
//! rubbish. The answers must be the same, and so must every number of every
//! slice.

use witness::call::{Call, CutCall, Outcome, TurnCall};
use witness::generate::Random;
use witness::{Answer, Instruction, Machine, Refusal, TurnAnswer};

use crate::guarded::{rubbish, Guarded};
use crate::page_end::AtPageEnd;

/// The five lent slices of an assembling call.
struct Lent {
    polygons: Vec<u32>,
    sequences: Vec<u32>,
    turns: Vec<u32>,
    journal: Vec<i32>,
    rows: Vec<i32>,
}

impl Lent {
    /// What a call is lent, not cleared.
    fn rubbish(random: &mut Random, call: &Call) -> Lent {
        Lent {
            polygons: rubbish(random, call.polygons),
            sequences: rubbish(random, call.sequences),
            turns: rubbish(random, call.turns),
            journal: rubbish(random, call.journal),
            rows: rubbish(random, call.rows),
        }
    }

    /// What the three lists hold.
    fn lists(&self) -> [Vec<u32>; 3] {
        [&self.polygons, &self.sequences, &self.turns].map(Vec::clone)
    }

    /// The witness's answer on these slices.
    fn by_witness(&mut self, edges: &[i32]) -> Answer {
        witness::assemble(
            edges,
            &mut self.polygons,
            &mut self.sequences,
            &mut self.turns,
            &mut self.journal,
            &mut self.rows,
        )
    }

    /// The engine's answer on guarded copies of these slices, and what it left.
    fn by_engine(&self, random: &mut Random, edges: &[i32]) -> (Answer, Lent) {
        let mut lent_edges = Guarded::copy(random, edges);
        let mut polygons = Guarded::copy(random, &self.polygons);
        let mut sequences = Guarded::copy(random, &self.sequences);
        let mut turns = Guarded::copy(random, &self.turns);
        let mut journal = Guarded::copy(random, &self.journal);
        let mut rows = Guarded::copy(random, &self.rows);
        let answer = numbers(outline::assemble(
            lent_edges.lent(),
            polygons.lent(),
            sequences.lent(),
            turns.lent(),
            journal.lent(),
            rows.lent(),
        ));
        assert!(lent_edges.held() == edges, "the edges are changed");
        let left = Lent {
            polygons: polygons.held().to_vec(),
            sequences: sequences.held().to_vec(),
            turns: turns.held().to_vec(),
            journal: journal.held().to_vec(),
            rows: rows.held().to_vec(),
        };
        (answer, left)
    }
}

/// Makes an assembling call of both; gives the answer that they agree on.
///
/// # Panics
/// When they differ, when a refusal has changed a list, or when the engine has
/// written anywhere else.
pub fn assemble(random: &mut Random, call: &Call) -> Answer {
    let mut lent = Lent::rubbish(random, call);
    let before = lent.lists();
    let (given, left) = lent.by_engine(random, &call.edges);
    let wanted = lent.by_witness(&call.edges);
    assert_eq!(given, wanted, "the answer to {:?}", call);
    assert_eq!(left.polygons, lent.polygons, "polygons of {:?}", call);
    assert_eq!(left.sequences, lent.sequences, "sequences of {:?}", call);
    assert_eq!(left.turns, lent.turns, "the turn list of {:?}", call);
    assert_eq!(left.journal, lent.journal, "the journal of {:?}", call);
    assert_eq!(left.rows, lent.rows, "the rows of {:?}", call);
    if let Answer::Refused(_) = given {
        assert_eq!(left.lists(), before, "the lists of {:?}", call);
    }
    given
}

/// What is to be seen after an assembling call of the engine.
pub fn outcome(call: &Call) -> Outcome {
    call.outcome(|a, b, c, d, e, f| numbers(outline::assemble(a, b, c, d, e, f)))
}

/// Makes a turn list call of both; gives the answer that they agree on.
///
/// # Panics
/// When they differ, or when the engine has written anywhere else.
pub fn turns(random: &mut Random, call: &TurnCall) -> TurnAnswer {
    let mut list: Vec<u32> = rubbish(random, call.turns);
    let mut polygons = Guarded::copy(random, &call.polygons);
    let mut sequences = Guarded::copy(random, &call.sequences);
    let mut turns = Guarded::copy(random, &list);
    let given = turned(outline::turns(
        polygons.lent(),
        sequences.lent(),
        turns.lent(),
    ));
    let wanted = witness::turns(&call.polygons, &call.sequences, &mut list);
    assert_eq!(given, wanted, "the answer to {:?}", call);
    assert!(polygons.held() == call.polygons && sequences.held() == call.sequences);
    assert_eq!(turns.held(), list, "the turn list of {:?}", call);
    wanted
}

/// Makes a call for an instruction of both, twice of the engine: on guarded
/// slices, and on slices at the end of memory that cannot be written. Gives the
/// answer that they agree on.
///
/// # Panics
/// When they differ, or when the engine has written anywhere.
pub fn instruction(random: &mut Random, call: &CutCall) -> Result<Instruction, Refusal> {
    let wanted = call.answer();
    let mut edges = Guarded::copy(random, &call.edges);
    let lists = [&call.polygons, &call.sequences, &call.turns];
    let mut copies = lists.map(|list| Guarded::copy(random, list));
    let [polygons, sequences, turns] = &mut copies;
    let lent = [polygons.lent(), sequences.lent(), turns.lent()].map(|list| &*list);
    let given = asked(call.machine, edges.lent(), lent, call.k);
    assert_eq!(given, wanted, "the answer to {:?}", call);
    assert!(edges.held() == call.edges, "the edges are changed");
    for (copy, list) in copies.iter().zip(lists) {
        assert!(copy.held() == list, "a list is changed");
    }
    let edges = AtPageEnd::copy(&call.edges);
    let lists = lists.map(|list| AtPageEnd::copy(list));
    let [polygons, sequences, turns] = &lists;
    let lent = [polygons.lent(), sequences.lent(), turns.lent()];
    let again = asked(call.machine, edges.lent(), lent, call.k);
    assert_eq!(
        again, wanted,
        "the answer at the end of memory to {:?}",
        call
    );
    wanted
}

/// The engine's answer to a call for an instruction, in the witness's words; the
/// lists are those of polygons, sequences and turns.
pub fn asked(
    machine: Machine,
    edges: &[i32],
    lists: [&[u32]; 3],
    k: u32,
) -> Result<Instruction, Refusal> {
    let [polygons, sequences, turns] = lists;
    let machine = engines(machine);
    let answer = outline::instruction(machine, edges, polygons, sequences, turns, k);
    answer.map(told).map_err(refused)
}

/// A machine in the engine's words.
pub fn engines(machine: Machine) -> outline::Machine {
    match machine {
        Machine::Flatbed => outline::Machine::Flatbed,
        Machine::RollFeeder => outline::Machine::RollFeeder,
    }
}

/// The engine's instruction in the witness's words, to the bit.
pub fn told(instruction: outline::Instruction) -> Instruction {
    let bits = |place: outline::Place| [place.first.to_bits(), place.second.to_bits()];
    match instruction {
        outline::Instruction::Travel(place) => Instruction::Travel(bits(place)),
        outline::Instruction::Cut(place) => Instruction::Cut(bits(place)),
        outline::Instruction::Lift => Instruction::Lift,
    }
}

/// The engine's answer in the witness's words.
fn numbers(answer: Result<outline::Accepted, outline::Refusal>) -> Answer {
    match answer {
        Ok(accepted) => Answer::Accepted {
            polygons: accepted.polygons,
            peak: accepted.peak,
            records: accepted.records,
        },
        Err(refusal) => Answer::Refused(refused(refusal)),
    }
}

/// The same for a turn list call.
pub fn turned(answer: Result<u32, outline::Refusal>) -> TurnAnswer {
    match answer {
        Ok(polygons) => TurnAnswer::Accepted { polygons },
        Err(refusal) => TurnAnswer::Refused(refused(refusal)),
    }
}

fn refused(refusal: outline::Refusal) -> Refusal {
    let (number, place) = (refusal.number(), refusal.place());
    Refusal { number, place }
}

/// The number of an answer's refusal, 0 if it is accepted.
pub fn refusal(answer: Answer) -> u32 {
    match answer {
        Answer::Accepted { .. } => 0,
        Answer::Refused(refusal) => refusal.number,
    }
}

/// The same for a turn list call.
pub fn turn_refusal(answer: TurnAnswer) -> u32 {
    match answer {
        TurnAnswer::Accepted { .. } => 0,
        TurnAnswer::Refused(refusal) => refusal.number,
    }
}
