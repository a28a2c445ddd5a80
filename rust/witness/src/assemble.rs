//! Numbers and turns in one call on lent slices, by "The answer sheet" of
//! document 01 and request M-101: the checks, the two sweeps, the turn list, and
//! what every slice holds afterwards. How a chain lies in its row is nowhere to
//! be seen when the call is over, so the rows are kept elsewhere and the lent
//! ones only counted and zeroed.

use crate::checks::{checked, Lengths, Refusal};
use crate::steps::{sweep_down, sweep_up, NUMBERS_PER_RECORD, NUMBERS_PER_ROW};
use crate::turns::in_turn;

/// What [`assemble`] answers.
#[derive(Clone, Copy, PartialEq, Eq, Hash, Debug)]
pub enum Answer {
    /// The list is numbered and its edges are put in turn.
    Accepted {
        /// How many outlines.
        polygons: u32,
        /// The most rows in use at any moment.
        peak: u32,
        /// How many records the journal holds.
        records: u32,
    },
    /// The list is refused.
    Refused(Refusal),
}

/// Numbers a list of edges and puts them in turn, or says why not.
pub fn assemble(
    edges: &[i32],
    polygons: &mut [u32],
    sequences: &mut [u32],
    turns: &mut [u32],
    journal: &mut [i32],
    rows: &mut [i32],
) -> Answer {
    let lengths = Lengths {
        polygons: polygons.len(),
        sequences: sequences.len(),
        turns: turns.len(),
        journal: journal.len(),
    };
    let edges = match checked(edges, lengths) {
        Ok(edges) => edges,
        Err(refusal) => return Answer::Refused(refusal),
    };
    journal.fill(0);
    rows.fill(0);
    let swept = match sweep_up(&edges, rows.len() / NUMBERS_PER_ROW) {
        Ok(swept) => swept,
        Err(place) => return Answer::Refused(Refusal::at(10, place)),
    };
    let parts = journal.chunks_exact_mut(NUMBERS_PER_RECORD);
    for (part, record) in parts.zip(&swept.records) {
        part.copy_from_slice(&record.numbers());
    }
    let numbering = sweep_down(&swept.records, edges.len());
    polygons.copy_from_slice(&numbering.polygons);
    sequences.copy_from_slice(&numbering.sequences);
    turns.copy_from_slice(&in_turn(polygons, sequences));
    Answer::Accepted {
        polygons: numbering.count,
        peak: swept.peak as u32,
        records: swept.records.len() as u32,
    }
}
