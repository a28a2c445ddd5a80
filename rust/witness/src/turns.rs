//! The turn list of document 01: the edges' places, outline by outline and in
//! sequence order, read from a polygon list and a sequence list; refusals 11
//! to 14 otherwise. Every unsigned number may stand in the two lists.

use std::collections::BTreeSet;

use crate::checks::Refusal;
use crate::geometry::MOST_EDGES;

/// What a turn list call answers.
#[derive(Clone, Copy, PartialEq, Eq, Hash, Debug)]
pub enum TurnAnswer {
    /// The turn list is filled.
    Accepted {
        /// How many polygons there are.
        polygons: u32,
    },
    /// The numbering is refused.
    Refused(Refusal),
}

/// Fills the turn list, or says why not and leaves it.
pub fn turns(polygons: &[u32], sequences: &[u32], turns: &mut [u32]) -> TurnAnswer {
    if let Err(refusal) = check_turns(polygons, sequences, turns.len()) {
        return TurnAnswer::Refused(refusal);
    }
    turns.copy_from_slice(&in_turn(polygons, sequences));
    let polygons = polygons.iter().copied().max().unwrap_or(0);
    TurnAnswer::Accepted { polygons }
}

/// The edges' places, sorted by polygon number and then by sequence number.
pub fn in_turn(polygons: &[u32], sequences: &[u32]) -> Vec<u32> {
    let mut places: Vec<u32> = (0..polygons.len() as u32).collect();
    places.sort_by_key(|place| (polygons[*place as usize], sequences[*place as usize]));
    places
}

/// Refusals 11 to 14, each tried over the whole list before the next.
pub fn check_turns(polygons: &[u32], sequences: &[u32], turns: usize) -> Result<(), Refusal> {
    let edges = polygons.len();
    if sequences.len() != edges || turns != edges || edges > MOST_EDGES {
        return Err(Refusal::at(11, 0));
    }
    if let Some(place) = polygons.iter().position(|polygon| *polygon == 0) {
        return Err(Refusal::at(12, place));
    }
    let pairs: Vec<(u32, u32)> = polygons
        .iter()
        .copied()
        .zip(sequences.iter().copied())
        .collect();
    check_repeats(&pairs)?;
    check_gaps(&pairs)
}

/// Refusal 13: a pair that has been there before.
fn check_repeats(pairs: &[(u32, u32)]) -> Result<(), Refusal> {
    let mut seen = BTreeSet::new();
    match pairs.iter().position(|pair| !seen.insert(*pair)) {
        Some(place) => Err(Refusal::at(13, place)),
        None => Ok(()),
    }
}

/// Refusal 14: nothing stands one before, in the outline or among outlines.
fn check_gaps(pairs: &[(u32, u32)]) -> Result<(), Refusal> {
    let all_pairs: BTreeSet<(u32, u32)> = pairs.iter().copied().collect();
    let all_polygons: BTreeSet<u32> = pairs.iter().map(|pair| pair.0).collect();
    let gap = |&(polygon, sequence): &(u32, u32)| {
        let sequence_gap = sequence > 0 && !all_pairs.contains(&(polygon, sequence - 1));
        let polygon_gap = polygon > 1 && !all_polygons.contains(&(polygon - 1));
        sequence_gap || polygon_gap
    };
    match pairs.iter().position(gap) {
        Some(place) => Err(Refusal::at(14, place)),
        None => Ok(()),
    }
}
