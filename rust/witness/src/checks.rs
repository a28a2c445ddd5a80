//! Refusals 1 to 9 of document 01's answer sheet, 3 as request M-101 reads it,
//! 16 of request M-100 and 17 of M-104, each with its place, in the order in
//! which the papers try them: the lengths; then edge by edge the range, the film,
//! equal ends and the sweep order; then soundness over the whole list. Any list
//! of any length is taken.

use std::collections::{BTreeMap, BTreeSet};

use crate::corners::Meetings;
use crate::geometry::{read_edges, Edge, Point, Site, MOST_EDGES, NUMBERS_PER_EDGE};

/// How many journal numbers must be lent for each edge.
pub const JOURNAL_NUMBERS_PER_EDGE: usize = 8;

/// The refusals of an assembling call, in the order in which they are tried; 5 to
/// 7 with 16 edge by edge, in that order within an edge.
pub const IN_ORDER: [u32; 12] = [1, 2, 3, 4, 5, 16, 6, 7, 8, 9, 17, 10];

/// Those of them that are tried edge by edge.
pub const BY_EDGE: [u32; 4] = [5, 16, 6, 7];

/// A refusal: its number in the paper and the place that it speaks of.
#[derive(Clone, Copy, PartialEq, Eq, Hash, Debug)]
pub struct Refusal {
    /// 1 to 25.
    pub number: u32,
    /// An edge's place from 0 (refusal 15: a line from 1; refusal 24: a position
    /// in the turn list from 0), or 0.
    pub place: u32,
}

impl Refusal {
    /// The refusal of this number at this place.
    pub fn at(number: u32, place: usize) -> Refusal {
        let place = place as u32;
        Refusal { number, place }
    }
}

/// The lengths of the lent slices that the checks look at.
#[derive(Clone, Copy, PartialEq, Eq, Debug)]
pub struct Lengths {
    /// Of the polygon list.
    pub polygons: usize,
    /// Of the sequence list.
    pub sequences: usize,
    /// Of the turn list.
    pub turns: usize,
    /// Of the journal.
    pub journal: usize,
}

/// The list as edges if nothing is wrong with it, else the first refusal.
pub fn checked(numbers: &[i32], lengths: Lengths) -> Result<Vec<Edge>, Refusal> {
    check_list(numbers.len())?;
    check_lent(numbers.len() / NUMBERS_PER_EDGE, lengths)?;
    let edges = read_edges(numbers);
    check_edges(&edges)?;
    check_kinds(&edges)?;
    check_balance(&edges)?;
    check_corners(&edges)?;
    Ok(edges)
}

/// Refusals 1 and 2: a list of so many numbers is no list of edges.
pub fn check_list(numbers: usize) -> Result<(), Refusal> {
    if numbers % NUMBERS_PER_EDGE != 0 {
        Err(Refusal::at(1, 0))
    } else if numbers / NUMBERS_PER_EDGE > MOST_EDGES {
        Err(Refusal::at(2, 0))
    } else {
        Ok(())
    }
}

/// Refusals 3 and 4: lengths that do not fit so many edges.
fn check_lent(edges: usize, lengths: Lengths) -> Result<(), Refusal> {
    if [lengths.polygons, lengths.sequences, lengths.turns] != [edges; 3] {
        Err(Refusal::at(3, 0))
    } else if lengths.journal < JOURNAL_NUMBERS_PER_EDGE * edges {
        Err(Refusal::at(4, 0))
    } else {
        Ok(())
    }
}

/// The first of refusals 5, 16 and 6 that an edge gets by itself.
pub fn fault(edge: &Edge) -> Option<u32> {
    if !edge.is_in_range() {
        Some(5)
    } else if !edge.has_film_in_range() {
        Some(16)
    } else if edge.tail == edge.head {
        Some(6)
    } else {
        None
    }
}

/// Refusals 5, 16, 6 and 7: the first edge that is wrong by itself or stands
/// after an edge with a higher top, of whatever film.
fn check_edges(edges: &[Edge]) -> Result<(), Refusal> {
    let mut top_before: Option<Point> = None;
    for (place, edge) in edges.iter().enumerate() {
        if let Some(number) = fault(edge) {
            return Err(Refusal::at(number, place));
        }
        if top_before.map_or(false, |before| edge.top() < before) {
            return Err(Refusal::at(7, place));
        }
        top_before = Some(edge.top());
    }
    Ok(())
}

/// Refusal 8: two edges of one film and kind at one point.
fn check_kinds(edges: &[Edge]) -> Result<(), Refusal> {
    let mut seen = BTreeSet::new();
    for (place, edge) in edges.iter().enumerate() {
        for end in edge.ends() {
            if !seen.insert(end) {
                return Err(Refusal::at(8, place));
            }
        }
    }
    Ok(())
}

/// Refusal 9: a point where more edges of a film arrive than leave, or fewer.
fn check_balance(edges: &[Edge]) -> Result<(), Refusal> {
    let mut balance: BTreeMap<Site, i32> = BTreeMap::new();
    for edge in edges {
        *balance.entry(edge.site(edge.head)).or_insert(0) += 1;
        *balance.entry(edge.site(edge.tail)).or_insert(0) -= 1;
    }
    check_sites(9, edges, |site| balance[&site] == 0)
}

/// Refusal 17: a point where four edges of a film meet that do not alternate
/// arriving and leaving going round, or of which two have one direction.
fn check_corners(edges: &[Edge]) -> Result<(), Refusal> {
    let meetings = Meetings::of(edges);
    let corners = meetings.corners();
    let wrong = corners.filter(|(_, corner)| !corner.alternates());
    let wrong: BTreeSet<Site> = wrong.map(|(site, _)| site).collect();
    check_sites(17, edges, |site| !wrong.contains(&site))
}

/// The refusal of the first edge with an end at a site that is not right.
fn check_sites(
    number: u32,
    edges: &[Edge],
    is_right: impl Fn(Site) -> bool,
) -> Result<(), Refusal> {
    let is_wrong = |edge: &Edge| edge.ends().into_iter().any(|(site, _)| !is_right(site));
    match edges.iter().position(is_wrong) {
        Some(place) => Err(Refusal::at(number, place)),
        None => Ok(()),
    }
}
