//! What the numbers are, with no sweep: the joining rule of M-104, within a film,
//! leads from edge to edge; a closed round is an outline; outlines are
//! numbered by where their top edges stand in the list, the last first, and
//! edges from the one that leaves the top. Beside it the two measures C and L
//! of a list, from which the rows that always suffice follow. Only for sound
//! lists in sweep order.

use std::collections::BTreeMap;

use crate::corners::Meetings;
use crate::geometry::{Edge, Point, Site};
use crate::numbering::Numbering;

/// For each edge the place of the edge that follows it.
///
/// # Panics
/// When the list is not sound.
pub fn followers(edges: &[Edge]) -> Vec<usize> {
    let meetings = Meetings::of(edges);
    let follower = |(place, edge): (usize, &Edge)| {
        let meeting = meetings.at(edge.site(edge.head));
        meeting.expect("the edge's own head").follower(place)
    };
    edges.iter().enumerate().map(follower).collect()
}

/// The outlines as lists of places, in the order of their numbers, each from
/// the edge that leaves its highest point.
pub fn outlines(edges: &[Edge]) -> Vec<Vec<usize>> {
    let follower = followers(edges);
    let mut visited = vec![false; edges.len()];
    let mut outlines = Vec::new();
    for start in 0..edges.len() {
        let mut outline = Vec::new();
        let mut place = start;
        while !visited[place] {
            visited[place] = true;
            outline.push(place);
            place = follower[place];
        }
        if !outline.is_empty() {
            outlines.push(from_highest(edges, outline));
        }
    }
    outlines.sort_by_key(|outline| later_top_edge(outline));
    outlines.reverse();
    outlines
}

/// The parts of a list as lists of places: all edges of one film that are linked
/// through shared points.
pub fn parts(edges: &[Edge]) -> Vec<Vec<usize>> {
    let mut at_site: BTreeMap<Site, Vec<usize>> = BTreeMap::new();
    for (place, edge) in edges.iter().enumerate() {
        for (site, _) in edge.ends() {
            at_site.entry(site).or_default().push(place);
        }
    }
    let mut visited = vec![false; edges.len()];
    let mut parts = Vec::new();
    for start in 0..edges.len() {
        let (mut part, mut linked) = (Vec::new(), vec![start]);
        while let Some(place) = linked.pop() {
            if !visited[place] {
                visited[place] = true;
                part.push(place);
                let sites = edges[place].ends().map(|(site, _)| site);
                linked.extend(sites.iter().flat_map(|site| &at_site[site]));
            }
        }
        parts.push(part);
    }
    parts.retain(|part| !part.is_empty());
    parts
}

/// Of the two edges of an outline at its top, where the later one stands in the
/// list: of the edge that leaves the top and the one that it follows.
fn later_top_edge(outline: &[usize]) -> usize {
    outline[0].max(outline[outline.len() - 1])
}

/// The same round, begun at the edge that leaves its highest point.
fn from_highest(edges: &[Edge], mut outline: Vec<usize>) -> Vec<usize> {
    let highest = (0..outline.len()).max_by_key(|at| edges[outline[*at]].tail);
    outline.rotate_left(highest.unwrap_or(0));
    outline
}

/// The numbering that the paper declares.
pub fn numbering(edges: &[Edge]) -> Numbering {
    let mut numbering = Numbering::blank(edges.len());
    for outline in outlines(edges) {
        numbering.count += 1;
        for (sequence, place) in outline.into_iter().enumerate() {
            numbering.polygons[place] = numbering.count;
            numbering.sequences[place] = sequence as u32;
        }
    }
    numbering
}

/// C: the most edges, of all films together, that pass any one point. An edge
/// passes a point when its bottom is below the point and its top is not. The
/// most is met at a top.
pub fn passing(edges: &[Edge]) -> usize {
    let passes = |point: Point| {
        let passing = |edge: &&Edge| edge.bottom() < point && edge.top() >= point;
        edges.iter().filter(passing).count()
    };
    let counts = edges.iter().map(|edge| passes(edge.top()));
    counts.max().unwrap_or(0)
}

/// L: the number of edges of the longest outline.
pub fn longest(edges: &[Edge]) -> usize {
    let lengths = outlines(edges).into_iter().map(|outline| outline.len());
    lengths.max().unwrap_or(0)
}

/// A number of rows that always suffices: 1 + F(C - 2), F being log2 L, rounded
/// down; 0 for the empty list.
pub fn sufficient_rows(edges: &[Edge]) -> usize {
    match longest(edges) {
        0 => 0,
        longest => 1 + floor_log2(longest) * (passing(edges) - 2),
    }
}

/// The larger number that demand 3 names: C times log2 L, rounded down.
pub fn rows_of_demand_3(edges: &[Edge]) -> usize {
    match longest(edges) {
        0 => 0,
        longest => passing(edges) * floor_log2(longest),
    }
}

/// How many times a number above 0 can be halved before it is 1.
fn floor_log2(number: usize) -> usize {
    (usize::BITS - 1 - number.leading_zeros()) as usize
}

/// The sites at which edges of all four kinds meet, lowest first.
pub fn touching_sites(edges: &[Edge]) -> Vec<Site> {
    let meetings = Meetings::of(edges);
    let sites = meetings.corners().map(|(site, _)| site);
    sites.collect()
}

/// Those of them whose two lower edges do not join each other, lowest first.
pub fn apart_sites(edges: &[Edge]) -> Vec<Site> {
    Meetings::of(edges).apart().into_iter().collect()
}
