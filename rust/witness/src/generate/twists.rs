//! Outlines of two or three edges that go through a point where two edges of
//! their film meet, so that four of all kinds meet there and do not alternate:
//! either two leave one after the other going round, or two lie in one direction.

use crate::corners::{Meeting, Meetings};
use crate::geometry::{Edge, Point, Site};

use super::sound::closed;
use super::Random;

/// How many outlines are tried.
const TRIES: usize = 200;

/// Such an outline for a sound list that has edges, if one is found. Its other
/// points are those of no edge of the film.
pub fn twisting(random: &mut Random, edges: &[Edge]) -> Option<Vec<Edge>> {
    let meetings = Meetings::of(edges);
    let further = [1, 2, 2, 2][random.below(4)];
    for _ in 0..TRIES {
        let (site, _) = edges[random.below(edges.len())].ends()[random.below(2)];
        let outline = through(random, site, further);
        let is_free = |edge: &Edge| {
            let from = edge.site(edge.tail);
            from == site || meetings.at(from).is_none()
        };
        let is_right = |edge: &Edge| edge.is_in_range() && edge.tail != edge.head;
        let fits = outline.iter().all(|edge| is_free(edge) && is_right(edge));
        if fits && meeting(edges, &outline, site).is_twisted() {
            return Some(outline);
        }
    }
    None
}

/// An outline of the site's film through its point and so many near by.
fn through(random: &mut Random, site: Site, further: usize) -> Vec<Edge> {
    let reach = [1, 2, 5, 1_000][random.below(4)];
    let mut corners = vec![site.point];
    for _ in 0..further {
        let x = site.point.x + random.between(-reach, reach);
        corners.push(Point::new(x, site.point.y + random.between(-reach, reach)));
    }
    let edges = closed(&corners).into_iter();
    edges.map(|edge| edge.in_film(site.film)).collect()
}

/// What meets at a site when an outline is laid through it.
fn meeting(edges: &[Edge], outline: &[Edge], site: Site) -> Meeting {
    let ends_here = |edge: &&Edge| edge.ends().iter().any(|(end, _)| *end == site);
    let here: Vec<Edge> = edges
        .iter()
        .chain(outline)
        .filter(ends_here)
        .copied()
        .collect();
    Meetings::of(&here).at(site).cloned().unwrap_or_default()
}
