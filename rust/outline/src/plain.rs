//! Edges to and from plain lists, which have five numbers for each.

use crate::edge::Edge;
use crate::point::Point;
use crate::refusal::Refusal;
use crate::NUMBERS_PER_EDGE;

/// The edges of a plain list, in its order. Needs the feature `std`.
///
/// # Errors
///
/// Refusal 1 for a list that ends in the middle of an edge, and 16 for the first
/// film past 0 to 255. All else is left to the engine.
///
/// ```
/// use outline::{read_edges, Edge, Point, Refusal};
///
/// let edges = read_edges(&[0, 0, 4, 2, 7, 4, 2, 1, 5, 7])?;
/// let corners = [(0, 0), (4, 2), (1, 5)].map(Point::from);
/// let expected = [
///     Edge::new(corners[0], corners[1], 7),
///     Edge::new(corners[1], corners[2], 7),
/// ];
/// assert_eq!(edges, expected);
/// assert_eq!(read_edges(&[0, 0, 4, 2]), Err(Refusal::NotWhole));
/// # Ok::<(), outline::Refusal>(())
/// ```
pub fn read_edges(numbers: &[i32]) -> Result<Vec<Edge>, Refusal> {
    if numbers.len() % NUMBERS_PER_EDGE != 0 {
        return Err(Refusal::NotWhole);
    }
    let edges = numbers.chunks_exact(NUMBERS_PER_EDGE).enumerate();
    let edge = |(place, numbers): (usize, &[i32])| match u8::try_from(numbers[4]) {
        Ok(film) => Ok(edge(numbers, film)),
        Err(_) => Err(Refusal::FilmPastRange { edge: place as u32 }),
    };
    edges.map(edge).collect()
}

/// The plain list of these edges, in their order. Needs the feature `std`.
///
/// ```
/// use outline::{write_edges, Edge, Point};
///
/// let edge = Edge::new(Point::new(0, 0), Point::new(4, 2), 7);
/// assert_eq!(write_edges(&[edge]), [0, 0, 4, 2, 7]);
/// ```
#[must_use]
pub fn write_edges(edges: &[Edge]) -> Vec<i32> {
    edges.iter().flat_map(|edge| edge.numbers()).collect()
}

/// The edge at a place of a list that the engine has accepted, so that its film
/// is none that a byte cannot hold.
pub(crate) fn edge_at(list: &[i32], place: u32) -> Edge {
    let numbers = &list[NUMBERS_PER_EDGE * place as usize..];
    edge(numbers, numbers[4] as u8)
}

/// The edge whose ends are the first four numbers, in a film.
fn edge(numbers: &[i32], film: u8) -> Edge {
    let tail = Point::new(numbers[0], numbers[1]);
    let head = Point::new(numbers[2], numbers[3]);
    Edge { tail, head, film }
}
