//! Edges put into a sheet: in the sweep order of document 01, edges of equal
//! tops in random order; and what may be done to a sound sheet as a whole.
//! A part, that is, all edges of one film that are linked through shared points,
//! stays sound when all of it is run the other way. An outline alone does not:
//! where it meets another edges would no longer alternate.

use crate::declared::parts;
use crate::geometry::{read_edges, write_edges, Edge, Point};

use super::{Random, Sheet};

/// The edges as a sheet in sweep order.
pub fn in_sweep_order(random: &mut Random, mut edges: Vec<Edge>) -> Sheet {
    random.shuffle(&mut edges);
    edges.sort_by_key(|edge| edge.top());
    write_edges(&edges)
}

/// A sound sheet with each of its parts either left or run the other way. What
/// was apart at a corner is then joined there, and the other way round.
pub fn turned_round(random: &mut Random, sheet: &[i32]) -> Sheet {
    let mut edges = read_edges(sheet);
    for part in parts(&edges) {
        if random.one_in(2) {
            for place in part {
                edges[place] = edges[place].reversed();
            }
        }
    }
    in_sweep_order(random, edges)
}

/// A sheet pushed into a random corner of the coordinates' range.
pub fn moved(random: &mut Random, sheet: &[i32]) -> Sheet {
    let (right, up) = (random.one_in(2), random.one_in(2));
    let pushed = |(least, most): Room, further: bool| if further { most } else { least };
    shifted(sheet, |x, y| (pushed(x, right), pushed(y, up)))
}

/// A sheet moved to a random place of the coordinates' range.
pub fn anywhere(random: &mut Random, sheet: &[i32]) -> Sheet {
    let mut within = |(least, most): Room| random.between(least, most);
    shifted(sheet, |x, y| (within(x), within(y)))
}

/// How far coordinates can move, from the least to the most.
type Room = (i32, i32);

/// A sheet shifted by what is chosen, given its room in x and in y.
fn shifted(sheet: &[i32], choose: impl FnOnce(Room, Room) -> (i32, i32)) -> Sheet {
    let edges = read_edges(sheet);
    let points = || edges.iter().flat_map(|edge| [edge.tail, edge.head]);
    let (x, y) = choose(
        room(points().map(|point| point.x)),
        room(points().map(|point| point.y)),
    );
    let at = |point: Point| Point::new(point.x + x, point.y + y);
    let shifted = edges
        .iter()
        .map(|edge| Edge::new(at(edge.tail), at(edge.head), edge.film));
    write_edges(&shifted.collect::<Vec<Edge>>())
}

/// The room of some coordinates.
fn room(coordinates: impl Iterator<Item = i32> + Clone) -> Room {
    let least = coordinates.clone().min().map(|least| -Point::LIMIT - least);
    let most = coordinates.max().map(|most| Point::LIMIT - most);
    (least.unwrap_or(0), most.unwrap_or(0))
}
