//! What is drawn: the film of each outline with its corners in turn order, and
//! the points where four edges of a film meet.

use std::collections::{BTreeMap, BTreeSet};

use crate::outline::Outline;
use crate::outlines::Outlines;

/// A point of the list: x, y.
pub type Point = (i32, i32);

/// One outline: its number, its film and its corners, from its top on. The edge
/// with sequence number n leaves the corner n.
pub struct Round {
    /// The outline's number.
    pub number: usize,
    /// The film of its edges.
    pub film: u8,
    /// The tails of its edges.
    pub corners: Vec<Point>,
}

impl Round {
    /// The edges, each as its tail and its head.
    pub fn edges(&self) -> impl Iterator<Item = (Point, Point)> + '_ {
        let heads = self.corners.iter().cycle().skip(1);
        self.corners.iter().copied().zip(heads.copied())
    }

    /// Twice the area on the left of the edges.
    pub fn area(&self) -> i128 {
        let cross = |(tail, head): (Point, Point)| {
            i128::from(tail.0) * i128::from(head.1) - i128::from(head.0) * i128::from(tail.1)
        };
        self.edges().map(cross).sum()
    }
}

/// A numbered sheet.
pub struct Sheet {
    /// The outlines in the order of their numbers.
    pub rounds: Vec<Round>,
    /// The points where four edges of a film meet, each once, lowest first.
    pub touching: Vec<Point>,
    /// The same with the films whose edges meet there.
    met_twice: BTreeSet<(Point, u8)>,
    /// How many films there are.
    pub films: usize,
    /// How many edges there are.
    pub edges: usize,
}

impl Sheet {
    /// The sheet of a list that is numbered.
    pub fn new(outlines: &Outlines) -> Sheet {
        let round = |outline: Outline| Round {
            number: outline.number(),
            film: outline.film(),
            corners: outline.points().map(Point::from).collect(),
        };
        let rounds: Vec<Round> = outlines.iter().map(round).collect();
        let films: BTreeSet<u8> = rounds.iter().map(|round| round.film).collect();
        let met_twice = met_twice(&rounds);
        let mut touching: Vec<Point> = met_twice.iter().map(|(point, _)| *point).collect();
        touching.sort_by_key(|(x, y)| (*y, *x));
        touching.dedup();
        Sheet {
            touching,
            met_twice,
            films: films.len(),
            rounds,
            edges: outlines.turns().len(),
        }
    }

    /// Whether four edges of this film meet at a point.
    pub fn is_met_twice(&self, point: Point, film: u8) -> bool {
        self.met_twice.contains(&(point, film))
    }

    /// All corners of all outlines.
    pub fn corners(&self) -> impl Iterator<Item = Point> + '_ {
        self.rounds
            .iter()
            .flat_map(|round| round.corners.iter().copied())
    }
}

/// The points that outlines of one film come to twice, each with that film: two of
/// its edges arrive and two leave.
fn met_twice(rounds: &[Round]) -> BTreeSet<(Point, u8)> {
    let mut times: BTreeMap<(Point, u8), usize> = BTreeMap::new();
    for round in rounds {
        for corner in &round.corners {
            *times.entry((*corner, round.film)).or_insert(0) += 1;
        }
    }
    let twice = times.into_iter().filter(|(_, times)| *times == 2);
    twice.map(|(corner, _)| corner).collect()
}
