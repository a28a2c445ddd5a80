//! Edges gathered so that the list stays sound: at each point at most one edge of
//! each kind and film by document 01, and four of them alternating by M-104.
//! Closed walks keep as many arriving as leaving, so a walk is taken whole or not
//! at all.

use crate::corners::Meetings;
use crate::geometry::{Edge, Point, MOST_EDGES};

/// A growing sound list.
#[derive(Clone, Default)]
pub struct Sound {
    edges: Vec<Edge>,
    meetings: Meetings,
}

impl Sound {
    /// Takes the edge if it has two ends and what meets at both is fit with it,
    /// and says whether.
    pub fn take(&mut self, edge: Edge) -> bool {
        let place = self.edges.len();
        if edge.tail == edge.head || place == MOST_EDGES {
            return false;
        }
        self.meetings.add(place, edge);
        let meeting = |(site, _)| self.meetings.at(site);
        let mut meetings = edge.ends().into_iter().filter_map(meeting);
        let fits = meetings.all(|meeting| meeting.is_fit());
        if fits {
            self.edges.push(edge);
        } else {
            self.meetings.remove(place, edge);
        }
        fits
    }

    /// Takes the closed walk of a film through these corners if all of it fits.
    pub fn take_walk(&mut self, corners: &[Point], film: i32) -> bool {
        let length = self.edges.len();
        let walk = closed(corners);
        let taken = walk.iter().all(|edge| self.take(edge.in_film(film)));
        if !taken {
            self.cut_back(length);
        }
        taken
    }

    /// Gives back all edges but the first ones.
    pub fn cut_back(&mut self, length: usize) {
        for (further, edge) in self.edges.drain(length..).enumerate() {
            self.meetings.remove(length + further, edge);
        }
    }

    /// How many edges there are.
    pub fn length(&self) -> usize {
        self.edges.len()
    }

    /// The edges, in the order taken.
    pub fn into_edges(self) -> Vec<Edge> {
        self.edges
    }
}

/// The edges of the closed walk through these corners, in film 0.
pub fn closed(corners: &[Point]) -> Vec<Edge> {
    let next = corners.iter().cycle().skip(1);
    corners
        .iter()
        .zip(next)
        .map(|(tail, head)| Edge::new(*tail, *head, 0))
        .collect()
}
