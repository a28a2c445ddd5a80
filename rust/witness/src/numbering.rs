//! A numbering of a list: what the declared rules and the two sweeps of
//! document 01 both give, so that the two can be compared.
//! Rests on nothing.

/// A polygon number and a sequence number for every edge, in list order.
#[derive(Clone, PartialEq, Eq, Debug)]
pub struct Numbering {
    /// How many outlines there are.
    pub count: u32,
    /// Each edge's outline, from 1.
    pub polygons: Vec<u32>,
    /// Each edge's place in its outline, from 0.
    pub sequences: Vec<u32>,
}

impl Numbering {
    /// A numbering in which no edge has its numbers yet.
    pub fn blank(edges: usize) -> Numbering {
        Numbering {
            count: 0,
            polygons: vec![0; edges],
            sequences: vec![0; edges],
        }
    }
}
