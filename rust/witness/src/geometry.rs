//! Points and edges, as "Points, edges, joins" of document 01 has them, and
//! their films, as request M-100 adds them. A point's order is height first,
//! then x; the order, the limits, and an edge's top and bottom belong to the
//! types here and are said nowhere else. Rests on nothing.

use std::cmp::Ordering;

/// The most edges that a list may hold.
pub const MOST_EDGES: usize = 4096;

/// How many numbers one edge takes in a list: two ends and a film.
pub const NUMBERS_PER_EDGE: usize = 5;

/// A point of the sheet.
#[derive(Clone, Copy, PartialEq, Eq, Hash, Debug)]
pub struct Point {
    /// How far to the right.
    pub x: i32,
    /// How far up.
    pub y: i32,
}

impl Point {
    /// The greatest coordinate, on either side of zero.
    pub const LIMIT: i32 = 1_000_000;

    /// The point with these coordinates.
    pub fn new(x: i32, y: i32) -> Point {
        Point { x, y }
    }

    /// Whether both coordinates keep within the limit.
    pub fn is_in_range(self) -> bool {
        let range = -Point::LIMIT..=Point::LIMIT;
        range.contains(&self.x) && range.contains(&self.y)
    }
}

impl Ord for Point {
    fn cmp(&self, other: &Point) -> Ordering {
        self.y.cmp(&other.y).then(self.x.cmp(&other.x))
    }
}

impl PartialOrd for Point {
    fn partial_cmp(&self, other: &Point) -> Option<Ordering> {
        Some(self.cmp(other))
    }
}

/// A point of one film. Edges meet only within a film, so where edges of two
/// films have an end at one point there are two sites.
#[derive(Clone, Copy, PartialEq, Eq, PartialOrd, Ord, Hash, Debug)]
pub struct Site {
    /// The point.
    pub point: Point,
    /// The film.
    pub film: i32,
}

/// A directed edge of a film.
#[derive(Clone, Copy, PartialEq, Eq, PartialOrd, Ord, Hash, Debug)]
pub struct Edge {
    /// Where it starts.
    pub tail: Point,
    /// Where it ends.
    pub head: Point,
    /// The film that it cuts.
    pub film: i32,
}

impl Edge {
    /// The greatest film; the least is 0.
    pub const MOST_FILM: i32 = 255;

    /// The edge of a film from `tail` to `head`.
    pub fn new(tail: Point, head: Point, film: i32) -> Edge {
        Edge { tail, head, film }
    }

    /// Whether both ends keep within the limit.
    pub fn is_in_range(self) -> bool {
        self.tail.is_in_range() && self.head.is_in_range()
    }

    /// Whether there is such a film.
    pub fn has_film_in_range(self) -> bool {
        (0..=Edge::MOST_FILM).contains(&self.film)
    }

    /// A point in the edge's film.
    pub fn site(self, point: Point) -> Site {
        let film = self.film;
        Site { point, film }
    }

    /// Whether the head is the higher end.
    pub fn is_up(self) -> bool {
        self.tail < self.head
    }

    /// The higher end.
    pub fn top(self) -> Point {
        self.tail.max(self.head)
    }

    /// The lower end.
    pub fn bottom(self) -> Point {
        self.tail.min(self.head)
    }

    /// The same two ends, run the other way.
    pub fn reversed(self) -> Edge {
        Edge::new(self.head, self.tail, self.film)
    }

    /// The same two ends in another film.
    pub fn in_film(self, film: i32) -> Edge {
        Edge::new(self.tail, self.head, film)
    }

    /// The side on which the edge comes to its tail.
    pub fn tail_side(self) -> Side {
        if self.is_up() {
            Side::Above
        } else {
            Side::Below
        }
    }

    /// The side on which the edge comes to its head.
    pub fn head_side(self) -> Side {
        if self.is_up() {
            Side::Below
        } else {
            Side::Above
        }
    }

    /// The two sites that the edge touches, tail first, with its kind there.
    pub fn ends(self) -> [(Site, Kind); 2] {
        [
            (self.site(self.tail), Kind::Leaves(self.tail_side())),
            (self.site(self.head), Kind::Arrives(self.head_side())),
        ]
    }
}

/// From which side of a point an edge comes to it.
#[derive(Clone, Copy, PartialEq, Eq, PartialOrd, Ord, Hash, Debug)]
pub enum Side {
    /// The rest of the edge is below the point.
    Below,
    /// The rest of the edge is above the point.
    Above,
}

/// What an edge does at one of its ends: four kinds in all.
#[derive(Clone, Copy, PartialEq, Eq, PartialOrd, Ord, Hash, Debug)]
pub enum Kind {
    /// Its head is there.
    Arrives(Side),
    /// Its tail is there.
    Leaves(Side),
}

/// Reads a list of numbers as edges: tail x, tail y, head x, head y, film. What
/// is left over at the end is no edge.
pub fn read_edges(numbers: &[i32]) -> Vec<Edge> {
    let edge = |part: &[i32]| {
        let tail = Point::new(part[0], part[1]);
        Edge::new(tail, Point::new(part[2], part[3]), part[4])
    };
    numbers.chunks_exact(NUMBERS_PER_EDGE).map(edge).collect()
}

/// Writes edges as a list of numbers.
pub fn write_edges(edges: &[Edge]) -> Vec<i32> {
    let numbers = |edge: &Edge| {
        let (tail, head) = (edge.tail, edge.head);
        [tail.x, tail.y, head.x, head.y, edge.film]
    };
    edges.iter().flat_map(numbers).collect()
}

/// Twice the area on the left of the edges.
pub fn twice_area(edges: &[Edge]) -> i64 {
    let cross = |edge: &Edge| {
        let (tail, head) = (edge.tail, edge.head);
        i64::from(tail.x) * i64::from(head.y) - i64::from(head.x) * i64::from(tail.y)
    };
    edges.iter().map(cross).sum()
}
