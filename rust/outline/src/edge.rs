//! An edge of a drawing, and the order in which the engine asks for them.

use core::fmt;

use crate::point::Point;
use crate::refusal::Refusal;
use crate::NUMBERS_PER_EDGE;

/// A directed edge, from its tail to its head, with film to its left. Plain lists
/// have it as five numbers: tail x, tail y, head x, head y, film.
///
/// ```
/// use outline::{Edge, Point, Refusal};
///
/// let edge = Edge { tail: Point::new(0, 0), head: Point::new(4, 2), film: 7 };
/// assert_eq!(<[i32; 5]>::from(edge), [0, 0, 4, 2, 7]);
/// assert_eq!(Edge::try_from([0, 0, 4, 2, 7]), Ok(edge));
/// assert_eq!(edge.to_string(), "(0, 0) to (4, 2) in film 7");
/// // A number that is no film is refused as in a list of one edge.
/// let refusal = Edge::try_from([0, 0, 4, 2, 256]).unwrap_err();
/// assert_eq!(refusal, Refusal::FilmPastRange { edge: 0 });
/// ```
#[derive(Clone, Copy, PartialEq, Eq, Hash, Debug)]
pub struct Edge {
    /// Where it begins.
    pub tail: Point,
    /// Where it ends.
    pub head: Point,
    /// Its film.
    pub film: u8,
}

impl Edge {
    /// The edge from one point to another in a film.
    ///
    /// ```
    /// use outline::{Edge, Point};
    ///
    /// let edge = Edge::new(Point::new(0, 0), Point::new(4, 2), 7);
    /// assert_eq!((edge.head.x, edge.film), (4, 7));
    /// ```
    #[must_use]
    pub const fn new(tail: Point, head: Point, film: u8) -> Edge {
        Edge { tail, head, film }
    }

    /// Its higher end.
    ///
    /// ```
    /// use outline::{Edge, Point};
    ///
    /// let level = Edge::new(Point::new(4, 2), Point::new(1, 2), 7);
    /// assert_eq!(level.top(), Point::new(4, 2));
    /// ```
    #[must_use]
    pub fn top(self) -> Point {
        self.tail.max(self.head)
    }

    /// Its lower end.
    ///
    /// ```
    /// use outline::{Edge, Point};
    ///
    /// let level = Edge::new(Point::new(4, 2), Point::new(1, 2), 7);
    /// assert_eq!(level.bottom(), Point::new(1, 2));
    /// ```
    #[must_use]
    pub fn bottom(self) -> Point {
        self.tail.min(self.head)
    }

    /// Its five numbers in a plain list.
    ///
    /// ```
    /// use outline::{Edge, Point, NUMBERS_PER_EDGE};
    ///
    /// let edges = [Edge::new(Point::new(0, 0), Point::new(4, 2), 7); 3];
    /// let mut list = [0; 3 * NUMBERS_PER_EDGE];
    /// for (numbers, edge) in list.chunks_exact_mut(NUMBERS_PER_EDGE).zip(edges) {
    ///     numbers.copy_from_slice(&edge.numbers());
    /// }
    /// assert_eq!(list, [0, 0, 4, 2, 7, 0, 0, 4, 2, 7, 0, 0, 4, 2, 7]);
    /// ```
    #[must_use]
    pub fn numbers(self) -> [i32; NUMBERS_PER_EDGE] {
        let (tail, head) = (self.tail, self.head);
        [tail.x, tail.y, head.x, head.y, i32::from(self.film)]
    }
}

impl From<Edge> for [i32; NUMBERS_PER_EDGE] {
    fn from(edge: Edge) -> [i32; NUMBERS_PER_EDGE] {
        edge.numbers()
    }
}

impl TryFrom<[i32; NUMBERS_PER_EDGE]> for Edge {
    type Error = Refusal;

    fn try_from(numbers: [i32; NUMBERS_PER_EDGE]) -> Result<Edge, Refusal> {
        let [tail_x, tail_y, head_x, head_y, film] = numbers;
        let film = u8::try_from(film).map_err(|_| Refusal::FilmPastRange { edge: 0 })?;
        let (tail, head) = (Point::new(tail_x, tail_y), Point::new(head_x, head_y));
        Ok(Edge { tail, head, film })
    }
}

impl fmt::Display for Edge {
    fn fmt(&self, to: &mut fmt::Formatter) -> fmt::Result {
        write!(to, "{} to {} in film {}", self.tail, self.head, self.film)
    }
}

/// Puts edges in the order in which the engine asks for them: no edge has its top
/// below the top of the edge before it. Edges with one top may stand in any order;
/// here they stand by their tails, then by their films, then by their heads, so
/// that the same edges make the same list however they came. Nothing is
/// allocated.
///
/// ```
/// use outline::{sort_into_sweep_order, Edge, Point};
///
/// let edge = |tail, head| Edge::new(Point::from(tail), Point::from(head), 7);
/// let mut triangle = [
///     edge((1, 5), (0, 0)),
///     edge((4, 2), (1, 5)),
///     edge((0, 0), (4, 2)),
/// ];
/// sort_into_sweep_order(&mut triangle);
/// assert_eq!(triangle.map(Edge::top), [(4, 2), (1, 5), (1, 5)].map(Point::from));
/// ```
pub fn sort_into_sweep_order(edges: &mut [Edge]) {
    edges.sort_unstable_by_key(|edge| (edge.top(), edge.tail, edge.film, edge.head));
}
