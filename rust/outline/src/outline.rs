//! One outline of a numbered list, and all of them one after the other.

use core::fmt;
use core::iter::FusedIterator;
use core::ops::Range;

use crate::edge::Edge;
use crate::outlines::Outlines;
use crate::plain::edge_at;
use crate::point::Point;

/// One outline: its number, its film, and its points and edges in the order in
/// which they are cut, from its highest point on. [`Outlines::iter`] and
/// [`Outlines::get`] give it. Needs the feature `std`.
///
/// ```
/// use outline::{Edge, Outlines, Point};
///
/// let outlines = Outlines::of(&[0, 0, 4, 2, 7, 4, 2, 1, 5, 7, 1, 5, 0, 0, 7])?;
/// let outline = outlines.get(1).expect("the only outline");
/// let [top, left, right] = [(1, 5), (0, 0), (4, 2)].map(Point::from);
/// assert_eq!(outline.points().collect::<Vec<Point>>(), [top, left, right]);
/// let edges = [(top, left), (left, right), (right, top)];
/// let edges = edges.map(|(tail, head)| Edge::new(tail, head, 7));
/// assert_eq!(outline.edges().collect::<Vec<Edge>>(), edges);
/// # Ok::<(), outline::Refusal>(())
/// ```
#[derive(Clone, Copy, PartialEq, Eq)]
pub struct Outline<'a> {
    number: usize,
    film: u8,
    list: &'a [i32],
    places: &'a [u32],
}

impl<'a> Outline<'a> {
    /// The outline of these edges of a list that is numbered; none where there
    /// are no edges.
    pub(crate) fn of(list: &'a [i32], places: &'a [u32], number: usize) -> Option<Outline<'a>> {
        let first = places.first()?;
        Some(Outline {
            number,
            film: edge_at(list, *first).film,
            list,
            places,
        })
    }

    /// Its number, from 1.
    ///
    /// ```
    /// # use outline::Outlines;
    /// let outlines = Outlines::of(&[0, 0, 4, 2, 7, 4, 2, 0, 0, 7])?;
    /// assert!(outlines.iter().all(|outline| outline.number() == 1));
    /// # Ok::<(), outline::Refusal>(())
    /// ```
    #[must_use]
    pub fn number(self) -> usize {
        self.number
    }

    /// Its film, which all its edges have.
    ///
    /// ```
    /// # use outline::Outlines;
    /// let outlines = Outlines::of(&[0, 0, 4, 2, 7, 4, 2, 0, 0, 7])?;
    /// assert!(outlines.iter().all(|outline| outline.film() == 7));
    /// # Ok::<(), outline::Refusal>(())
    /// ```
    #[must_use]
    pub fn film(self) -> u8 {
        self.film
    }

    /// The places of its edges in the list, in turn.
    ///
    /// ```
    /// # use outline::Outlines;
    /// let outlines = Outlines::of(&[0, 0, 4, 2, 7, 4, 2, 0, 0, 7])?;
    /// assert!(outlines.iter().all(|outline| outline.places() == [1, 0]));
    /// # Ok::<(), outline::Refusal>(())
    /// ```
    #[must_use]
    pub fn places(self) -> &'a [u32] {
        self.places
    }

    /// Its edges in turn: the first leaves the highest point, each ends where the
    /// next begins, and the last where the first does.
    ///
    /// ```
    /// # use outline::Outlines;
    /// let outlines = Outlines::of(&[0, 0, 4, 2, 7, 4, 2, 0, 0, 7])?;
    /// let outline = outlines.get(1).expect("the only outline");
    /// let edges: Vec<String> = outline.edges().map(|edge| edge.to_string()).collect();
    /// assert_eq!(edges, ["(4, 2) to (0, 0) in film 7", "(0, 0) to (4, 2) in film 7"]);
    /// # Ok::<(), outline::Refusal>(())
    /// ```
    #[must_use]
    pub fn edges(
        self,
    ) -> impl ExactSizeIterator<Item = Edge> + DoubleEndedIterator + FusedIterator + Clone + 'a
    {
        let list = self.list;
        self.places.iter().map(move |place| edge_at(list, *place))
    }

    /// Its points in turn, from the highest on: where each of its edges begins.
    ///
    /// ```
    /// # use outline::{Outlines, Point};
    /// let outlines = Outlines::of(&[0, 0, 4, 2, 7, 4, 2, 0, 0, 7])?;
    /// let outline = outlines.get(1).expect("the only outline");
    /// let mut points = outline.points();
    /// assert_eq!(points.next(), Some(Point::new(4, 2)));
    /// assert_eq!(points.len(), 1);
    /// # Ok::<(), outline::Refusal>(())
    /// ```
    #[must_use]
    pub fn points(
        self,
    ) -> impl ExactSizeIterator<Item = Point> + DoubleEndedIterator + FusedIterator + Clone + 'a
    {
        self.edges().map(|edge| edge.tail)
    }
}

/// Without the list that the places are of.
impl fmt::Debug for Outline<'_> {
    fn fmt(&self, to: &mut fmt::Formatter) -> fmt::Result {
        to.debug_struct("Outline")
            .field("number", &self.number)
            .field("film", &self.film)
            .field("places", &self.places)
            .finish()
    }
}

/// The outlines of a list in the order of their numbers: what [`Outlines::iter`]
/// gives. Needs the feature `std`.
///
/// ```
/// use outline::{Iter, Outlines};
///
/// let outlines = Outlines::of(&[0, 0, 4, 2, 7, 4, 2, 0, 0, 7])?;
/// let mut all: Iter = outlines.iter();
/// assert_eq!(all.len(), 1);
/// assert_eq!(all.next_back().map(|outline| outline.film()), Some(7));
/// assert!(all.next().is_none());
/// # Ok::<(), outline::Refusal>(())
/// ```
#[derive(Clone, Debug)]
#[must_use = "no outline is given before it is looked through"]
pub struct Iter<'a> {
    outlines: &'a Outlines,
    numbers: Range<usize>,
}

impl<'a> Iter<'a> {
    pub(crate) fn of(outlines: &'a Outlines) -> Iter<'a> {
        let numbers = 1..outlines.count() + 1;
        Iter { outlines, numbers }
    }
}

impl<'a> Iterator for Iter<'a> {
    type Item = Outline<'a>;

    fn next(&mut self) -> Option<Outline<'a>> {
        self.numbers.next().and_then(|it| self.outlines.get(it))
    }

    fn size_hint(&self) -> (usize, Option<usize>) {
        self.numbers.size_hint()
    }
}

impl<'a> DoubleEndedIterator for Iter<'a> {
    fn next_back(&mut self) -> Option<Outline<'a>> {
        self.numbers
            .next_back()
            .and_then(|it| self.outlines.get(it))
    }
}

impl ExactSizeIterator for Iter<'_> {}

impl FusedIterator for Iter<'_> {}
