//! A point of a drawing, and which of two is higher.

use core::cmp::Ordering;
use core::fmt;

/// A point, x to the right and y upwards. Of two points the greater is the
/// higher: the one with the greater y, and at equal y the one with the greater x.
///
/// ```
/// use outline::Point;
///
/// let point = Point { x: 1, y: 5 };
/// assert!(point < Point::new(2, 5) && point > Point::new(9, 4));
/// assert_eq!(Point::from((1, 5)), point);
/// assert_eq!(<(i32, i32)>::from(point), (1, 5));
/// assert_eq!(point.to_string(), "(1, 5)");
/// ```
#[derive(Clone, Copy, PartialEq, Eq, Hash, Debug, Default)]
pub struct Point {
    /// How far it is to the right.
    pub x: i32,
    /// How far it is up.
    pub y: i32,
}

impl Point {
    /// The point with these coordinates.
    ///
    /// ```
    /// use outline::Point;
    ///
    /// assert_eq!(Point::new(1, 5), Point { x: 1, y: 5 });
    /// ```
    #[must_use]
    pub const fn new(x: i32, y: i32) -> Point {
        Point { x, y }
    }
}

impl Ord for Point {
    fn cmp(&self, other: &Point) -> Ordering {
        (self.y, self.x).cmp(&(other.y, other.x))
    }
}

impl PartialOrd for Point {
    fn partial_cmp(&self, other: &Point) -> Option<Ordering> {
        Some(self.cmp(other))
    }
}

impl From<(i32, i32)> for Point {
    fn from((x, y): (i32, i32)) -> Point {
        Point { x, y }
    }
}

impl From<Point> for (i32, i32) {
    fn from(point: Point) -> (i32, i32) {
        (point.x, point.y)
    }
}

impl fmt::Display for Point {
    fn fmt(&self, to: &mut fmt::Formatter) -> fmt::Result {
        write!(to, "({}, {})", self.x, self.y)
    }
}
