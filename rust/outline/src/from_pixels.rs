//! Edges made of the cells of a bitmap: the boundary of each film, with film on
//! the left of every edge and straight runs drawn as one edge, in sweep order.
//! Neighbours of two films both have the side between them. Where a film touches
//! itself only across a corner, arriving and leaving alternate round that point,
//! since film and no film do; so the engine never refuses such a sheet for its
//! corners, and keeps its pixels apart there.

use crate::edge::{sort_into_sweep_order, Edge};
use crate::point::Point;

/// The edges round the films of a bitmap, in sweep order. A bitmap has its rows
/// from the top down, and a row its cells from the left, each with its film or
/// none. Rows need not be equally long: what is missing has no film. A cell is one
/// unit wide and high, and the lowest row has its lower side at y = 0. Needs the
/// feature `std`.
///
/// Every bitmap has edges. A sheet that is too much for the engine is refused by
/// it: one with more than 4,096 edges, and one that reaches past 1,000,000.
///
/// ```
/// use outline::{from_pixels, Outlines};
///
/// let (film, none) = (Some(7), None);
/// let edges = from_pixels(&[[film, none], [none, film]]);
/// let outlines = Outlines::of_edges(&edges)?;
/// // Pixels that touch corner to corner are two outlines.
/// assert_eq!(outlines.iter().map(|one| one.edges().len()).collect::<Vec<_>>(), [4, 4]);
///
/// // Of cells that stand in one slice, row after row:
/// let cells = [film, none, none, film];
/// let rows: Vec<&[Option<u8>]> = cells.chunks(2).collect();
/// assert_eq!(from_pixels(&rows), edges);
/// # Ok::<(), outline::Refusal>(())
/// ```
#[must_use]
pub fn from_pixels<Row: AsRef<[Option<u8>]>>(rows: &[Row]) -> Vec<Edge> {
    let bitmap = &Bitmap { rows };
    let runs = |(cell, film)| {
        SIDES
            .iter()
            .filter_map(move |side| bitmap.run(cell, film, side))
    };
    let mut edges: Vec<Edge> = cells(rows).flat_map(runs).collect();
    sort_into_sweep_order(&mut edges);
    edges
}

/// The cells that have a film.
fn cells<Row: AsRef<[Option<u8>]>>(rows: &[Row]) -> impl Iterator<Item = (Corner, u8)> + '_ {
    let from_below = rows.iter().rev().enumerate();
    from_below.flat_map(|(y, row)| {
        let cells = row.as_ref().iter().enumerate();
        cells.filter_map(move |(x, film)| Some(((x as i64, y as i64), (*film)?)))
    })
}

/// A corner, or the lower left corner of a cell: x, y upwards. A bitmap may be
/// larger than a coordinate can say.
type Corner = (i64, i64);

/// A side of a cell.
struct Side {
    /// Where it begins, seen from the cell's lower left corner.
    tail: Corner,
    /// The step from its tail to its head.
    along: Corner,
    /// The step to the cell on its right.
    right: Corner,
}

/// The four sides, each with the cell on its left.
static SIDES: [Side; 4] = [
    Side {
        tail: (0, 0),
        along: (1, 0),
        right: (0, -1),
    },
    Side {
        tail: (1, 0),
        along: (0, 1),
        right: (1, 0),
    },
    Side {
        tail: (1, 1),
        along: (-1, 0),
        right: (0, 1),
    },
    Side {
        tail: (0, 1),
        along: (0, -1),
        right: (-1, 0),
    },
];

/// The rows of a bitmap, from the top down.
struct Bitmap<'a, Row> {
    rows: &'a [Row],
}

impl<Row: AsRef<[Option<u8>]>> Bitmap<'_, Row> {
    /// The film of a cell, which need not be one of the bitmap.
    fn film(&self, (x, y): Corner) -> Option<u8> {
        let (x, y) = (usize::try_from(x).ok()?, usize::try_from(y).ok()?);
        let row = self.rows.iter().rev().nth(y)?;
        *row.as_ref().get(x)?
    }

    /// The straight run that begins with a side of a cell of this film, if one does:
    /// all along it the film is on the left and not on the right.
    fn run(&self, cell: Corner, film: u8, side: &Side) -> Option<Edge> {
        let bounds = |steps: i64| {
            let left = further(cell, side.along, steps);
            let right = further(left, side.right, 1);
            self.film(left) == Some(film) && self.film(right) != Some(film)
        };
        if !bounds(0) || bounds(-1) {
            return None;
        }
        // Past the bitmap there is no film, so that every run ends.
        let length = (1..).find(|steps| !bounds(*steps))?;
        let tail = further(cell, side.tail, 1);
        let head = further(tail, side.along, length);
        Some(Edge::new(point(tail), point(head), film))
    }
}

/// The corner so many steps away.
fn further((x, y): Corner, (right, up): Corner, steps: i64) -> Corner {
    (x + steps * right, y + steps * up)
}

/// The corner as a point of a list. What no coordinate can say is past the range
/// that the engine takes, and so is the greatest coordinate.
fn point((x, y): Corner) -> Point {
    let coordinate = |number: i64| i32::try_from(number).unwrap_or(i32::MAX);
    Point::new(coordinate(x), coordinate(y))
}

#[cfg(test)]
mod tests {
    use super::*;

    /// No bitmap of that size is made, so the corner is taken by itself.
    #[test]
    fn a_corner_that_no_coordinate_can_say_is_past_the_range() {
        let far = i64::from(i32::MAX) + 1;
        for number in [far - 1, far, 2 * far, 2 * far + 1, i64::MAX] {
            assert_eq!(point((number, 3)), Point::new(i32::MAX, 3));
            assert_eq!(point((3, number)), Point::new(3, i32::MAX));
        }
        assert_eq!(point((7, 0)), Point::new(7, 0));
    }
}
