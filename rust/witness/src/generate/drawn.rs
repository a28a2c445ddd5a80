//! Five shapes drawn by rule: the comb, with all its highest points side by
//! side; the steep comb, whose highest and lowest points are in no order; the
//! spiral, with all its chains inside one another; the grid of squares, with many
//! outlines at once; and the chessboard, whose squares touch. Each can be made as
//! large as a list may be. All are of film 0.

use crate::geometry::{Edge, Point};

use super::sound::closed;
use super::{in_sweep_order, Random, Sheet};

/// A comb of so many teeth (1 to 1,024), four edges a tooth, standing up or
/// hanging down, its teeth of random lengths or all of one.
pub fn comb(random: &mut Random, teeth: usize) -> Sheet {
    let (hanging, longest) = (random.one_in(2), random.between(2, 9));
    let even = random.one_in(2);
    let teeth = teeth as i32;
    let mut corners = vec![Point::new(0, 0), Point::new(2 * teeth - 1, 0)];
    for tooth in (0..teeth).rev() {
        let shortest = if even { longest } else { 2 };
        let end = random.between(shortest, longest);
        corners.push(Point::new(2 * tooth + 1, end));
        corners.push(Point::new(2 * tooth, end));
        if tooth > 0 {
            corners.push(Point::new(2 * tooth, 1));
            corners.push(Point::new(2 * tooth - 1, 1));
        }
    }
    if hanging {
        for corner in &mut corners {
            corner.y = -corner.y;
        }
    }
    in_sweep_order(random, closed(&corners))
}

/// A steep comb with so many tops (2 to 2,047), two edges a top and two more: one
/// zigzag from top to bottom to top, closed by edges below all of it. Every top is
/// above every bottom, no two are at one height, and along the comb the heights
/// are in no order. So half of the chains wait for their second top when half of
/// the tops are reached, and the peak is about a third of the edges.
pub fn steep_comb(random: &mut Random, tops: usize) -> Sheet {
    let count = tops as i32;
    let last = 2 * (count - 1);
    let mut bottoms: Vec<i32> = (1..count).collect();
    let mut heights: Vec<i32> = (count..2 * count).collect();
    random.shuffle(&mut bottoms);
    random.shuffle(&mut heights);
    let below = [(0, 0), (last / 2, -1), (last, 0)];
    let mut corners = below.map(|(x, y)| Point::new(x, y)).to_vec();
    for x in (0..=last).rev() {
        let of_its_kind = if x % 2 == 0 { &heights } else { &bottoms };
        corners.push(Point::new(x, of_its_kind[x as usize / 2]));
    }
    in_sweep_order(random, closed(&corners))
}

/// A band wound into a spiral with so many corners on each of its two sides (1
/// to 2,048); two edges a corner.
pub fn spiral(random: &mut Random, corners: usize) -> Sheet {
    let corner = |turn: usize, further: i32| {
        let away = 4 * turn as i32 + further;
        match turn % 4 {
            0 => Point::new(away, -away),
            1 => Point::new(away, away),
            2 => Point::new(-away, away),
            _ => Point::new(-away, -away),
        }
    };
    let outer = (0..corners).map(|turn| corner(turn, 12));
    let inner = (0..corners).rev().map(|turn| corner(turn, 4));
    let band: Vec<Point> = outer.chain(inner).collect();
    in_sweep_order(random, closed(&band))
}

/// A grid of squares that do not touch, four edges a square, up to 1,024.
pub fn squares(random: &mut Random, columns: usize, rows: usize) -> Sheet {
    let side = random.between(1, 3);
    let step = side + random.between(1, 3);
    let all = |_| true;
    grid_of_squares(random, (columns, rows), (side, step), all)
}

/// The fields of one colour on a chessboard, that of the lower left corner among
/// them; four edges a field, up to 1,024. Four edges meet at every inner corner.
pub fn chessboard(random: &mut Random, columns: usize, rows: usize) -> Sheet {
    let side = random.between(1, 3);
    let dark = |(column, row): (usize, usize)| (column + row) % 2 == 0;
    grid_of_squares(random, (columns, rows), (side, side), dark)
}

/// Those squares of a grid that are wanted, of this side and so far from one to
/// the next, each with its inside on the left.
fn grid_of_squares(
    random: &mut Random,
    (columns, rows): (usize, usize),
    (side, step): (i32, i32),
    is_wanted: impl Fn((usize, usize)) -> bool,
) -> Sheet {
    let mut edges: Vec<Edge> = Vec::new();
    let squares = (0..columns * rows).map(|square| (square % columns, square / columns));
    for (column, row) in squares.filter(|at| is_wanted(*at)) {
        let (x, y) = (step * column as i32, step * row as i32);
        edges.extend(closed(&[
            Point::new(x, y),
            Point::new(x + side, y),
            Point::new(x + side, y + side),
            Point::new(x, y + side),
        ]));
    }
    in_sweep_order(random, edges)
}
