//! The sheets that are timed: eight shapes in four sizes and squares in two that
//! are small, always the same.

use witness::generate::{anywhere, chessboard, comb, patchwork, pixels, saw, spiral, squares};
use witness::generate::{steep_comb, turned_round, Random, Sheet};
use witness::geometry::{MOST_EDGES, NUMBERS_PER_EDGE};

/// The most edges that are aimed at, and how many the sheets of a shape and size
/// have together.
pub const LARGEST: usize = 4_096;

const SIZES: &[usize] = &[512, 1_024, 2_048, LARGEST];

/// A shape and how it is made with about so many edges, by chance.
pub struct Shape {
    /// Its name in the table.
    pub name: &'static str,
    /// The numbers of edges that are aimed at.
    pub sizes: &'static [usize],
    make: fn(&mut Random, usize) -> Sheet,
}

/// The shapes. A grid of 4,096 edges has 1,024 squares, a comb 1,024 teeth, a
/// steep comb 2,047 tops, a chessboard 1,024 fields, and many films 1,024 pixels
/// side by side, each in another film than its neighbours. The others are of one
/// film. On a chessboard four edges meet at every inner corner. Small squares are
/// one or eight.
pub const SHAPES: [Shape; 9] = [
    Shape {
        name: "pixel art",
        sizes: SIZES,
        make: pixel_art,
    },
    Shape {
        name: "squares",
        sizes: SIZES,
        make: grid,
    },
    Shape {
        name: "chessboard",
        sizes: SIZES,
        make: |random, edges| chessboard(random, edges / 2 / side(edges / 2), side(edges / 2)),
    },
    Shape {
        name: "comb",
        sizes: SIZES,
        make: |random, edges| comb(random, edges / 4),
    },
    Shape {
        name: "steep comb",
        sizes: SIZES,
        make: |random, edges| steep_comb(random, edges / 2 - 1),
    },
    Shape {
        name: "spiral",
        sizes: SIZES,
        make: |random, edges| spiral(random, edges / 2),
    },
    Shape {
        name: "saw",
        sizes: SIZES,
        make: |random, edges| saw(random, edges.trailing_zeros() - 1),
    },
    Shape {
        name: "many films",
        sizes: SIZES,
        make: |random, edges| patchwork(random, edges / 4 / side(edges / 4), side(edges / 4)),
    },
    Shape {
        name: "small squares",
        sizes: &[4, 32],
        make: small_squares,
    },
];

impl Shape {
    /// Sheets of this shape with about so many edges each, different ones, so
    /// many that they have as many edges together in every size: a machine that
    /// is shown one small sheet again and again learns it by heart.
    pub fn sheets(&self, edges: usize) -> Vec<Sheet> {
        let sheet = |seed: usize| {
            let sheet = (self.make)(&mut Random::new(seed as u64), edges);
            assert!(!sheet.is_empty() && sheet.len() <= NUMBERS_PER_EDGE * MOST_EDGES);
            sheet
        };
        (1..=LARGEST / edges).map(sheet).collect()
    }
}

/// The greatest power of two whose square is no greater.
fn side(squares: usize) -> usize {
    (0..)
        .map(|power| 1 << power)
        .take_while(|side| side * side <= squares)
        .last()
        .unwrap_or(1)
}

/// A grid of as many squares as have so many edges.
fn grid(random: &mut Random, edges: usize) -> Sheet {
    let rows = side(edges / 4);
    squares(random, edges / 4 / rows, rows)
}

/// The same, each square run either way round, anywhere in the range: sheets of
/// one square and at one place would hardly differ.
fn small_squares(random: &mut Random, edges: usize) -> Sheet {
    let sheet = grid(random, edges);
    let sheet = turned_round(random, &sheet);
    anywhere(random, &sheet)
}

/// A bitmap, half of it film, one edge a pixel side; as large as it may be
/// without having more edges than asked for.
fn pixel_art(random: &mut Random, edges: usize) -> Sheet {
    let seed = random.draw();
    let draw = |width: usize| {
        let height = width.min(edges / width + 1);
        pixels(&mut Random::new(seed), width, height, 50, false)
    };
    let fits = |width: &usize| draw(*width).len() <= NUMBERS_PER_EDGE * edges;
    let largest = (4..=63).take_while(fits).last();
    draw(largest.unwrap_or(4))
}

#[cfg(test)]
mod tests {
    use super::*;
    use std::collections::BTreeSet;
    use witness::geometry::read_edges;
    use witness::steps::sweep_up;

    /// All sheets of a shape and size differ, and have as many edges as are aimed
    /// at or, pixel art and saws, a little fewer.
    #[test]
    fn different_sheets_of_the_sizes_aimed_at() {
        for shape in &SHAPES {
            for size in shape.sizes {
                let sheets = shape.sheets(*size);
                let differ: BTreeSet<&Sheet> = sheets.iter().collect();
                assert_eq!(differ.len(), LARGEST / size, "{}, {}", shape.name, size);
                let edges = |sheet: &Sheet| sheet.len() / NUMBERS_PER_EDGE;
                let about = size - size / 8..=*size;
                let fits = |sheet: &Sheet| about.contains(&edges(sheet));
                assert!(sheets.iter().all(fits), "{}, {}", shape.name, size);
            }
        }
    }

    #[test]
    fn the_steep_comb_has_a_high_peak() {
        let steep = SHAPES.iter().find(|shape| shape.name == "steep comb");
        let sheets = steep.unwrap().sheets(LARGEST);
        let peak = sweep_up(&read_edges(&sheets[0]), usize::MAX).unwrap().peak;
        assert!(peak > 1_400, "{}", peak);
    }
}
