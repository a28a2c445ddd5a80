//! Sheets for tests: every maker here gives an edge list that is sound and in
//! sweep order by document 01 and alternates by M-104 wherever four edges of a
//! film meet, with edges of equal tops in random order, in one film or several.
//! All chance comes from a `Random`, whose seed is printed when a test fails.
//! `damage` and `spoil_cutting` spoil a call so that a chosen refusal must come.

mod cuts;
mod damage;
mod drawn;
mod films;
mod order;
mod pixels;
mod random;
mod saws;
mod sound;
mod soups;
mod twists;
mod walks;

pub use cuts::{any_cutting, cutting, spoil_cutting};
pub use damage::{damage, damaged};
pub use drawn::{chessboard, comb, spiral, squares, steep_comb};
pub use films::{in_films, layered, some_films};
pub use order::{anywhere, in_sweep_order, moved, turned_round};
pub use pixels::{mosaic, of_bitmap, patchwork, pixels, Bitmap};
pub use random::{Random, Seed};
pub use saws::{saw, saws};
pub use soups::soup;
pub use walks::walks;

/// An edge list as the engine reads it: five numbers an edge.
pub type Sheet = Vec<i32>;

/// A small sheet of any shape: at most some three hundred edges, mostly far
/// fewer, now and then none, in one film to five, in half of the cases with some
/// of its parts run the other way, at times pushed into a corner of the range.
pub fn any(random: &mut Random) -> Sheet {
    let films = some_films(random);
    let mut sheet = any_shape(random, &films);
    if random.one_in(2) {
        sheet = turned_round(random, &sheet);
    }
    if random.one_in(8) {
        sheet = moved(random, &sheet);
    }
    sheet
}

fn any_shape(random: &mut Random, films: &[i32]) -> Sheet {
    let reach = [2, 3, 6, 30, 1_000_000][random.below(5)];
    let (size, side) = (1 + random.below(6), random.between(2, 6));
    match random.below(20) {
        0..=5 => {
            let tries = random.below(40);
            walks(random, side, tries, films)
        }
        6 => {
            let one_film = walks(random, side, size, &[0]);
            layered(random, &one_film, films)
        }
        7..=11 => any_pixels(random, films),
        12..=16 => {
            let drawn = any_drawn(random, size);
            in_films(random, &drawn, films)
        }
        17 => soup(random, 2 * size, 3, reach, films),
        _ => {
            let corners = 2 + random.below(30);
            soup(random, size, corners, reach, films)
        }
    }
}

/// Pixel art: of films side by side, or of one whose outlines are each cut from
/// a film of its own.
fn any_pixels(random: &mut Random, films: &[i32]) -> Sheet {
    let (width, height) = (1 + random.below(9), 1 + random.below(9));
    let (percent, merged) = (20 + random.below(61), random.one_in(2));
    if random.one_in(2) {
        return mosaic(random, width, height, films, merged);
    }
    let one_film = pixels(random, width, height, percent, merged);
    in_films(random, &one_film, films)
}

/// One of the shapes drawn by rule.
fn any_drawn(random: &mut Random, size: usize) -> Sheet {
    match random.below(6) {
        0 => comb(random, size),
        1 => spiral(random, 2 * size),
        2 => saw(random, size as u32),
        3 => {
            let outlines: Vec<Vec<usize>> = (0..size).map(|_| some_teeth(random)).collect();
            saws(random, &outlines)
        }
        4 => chessboard(random, size, 8 - size),
        _ => squares(random, size, 7 - size),
    }
}

/// The teeth of one outline: one to three, of one to twelve lowest points.
fn some_teeth(random: &mut Random) -> Vec<usize> {
    let teeth = 1 + random.below(3);
    (0..teeth).map(|_| 1 + random.below(12)).collect()
}
