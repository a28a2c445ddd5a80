//! Sheets with points where four edges of one film meet, worked by hand from
//! request M-104: corners that are apart, corners that are joined, corners that
//! do not alternate, and directions that differ by as little as they can.

use crate::generate::Sheet;
use crate::geometry::NUMBERS_PER_EDGE;

use super::{film_0, Pair, Worked};

/// Each edge of a sheet run the other way. Tops stay, and so does their order.
fn run_back(sheet: &[i32]) -> Sheet {
    let back = |edge: &[i32]| [edge[2], edge[3], edge[0], edge[1], edge[4]];
    let edges = sheet.chunks_exact(NUMBERS_PER_EDGE);
    edges.flat_map(back).collect()
}

/// The two pixels of 02's example, each round its own film: the upper left one of
/// this film, the lower right one of film 0.
fn falling_pixels(upper_left: i32) -> Sheet {
    let mut sheet = film_0(&[
        [1, 0, 2, 0],
        [0, 1, 1, 1],
        [1, 1, 1, 0],
        [2, 0, 2, 1],
        [2, 1, 1, 1],
        [0, 2, 0, 1],
        [1, 1, 1, 2],
        [1, 2, 0, 2],
    ]);
    for place in [1, 5, 6, 7] {
        sheet[NUMBERS_PER_EDGE * place + 4] = upper_left;
    }
    sheet
}

/// The same two pixels as large as they can be: they touch at (0, 0), and the far
/// ends of their edges lie at the ends of the range.
fn largest_pixels() -> Sheet {
    let mut sheet = falling_pixels(0);
    for edge in sheet.chunks_exact_mut(NUMBERS_PER_EDGE) {
        let coordinates = edge[..4].iter_mut();
        coordinates.for_each(|number| *number = 1_000_000 * (*number - 1));
    }
    sheet
}

/// Two pixels of which the upper one is to the right.
fn rising_pixels() -> Sheet {
    film_0(&[
        [0, 0, 1, 0],
        [0, 1, 0, 0],
        [1, 0, 1, 1],
        [1, 1, 0, 1],
        [1, 1, 2, 1],
        [1, 2, 1, 1],
        [2, 1, 2, 2],
        [2, 2, 1, 2],
    ])
}

/// An outline that goes straight on through (0, 0) upwards, and one that bends
/// there from the upper right to the lower right.
fn straight_on() -> Sheet {
    film_0(&[
        [0, 0, 1, -1],
        [0, -1, 0, 0],
        [-1, 1, 0, -1],
        [0, 0, 0, 1],
        [0, 1, -1, 1],
        [1, -1, 1, 1],
        [1, 1, 0, 0],
    ])
}

/// Two slivers that touch at a point from which the ways to the far ends of each
/// differ least: with the lower ones multiplied across, 2,000,000 times 1,999,998
/// is one less than 1,999,999 times 1,999,999. The last three edges are the upper
/// one's.
fn slivers() -> Sheet {
    let (most, next) = (1_000_000, 999_999);
    film_0(&[
        [-next, -next, -most, -most],
        [-most, -most, most, next],
        [most, next, -next, -next],
        [-most, most, most, next],
        [most, next, -next, most],
        [-next, most, -most, most],
    ])
}

/// The pairs of so many edges.
fn pairs<const N: usize>(polygons: [u32; N], sequences: [u32; N]) -> [Pair; N] {
    std::array::from_fn(|place| (polygons[place], sequences[place]))
}

/// Two outlines that stay so at a corner, and one that goes twice through it when
/// all is run the other way.
fn pairs_of_pixels() -> [Worked; 8] {
    let falling = pairs([2, 1, 2, 2, 2, 1, 1, 1], [2, 2, 1, 3, 0, 1, 3, 0]);
    let rising = pairs([2, 2, 2, 2, 1, 1, 1, 1], [2, 1, 3, 0, 2, 1, 3, 0]);
    let falling_back = pairs([1; 8], [3, 5, 4, 2, 1, 6, 0, 7]);
    let rising_back = pairs([1; 8], [3, 4, 2, 5, 1, 6, 0, 7]);
    let in_films_back = pairs([2, 1, 2, 2, 2, 1, 1, 1], [1, 1, 2, 0, 3, 2, 0, 3]);
    let (one_film, two_films) = (falling_pixels(0), falling_pixels(1));
    let (one_back, two_back) = (run_back(&one_film), run_back(&two_films));
    let (up, up_back) = (rising_pixels(), run_back(&rising_pixels()));
    let (large, large_back) = (largest_pixels(), run_back(&largest_pixels()));
    [
        Worked::accepted("the pixels of 02", one_film, [2, 2, 10], &falling),
        Worked::accepted("in two films", two_films, [2, 2, 10], &falling),
        Worked::accepted("run back", one_back, [1, 3, 12], &falling_back),
        Worked::accepted("films run back", two_back, [2, 2, 10], &in_films_back),
        Worked::accepted("pixels that rise", up, [2, 1, 10], &rising),
        Worked::accepted("rising run back", up_back, [1, 1, 9], &rising_back),
        Worked::accepted("largest pixels", large, [2, 2, 10], &falling),
        Worked::accepted("largest run back", large_back, [1, 3, 12], &falling_back),
    ]
}

/// Sheets with corners that are accepted; each is lent as many rows as its peak.
pub fn accepted_at_corners() -> Vec<Worked> {
    let straight = pairs([1, 2, 2, 2, 2, 1, 1], [1, 2, 1, 3, 0, 2, 0]);
    let joined = pairs([2, 2, 2, 1, 1, 1], [1, 2, 0, 1, 2, 0]);
    let apart = pairs([1; 6], [2, 1, 3, 4, 0, 5]);
    let back = run_back(&slivers());
    let mut sheets = Vec::from(pairs_of_pixels());
    sheets.extend([
        Worked::accepted("straight on", straight_on(), [2, 2, 9], &straight),
        Worked::accepted("slivers that are joined", slivers(), [2, 1, 8], &joined),
        Worked::accepted("slivers that are apart", back, [1, 1, 7], &apart),
    ]);
    sheets
}

/// Two lines that cross at (0, 0): an edge that arrives stands there beside one
/// that arrives.
fn crossing() -> Sheet {
    film_0(&[
        [1, -1, -1, -1],
        [-1, -1, 0, 0],
        [0, 0, 1, -1],
        [-1, 1, 0, 0],
        [0, 0, 1, 1],
        [1, 1, -1, 1],
    ])
}

/// A lower outline whose two edges at (0, 0) lie in one direction and end so far
/// to the left and down, and an upper one that alternates with them if anything
/// does.
fn lower_in_one_direction(shorter: i32, longer: i32) -> Sheet {
    film_0(&[
        [-shorter, -shorter, -longer, -longer],
        [-longer, -longer, 0, 0],
        [0, 0, -shorter, -shorter],
        [-1, 1, 0, 0],
        [0, 0, 1, 1],
        [1, 1, -1, 1],
    ])
}

/// The same with two upper edges in one direction.
fn upper_in_one_direction() -> Sheet {
    film_0(&[
        [1, -1, -1, -1],
        [-1, -1, 0, 0],
        [0, 0, 1, -1],
        [0, 0, 1, 1],
        [1, 1, 2, 2],
        [2, 2, 0, 0],
    ])
}

/// The slivers with one of them run back.
fn slivers_that_do_not_alternate() -> [Sheet; 2] {
    let there = slivers();
    let back = run_back(&there);
    let middle = there.len() / 2;
    [
        [&there[..middle], &back[middle..]].concat(),
        [&back[..middle], &there[middle..]].concat(),
    ]
}

/// Sheets that are refused for their corners, or for something that is tried
/// before these or after.
pub fn refused_at_corners() -> Vec<Worked> {
    let [upper_back, lower_back] = slivers_that_do_not_alternate();
    let above = |edges: &[[i32; 4]]| [crossing(), film_0(edges)].concat();
    let (one_more, twice) = ([0, 9, 1, 9], [[0, 9, 1, 9]; 2]);
    let mut lower = falling_pixels(0);
    let heights = lower
        .iter_mut()
        .enumerate()
        .filter(|(at, _)| at % 5 % 2 == 1);
    heights.for_each(|(_, y)| *y -= 10);
    let after_a_good_one = [lower, crossing()].concat();
    let far = lower_in_one_direction(999_999, 1_000_000);
    vec![
        Worked::refused("two lines that cross", crossing(), 17, 1),
        Worked::refused("in one direction", lower_in_one_direction(1, 2), 17, 1),
        Worked::refused("in one direction, far", far, 17, 1),
        Worked::refused("upwards in one direction", upper_in_one_direction(), 17, 1),
        Worked::refused("a sliver run back", upper_back, 17, 1),
        Worked::refused("the other sliver run back", lower_back, 17, 1),
        Worked::refused("a good corner first", after_a_good_one, 17, 9),
        Worked::refused("17 after 8", above(&twice), 8, 7),
        Worked::refused("17 after 9", above(&[one_more]), 9, 6),
        Worked::lent("17 before 10", crossing(), 0, 17, 1),
    ]
}
