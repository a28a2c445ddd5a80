//! The peaks of before M-103, kept as data: a row was passed up then, and freed
//! when that was over. Every sheet that is drawn for docs/ROWS.md has its line in
//! data/peaks-before-M-103.txt, and so have sheets of every kind made by chance,
//! unless four edges of one film meet at a point: M-104 joins these otherwise, so
//! that the peak of before is that of other chains and says nothing of rows given
//! back first. Without such a point the rules of joining are those of before.

use std::collections::BTreeMap;

use witness::declared::touching_sites;
use witness::generate::{any, comb, in_films, layered, mosaic, moved, patchwork, pixels, saw};
use witness::generate::{saws, some_films, soup, spiral, squares, turned_round, walks};
use witness::generate::{Random, Sheet};
use witness::geometry::read_edges;

use crate::rows::{shape, shapes, Shape};

const FILE: &str = include_str!("../data/peaks-before-M-103.txt");

/// What is kept of one sheet.
pub struct Kept {
    /// How many edges it has.
    pub edges: usize,
    /// Its peak in the order of before.
    pub peak: usize,
}

/// All that is kept, by the names of the sheets.
///
/// # Panics
/// When a line is not understood, or when two are of one sheet.
pub fn kept() -> BTreeMap<String, Kept> {
    let mut all = BTreeMap::new();
    for line in FILE.lines().filter(|line| !line.starts_with('#')) {
        let (name, kept) = read(line).unwrap_or_else(|| panic!("not understood: {line}"));
        assert!(all.insert(name, kept).is_none(), "two lines: {line}");
    }
    all
}

/// A line: the edges, the peak, the name.
fn read(line: &str) -> Option<(String, Kept)> {
    let (edges, rest) = line.split_once(' ')?;
    let (peak, name) = rest.split_once(' ')?;
    let (edges, peak) = (edges.parse().ok()?, peak.parse().ok()?);
    Some((name.to_string(), Kept { edges, peak }))
}

/// The sheets: those of docs/ROWS.md, then some of each kind made by chance; all
/// without a corner.
pub fn sheets() -> Vec<Shape> {
    let mut all = shapes();
    for (kind, make) in KINDS {
        let of_seed = |seed: u64| shape(kind, format!("seed {seed}"), make(&mut Random::new(seed)));
        all.extend((0..SEEDS).map(of_seed));
    }
    all.retain(|shape| touching_sites(&read_edges(&shape.sheet)).is_empty());
    all
}

/// How many sheets there are of each kind.
const SEEDS: u64 = 20;

/// Makes a sheet by chance.
type Maker = fn(&mut Random) -> Sheet;

/// The kinds that are made by chance.
const KINDS: [(&str, Maker); 18] = [
    ("any sheet", any),
    ("walks", few_walks),
    ("walks in a corner", walks_in_a_corner),
    ("walks of several films", walks_of_films),
    ("outlines laid in films", laid_in_films),
    ("films on one another", on_one_another),
    ("films side by side", side_by_side),
    ("pixels of any film", any_patchwork),
    ("pixels", |random| pixels(random, 4, 4, 60, false)),
    ("straight runs", |random| pixels(random, 4, 4, 60, true)),
    ("any comb", any_comb),
    ("any spiral", any_spiral),
    ("saw turned round", saw_turned_round),
    ("any saws", any_saws),
    ("any squares", any_squares),
    ("triangles", triangles),
    ("polygons", polygons),
    ("long outlines", |random| {
        soup(random, 2, 150, 1_000_000, &[0, 1])
    }),
];

fn few_walks(random: &mut Random) -> Sheet {
    let side = random.between(3, 9);
    walks(random, side, 5, &[9])
}

fn walks_in_a_corner(random: &mut Random) -> Sheet {
    let sheet = walks(random, 12, 5, &[255]);
    moved(random, &sheet)
}

fn walks_of_films(random: &mut Random) -> Sheet {
    let (side, films) = (random.between(5, 9), some_films(random));
    walks(random, side, 9, &films)
}

fn laid_in_films(random: &mut Random) -> Sheet {
    let films = some_films(random);
    let one_film = walks(random, 9, 5, &[0]);
    in_films(random, &one_film, &films)
}

fn on_one_another(random: &mut Random) -> Sheet {
    let (side, films) = (random.between(2, 5), some_films(random));
    let one_film = walks(random, side, 4, &[0]);
    layered(random, &one_film, &films)
}

fn side_by_side(random: &mut Random) -> Sheet {
    let (films, merged) = (some_films(random), random.one_in(2));
    mosaic(random, 4, 3, &films, merged)
}

fn any_patchwork(random: &mut Random) -> Sheet {
    let (columns, rows) = (1 + random.below(16), 1 + random.below(16));
    patchwork(random, columns, rows)
}

fn any_comb(random: &mut Random) -> Sheet {
    let teeth = 1 + random.below(80);
    comb(random, teeth)
}

fn any_spiral(random: &mut Random) -> Sheet {
    let corners = 1 + random.below(160);
    spiral(random, corners)
}

fn saw_turned_round(random: &mut Random) -> Sheet {
    let order = random.between(2, 9) as u32;
    let sheet = saw(random, order);
    turned_round(random, &sheet)
}

fn any_saws(random: &mut Random) -> Sheet {
    let outlines = 1 + random.below(12);
    let teeth = |random: &mut Random| {
        let teeth = 1 + random.below(4);
        (0..teeth).map(|_| 1 + random.below(20)).collect()
    };
    let outlines: Vec<Vec<usize>> = (0..outlines).map(|_| teeth(random)).collect();
    saws(random, &outlines)
}

fn any_squares(random: &mut Random) -> Sheet {
    let (columns, rows) = (1 + random.below(16), 1 + random.below(16));
    squares(random, columns, rows)
}

fn triangles(random: &mut Random) -> Sheet {
    let (reach, films) = (random.between(2, 30), some_films(random));
    soup(random, 60, 3, reach, &films)
}

fn polygons(random: &mut Random) -> Sheet {
    let (corners, films) = (4 + random.below(60), some_films(random));
    soup(random, 6, corners, 1_000, &films)
}
