//! Pixel art: the boundary of each film in a bitmap, directed so that film lies
//! on the left. Where a film touches itself only across a corner all four kinds
//! of edge meet, and alternate as film and no film do; pixels of two films side by side both have the side between
//! them, run opposite ways. Either one edge a pixel side, or with straight runs
//! drawn as one edge.

use std::collections::BTreeMap;

use crate::geometry::{Edge, Point, Site, MOST_EDGES};

use super::{in_sweep_order, Random, Sheet};

/// A film for each pixel, or none, column by column from the bottom up.
pub type Bitmap = Vec<Vec<Option<i32>>>;

/// The outlines of a random bitmap in which each pixel is film 0 with this many
/// chances in a hundred.
///
/// # Panics
/// When the sheet would have more edges than a list may hold.
pub fn pixels(
    random: &mut Random,
    width: usize,
    height: usize,
    percent: usize,
    merged: bool,
) -> Sheet {
    let film = |random: &mut Random| Some(0).filter(|_| random.below(100) < percent);
    let bitmap = bitmap(width, height, |_| film(random));
    of_bitmap(random, &bitmap, merged)
}

/// The outlines of a random bitmap in which each pixel is one of these films or,
/// as often as each of them, none.
///
/// # Panics
/// When the sheet would have more edges than a list may hold.
pub fn mosaic(
    random: &mut Random,
    width: usize,
    height: usize,
    films: &[i32],
    merged: bool,
) -> Sheet {
    let film = |random: &mut Random| films.get(random.below(films.len() + 1)).copied();
    let bitmap = bitmap(width, height, |_| film(random));
    of_bitmap(random, &bitmap, merged)
}

/// Pixels without a gap between them, each in a film of its own as far as there
/// are films; then they begin again. Four edges a pixel, up to 1,024, in less
/// than 256 columns.
pub fn patchwork(random: &mut Random, columns: usize, rows: usize) -> Sheet {
    let films = Edge::MOST_FILM as usize + 1;
    let bitmap = bitmap(columns, rows, |(x, y)| {
        Some(((columns * y + x) % films) as i32)
    });
    of_bitmap(random, &bitmap, false)
}

/// The bitmap with these films.
fn bitmap(
    width: usize,
    height: usize,
    mut film: impl FnMut((usize, usize)) -> Option<i32>,
) -> Bitmap {
    let column = |x: usize| (0..height).map(|y| film((x, y))).collect();
    (0..width).map(column).collect()
}

/// The outlines of a bitmap.
///
/// # Panics
/// When the sheet would have more edges than a list may hold.
pub fn of_bitmap(random: &mut Random, bitmap: &Bitmap, merged: bool) -> Sheet {
    let mut edges = boundary(bitmap);
    if merged {
        edges = straightened(edges);
    }
    assert!(edges.len() <= MOST_EDGES, "{} edges", edges.len());
    in_sweep_order(random, edges)
}

/// One edge for every pixel side with a film on its left that is not on its
/// right.
fn boundary(bitmap: &Bitmap) -> Vec<Edge> {
    let mut edges = Vec::new();
    for x in 0..bitmap.len() as i32 {
        for y in 0..bitmap[x as usize].len() as i32 {
            edges.extend(bare_sides(bitmap, x, y));
        }
    }
    edges
}

/// The sides of a pixel behind which its film ends.
fn bare_sides(bitmap: &Bitmap, x: i32, y: i32) -> Vec<Edge> {
    let film = match film_at(bitmap, x, y) {
        Some(film) => film,
        None => return Vec::new(),
    };
    let sides = [
        ((x, y), (x + 1, y), (x, y - 1)),
        ((x + 1, y), (x + 1, y + 1), (x + 1, y)),
        ((x + 1, y + 1), (x, y + 1), (x, y + 1)),
        ((x, y + 1), (x, y), (x - 1, y)),
    ];
    let bare = |(x, y): (i32, i32)| film_at(bitmap, x, y) != Some(film);
    let point = |(x, y): (i32, i32)| Point::new(x, y);
    sides
        .iter()
        .filter(|(_, _, behind)| bare(*behind))
        .map(|(tail, head, _)| Edge::new(point(*tail), point(*head), film))
        .collect()
}

/// The film of a pixel; none where there is no pixel.
fn film_at(bitmap: &Bitmap, x: i32, y: i32) -> Option<i32> {
    let column = bitmap.get(usize::try_from(x).ok()?)?;
    *column.get(usize::try_from(y).ok()?)?
}

/// The same outlines with every straight run as one edge. A corner is where an
/// edge leaves in a direction in which none of its film arrives.
fn straightened(edges: Vec<Edge>) -> Vec<Edge> {
    let key = |site: Site, edge: &Edge| (site, direction(edge));
    let leaving: BTreeMap<_, _> = edges
        .iter()
        .map(|edge| (key(edge.site(edge.tail), edge), edge.head))
        .collect();
    let arriving: BTreeMap<_, _> = edges
        .iter()
        .map(|edge| (key(edge.site(edge.head), edge), edge.tail))
        .collect();
    let mut runs = Vec::new();
    for edge in &edges {
        if arriving.contains_key(&key(edge.site(edge.tail), edge)) {
            continue;
        }
        let mut head = edge.head;
        while let Some(further) = leaving.get(&key(edge.site(head), edge)) {
            head = *further;
        }
        runs.push(Edge::new(edge.tail, head, edge.film));
    }
    runs
}

fn direction(edge: &Edge) -> (i32, i32) {
    (edge.head.x - edge.tail.x, edge.head.y - edge.tail.y)
}
