//! Closed walks on a small grid of points, one laid over the other as long as
//! the list stays sound: full of points where outlines touch, of crossings, of
//! level edges and of edges that lie on one another, in one film or several.

use crate::geometry::{Edge, Point, Site};

use super::sound::Sound;
use super::{in_sweep_order, Random, Sheet};

/// How many edges a walk may have before it is given up.
const LONGEST_WALK: usize = 24;

/// How many next points are tried before a walk is given up.
const TRIES_PER_STEP: usize = 30;

/// Tries so many closed walks on a grid of `side` times `side` points, each in
/// one of these films, and keeps those that can be kept.
pub fn walks(random: &mut Random, side: i32, tries: usize, films: &[i32]) -> Sheet {
    let mut sound = Sound::default();
    for _ in 0..tries {
        let film = films[random.below(films.len())];
        walk(random, side, film, &mut sound);
    }
    in_sweep_order(random, sound.into_edges())
}

/// Adds one closed walk, or leaves the list as it was.
fn walk(random: &mut Random, side: i32, film: i32, sound: &mut Sound) {
    let length_before = sound.length();
    let start = grid_point(random, side);
    let mut here = Site { point: start, film };
    while sound.length() < length_before + LONGEST_WALK {
        if random.one_in(3) && sound.take(Edge::new(here.point, start, film)) {
            return;
        }
        match step(random, side, here, sound) {
            Some(next) => here.point = next,
            None => break,
        }
    }
    sound.cut_back(length_before);
}

/// Goes from here to some point that the list has room for.
fn step(random: &mut Random, side: i32, here: Site, sound: &mut Sound) -> Option<Point> {
    for _ in 0..TRIES_PER_STEP {
        let next = grid_point(random, side);
        if sound.take(Edge::new(here.point, next, here.film)) {
            return Some(next);
        }
    }
    None
}

fn grid_point(random: &mut Random, side: i32) -> Point {
    let x = random.between(0, side - 1);
    Point::new(x, random.between(0, side - 1))
}
