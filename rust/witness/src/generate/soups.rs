//! Polygons with random corners, lying across one another: triangles when there
//! are three corners. In a small reach many touch; in a large one no two points
//! share a height, which is what Hartley's report assumes. Each is of one of
//! several films.

use crate::geometry::Point;

use super::sound::Sound;
use super::{in_sweep_order, Random, Sheet};

/// Tries so many polygons of so many corners (2 or more) with coordinates up to
/// `reach` on either side of zero, each in one of these films, and keeps those
/// that leave the list sound.
pub fn soup(
    random: &mut Random,
    polygons: usize,
    corners: usize,
    reach: i32,
    films: &[i32],
) -> Sheet {
    let mut sound = Sound::default();
    for _ in 0..polygons {
        let corner = |_| {
            let x = random.between(-reach, reach);
            Point::new(x, random.between(-reach, reach))
        };
        let polygon: Vec<Point> = (0..corners).map(corner).collect();
        sound.take_walk(&polygon, films[random.below(films.len())]);
    }
    in_sweep_order(random, sound.into_edges())
}
