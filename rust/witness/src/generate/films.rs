//! Films for sheets. A sheet of one film stays sound when its outlines are laid
//! in several films, and so does a sheet that is laid on itself in other films:
//! edges meet only within a film.

use crate::declared::outlines;
use crate::geometry::{read_edges, write_edges, Edge};

use super::{in_sweep_order, Random, Sheet};

/// One film to five, no two alike, the least and the greatest often among them.
pub fn some_films(random: &mut Random) -> Vec<i32> {
    let count = [1, 1, 2, 2, 3, 5][random.below(6)];
    let mut films = Vec::new();
    while films.len() < count {
        let any = random.between(0, Edge::MOST_FILM);
        let film = [0, 1, Edge::MOST_FILM, any][random.below(4)];
        if !films.contains(&film) {
            films.push(film);
        }
    }
    films
}

/// A sheet of one film with each of its outlines in one of these films; the
/// edges stay in their order.
pub fn in_films(random: &mut Random, sheet: &[i32], films: &[i32]) -> Sheet {
    let mut edges = read_edges(sheet);
    for outline in outlines(&edges) {
        let film = films[random.below(films.len())];
        for place in outline {
            edges[place].film = film;
        }
    }
    write_edges(&edges)
}

/// A sheet of one film laid on itself, once in each of these films, which are
/// all different. Every top is there in all of them, in random order.
pub fn layered(random: &mut Random, sheet: &[i32], films: &[i32]) -> Sheet {
    let edges = read_edges(sheet);
    let layer = |film: &i32| {
        let film = *film;
        edges.iter().map(move |edge| edge.in_film(film))
    };
    in_sweep_order(random, films.iter().flat_map(layer).collect())
}
