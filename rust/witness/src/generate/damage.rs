//! Calls spoilt on purpose: a sound call is changed so that one chosen refusal
//! must come. Damage that is looked for later can be done first and hidden by
//! damage that is looked for earlier, which shows the order in which the papers
//! try them.

use std::collections::BTreeSet;

use crate::call::Call;
use crate::declared::sufficient_rows;
use crate::geometry::{read_edges, write_edges, Edge, Point, MOST_EDGES, NUMBERS_PER_EDGE};
use crate::steps::{sweep_up, NUMBERS_PER_ROW};

use super::twists::twisting;
use super::{any, Random, Sheet};

/// A call that must get this refusal, one of those tried on an assembling call.
pub fn damaged(random: &mut Random, refusal: u32) -> Call {
    loop {
        let sheet = any(random);
        let rows = sufficient_rows(&read_edges(&sheet));
        let mut call = Call::fitting(sheet, rows);
        if damage(random, &mut call, refusal) {
            return call;
        }
    }
}

/// Changes a call, sound or damaged only for refusals that are tried later, so
/// that it must get this refusal. `false` when the call offers no place for this
/// damage; it is then as before.
pub fn damage(random: &mut Random, call: &mut Call, refusal: u32) -> bool {
    let has_edges = !call.edges.is_empty();
    match refusal {
        1 | 5 | 6 | 16 => damage_edges(random, &mut call.edges, refusal),
        2 => {
            damage_edges(random, &mut call.edges, refusal);
            call.fit();
            true
        }
        3 => wrong_length(random, call),
        4 => has_edges && short_journal(random, call),
        7 => out_of_order(random, call),
        8 => has_edges && kind_taken(random, call),
        9 => has_edges && open_end(random, call),
        17 => has_edges && not_alternating(random, call),
        10 => too_few_rows(random, call),
        _ => false,
    }
}

/// Spoils a list of edges for refusal 1, 2, 5, 16 or 6; `false` when it has no
/// edge to be spoilt.
pub fn damage_edges(random: &mut Random, edges: &mut Sheet, refusal: u32) -> bool {
    if edges.is_empty() && refusal > 2 {
        return false;
    }
    match refusal {
        1 => part_of_an_edge(random, edges),
        2 => too_many_edges(random, edges),
        5 => past_the_range(random, edges),
        16 => no_such_film(random, edges),
        _ => equal_ends(random, edges),
    }
    true
}

/// Adds numbers that make no whole edge.
fn part_of_an_edge(random: &mut Random, edges: &mut Sheet) {
    for _ in 0..1 + random.below(NUMBERS_PER_EDGE - 1) {
        edges.push(random.between(-3, 3));
    }
}

/// Repeats the edges until they are too many.
fn too_many_edges(random: &mut Random, list: &mut Sheet) {
    let length = MOST_EDGES + 1 + random.below(3);
    let mut edges = read_edges(list);
    edges.push(Edge::new(Point::new(0, 0), Point::new(1, 1), 0));
    let repeated: Vec<Edge> = edges.iter().copied().cycle().take(length).collect();
    *list = write_edges(&repeated);
}

fn wrong_length(random: &mut Random, call: &mut Call) -> bool {
    let length = match random.below(3) {
        0 => &mut call.polygons,
        1 => &mut call.sequences,
        _ => &mut call.turns,
    };
    let longer = *length == 0 || random.one_in(2);
    *length = match (longer, random.one_in(2)) {
        (true, true) => *length + 1,
        (true, false) => *length + 1 + random.below(20),
        (false, true) => *length - 1,
        (false, false) => random.below(*length),
    };
    true
}

fn short_journal(random: &mut Random, call: &mut Call) -> bool {
    call.journal = if random.one_in(2) {
        call.journal - 1
    } else {
        random.below(call.journal)
    };
    true
}

/// Puts a coordinate of some edge past the range.
fn past_the_range(random: &mut Random, edges: &mut Sheet) {
    let edge = random.below(edges.len() / NUMBERS_PER_EDGE);
    let number = NUMBERS_PER_EDGE * edge + random.below(4);
    let past = random.between(Point::LIMIT + 1, i32::MAX);
    let past = [Point::LIMIT + 1, i32::MAX, past][random.below(3)];
    edges[number] = if random.one_in(2) { past } else { -past };
    if random.one_in(16) {
        edges[number] = i32::MIN;
    }
}

/// Puts some edge in a film that there is not.
fn no_such_film(random: &mut Random, list: &mut Sheet) {
    let mut edges = read_edges(list);
    let below = random.between(i32::MIN, -1);
    let above = random.between(Edge::MOST_FILM + 1, i32::MAX);
    let films = [-1, Edge::MOST_FILM + 1, i32::MIN, i32::MAX, below, above];
    let place = random.below(edges.len());
    edges[place].film = films[random.below(films.len())];
    *list = write_edges(&edges);
}

/// Makes some edge end where it begins.
fn equal_ends(random: &mut Random, list: &mut Sheet) {
    let mut edges = read_edges(list);
    let place = random.below(edges.len());
    let end = [edges[place].tail, edges[place].head][random.below(2)];
    edges[place] = Edge::new(end, end, edges[place].film);
    *list = write_edges(&edges);
}

/// Moves an edge to before one that has a lower top.
fn out_of_order(random: &mut Random, call: &mut Call) -> bool {
    let mut edges = read_edges(&call.edges);
    let lower = |place: &usize| edges[0].top() < edges[*place].top();
    let places: Vec<usize> = (0..edges.len()).filter(lower).collect();
    if places.is_empty() {
        return false;
    }
    let moved = places[random.below(places.len())];
    let top = edges[moved].top();
    let lower_tops = edges.iter().filter(|edge| edge.top() < top).count();
    let to = random.below(lower_tops);
    edges[to..=moved].rotate_right(1);
    call.edges = write_edges(&edges);
    true
}

/// Adds an edge that has one end of an edge that is there, its film, and its
/// kind at that end; at times both ends.
fn kind_taken(random: &mut Random, call: &mut Call) -> bool {
    let mut edges = read_edges(&call.edges);
    if edges.len() == MOST_EDGES {
        return false;
    }
    let mut added = edges[random.below(edges.len())];
    if random.one_in(2) {
        let bent = bent_bottom(random, added);
        added = bent.unwrap_or(added);
    }
    insert_in_order(random, &mut edges, added);
    call.edges = write_edges(&edges);
    call.fit();
    true
}

/// Puts an edge where its top belongs, among equal tops anywhere.
fn insert_in_order(random: &mut Random, edges: &mut Vec<Edge>, added: Edge) {
    let place = edges.iter().filter(|edge| edge.top() < added.top()).count();
    let last = edges
        .iter()
        .filter(|edge| edge.top() <= added.top())
        .count();
    let place = place + random.below(last - place + 1);
    edges.insert(place, added);
}

/// Adds an outline through a point where two edges meet, so that four do that do
/// not alternate.
fn not_alternating(random: &mut Random, call: &mut Call) -> bool {
    let mut edges = read_edges(&call.edges);
    let outline = match twisting(random, &edges) {
        Some(outline) if edges.len() + outline.len() <= MOST_EDGES => outline,
        _ => return false,
    };
    for edge in outline {
        insert_in_order(random, &mut edges, edge);
    }
    call.edges = write_edges(&edges);
    call.fit();
    true
}

/// Takes an edge away, or moves its bottom or lays it in another film, to where
/// no edge of its kind is.
fn open_end(random: &mut Random, call: &mut Call) -> bool {
    let mut edges = read_edges(&call.edges);
    let place = random.below(edges.len());
    let edge = edges.remove(place);
    let taken: BTreeSet<_> = edges.iter().flat_map(|other| other.ends()).collect();
    let other_film = edge.in_film(random.between(0, Edge::MOST_FILM));
    let changed = [bent_bottom(random, edge), Some(other_film), None][random.below(3)];
    let fits = |to: &Edge| *to != edge && !to.ends().iter().any(|end| taken.contains(end));
    if let Some(changed) = changed.filter(fits) {
        edges.insert(place, changed);
    }
    call.edges = write_edges(&edges);
    call.fit();
    true
}

/// The edge with its top left and its bottom moved to a point near by.
fn bent_bottom(random: &mut Random, edge: Edge) -> Option<Edge> {
    let bottom = edge.bottom();
    let x = bottom.x + random.between(-2, 2);
    let moved = Point::new(x, bottom.y - random.between(0, 2));
    let bent = if edge.is_up() {
        Edge::new(moved, edge.head, edge.film)
    } else {
        Edge::new(edge.tail, moved, edge.film)
    };
    let kept = moved != bottom && moved < edge.top() && moved.is_in_range();
    Some(bent).filter(|_| kept)
}

/// Lends fewer rows than the sweep up needs; a part of a row does not help.
fn too_few_rows(random: &mut Random, call: &mut Call) -> bool {
    let edges = read_edges(&call.edges);
    let peak = sweep_up(&edges, sufficient_rows(&edges)).map_or(0, |swept| swept.peak);
    if peak == 0 {
        return false;
    }
    let rows = if random.one_in(2) {
        peak - 1
    } else {
        random.below(peak)
    };
    call.rows = NUMBERS_PER_ROW * rows + random.below(NUMBERS_PER_ROW);
    true
}
