//! Edges made of cells: film on the left, straight runs as one edge, in sweep
//! order, and sheets that are too much for the engine.

use outline::{from_pixels, pixels, read_edges, write_edges, Edge, Outlines, Refusal, LIMIT};

/// The edges of a bitmap that is text.
fn drawn(bitmap: &str) -> Vec<[i32; 5]> {
    let sheet = pixels::sheet(bitmap).unwrap();
    let edges = read_edges(&sheet).unwrap();
    edges.into_iter().map(Edge::numbers).collect()
}

#[test]
fn one_pixel_has_its_film_on_the_left() {
    let square = [
        [0, 0, 1, 0, 9],
        [0, 1, 0, 0, 9],
        [1, 0, 1, 1, 9],
        [1, 1, 0, 1, 9],
    ];
    let edges: Vec<[i32; 5]> = from_pixels(&[[Some(9)]])
        .into_iter()
        .map(Edge::numbers)
        .collect();
    assert_eq!(edges, square);
    assert_eq!(drawn("9\n"), square);
}

/// Round a hole the film is on the left too: it runs the other way.
#[test]
fn a_hole() {
    let edges = drawn("###\n#.#\n###\n");
    let outside = [
        [0, 0, 3, 0, 0],
        [3, 0, 3, 3, 0],
        [3, 3, 0, 3, 0],
        [0, 3, 0, 0, 0],
    ];
    let hole = [
        [1, 1, 1, 2, 0],
        [1, 2, 2, 2, 0],
        [2, 2, 2, 1, 0],
        [2, 1, 1, 1, 0],
    ];
    assert_eq!(edges.len(), 8);
    for edge in outside.iter().chain(&hole) {
        assert_eq!(edges.iter().filter(|drawn| *drawn == edge).count(), 1);
    }
}

/// The side between two films belongs to both, once each way; a run ends where
/// the film on its left does.
#[test]
fn neighbours_of_two_films() {
    let edges = drawn("01\n11\n");
    let shared = [
        [1, 1, 1, 2, 0],
        [1, 2, 1, 1, 1],
        [0, 1, 1, 1, 0],
        [1, 1, 0, 1, 1],
    ];
    for edge in shared {
        assert_eq!(edges.iter().filter(|drawn| **drawn == edge).count(), 1);
    }
    assert_eq!(edges.len(), 4 + 6);
}

/// What is missing in a short row has no film, and nor has what is missing below.
#[test]
fn rows_of_different_lengths() {
    assert_eq!(drawn("##\n#\n"), drawn("##\n#.\n"));
    assert_eq!(drawn("\n##\n"), drawn("..\n##\n"));
    let rows: [&[Option<u8>]; 2] = [&[Some(0), Some(0)], &[Some(0)]];
    assert_eq!(
        write_edges(&from_pixels(&rows)),
        pixels::sheet("##\n#\n").unwrap()
    );
    let none: [[Option<u8>; 0]; 0] = [];
    assert!(from_pixels(&none).is_empty());
    assert!(from_pixels(&[[None; 4]; 3]).is_empty());
}

/// A chessboard of 2,048 pixels has twice as many edges as a list may hold.
#[test]
fn too_many_edges_are_refused() {
    let board = |columns: usize, rows: usize| {
        let cell = |at: usize| (at % 2 == 0).then_some(7);
        let row = |y: usize| (0..columns).map(|x| cell(x + y)).collect();
        (0..rows).map(row).collect::<Vec<Vec<Option<u8>>>>()
    };
    let most = from_pixels(&board(2, 1_024));
    assert_eq!(most.len(), 4_096);
    assert_eq!(
        Outlines::of_edges(&most).map(|them| them.count()),
        Ok(1_024)
    );
    let more = from_pixels(&board(64, 64));
    assert_eq!(more.len(), 8_192);
    assert_eq!(Outlines::of_edges(&more), Err(Refusal::TooMany));
}

/// As wide as coordinates go, and one cell wider.
#[test]
fn a_bitmap_past_the_range_is_refused() {
    let row = vec![Some(7); LIMIT as usize + 1];
    let most = from_pixels(&[&row[1..]]);
    assert_eq!(Outlines::of_edges(&most).map(|them| them.count()), Ok(1));
    let wider = from_pixels(&[&row]);
    assert_eq!(wider.len(), 4);
    let refusal = Outlines::of_edges(&wider).unwrap_err();
    let past = |edge: &Edge| edge.top().x.max(edge.bottom().x) > LIMIT;
    let first = wider.iter().position(past).unwrap() as u32;
    assert_eq!(refusal, Refusal::PastRange { edge: first });
}
