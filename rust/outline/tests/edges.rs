//! Points and edges: which is higher, what their numbers are, and the order in
//! which the engine takes them. All of it needs no allocator.

use outline::{sort_into_sweep_order, Edge, Point, Refusal};

/// The edge from one place to another in film 7.
const fn edge(tail: (i32, i32), head: (i32, i32)) -> Edge {
    Edge::new(Point::new(tail.0, tail.1), Point::new(head.0, head.1), 7)
}

#[test]
fn points_are_higher_by_y_and_then_by_x() {
    let mut points = [(2, 0), (0, 1), (1, 0), (-5, 1), (9, -3)].map(Point::from);
    points.sort_unstable();
    let lowest_first = [(9, -3), (1, 0), (2, 0), (-5, 1), (0, 1)];
    assert_eq!(points.map(<(i32, i32)>::from), lowest_first);
    assert_eq!(Point::default(), Point { x: 0, y: 0 });
}

#[test]
fn tops_and_bottoms() {
    let (low, high) = ((3, 1), (0, 2));
    for edge in [edge(low, high), edge(high, low)] {
        assert_eq!((edge.bottom(), edge.top()), (low.into(), high.into()));
    }
    let (left, right) = ((0, 2), (1, 2));
    for edge in [edge(left, right), edge(right, left)] {
        assert_eq!((edge.bottom(), edge.top()), (left.into(), right.into()));
    }
}

#[test]
fn five_numbers_and_back() {
    for numbers in [[1, 2, 3, 4, 0], [-1, i32::MIN, i32::MAX, 0, 255]] {
        let edge = Edge::try_from(numbers).unwrap();
        assert_eq!(edge.tail, Point::new(numbers[0], numbers[1]));
        assert_eq!(edge.head, Point::new(numbers[2], numbers[3]));
        assert_eq!(i32::from(edge.film), numbers[4]);
        assert_eq!((edge.numbers(), <[i32; 5]>::from(edge)), (numbers, numbers));
    }
    for film in [-1, 256, i32::MIN, i32::MAX] {
        let refusal = Edge::try_from([1, 2, 3, 4, film]).unwrap_err();
        assert_eq!(refusal, Refusal::FilmPastRange { edge: 0 });
    }
}

#[test]
fn as_text() {
    assert_eq!(Point::new(-1, 5).to_string(), "(-1, 5)");
    let edge = Edge::new(Point::new(0, 0), Point::new(4, -2), 255);
    assert_eq!(edge.to_string(), "(0, 0) to (4, -2) in film 255");
}

/// Tops rise, and edges with one top stand by tail, film and head: however they
/// came, the list is the same.
#[test]
fn sweep_order() {
    let in_film = |film, edge: Edge| Edge { film, ..edge };
    let sorted = [
        edge((0, 0), (9, 1)),
        edge((1, 2), (2, 2)),
        edge((0, 0), (1, 3)),
        in_film(8, edge((0, 0), (1, 3))),
        edge((5, 2), (1, 3)),
        edge((1, 3), (0, 0)),
        edge((1, 3), (5, 2)),
    ];
    for turn in 0..sorted.len() {
        let mut edges = sorted;
        edges.rotate_left(turn);
        edges[..turn].reverse();
        sort_into_sweep_order(&mut edges);
        assert_eq!(edges, sorted);
    }
    sort_into_sweep_order(&mut []);
}
