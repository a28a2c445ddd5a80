//! The outlines of a list one after the other, each with its film, its points
//! and its edges.

use outline::{Edge, Outline, Outlines, Point, Refusal};

/// A square of film 0 and one of film 1, with the side x = 2 between them.
const NEIGHBOURS: [i32; 40] = [
    0, 0, 2, 0, 0, 2, 0, 4, 0, 1, 0, 2, 0, 0, 0, 2, 0, 2, 2, 0, //
    2, 2, 0, 2, 0, 2, 2, 2, 0, 1, 4, 0, 4, 2, 1, 4, 2, 2, 2, 1,
];

#[test]
fn number_film_and_points_of_each() -> Result<(), Refusal> {
    let outlines = Outlines::of(&NEIGHBOURS)?;
    let numbers: Vec<usize> = outlines.iter().map(Outline::number).collect();
    assert_eq!(numbers, [1, 2]);
    let films: Vec<u8> = outlines.iter().map(Outline::film).collect();
    assert_eq!(films, [1, 0]);
    let corners = [
        [(4, 2), (2, 2), (2, 0), (4, 0)],
        [(2, 2), (0, 2), (0, 0), (2, 0)],
    ];
    for (outline, corners) in outlines.iter().zip(corners) {
        assert!(outline.points().eq(corners.map(Point::from)));
    }
    Ok(())
}

#[test]
fn edges_end_to_end() -> Result<(), Refusal> {
    let outlines = Outlines::of(&NEIGHBOURS)?;
    for outline in &outlines {
        assert_eq!(outline.places(), outlines.places(outline.number()));
        let edges: Vec<Edge> = outline.edges().collect();
        let next = edges.iter().cycle().skip(1);
        for ((edge, next), place) in edges.iter().zip(next).zip(outline.places()) {
            assert_eq!((edge.head, edge.film), (next.tail, outline.film()));
            assert_eq!(outlines.edge(*place), Some(*edge));
        }
        let highest = outline.points().max();
        assert_eq!(outline.points().next(), highest);
        assert!(outline.points().eq(outline.edges().map(|edge| edge.tail)));
    }
    Ok(())
}

#[test]
fn from_both_ends() -> Result<(), Refusal> {
    let outlines = Outlines::of(&NEIGHBOURS)?;
    let mut all = outlines.iter();
    assert_eq!(all.len(), 2);
    assert_eq!(all.next_back().map(Outline::number), Some(2));
    assert_eq!(all.len(), 1);
    assert_eq!(all.next().map(Outline::number), Some(1));
    assert!(all.next().is_none() && all.next_back().is_none());
    let mut points = outlines.iter().next().unwrap().points();
    assert_eq!(points.next_back(), Some(Point::new(4, 0)));
    assert_eq!(points.len(), 3);
    Ok(())
}

#[test]
fn by_number() -> Result<(), Refusal> {
    let outlines = Outlines::of(&NEIGHBOURS)?;
    let numbers: Vec<Option<usize>> = (0..4)
        .map(|number| outlines.get(number).map(Outline::number))
        .collect();
    assert_eq!(numbers, [None, Some(1), Some(2), None]);
    assert!(outlines.get(usize::MAX).is_none());
    let expected = Edge::new(Point::new(4, 2), Point::new(2, 2), 1);
    assert_eq!(outlines.edge(7), Some(expected));
    assert_eq!((outlines.edge(8), outlines.edge(u32::MAX)), (None, None));
    Ok(())
}

/// What is shown of an outline is its own, not the whole list.
#[test]
fn for_debugging() -> Result<(), Refusal> {
    let outlines = Outlines::of(&NEIGHBOURS)?;
    let shown = format!("{:?}", outlines.get(1).unwrap());
    assert_eq!(
        shown,
        "Outline { number: 1, film: 1, places: [7, 5, 1, 6] }"
    );
    Ok(())
}

#[test]
fn none() -> Result<(), Refusal> {
    let outlines = Outlines::of_edges(&[])?;
    assert_eq!(outlines.iter().len(), 0);
    assert!(outlines.iter().next().is_none());
    Ok(())
}

#[test]
fn of_edges_as_of_numbers() -> Result<(), Refusal> {
    let edges = outline::read_edges(&NEIGHBOURS)?;
    assert_eq!(Outlines::of_edges(&edges)?, Outlines::of(&NEIGHBOURS)?);
    assert_eq!(
        Outlines::of_edges(&edges[1..]),
        Err(Refusal::Uneven { edge: 1 })
    );
    Ok(())
}
