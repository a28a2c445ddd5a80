//! The picture: everything is in the viewBox, every outline has the colour of its
//! film, every touching point its ring, numbers are there or left out, and the
//! text is well formed. And the command that draws it.

use std::collections::BTreeSet;

use outline::picture::{draw, draw_blade, MOST_NUMBERED};
use outline::NUMBERS_PER_EDGE;

/// Two outlines with the point (1, 6) in common, the upper one in this film.
fn touching(upper: i32) -> Vec<i32> {
    let edges = [
        [3, 2, 1, 6, 0],
        [1, 6, 3, 0, 0],
        [1, 6, 2, 7, upper],
        [3, 0, 6, 8, 0],
        [6, 8, 3, 2, 0],
        [2, 7, 0, 9, upper],
        [0, 9, 1, 6, upper],
    ];
    edges.concat()
}

/// Squares of side 2 in a row, none touching, each in a film of its own.
fn squares(count: i32) -> Vec<i32> {
    let bottoms = (0..count).map(|at| [3 * at, 0, 3 * at + 2, 0, at]);
    let others = (0..count).flat_map(|at| {
        let (left, right) = (3 * at, 3 * at + 2);
        [
            [left, 2, left, 0, at],
            [right, 0, right, 2, at],
            [right, 2, left, 2, at],
        ]
    });
    bottoms.chain(others).flatten().collect()
}

/// The values of an attribute, wherever it stands.
fn values<'a>(svg: &'a str, attribute: &str) -> Vec<&'a str> {
    let begin = format!(" {}=\"", attribute);
    let value = |rest: &'a str| rest.split('"').next().unwrap_or("");
    svg.split(begin.as_str()).skip(1).map(value).collect()
}

/// Every tag is closed by its own, and quotes are even.
fn check_well_formed(svg: &str) {
    let mut open = Vec::new();
    for tag in svg.split('<').skip(1) {
        let (tag, _) = tag.split_once('>').expect("a tag that ends");
        assert_eq!(tag.matches('"').count() % 2, 0, "{}", tag);
        let name = tag.split(' ').next().unwrap_or("");
        if let Some(name) = name.strip_prefix('/') {
            assert_eq!(open.pop(), Some(name));
        } else if !tag.ends_with('/') {
            open.push(name);
        }
    }
    assert!(open.is_empty());
}

/// All places of lines, discs and texts lie inside the viewBox.
fn check_fits(svg: &str) {
    let number = |text: &str| text.parse::<f64>().unwrap();
    let view: Vec<f64> = values(svg, "viewBox")[0].split(' ').map(number).collect();
    for (attributes, most) in [(["x", "x1", "cx"], view[2]), (["y", "y1", "cy"], view[3])] {
        for value in attributes.iter().flat_map(|name| values(svg, name)) {
            assert!((0.0..=most).contains(&number(value)), "{}", value);
        }
    }
    for path in values(svg, "d").iter().filter(|path| path.ends_with('Z')) {
        for corner in path
            .split(['M', 'L', 'Z'].as_slice())
            .filter(|c| !c.is_empty())
        {
            let (x, y) = corner.split_once(' ').unwrap();
            assert!((0.0..=view[2]).contains(&number(x)), "{}", corner);
            assert!((0.0..=view[3]).contains(&number(y)), "{}", corner);
        }
    }
}

/// How many elements have this class.
fn count(svg: &str, class: &str) -> usize {
    let classes = values(svg, "class");
    classes.iter().filter(|value| **value == class).count()
}

/// The colours of the outlines, from their lines.
fn colours(svg: &str) -> BTreeSet<&str> {
    let lines = svg.lines().filter(|line| line.contains("\"outline\""));
    lines.map(|line| values(line, "stroke")[0]).collect()
}

#[test]
fn the_touching_sheet() {
    let svg = draw(&touching(0)).unwrap();
    check_well_formed(&svg);
    check_fits(&svg);
    assert_eq!((count(&svg, "outline"), colours(&svg).len()), (2, 1));
    let legend = 1;
    assert_eq!(count(&svg, "touching"), 1 + legend);
    assert_eq!(count(&svg, "top"), 2 + legend);
    let sequences = svg.split("class=\"sequences\"").nth(1).unwrap();
    for number in ["0", "1", "2", "3"] {
        assert!(sequences.contains(&format!(">{}</text>", number)));
    }
    let title = "Outlines: 2, edges: 7, films: 1, touching points: 1, peak: 3, records: 11";
    assert!(svg.contains(&format!("<title>{}</title>", title)));
}

/// Where four edges of a film meet the corners are cut, so that two lines that
/// touch do not cross; elsewhere a line goes through its corners.
#[test]
fn corners_are_cut_where_outlines_touch() {
    let sheet = outline::pixels::sheet("#.\n.#\n").unwrap();
    let svg = draw(&sheet).unwrap();
    check_fits(&svg);
    let lines = svg.lines().filter(|line| line.contains("\"outline\""));
    let spots = |line: &str| -> Vec<String> {
        let path = values(line, "d")[0].trim_matches(['M', 'Z'].as_slice());
        path.split('L').map(str::to_string).collect()
    };
    let spots: Vec<Vec<String>> = lines.map(spots).collect();
    assert_eq!([spots[0].len(), spots[1].len()], [5, 5]);
    let ring = svg
        .lines()
        .find(|line| line.contains("\"touching\""))
        .unwrap();
    let middle = format!("{} {}", values(ring, "cx")[0], values(ring, "cy")[0]);
    assert!(spots.iter().flatten().all(|spot| *spot != middle));
    let in_two_films = draw(&outline::pixels::sheet("0.\n.1\n").unwrap()).unwrap();
    let whole = |line: &&str| line.contains("\"outline\"") && line.contains(&middle);
    assert_eq!(in_two_films.lines().filter(whole).count(), 2);
}

/// Outlines of two films have two colours, and where they have a point in
/// common they do not touch.
#[test]
fn the_same_sheet_in_two_films() {
    let svg = draw(&touching(1)).unwrap();
    check_well_formed(&svg);
    check_fits(&svg);
    assert_eq!((count(&svg, "outline"), colours(&svg).len()), (2, 2));
    assert_eq!(count(&svg, "touching"), 0);
    assert!(svg.contains(" films: 2, touching points: 0, "));
}

/// Where two films share a side both colours show: over the lines, dashes in the
/// opposite order. One film needs none.
#[test]
fn a_shared_side_shows_both_films() {
    let of_film = |x: i32, film: i32| {
        let corners = [(x, 0), (x + 2, 0), (x + 2, 2), (x, 2)];
        let edge = move |at: usize| (corners[at], corners[(at + 1) % 4], film);
        (0..4).map(edge)
    };
    let mut edges: Vec<_> = of_film(0, 0).chain(of_film(2, 1)).collect();
    edges.sort_by_key(|(tail, head, _)| (tail.1, tail.0).max((head.1, head.0)));
    let numbers = |edge: ((i32, i32), (i32, i32), i32)| {
        let (tail, head, film) = edge;
        [tail.0, tail.1, head.0, head.1, film]
    };
    let list: Vec<i32> = edges.into_iter().flat_map(numbers).collect();
    let svg = draw(&list).unwrap();
    let strokes = |mark: &str| -> Vec<String> {
        let lines = svg.lines().filter(|line| line.contains(mark));
        lines
            .map(|line| values(line, "stroke")[0].to_string())
            .collect()
    };
    let mut lines = strokes("\"outline\"");
    lines.reverse();
    assert_eq!(lines.len(), 2);
    assert_eq!(strokes("stroke-dasharray"), lines);
    assert!(!draw(&touching(0)).unwrap().contains("stroke-dasharray"));
}

/// Outlines of several films with one top: every number can be read.
#[test]
fn equal_tops_lie_beside_one_another() {
    let edges = (0..10).flat_map(|film| [[0, 0, 9, 9, film], [9, 9, 0, 0, film]]);
    let svg = draw(&edges.flatten().collect::<Vec<i32>>()).unwrap();
    check_fits(&svg);
    let discs = svg.lines().filter(|line| line.contains("class=\"top\""));
    let places: BTreeSet<&str> = discs.map(|line| values(line, "cx")[0]).collect();
    let legend = 1;
    assert_eq!(places.len(), 10 + legend);
}

#[test]
fn the_same_bytes_again() {
    assert_eq!(draw(&touching(1)), draw(&touching(1)));
}

#[test]
fn numbers_are_left_out_of_large_sheets() {
    for (outlines, numbered) in [(100, true), (101, false)] {
        let sheet = squares(outlines);
        assert_eq!(sheet.len() / NUMBERS_PER_EDGE <= MOST_NUMBERED, numbered);
        let svg = draw(&sheet).unwrap();
        check_well_formed(&svg);
        check_fits(&svg);
        assert_eq!(colours(&svg).len(), outlines as usize);
        assert_eq!(count(&svg, "sequences"), usize::from(numbered));
        assert_eq!(count(&svg, "top"), outlines as usize + 1);
    }
}

#[test]
fn sheets_of_every_extent() {
    let most = 1_000_000;
    let sheets: [&[i32]; 5] = [
        &[],
        &[0, 0, 1, 1, 0, 1, 1, 0, 0, 0],
        &[-5, 7, most, 7, 0, most, 7, -5, 7, 0],
        &[3, -most, 3, most, 0, 3, most, 3, -most, 0],
        &[-most, -most, most, most, 0, most, most, -most, -most, 0],
    ];
    for sheet in sheets {
        let svg = draw(sheet).unwrap();
        check_well_formed(&svg);
        check_fits(&svg);
        assert!(!svg.contains("NaN") && !svg.contains("inf"));
    }
}

#[test]
fn a_refused_sheet_has_no_picture() {
    assert_eq!(draw(&[5, 5, 5, 5, 0]).unwrap_err().number(), 6);
    assert_eq!(draw_blade(&[5, 5, 5, 5, 0]).unwrap_err().number(), 6);
}

/// The ends of the travels of a picture, without that of the legend.
fn travels(svg: &str) -> Vec<[&str; 4]> {
    let lines = svg.lines().filter(|line| line.contains("class=\"travel\""));
    let mut ends: Vec<[&str; 4]> = lines
        .map(|line| ["x1", "y1", "x2", "y2"].map(|end| values(line, end)[0]))
        .collect();
    ends.pop();
    ends
}

/// Where the blade comes down, without the mark of the legend.
fn downs(svg: &str) -> Vec<[&str; 2]> {
    let marks = svg.lines().filter(|line| line.contains("class=\"down\""));
    let mut spots: Vec<[&str; 2]> = marks
        .map(|line| ["cx", "cy"].map(|at| values(line, at)[0]))
        .collect();
    spots.pop();
    spots
}

/// Travels lead from one outline's start to the next one's, and there is none to
/// the first.
#[test]
fn the_way_of_the_blade() {
    let svg = draw_blade(&touching(1)).unwrap();
    check_well_formed(&svg);
    check_fits(&svg);
    assert_eq!(count(&svg, "cut"), 2);
    let (downs, travels) = (downs(&svg), travels(&svg));
    assert_eq!((downs.len(), travels.len()), (2, 1));
    assert_eq!(travels[0].to_vec(), downs.concat());
    assert!(svg.contains(">travel with the blade up</text>"));
    assert!(svg.contains(", instructions: 11</title>"));
    let cuts = svg.lines().filter(|line| line.contains("class=\"cut\""));
    for (cut, down) in cuts.zip(downs) {
        let way = values(cut, "d")[0].trim_start_matches('M');
        let spots: Vec<&str> = way.split('L').collect();
        assert_eq!(spots[0], down.join(" "));
        assert_eq!(spots.first(), spots.last());
    }
}

/// Outlines of several films that begin at one point: nothing is travelled.
#[test]
fn no_way_between_equal_starts() {
    let edges = (0..10).flat_map(|film| [[0, 0, 9, 9, film], [9, 9, 0, 0, film]]);
    let svg = draw_blade(&edges.flatten().collect::<Vec<i32>>()).unwrap();
    check_fits(&svg);
    assert_eq!((downs(&svg).len(), travels(&svg).len()), (10, 0));
    assert!(!svg.contains("NaN"));
}

#[test]
fn the_blade_on_sheets_of_every_size() {
    for (sheet, numbered) in [
        (Vec::new(), true),
        (squares(100), true),
        (squares(101), false),
    ] {
        let outlines = sheet.len() / NUMBERS_PER_EDGE / 4;
        let svg = draw_blade(&sheet).unwrap();
        check_well_formed(&svg);
        check_fits(&svg);
        assert_eq!(count(&svg, "cut"), outlines);
        assert_eq!(travels(&svg).len(), outlines.saturating_sub(1));
        let discs = if numbered { outlines + 1 } else { 0 };
        assert_eq!(count(&svg, "top"), discs);
    }
}
