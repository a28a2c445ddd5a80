//! Corners through the static library: the pixels of 02, every bitmap of three by
//! three pixels, chessboards, and corners whose directions differ by as little as
//! they can anywhere in the range. Sheets worked by hand are in worked.rs, random
//! ones in random.rs, and two faults at once in faults.rs.

use std::collections::{BTreeMap, BTreeSet};

use outline::{pixels, Outlines};
use tests::held::{assemble, refusal};
use witness::call::Call;
use witness::corners::Meetings;
use witness::generate::{chessboard, in_sweep_order, of_bitmap, Bitmap, Random, Seed, Sheet};
use witness::geometry::{read_edges, write_edges, Edge, Point, Site};

/// The lengths of the outlines of a sheet.
fn lengths(sheet: &[i32]) -> Vec<usize> {
    let outlines = Outlines::of(sheet).unwrap();
    let all = 1..=outlines.count();
    all.map(|number| outlines.places(number).len()).collect()
}

/// Two pixels that touch corner to corner are two outlines of four, whichever way
/// they lie. Run the other way, with film outside them, they are one of eight.
#[test]
fn the_pixels_of_02() {
    for bitmap in ["#.\n.#\n", ".#\n#.\n"] {
        let sheet = pixels::sheet(bitmap).unwrap();
        assert_eq!(lengths(&sheet), [4, 4]);
        let back = read_edges(&sheet).into_iter().map(Edge::reversed);
        let back: Vec<Edge> = back.collect();
        assert_eq!(lengths(&write_edges(&back)), [8]);
    }
    let in_two_films = pixels::sheet("0.\n.1\n").unwrap();
    assert_eq!(lengths(&in_two_films), [4, 4]);
}

/// A cell of a bitmap: its column and its row.
type Cell = (i32, i32);

/// How many parts these cells have; a step leads to a neighbour.
fn parts(mut cells: BTreeSet<Cell>, steps: &[Cell]) -> usize {
    let mut parts = 0;
    while let Some(first) = cells.iter().next().copied() {
        cells.remove(&first);
        let mut reached = vec![first];
        while let Some((x, y)) = reached.pop() {
            let near = steps.iter().map(|(right, up)| (x + right, y + up));
            reached.extend(near.filter(|cell| cells.remove(cell)));
        }
        parts += 1;
    }
    parts
}

/// The steps across a side, and after them those across a corner.
const STEPS: [Cell; 8] = [
    (1, 0),
    (-1, 0),
    (0, 1),
    (0, -1),
    (1, 1),
    (-1, -1),
    (1, -1),
    (-1, 1),
];

/// How many outlines a film of a bitmap has by M-104: one round each piece, whose
/// pixels hang together by sides, and one round each hole, which goes on across
/// corners. What lies round the whole bitmap is no hole.
fn outlines_of(bitmap: &Bitmap, film: i32) -> usize {
    let (width, height) = (bitmap.len() as i32, bitmap[0].len() as i32);
    let (mut inside, mut outside) = (BTreeSet::new(), BTreeSet::new());
    for x in -1..=width {
        for y in -1..=height {
            let within = (0..width).contains(&x) && (0..height).contains(&y);
            if within && bitmap[x as usize][y as usize] == Some(film) {
                inside.insert((x, y));
            } else {
                outside.insert((x, y));
            }
        }
    }
    parts(inside, &STEPS[..4]) + parts(outside, &STEPS) - 1
}

/// The bitmap of three by three pixels with this number, each pixel empty, film 0
/// or film 1; and the same as text.
fn three_by_three(mut number: usize) -> (Bitmap, String) {
    let mut bitmap: Bitmap = vec![vec![None; 3]; 3];
    for pixel in bitmap.iter_mut().flatten() {
        *pixel = [None, Some(0), Some(1)][number % 3];
        number /= 3;
    }
    let character = |x: usize, y: usize| bitmap[x][y].map_or('.', |film| ['0', '1'][film as usize]);
    let line = |y: usize| (0..3).map(|x| character(x, y)).chain(['\n']).collect();
    let lines: Vec<String> = (0..3).rev().map(line).collect();
    (bitmap, lines.concat())
}

/// At every corner each outline turns to the left, round one pixel.
fn check_turns(edges: &[Edge], outlines: &Outlines, corners: &BTreeSet<Site>) {
    for number in 1..=outlines.count() {
        let places = outlines.places(number);
        let next = places.iter().cycle().skip(1);
        for (one, other) in places.iter().zip(next) {
            let (one, other) = (edges[*one as usize], edges[*other as usize]);
            assert_eq!(one.head, other.tail);
            let way = |edge: Edge| (edge.head.x - edge.tail.x, edge.head.y - edge.tail.y);
            let ((right, up), (further_right, further_up)) = (way(one), way(other));
            let turn = right * further_up - up * further_right;
            assert!(!corners.contains(&one.site(one.head)) || turn > 0);
        }
    }
}

/// None of the 19,683 is refused, the converter and the witness draw the same
/// edges of it, and pixels that touch corner to corner stay apart: the outlines
/// are as many as the pieces and holes. Two pixels of one piece that touch so are
/// in one outline, which comes to that point twice.
#[test]
fn every_bitmap_of_three_by_three() {
    let random = &mut Random::new(0);
    let mut met: BTreeMap<usize, usize> = BTreeMap::new();
    for number in 0..3_usize.pow(9) {
        let (bitmap, text) = three_by_three(number);
        let sheet = pixels::sheet(&text).unwrap();
        let edges = read_edges(&sheet);
        let drawn = read_edges(&of_bitmap(random, &bitmap, true));
        let all = |edges: &[Edge]| edges.iter().copied().collect::<BTreeSet<Edge>>();
        assert_eq!(all(&edges), all(&drawn), "{text}");
        let outlines = Outlines::of(&sheet).unwrap_or_else(|refusal| panic!("{text}{refusal}"));
        let wanted = outlines_of(&bitmap, 0) + outlines_of(&bitmap, 1);
        assert_eq!(outlines.count(), wanted, "{text}");
        let corners: BTreeSet<Site> = Meetings::of(&edges).corners().map(|(at, _)| at).collect();
        check_turns(&edges, &outlines, &corners);
        *met.entry(corners.len()).or_insert(0) += 1;
    }
    let by_corners: Vec<usize> = met.into_values().collect();
    assert_eq!(by_corners, [10_053, 5_624, 2_724, 824, 332, 88, 28, 8, 2]);
}

/// Every field of a chessboard is an outline of four, however large the board.
#[test]
fn chessboards() {
    let random = &mut Random::new(1);
    for (columns, rows) in [(1, 1), (2, 2), (3, 3), (8, 8), (45, 45), (2, 1_023)] {
        let sheet = chessboard(random, columns, rows);
        assert_eq!(lengths(&sheet), vec![4; (columns * rows + 1) / 2]);
        let corners = Meetings::of(&read_edges(&sheet)).corners().count();
        assert_eq!(corners, (columns - 1) * (rows - 1));
        let call = Call::fitting(sheet.clone(), outline::rows_enough(&sheet));
        assert_eq!(refusal(assemble(random, &call)), 0);
    }
}

/// The greatest common divisor.
fn common(one: i64, other: i64) -> i64 {
    if other == 0 {
        one
    } else {
        common(other, one % other)
    }
}

/// For two numbers above 1 with no common divisor, the pair below them with which
/// they make a product across of 1.
fn nearest((right, up): (i64, i64)) -> (i64, i64) {
    let (mut one, mut other) = ((1, up), (0, right));
    while other.1 != 0 {
        let times = one.1 / other.1;
        (one, other) = (other, (one.0 - times * other.0, one.1 - times * other.1));
    }
    let less_right = (-one.0).rem_euclid(right);
    let less_up = (1 + up * less_right) / right;
    assert_eq!(right * less_up - up * less_right, 1);
    (less_right, less_up)
}

/// Two ways whose directions differ least, or, where they are to be alike, not at
/// all; both as long as may be.
fn two_ways(random: &mut Random, alike: bool) -> [(i64, i64); 2] {
    loop {
        let mut far = || i64::from(random.between(1_000_000, 1_999_990));
        let way = (far(), far());
        let times = common(way.0, way.1);
        if alike && times > 1 {
            let part = 1 + random.below(times as usize - 1) as i64;
            return [way, (way.0 / times * part, way.1 / times * part)];
        }
        if !alike && times == 1 {
            return [way, nearest(way)];
        }
    }
}

/// A triangle with two long sides that lie close together and end at a point near
/// a corner of the range, and one on the other side of that point; each run
/// either way.
fn two_triangles(random: &mut Random, alike: bool) -> Sheet {
    let most = Point::LIMIT;
    let height = most - random.between(1, 9);
    let (left, right) = (random.between(-most, 0), random.between(1, most));
    let back = |(x, y): (i64, i64)| Point::new(most - x as i32, height - y as i32);
    let [one, other] = two_ways(random, alike).map(back);
    let (top_left, top_right) = (Point::new(left, most), Point::new(right, most));
    let point = Point::new(most, height);
    let mut edges = Vec::new();
    for corners in [[point, one, other], [point, top_left, top_right]] {
        let run_back = random.one_in(2);
        for at in 0..3 {
            let edge = Edge::new(corners[at], corners[(at + 1) % 3], 0);
            edges.push(if run_back { edge.reversed() } else { edge });
        }
    }
    let (x, y) = ([1, -1][random.below(2)], [1, -1][random.below(2)]);
    let mirror = |point: Point| Point::new(x * point.x, y * point.y);
    let mirrored = edges
        .into_iter()
        .map(|edge| Edge::new(mirror(edge.tail), mirror(edge.head), 0));
    let mirrored = mirrored.collect();
    in_sweep_order(random, mirrored)
}

/// The smallest turns that there are, with products near 4 times 10 to the 12:
/// such corners are apart, joined or refused, and with no turn they are refused.
#[test]
fn directions_that_hardly_differ() {
    let (mut apart, mut joined, mut twisted) = (0, 0, 0);
    for seed in 0..2_000 {
        let seed = Seed(seed);
        let random = &mut seed.random();
        let alike = random.one_in(4);
        let sheet = two_triangles(random, alike);
        let is_apart = !Meetings::of(&read_edges(&sheet)).apart().is_empty();
        match refusal(assemble(random, &Call::fitting(sheet, 3))) {
            17 => twisted += 1,
            0 if alike => panic!("two edges lie in one direction"),
            0 if is_apart => apart += 1,
            0 => joined += 1,
            other => panic!("refused with {other}"),
        }
    }
    assert!(apart > 200 && joined > 200, "{apart} {joined}");
    assert!(twisted > 900, "{twisted}");
}
