//! Lists at the ends of what may be: no edge, one, the most and one more; parts
//! of an edge; the limits of coordinates and films and the ends of their type;
//! the largest sheets of every shape with the rows at their peak.

use tests::held::{assemble, refusal};
use witness::call::Call;
use witness::generate::{
    chessboard, comb, in_sweep_order, layered, mosaic, patchwork, pixels, saw, soup,
};
use witness::generate::{spiral, squares, walks, Random, Sheet};
use witness::geometry::{read_edges, Edge, Point, NUMBERS_PER_EDGE};
use witness::steps::sweep_up;
use witness::{Answer, Refusal};

fn refused(number: u32, place: u32) -> Answer {
    Answer::Refused(Refusal { number, place })
}

/// Pairs of edges there and back, one pair above the other.
fn there_and_back(pairs: i32) -> Vec<i32> {
    let pair = |at: i32| {
        let (low, high) = (2 * at, 2 * at + 1);
        [0, low, 1, high, 0, 1, high, 0, low, 0]
    };
    (0..pairs).flat_map(pair).collect()
}

#[test]
fn no_edge() {
    let random = &mut Random::new(0);
    for (journal, rows) in [(0, 0), (1, 0), (0, 1), (7, 9), (100, 1_000)] {
        let mut call = Call::fitting(Vec::new(), 0);
        call.journal = journal;
        call.rows = rows;
        let accepted = Answer::Accepted {
            polygons: 0,
            peak: 0,
            records: 0,
        };
        assert_eq!(assemble(random, &call), accepted);
    }
}

#[test]
fn one_edge() {
    let random = &mut Random::new(1);
    for ends in [[0, 0, 1, 1], [1, 1, 0, 0], [0, 0, 1, 0], [1, 0, 0, 0]] {
        let call = Call::fitting([&ends[..], &[255]].concat(), 1);
        assert_eq!(assemble(random, &call), refused(9, 0));
    }
    let call = Call::fitting(vec![5, 5, 5, 5, 0], 0);
    assert_eq!(assemble(random, &call), refused(6, 0));
}

#[test]
fn parts_of_an_edge() {
    let random = &mut Random::new(2);
    for whole in [0, 1, 2, 100, 2_048, 4_096, 4_097, 5_000] {
        for part in 1..NUMBERS_PER_EDGE {
            let edges = vec![0; NUMBERS_PER_EDGE * whole + part];
            let call = Call::fitting(edges, 1);
            assert_eq!(assemble(random, &call), refused(1, 0));
        }
    }
}

#[test]
fn the_most_edges_and_one_more() {
    let random = &mut Random::new(3);
    let most = there_and_back(2_048);
    let accepted = Answer::Accepted {
        polygons: 2_048,
        peak: 1,
        records: 3 * 2_048,
    };
    assert_eq!(assemble(random, &Call::fitting(most.clone(), 1)), accepted);
    assert_eq!(
        assemble(random, &Call::fitting(most.clone(), 0)),
        refused(10, 0)
    );
    let mut one_more = most.clone();
    one_more.extend([0, 9_999, 1, 9_999, 0]);
    let mut call = Call::fitting(one_more, 1);
    assert_eq!(assemble(random, &call), refused(2, 0));
    call.polygons = 0;
    call.turns = 0;
    call.journal = 0;
    assert_eq!(assemble(random, &call), refused(2, 0));
    let mut call = Call::fitting(most, 1);
    call.sequences = 4_097;
    assert_eq!(assemble(random, &call), refused(3, 0));
    call.sequences = 4_096;
    call.journal -= 1;
    assert_eq!(assemble(random, &call), refused(4, 0));
}

/// A turn list of one number too few, one too many and none: 3, which comes
/// after 1 and 2 and before 4.
#[test]
fn turn_lists_that_do_not_fit() {
    let random = &mut Random::new(9);
    for pairs in [1, 3, 2_048] {
        let whole = there_and_back(pairs);
        let edges = whole.len() / NUMBERS_PER_EDGE;
        for turns in [edges - 1, edges + 1, 0] {
            let mut call = Call::fitting(whole.clone(), 1);
            call.turns = turns;
            assert_eq!(assemble(random, &call), refused(3, 0));
            call.journal = 0;
            assert_eq!(assemble(random, &call), refused(3, 0));
            call.edges.push(0);
            assert_eq!(assemble(random, &call), refused(1, 0));
        }
    }
    let mut call = Call::fitting(Vec::new(), 1);
    call.turns = 1;
    assert_eq!(assemble(random, &call), refused(3, 0));
    for turns in [0, 4_096, 4_098] {
        let mut call = Call::fitting(vec![0; NUMBERS_PER_EDGE * 4_097], 1);
        call.turns = turns;
        assert_eq!(assemble(random, &call), refused(2, 0));
    }
}

#[test]
fn faults_at_the_last_of_the_most_edges() {
    let random = &mut Random::new(4);
    let last = NUMBERS_PER_EDGE * 4_095;
    let mut equal_ends = there_and_back(2_048);
    equal_ends[last + 2] = equal_ends[last];
    equal_ends[last + 3] = equal_ends[last + 1];
    assert_eq!(
        assemble(random, &Call::fitting(equal_ends, 1)),
        refused(6, 4_095)
    );
    let mut too_low = there_and_back(2_048);
    too_low[last + 1] = 0;
    too_low[last + 3] = 1;
    assert_eq!(
        assemble(random, &Call::fitting(too_low, 1)),
        refused(7, 4_095)
    );
    let mut twice = there_and_back(2_048);
    twice.copy_within(last - NUMBERS_PER_EDGE..last, last);
    assert_eq!(
        assemble(random, &Call::fitting(twice, 1)),
        refused(8, 4_095)
    );
    let mut open = there_and_back(2_048);
    open[last + 2] -= 1;
    assert_eq!(assemble(random, &Call::fitting(open, 1)), refused(9, 4_094));
    for (film, refusal) in [(256, refused(16, 4_095)), (255, refused(9, 4_094))] {
        let mut other_film = there_and_back(2_048);
        other_film[last + 4] = film;
        assert_eq!(assemble(random, &Call::fitting(other_film, 1)), refusal);
    }
}

#[test]
fn the_limits_of_coordinates_and_films() {
    let random = &mut Random::new(5);
    let most = Point::LIMIT;
    let corners = [-most, -most, most, most, 255, most, most, -most, -most, 255];
    assert_eq!(
        refusal(assemble(random, &Call::fitting(corners.to_vec(), 1))),
        0
    );
    let past = [most + 1, -most - 1, i32::MAX, i32::MIN, i32::MIN + 1];
    let past_films = [256, -1, i32::MAX, i32::MIN, i32::MIN + 1];
    for at in 0..corners.len() {
        let (refusal, past) = match at % NUMBERS_PER_EDGE {
            4 => (16, past_films),
            _ => (5, past),
        };
        for number_past in past {
            let mut edges = corners.to_vec();
            edges[at] = number_past;
            let place = (at / NUMBERS_PER_EDGE) as u32;
            let call = Call::fitting(edges, 1);
            assert_eq!(assemble(random, &call), refused(refusal, place));
        }
    }
    let ends = [i32::MIN, i32::MIN, i32::MAX, i32::MAX, i32::MIN];
    assert_eq!(
        assemble(random, &Call::fitting(ends.to_vec(), 1)),
        refused(5, 0)
    );
}

/// Squares in the four corners of the range and the largest one round them.
#[test]
fn outlines_along_the_limits() {
    let random = &mut Random::new(6);
    let most = Point::LIMIT;
    let square = |x: i32, y: i32, side: i32| {
        let corners = [(x, y), (x + side, y), (x + side, y + side), (x, y + side)];
        let point = |at: usize| Point::new(corners[at % 4].0, corners[at % 4].1);
        [0, 1, 2, 3].map(|at| Edge::new(point(at), point(at + 1), 0))
    };
    let mut edges = square(-most, -most, 2 * most).to_vec();
    for x in [-most + 1, most - 2] {
        for y in [-most + 1, most - 2] {
            edges.extend(square(x, y, 1));
        }
    }
    let sheet = in_sweep_order(random, edges);
    let rows = outline::rows_enough(&sheet);
    let answer = assemble(random, &Call::fitting(sheet, rows));
    assert_eq!(refusal(answer), 0);
}

/// The call with as many rows as the peak is accepted, with one fewer not.
fn hold_large(random: &mut Random, sheet: Sheet) {
    let peak = sweep_up(&read_edges(&sheet), usize::MAX).unwrap().peak;
    assert!(peak <= outline::rows_enough(&sheet));
    let enough = Call::fitting(sheet.clone(), peak);
    assert_eq!(refusal(assemble(random, &enough)), 0);
    let too_few = Call::fitting(sheet, peak - 1);
    assert_eq!(refusal(assemble(random, &too_few)), 10);
}

#[test]
fn the_largest_sheets_of_every_shape() {
    let random = &mut Random::new(7);
    let all_films: Vec<i32> = (0..=Edge::MOST_FILM).collect();
    let few = soup(random, 4, 4, 30, &[0]);
    let large = [
        saw(random, 11),
        comb(random, 1_024),
        spiral(random, 2_048),
        squares(random, 32, 32),
        chessboard(random, 45, 45),
        chessboard(random, 2, 1_023),
        pixels(random, 52, 52, 50, false),
        soup(random, 1, 4_096, 1_000_000, &[0]),
        walks(random, 32, 2_000, &[0]),
        walks(random, 8, 2_000, &all_films),
        mosaic(random, 31, 31, &all_films, false),
        patchwork(random, 32, 32),
        layered(random, &few, &all_films),
    ];
    for sheet in large {
        let edges = sheet.len() / NUMBERS_PER_EDGE;
        assert!(edges > 800, "{} edges", edges);
        hold_large(random, sheet);
    }
}

/// A million rows are as good as just enough.
#[test]
fn a_million_rows() {
    let random = &mut Random::new(8);
    let sheet = pixels(random, 12, 12, 50, true);
    let call = Call::fitting(sheet, 1_000_000);
    assert_eq!(refusal(assemble(random, &call)), 0);
}
