//! The sheets worked by hand, and the two sides of each of the limits. All
//! expected numbers are typed from the papers, and both the sweeps and the
//! declaration must give them.

use witness::call::{Call, Outcome};
use witness::declared;
use witness::geometry::{read_edges, MOST_EDGES, NUMBERS_PER_EDGE};
use witness::worked::{accepted_at_corners, accepted_by_document_01, accepted_in_films};
use witness::worked::{refused_at_corners, refused_by_document_01, refused_for_films};
use witness::worked::{touching, Pair, Worked, TRIANGLE, TWO_PEAKS};
use witness::{assemble, outline, Answer, Refusal};

fn accepted(polygons: u32, peak: u32, records: u32) -> Answer {
    Answer::Accepted {
        polygons,
        peak,
        records,
    }
}

fn refused(number: u32, place: u32) -> Answer {
    Answer::Refused(Refusal { number, place })
}

fn outcome(edges: &[i32], rows: usize) -> Outcome {
    Call::fitting(edges.to_vec(), rows).outcome(assemble)
}

/// The sheet must get its pairs from the sweeps and from the declaration.
fn check_accepted(worked: Worked) {
    worked.check(&worked.call.outcome(assemble));
    let declared = declared::numbering(&read_edges(&worked.call.edges));
    let lists = declared.polygons.into_iter().zip(declared.sequences);
    assert_eq!(
        lists.collect::<Vec<Pair>>(),
        worked.pairs,
        "{}",
        worked.name
    );
}

#[test]
fn accepted_by_hand() {
    let sheets = [
        accepted_by_document_01(),
        accepted_in_films(),
        accepted_at_corners(),
    ];
    sheets.into_iter().flatten().for_each(check_accepted);
}

#[test]
fn refused_by_hand() {
    let sheets = [
        refused_by_document_01(),
        refused_for_films(),
        refused_at_corners(),
    ];
    for worked in sheets.into_iter().flatten() {
        worked.check(&worked.call.outcome(assemble));
    }
}

#[test]
fn an_empty_list_clears_what_is_lent() {
    let mut call = Call::fitting(Vec::new(), 2);
    call.journal = 9;
    let outcome = call.outcome(assemble);
    assert_eq!((outcome.journal, outcome.rows), (vec![0; 9], vec![0; 16]));
    assert_eq!(declared::sufficient_rows(&[]), 0);
    assert_eq!(declared::rows_of_demand_3(&[]), 0);
}

/// The last edge finishes both chains. That of row 1 gives its row back and, as
/// an edge of the next level, opens it again, so that the record's name is its
/// chain's row; row 0 is in use until then, and goes up next.
#[test]
fn the_journal_of_two_peaks() {
    let outcome = outcome(&TWO_PEAKS, 2);
    let edges = [0, 0, 0, 0, 0, 1, 1, -1, 0, 2, 1, 0, 0, 3, 0, -1];
    let passed_up = [1, 1, 1, 1, 1, 0, 1, -1, 2, 1, -1, 2];
    assert_eq!(outcome.journal[..16], edges);
    assert_eq!(outcome.journal[16..28], passed_up);
    assert_eq!(outcome.journal[28..], [0; 4]);
}

#[test]
fn the_journal_of_the_triangle() {
    let outcome = outcome(&TRIANGLE, 1);
    let written = [0, 0, 0, 0, 0, 1, 0, 1, 0, 2, 0, -1, 1, 0, -1, 1];
    assert_eq!(outcome.journal[..16], written);
    assert_eq!(outcome.journal[16..], [0; 8]);
}

#[test]
fn program_on_the_triangle() {
    let printed = outline(b"0 0 4 2 0\n4 2 1 5 0\n1 5 0 0 0\n");
    assert_eq!(printed, b"accepted 1 1 4\n2 1 0\n1 1 2\n0 1 1\n");
}

#[test]
fn a_part_of_a_row_does_not_help() {
    for part_of_a_row in 0..8 {
        let mut call = Call::fitting(TWO_PEAKS.to_vec(), 1);
        call.rows += part_of_a_row;
        assert_eq!(call.outcome(assemble).answer, refused(10, 1));
    }
}

/// Where all four kinds meet in one film there is a touch; the same edges in
/// two films do not meet.
#[test]
fn outlines_of_two_films_do_not_touch() {
    let touches = |upper: i32| declared::touching_sites(&read_edges(&touching(upper))).len();
    assert_eq!((touches(0), touches(1)), (1, 0));
    let (one, two) = (outcome(&touching(0), 3), outcome(&touching(1), 3));
    assert_eq!(one, two);
}

/// Pairs of edges there and back, one pair above the other.
fn there_and_back_times(pairs: i32) -> Vec<i32> {
    let pair = |at: i32| {
        let (low, high) = (2 * at, 2 * at + 1);
        [0, low, 1, high, 0, 1, high, 0, low, 0]
    };
    (0..pairs).flat_map(pair).collect()
}

#[test]
fn the_most_edges() {
    let mut edges = there_and_back_times(2048);
    assert_eq!(edges.len(), NUMBERS_PER_EDGE * MOST_EDGES);
    assert_eq!(outcome(&edges, 1).answer, accepted(2048, 1, 3 * 2048));
    edges.extend([0, 9999, 1, 9999, 0]);
    assert_eq!(outcome(&edges, 1).answer, refused(2, 0));
}

#[test]
fn the_greatest_numbers() {
    let most = 1_000_000;
    let corners = [-most, -most, most, most, 255, most, most, -most, -most, 255];
    assert_eq!(outcome(&corners, 1).answer, accepted(1, 1, 3));
    for number in 0..10 {
        let mut edges = corners.to_vec();
        edges[number] += edges[number].signum();
        let refusal = if number % 5 == 4 { 16 } else { 5 };
        let place = number as u32 / 5;
        assert_eq!(outcome(&edges, 1).answer, refused(refusal, place));
    }
}

#[test]
fn the_shortest_journal() {
    let mut call = Call::fitting(TRIANGLE.to_vec(), 1);
    assert_eq!(call.journal, 24);
    assert_eq!(call.outcome(assemble).answer, accepted(1, 1, 4));
    call.journal = 23;
    assert_eq!(call.outcome(assemble).answer, refused(4, 0));
}

#[test]
fn the_measures_of_two_peaks() {
    let edges = read_edges(&TWO_PEAKS);
    assert_eq!(declared::passing(&edges), 4);
    assert_eq!(declared::longest(&edges), 4);
    assert_eq!(declared::sufficient_rows(&edges), 5);
    assert_eq!(declared::rows_of_demand_3(&edges), 8);
}

/// C counts the edges of all films.
#[test]
fn the_measures_of_256_films_at_one_point() {
    let sheets = accepted_in_films();
    let all = read_edges(&sheets[sheets.len() - 1].call.edges);
    assert_eq!(declared::passing(&all), 512);
    assert_eq!(declared::longest(&all), 2);
}
