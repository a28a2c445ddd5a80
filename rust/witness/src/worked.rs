//! Sheets worked by hand, those of document 01 in film 0 and those that show
//! what request M-100 says of films and M-104 of corners, with the answers and
//! numbers that the rules give them and the peaks of M-103. Any engine can be held
//! against them.

mod corners;

pub use corners::{accepted_at_corners, refused_at_corners};

use crate::assemble::Answer;
use crate::call::{Call, Outcome};
use crate::checks::Refusal;
use crate::generate::Sheet;
use crate::geometry::Edge;
use crate::steps::{NUMBERS_PER_RECORD, NUMBERS_PER_ROW};

/// An edge's polygon number and sequence number.
pub type Pair = (u32, u32);

/// A call with what must come of it.
pub struct Worked {
    /// What it shows.
    pub name: &'static str,
    /// The call.
    pub call: Call,
    /// Its answer.
    pub answer: Answer,
    /// The edges' numbers, in list order; none where the call is refused.
    pub pairs: Vec<Pair>,
}

impl Worked {
    fn accepted(name: &'static str, edges: Sheet, counts: [u32; 3], pairs: &[Pair]) -> Worked {
        let [polygons, peak, records] = counts;
        let answer = Answer::Accepted {
            polygons,
            peak,
            records,
        };
        Worked {
            name,
            call: Call::fitting(edges, peak as usize),
            answer,
            pairs: pairs.to_vec(),
        }
    }

    fn refused(name: &'static str, edges: Sheet, number: u32, place: u32) -> Worked {
        Worked {
            name,
            call: Call::fitting(edges, 2),
            answer: Answer::Refused(Refusal { number, place }),
            pairs: Vec::new(),
        }
    }

    /// Refused when it is lent so many rows.
    fn lent(name: &'static str, edges: Sheet, rows: usize, number: u32, place: u32) -> Worked {
        let mut worked = Worked::refused(name, edges, number, place);
        worked.call.rows = NUMBERS_PER_ROW * rows;
        worked
    }

    /// Refused for want of a row, when it is lent so many.
    fn lacking_a_row(name: &'static str, edges: Sheet, rows: usize, place: u32) -> Worked {
        Worked::lent(name, edges, rows, 10, place)
    }

    /// An outcome of the call: its answer must be this one, and every slice must
    /// be as the answer sheet says.
    ///
    /// # Panics
    /// When they are not.
    pub fn check(&self, outcome: &Outcome) {
        assert_eq!(outcome.answer, self.answer, "{}", self.name);
        match self.answer {
            Answer::Accepted { records, .. } => self.check_filled(outcome, records),
            Answer::Refused(refusal) => self.check_left(outcome, refusal.number),
        }
    }

    /// Two lists hold the pairs, the third the places in which these rise, and
    /// there are zeros after the records.
    fn check_filled(&self, outcome: &Outcome, records: u32) {
        let lists = outcome.polygons.iter().zip(&outcome.sequences);
        let pairs: Vec<Pair> = lists.map(|(one, other)| (*one, *other)).collect();
        assert_eq!(pairs, self.pairs, "{}", self.name);
        let mut rising = self.pairs.clone();
        rising.sort_unstable();
        let turned = outcome.turns.iter().map(|place| pairs[*place as usize]);
        assert_eq!(turned.collect::<Vec<Pair>>(), rising, "{}", self.name);
        let after = &outcome.journal[NUMBERS_PER_RECORD * records as usize..];
        let zeros = |slice: &[i32]| slice.iter().all(|number| *number == 0);
        assert!(zeros(after) && zeros(&outcome.rows), "{}", self.name);
    }

    /// The lists are as they were; so are journal and rows but for refusal 10,
    /// which leaves them all zeros.
    fn check_left(&self, outcome: &Outcome, refusal: u32) {
        let fill = self.call.fill;
        let left = if refusal == 10 { 0 } else { fill };
        let lists = [&outcome.polygons, &outcome.sequences, &outcome.turns];
        let rest = outcome.journal.iter().chain(&outcome.rows);
        let untouched = |list: &Vec<u32>| list.iter().all(|number| *number == fill as u32);
        assert!(lists.into_iter().all(untouched), "{}", self.name);
        assert!(rest.copied().all(|number| number == left), "{}", self.name);
    }
}

/// Edges without a film, put in film 0.
fn film_0(edges: &[[i32; 4]]) -> Sheet {
    let filmed = |edge: &[i32; 4]| [edge[0], edge[1], edge[2], edge[3], 0];
    edges.iter().flat_map(filmed).collect()
}

/// The triangle of document 01.
pub const TRIANGLE: [i32; 15] = [0, 0, 4, 2, 0, 4, 2, 1, 5, 0, 1, 5, 0, 0, 0];

/// The sheet of document 01 with two peaks.
pub const TWO_PEAKS: [i32; 20] = [3, 2, 1, 6, 0, 1, 6, 3, 0, 0, 3, 0, 6, 8, 0, 6, 8, 3, 2, 0];

/// The touching sheet of document 01 with its upper outline in this film.
pub fn touching(upper: i32) -> Sheet {
    let lower = 0;
    let edges = [
        [3, 2, 1, 6, lower],
        [1, 6, 3, 0, lower],
        [1, 6, 2, 7, upper],
        [3, 0, 6, 8, lower],
        [6, 8, 3, 2, lower],
        [2, 7, 0, 9, upper],
        [0, 9, 1, 6, upper],
    ];
    edges.concat()
}

/// The numbers of the touching sheet, whatever its films.
const TOUCHING_PAIRS: [Pair; 7] = [(2, 1), (2, 2), (1, 1), (2, 3), (2, 0), (1, 2), (1, 0)];

/// The accepted sheets of document 01; each is lent as many rows as its peak.
pub fn accepted_by_document_01() -> Vec<Worked> {
    let there_and_back = film_0(&[[0, 0, 1, 1], [1, 1, 0, 0]]);
    let square = film_0(&[[0, 0, 2, 0], [0, 2, 0, 0], [2, 0, 2, 2], [2, 2, 0, 2]]);
    let three = [(1, 1), (1, 2), (1, 0)];
    let four = [(1, 2), (1, 1), (1, 3), (1, 0)];
    let peaks = [(1, 1), (1, 2), (1, 3), (1, 0)];
    vec![
        Worked::accepted("empty list", Vec::new(), [0, 0, 0], &[]),
        Worked::accepted("triangle", TRIANGLE.to_vec(), [1, 1, 4], &three),
        Worked::accepted(
            "there and back",
            there_and_back,
            [1, 1, 3],
            &[(1, 1), (1, 0)],
        ),
        Worked::accepted("square", square, [1, 1, 5], &four),
        Worked::accepted("two peaks", TWO_PEAKS.to_vec(), [1, 2, 7], &peaks),
        Worked::accepted("touching", touching(0), [2, 3, 11], &TOUCHING_PAIRS),
    ]
}

/// The refused sheets of document 01, and those that M-103 refuses for want of a
/// row.
pub fn refused_by_document_01() -> Vec<Worked> {
    let twice = [&TRIANGLE[..5], &TRIANGLE[..]].concat();
    let without_last = TRIANGLE[..10].to_vec();
    let changed_over = [&TRIANGLE[5..10], &TRIANGLE[..5], &TRIANGLE[10..]].concat();
    vec![
        Worked::lacking_a_row("two peaks with one row", TWO_PEAKS.to_vec(), 1, 1),
        Worked::lacking_a_row("touching with two rows", touching(0), 2, 2),
        Worked::refused("triangle with its first edge twice", twice, 8, 1),
        Worked::refused("triangle without its last edge", without_last, 9, 0),
        Worked::refused("equal ends", vec![5, 5, 5, 5, 0], 6, 0),
        Worked::refused("triangle with two edges changed over", changed_over, 7, 1),
    ]
}

/// Two squares that share the side x = 2 whole, the right one in this film and
/// the left one in film 0.
fn squares_side_by_side(right: i32) -> Sheet {
    let left = 0;
    let edges = [
        [0, 0, 2, 0, left],
        [2, 0, 4, 0, right],
        [0, 2, 0, 0, left],
        [2, 0, 2, 2, left],
        [2, 2, 0, 2, left],
        [2, 2, 2, 0, right],
        [4, 0, 4, 2, right],
        [4, 2, 2, 2, right],
    ];
    edges.concat()
}

/// Edges there and back between (0, 0) and (1, 1): up or down, in which film.
fn between_two_points(edges: &[(bool, i32)]) -> Sheet {
    let numbers = |(up, film): &(bool, i32)| match up {
        true => [0, 0, 1, 1, *film],
        false => [1, 1, 0, 0, *film],
    };
    edges.iter().flat_map(numbers).collect()
}

/// A film each with an edge there and back, all between the same two points. The
/// edges down stand in the opposite order, so that film 0 has the last one.
fn every_film_at_one_point() -> Worked {
    let up = (0..=Edge::MOST_FILM).map(|film| (true, film));
    let down = (0..=Edge::MOST_FILM).rev().map(|film| (false, film));
    let edges: Vec<(bool, i32)> = up.chain(down).collect();
    let pair = |(up, film): &(bool, i32)| (*film as u32 + 1, u32::from(*up));
    let pairs: Vec<Pair> = edges.iter().map(pair).collect();
    let sheet = between_two_points(&edges);
    Worked::accepted("256 films at one point", sheet, [256, 256, 768], &pairs)
}

/// Outlines of two films with the same top, numbered by where their later top
/// edges stand.
fn equal_tops() -> [Worked; 3] {
    let (up, down) = (true, false);
    let film_1_later = [(up, 0), (down, 0), (up, 1), (down, 1)];
    let film_0_later = [(up, 0), (up, 1), (down, 1), (down, 0)];
    let up_edge_later = [(down, 1), (down, 0), (up, 0), (up, 1)];
    [
        Worked::accepted(
            "equal tops, film 1 later in the list",
            between_two_points(&film_1_later),
            [2, 1, 6],
            &[(2, 1), (2, 0), (1, 1), (1, 0)],
        ),
        Worked::accepted(
            "equal tops, film 0 later in the list",
            between_two_points(&film_0_later),
            [2, 2, 6],
            &[(1, 1), (2, 1), (2, 0), (1, 0)],
        ),
        Worked::accepted(
            "equal tops, the later edge arrives",
            between_two_points(&up_edge_later),
            [2, 2, 6],
            &[(1, 0), (2, 0), (2, 1), (1, 1)],
        ),
    ]
}

/// Sheets of several films that are accepted.
pub fn accepted_in_films() -> Vec<Worked> {
    let left = [(2, 2), (2, 1), (2, 3), (2, 0)];
    let right = [(1, 2), (1, 1), (1, 3), (1, 0)];
    let side_by_side = [
        left[0], right[0], left[1], left[2], left[3], right[1], right[2], right[3],
    ];
    let neighbours = squares_side_by_side(1);
    let mut sheets = vec![
        Worked::accepted(
            "neighbours of two films",
            neighbours,
            [2, 2, 10],
            &side_by_side,
        ),
        Worked::accepted(
            "touching in two films",
            touching(1),
            [2, 3, 11],
            &TOUCHING_PAIRS,
        ),
    ];
    sheets.extend(equal_tops());
    sheets.push(every_film_at_one_point());
    sheets
}

/// Sheets that are refused for their films.
pub fn refused_for_films() -> Vec<Worked> {
    let film = |film: i32| {
        let mut triangle = TRIANGLE.to_vec();
        triangle[9] = film;
        triangle
    };
    let far = 1_000_001;
    let first_lower = [0, 5, 1, 5, 0];
    let no_film = |edge: [i32; 4]| {
        let [a, b, c, d] = edge;
        [&first_lower[..], &[a, b, c, d, 256]].concat()
    };
    vec![
        Worked::refused("neighbours of one film", squares_side_by_side(0), 8, 3),
        Worked::refused("film -1", film(-1), 16, 1),
        Worked::refused("film 256", film(256), 16, 1),
        Worked::refused("the greatest number as a film", film(i32::MAX), 16, 1),
        Worked::refused("the least number as a film", film(i32::MIN), 16, 1),
        Worked::refused("an outline of two films", film(255), 9, 0),
        Worked::refused("16 after 5", no_film([0, 9, far, 9]), 5, 1),
        Worked::refused("16 before 6", no_film([3, 9, 3, 9]), 16, 1),
        Worked::refused("16 before 7", no_film([3, 0, 4, 0]), 16, 1),
    ]
}
