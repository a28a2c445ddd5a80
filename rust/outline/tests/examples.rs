//! The examples of the documentation, run as plain tests too: a build for
//! another machine does not run those in the comments.

use outline::text::{read_sheet, write_instructions, write_numbers, write_sheet};
use outline::{assemble, instruction, instructions, picture, pixels, rows_enough, turns};
use outline::{from_pixels, read_edges, sort_into_sweep_order, write_edges};
use outline::{Accepted, Edge, Instruction, Machine, Outlines, Place, Point, Refusal};

const TRIANGLE: [i32; 15] = [0, 0, 4, 2, 7, 4, 2, 1, 5, 7, 1, 5, 0, 0, 7];

#[test]
fn the_whole_list_in_all_the_numbers_out() -> Result<(), Refusal> {
    let outlines = Outlines::of(&TRIANGLE)?;
    assert_eq!(outlines.count(), 1);
    assert_eq!(outlines.polygons(), [1, 1, 1]);
    assert_eq!(outlines.sequences(), [1, 2, 0]);
    assert_eq!(outlines.places(1), [2, 0, 1]);
    Ok(())
}

#[test]
fn all_edges_in_all_outlines_out() -> Result<(), Refusal> {
    let [low, right, high] = [(0, 0), (4, 2), (1, 5)].map(Point::from);
    let sides = [(right, high), (high, low), (low, right)];
    let mut triangle = sides.map(|(tail, head)| Edge::new(tail, head, 7));
    sort_into_sweep_order(&mut triangle);
    assert_eq!(triangle.map(Edge::top), [right, high, high]);
    let outlines = Outlines::of_edges(&triangle)?;
    let points: Vec<Vec<Point>> = outlines.iter().map(|one| one.points().collect()).collect();
    assert_eq!(points, [[high, low, right]]);
    for outline in &outlines {
        assert_eq!((outline.number(), outline.film()), (1, 7));
        assert_eq!(outline.edges().len(), 3);
    }
    Ok(())
}

#[test]
fn what_is_made_of_a_sheet_as_text() -> Result<(), Refusal> {
    let numbers = write_numbers(&Outlines::of(&TRIANGLE)?);
    assert_eq!(numbers, "accepted 1 1 4\n2 1 0\n1 1 2\n0 1 1\n");
    let there_and_back = Outlines::of(&[0, 0, 64, 128, 7, 64, 128, 0, 0, 7])?;
    let told = write_instructions(&there_and_back, Machine::RollFeeder);
    assert_eq!(told, "travel 2 -1\ncut 0 0\ncut 2 -1\nlift\n");
    Ok(())
}

#[test]
fn plain_lists() -> Result<(), Refusal> {
    let edges = read_edges(&TRIANGLE)?;
    assert_eq!(edges[0], Edge::new(Point::new(0, 0), Point::new(4, 2), 7));
    assert_eq!(write_edges(&edges), TRIANGLE);
    assert_eq!(read_edges(&[0, 0, 4, 2]), Err(Refusal::NotWhole));
    for film in [-1, 256] {
        let list = [&TRIANGLE[..], &[1, 2, 3, 4, film]].concat();
        let refusal = Refusal::FilmPastRange { edge: 3 };
        assert_eq!(read_edges(&list), Err(refusal));
    }
    Ok(())
}

#[test]
fn the_cells_of_a_bitmap() -> Result<(), Refusal> {
    let (film, none) = (Some(7), None);
    let edges = from_pixels(&[[film, none], [none, film]]);
    let outlines = Outlines::of_edges(&edges)?;
    let lengths: Vec<usize> = outlines.iter().map(|one| one.edges().len()).collect();
    assert_eq!(lengths, [4, 4]);
    let cells = [film, none, none, film];
    let rows: Vec<&[Option<u8>]> = cells.chunks(2).collect();
    assert_eq!(from_pixels(&rows), edges);
    Ok(())
}

#[test]
fn a_bitmap_that_is_text() {
    let fault = pixels::sheet("#.\n.?\n").unwrap_err();
    assert_eq!((fault.line, fault.column, fault.character), (2, 2, '?'));
    let sheet = pixels::sheet("#.\n.#\n").unwrap();
    assert_eq!(Outlines::of(&sheet).map(|them| them.count()), Ok(2));
}

#[test]
fn on_lent_slices() {
    let (mut polygons, mut sequences, mut turns) = ([0; 3], [0; 3], [0; 3]);
    let (mut journal, mut rows) = ([0; 24], [0; 8]);
    let answer = assemble(
        &TRIANGLE,
        &mut polygons,
        &mut sequences,
        &mut turns,
        &mut journal,
        &mut rows,
    );
    let accepted = Accepted {
        polygons: 1,
        peak: 1,
        records: 4,
    };
    assert_eq!(answer, Ok(accepted));
    assert_eq!((polygons, sequences), ([1, 1, 1], [1, 2, 0]));
    assert_eq!(turns, [2, 0, 1]);
}

#[test]
fn a_turn_list() {
    let (polygons, sequences) = ([2, 1, 2, 1], [1, 0, 0, 1]);
    let mut places = [0; 4];
    assert_eq!(turns(&polygons, &sequences, &mut places), Ok(2));
    assert_eq!(places, [1, 3, 2, 0]);
    let repeated = turns(&[1, 1], &[0, 0], &mut [0; 2]);
    assert_eq!(repeated, Err(Refusal::PairRepeated { edge: 1 }));
}

#[test]
fn neighbours_of_two_films() -> Result<(), Refusal> {
    let neighbours = [
        0, 0, 2, 0, 0, 2, 0, 4, 0, 1, 0, 2, 0, 0, 0, 2, 0, 2, 2, 0, //
        2, 2, 0, 2, 0, 2, 2, 2, 0, 1, 4, 0, 4, 2, 1, 4, 2, 2, 2, 1,
    ];
    let outlines = Outlines::of(&neighbours)?;
    assert_eq!(outlines.count(), 2);
    assert_eq!(outlines.polygons(), [2, 1, 2, 2, 2, 1, 1, 1]);
    assert_eq!(outlines.sequences(), [2, 2, 1, 3, 0, 1, 3, 0]);
    assert_eq!(outlines.places(1), [7, 5, 1, 6]);
    assert_eq!(outlines.places(2), [4, 2, 0, 3]);
    assert_eq!((outlines.peak(), outlines.records()), (2, 10));
    assert_eq!(outlines.turns(), [7, 5, 1, 6, 4, 2, 0, 3]);
    assert!(outlines.places(0).is_empty() && outlines.places(3).is_empty());
    let films: Vec<Option<u8>> = (0..4).map(|outline| outlines.film(outline)).collect();
    assert_eq!(films, [None, Some(1), Some(0), None]);
    Ok(())
}

#[test]
fn no_outline() -> Result<(), Refusal> {
    let outlines = Outlines::of(&[])?;
    assert_eq!(outlines.count(), 0);
    assert!(outlines.places(0).is_empty() && outlines.places(1).is_empty());
    Ok(())
}

#[test]
fn a_refusal() {
    let refusal = Outlines::of(&[0, 0, 4, 2, 7, 5, 5, 5, 5, 7]).unwrap_err();
    assert_eq!(refusal, Refusal::EqualEnds { edge: 1 });
    let said = (refusal.number(), refusal.place(), refusal.word());
    assert_eq!(said, (6, 1, "EqualEnds"));
    assert_eq!(
        refusal.to_string(),
        "edge 1 (counted from 0) begins and ends at the same point \
         (refusal 6, EqualEnds): leave it out"
    );
}

fn place(first: f32, second: f32) -> Place {
    Place { first, second }
}

#[test]
fn one_instruction() {
    let ask = |machine, k| instruction(machine, &TRIANGLE, &[1, 1, 1], &[1, 2, 0], &[2, 0, 1], k);
    let top = Instruction::Travel(place(0.015625, 0.078125));
    assert_eq!(ask(Machine::Flatbed, 0), Ok(top));
    let corner = Instruction::Cut(place(0.03125, -0.0625));
    assert_eq!(ask(Machine::RollFeeder, 2), Ok(corner));
    assert_eq!(ask(Machine::Flatbed, 4), Ok(Instruction::Lift));
    assert_eq!(ask(Machine::Flatbed, 5), Err(Refusal::PastLast));
}

#[test]
fn all_instructions() -> Result<(), Refusal> {
    let outlines = Outlines::of(&TRIANGLE)?;
    let text = |machine| {
        let lines = outlines.instructions(machine).map(|one| one.to_string());
        lines.collect::<Vec<String>>().join(", ")
    };
    assert_eq!(
        text(Machine::Flatbed),
        "travel 0.015625 0.078125, cut 0 0, cut 0.0625 0.03125, cut 0.015625 0.078125, lift"
    );
    assert_eq!(
        text(Machine::RollFeeder),
        "travel 0.078125 -0.015625, cut 0 0, cut 0.03125 -0.0625, cut 0.078125 -0.015625, lift"
    );
    assert_eq!(outlines.edges(), TRIANGLE);
    let mut instructions = outlines.instructions(Machine::Flatbed);
    assert_eq!(instructions.len(), 5);
    assert_eq!(instructions.next_back(), Some(Instruction::Lift));
    assert_eq!(instructions.len(), 4);
    assert_eq!(
        Outlines::of(&[])?.instructions(Machine::RollFeeder).len(),
        0
    );
    Ok(())
}

/// They end after the last, and a refusal comes once.
#[test]
fn instructions_on_lent_slices() -> Result<(), Refusal> {
    let all = |turns| instructions(Machine::Flatbed, &TRIANGLE, &[1, 1, 1], &[1, 2, 0], turns);
    let told: Vec<Instruction> = all(&[2, 0, 1]).collect::<Result<_, Refusal>>()?;
    assert_eq!(told.len(), 5);
    assert_eq!(told[0], Instruction::Travel(place(0.015625, 0.078125)));
    assert_eq!(told[4], Instruction::Lift);
    let differ = Refusal::TurnsDiffer { position: 1 };
    assert_eq!(all(&[2, 1, 0]).collect::<Vec<_>>(), [Err(differ)]);
    Ok(())
}

/// All decimals and none too many, and no minus before zero.
#[test]
fn instructions_as_text() {
    let far = 999_999.0 / 64.0;
    let cases = [
        (0.03125, -15_625.0, "0.03125 -15625"),
        (far, -far, "15624.984375 -15624.984375"),
        (100.0, 0.015625, "100 0.015625"),
        (-0.5, 1.0, "-0.5 1"),
        (-0.0, 0.0, "0 0"),
    ];
    for (first, second, text) in cases {
        let travel = Instruction::Travel(place(first, second));
        assert_eq!(travel.to_string(), format!("travel {}", text));
        let cut = Instruction::Cut(place(first, second));
        assert_eq!(cut.to_string(), format!("cut {}", text));
    }
    assert_eq!(Instruction::Lift.to_string(), "lift");
}

#[test]
fn how_many_rows() {
    let two_peaks = [3, 2, 1, 6, 0, 1, 6, 3, 0, 0, 3, 0, 6, 8, 0, 6, 8, 3, 2, 0];
    assert_eq!(rows_enough(&two_peaks), 5);
    assert_eq!(rows_enough(&[]), 0);
}

#[test]
fn sheets_as_text() {
    let edges = vec![0, 0, 1, 1, 7, 1, 1, 0, 0, 7];
    assert_eq!(read_sheet(b"0 0 1 1 7\n1 1 0 0 7\n"), Ok(edges));
    let malformed = Refusal::Malformed { line: 2 };
    assert_eq!(read_sheet(b"0 0 1 1 7\n1 1 0 0\n"), Err(malformed));
    assert_eq!(write_sheet(&[0, 0, -1, 1, 7]), "0 0 -1 1 7\n");
}

#[test]
fn a_picture() -> Result<(), Refusal> {
    let svg = picture::draw(&TRIANGLE)?;
    assert!(svg.starts_with("<svg ") && svg.ends_with("</svg>\n"));
    Ok(())
}
