//! The crate's own types over random sheets and bitmaps: edges that are sorted,
//! outlines one after the other, all instructions, and edges made of pixels, each
//! held to the plain lists and to the witness.

use std::collections::BTreeSet;

use outline::{from_pixels, instructions, read_edges, sort_into_sweep_order, write_edges};
use outline::{Edge, Instruction, Machine, Outlines, Refusal};
use witness::generate::{any, of_bitmap, Bitmap, Random, Seed};

/// Sorted edges are accepted, whatever order they were in, and make the same
/// outlines as the sheet that they came from.
#[test]
fn sorted_edges() {
    let mut shuffled = 0;
    for seed in 0..1_000 {
        let seed = Seed(seed);
        let random = &mut seed.random();
        let sheet = any(random);
        let mut edges = read_edges(&sheet).unwrap();
        assert_eq!(write_edges(&edges), sheet);
        random.shuffle(&mut edges);
        let is_refused = Outlines::of_edges(&edges).is_err();
        shuffled += usize::from(is_refused);
        sort_into_sweep_order(&mut edges);
        let sorted = Outlines::of_edges(&edges).unwrap();
        assert_eq!(rounds(&sorted), rounds(&Outlines::of(&sheet).unwrap()));
    }
    assert!(shuffled > 500, "{shuffled} of 1,000 had to be sorted");
}

/// The outlines of a sheet, each as its edges in turn.
fn rounds(outlines: &Outlines) -> BTreeSet<Vec<[i32; 5]>> {
    let round = |one: outline::Outline| one.edges().map(Edge::numbers).collect();
    outlines.iter().map(round).collect()
}

/// Each outline is what the plain lists say of it.
#[test]
fn outlines_one_after_the_other() {
    for seed in 0..1_000 {
        let seed = Seed(seed);
        let sheet = any(&mut seed.random());
        let outlines = Outlines::of(&sheet).unwrap();
        let mut places: Vec<u32> = Vec::new();
        for (before, outline) in outlines.iter().enumerate() {
            assert_eq!(outline.number(), before + 1);
            assert_eq!(outlines.film(outline.number()), Some(outline.film()));
            let numbers = outline.edges().map(Edge::numbers);
            for ((at, place), numbers) in outline.places().iter().enumerate().zip(numbers) {
                let place = *place as usize;
                assert_eq!(outlines.polygons()[place] as usize, outline.number());
                assert_eq!(outlines.sequences()[place] as usize, at);
                assert_eq!(sheet[5 * place..5 * place + 5], numbers);
            }
            places.extend(outline.places());
        }
        assert_eq!(places, outlines.turns());
    }
}

/// All instructions on lent slices are those of the sheet, and end where they end.
#[test]
fn all_instructions() {
    for seed in 0..200 {
        let seed = Seed(seed);
        let outlines = Outlines::of(&any(&mut seed.random())).unwrap();
        let (polygons, sequences) = (outlines.polygons(), outlines.sequences());
        for machine in [Machine::Flatbed, Machine::RollFeeder] {
            let edges = outlines.edges();
            let lent = instructions(machine, edges, polygons, sequences, outlines.turns());
            let lent: Vec<Instruction> = lent.collect::<Result<_, Refusal>>().unwrap();
            assert!(outlines.instructions(machine).eq(lent));
        }
    }
}

/// A bitmap of some size in up to three films, by columns and from the bottom up.
fn any_bitmap(random: &mut Random) -> Bitmap {
    let (columns, rows) = (1 + random.below(12), 1 + random.below(12));
    let films = [None, Some(0), Some(1), Some(255)];
    let used = 2 + random.below(3);
    let mut cell = || films[random.below(used)];
    let mut column = || (0..rows).map(|_| cell()).collect();
    (0..columns).map(|_| column()).collect()
}

/// The edges of a bitmap are those that the witness draws, and the engine takes
/// them as they stand.
#[test]
fn edges_of_pixels() {
    for seed in 0..1_000 {
        let seed = Seed(seed);
        let random = &mut seed.random();
        let bitmap = any_bitmap(random);
        let cell = |column: &Vec<Option<i32>>, y: usize| column[y].map(|film| film as u8);
        let row = |y: usize| bitmap.iter().map(|column| cell(column, y)).collect();
        let rows: Vec<Vec<Option<u8>>> = (0..bitmap[0].len()).rev().map(row).collect();
        let edges = from_pixels(&rows);
        let drawn = read_edges(&of_bitmap(random, &bitmap, true)).unwrap();
        let all = |edges: &[Edge]| edges.iter().map(|edge| edge.numbers()).collect();
        let (made, drawn): (BTreeSet<[i32; 5]>, BTreeSet<[i32; 5]>) = (all(&edges), all(&drawn));
        assert_eq!(made, drawn);
        assert_eq!(made.len(), edges.len());
        assert!(Outlines::of_edges(&edges).is_ok());
    }
}
