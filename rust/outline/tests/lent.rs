//! From edges to instructions in arrays alone: what a caller does who has no
//! allocator. It runs with the feature `std` and without it.

use outline::{assemble, instructions, rows_enough, sort_into_sweep_order, turns};
use outline::{Edge, Instruction, Machine, Place, Point, Refusal};
use outline::{JOURNAL_NUMBERS_PER_EDGE, NUMBERS_PER_EDGE, NUMBERS_PER_ROW};

const COUNT: usize = 3;

/// A triangle, from its highest point round.
fn triangle() -> [Edge; COUNT] {
    let [high, low, right] = [(1, 5), (0, 0), (4, 2)].map(Point::from);
    let sides = [(high, low), (low, right), (right, high)];
    sides.map(|(tail, head)| Edge::new(tail, head, 7))
}

/// The plain list of edges, in an array.
fn plain(edges: &[Edge; COUNT]) -> [i32; COUNT * NUMBERS_PER_EDGE] {
    let mut list = [0; COUNT * NUMBERS_PER_EDGE];
    for (numbers, edge) in list.chunks_exact_mut(NUMBERS_PER_EDGE).zip(edges) {
        numbers.copy_from_slice(&edge.numbers());
    }
    list
}

/// A list that is numbered and put in turn.
struct Numbered {
    list: [i32; COUNT * NUMBERS_PER_EDGE],
    polygons: [u32; COUNT],
    sequences: [u32; COUNT],
    turns: [u32; COUNT],
}

impl Numbered {
    fn of(edges: &[Edge; COUNT]) -> Result<Numbered, Refusal> {
        let mut numbered = Numbered {
            list: plain(edges),
            polygons: [0; COUNT],
            sequences: [0; COUNT],
            turns: [0; COUNT],
        };
        assert_eq!(rows_enough(&numbered.list), 1);
        assemble(
            &numbered.list,
            &mut numbered.polygons,
            &mut numbered.sequences,
            &mut numbered.turns,
            &mut [0; COUNT * JOURNAL_NUMBERS_PER_EDGE],
            &mut [0; NUMBERS_PER_ROW],
        )?;
        Ok(numbered)
    }

    /// The points that a flatbed cuts to, in units of the list.
    fn cuts(&self) -> impl Iterator<Item = (f32, f32)> + '_ {
        let (polygons, sequences) = (&self.polygons, &self.sequences);
        let told = instructions(
            Machine::Flatbed,
            &self.list,
            polygons,
            sequences,
            &self.turns,
        );
        told.filter_map(|told| match told {
            Ok(Instruction::Cut(Place { first, second })) => Some((64.0 * first, 64.0 * second)),
            _ => None,
        })
    }
}

#[test]
fn from_edges_to_instructions() {
    let mut edges = triangle();
    sort_into_sweep_order(&mut edges);
    let numbered = Numbered::of(&edges).unwrap();
    assert!(numbered.cuts().eq([(0.0, 0.0), (4.0, 2.0), (1.0, 5.0)]));
    let mut again = [9; COUNT];
    assert_eq!(
        turns(&numbered.polygons, &numbered.sequences, &mut again),
        Ok(1)
    );
    assert_eq!(again, numbered.turns);
}

#[test]
fn edges_that_are_not_sorted() {
    let refusal = Numbered::of(&triangle()).map(|_| ()).unwrap_err();
    assert_eq!(refusal, Refusal::TopFalls { edge: 1 });
    assert!(refusal
        .to_string()
        .starts_with("edge 1 (counted from 0) has "));
}

#[test]
fn instructions_end_for_good() {
    let mut edges = triangle();
    sort_into_sweep_order(&mut edges);
    let numbered = Numbered::of(&edges).unwrap();
    let (polygons, sequences) = (&numbered.polygons, &numbered.sequences);
    let all = |turns| {
        instructions(
            Machine::RollFeeder,
            &numbered.list,
            polygons,
            sequences,
            turns,
        )
    };
    let mut told = all(&numbered.turns);
    assert!(told.by_ref().take(COUNT + 2).all(|one| one.is_ok()));
    assert_eq!((told.next(), told.next()), (None, None));
    let mut refused = all(&[0; COUNT]);
    let differ = Refusal::TurnsDiffer { position: 0 };
    let three = [refused.next(), refused.next(), refused.next()];
    assert_eq!(three, [Some(Err(differ)), None, None]);
}
