//! The makers of sheets make what they claim: sound lists in sweep order, the
//! saws of the vector files, film on the left, parts run both ways, films side by
//! side and on one another, corners that are apart and corners that are joined. Without this the other tests might pass on
//! sheets that could not fail them.

use std::collections::BTreeSet;

use witness::checks::{checked, Lengths};
use witness::declared;
use witness::generate::{
    any, anywhere, chessboard, comb, in_films, in_sweep_order, layered, mosaic, moved, patchwork,
};
use witness::generate::{pixels, saw, saws, some_films, spiral, squares, steep_comb};
use witness::generate::{turned_round, walks, Random, Sheet};
use witness::geometry::{read_edges, twice_area, Edge, Point, NUMBERS_PER_EDGE};
use witness::steps::sweep_up;
use witness::text::read_list;
use witness::vectors::{all_cases, Work};

fn is_sound(sheet: &Sheet) -> bool {
    let edges = sheet.len() / NUMBERS_PER_EDGE;
    let lengths = Lengths {
        polygons: edges,
        sequences: edges,
        turns: edges,
        journal: 8 * edges,
    };
    checked(sheet, lengths).is_ok()
}

/// The edge list of a case of the vector files.
fn vector(id: &str) -> Sheet {
    let cases = all_cases().unwrap();
    let case = cases.into_iter().find(|case| case.id == id).unwrap();
    match case.work {
        Work::Assemble(call, _) => call.edges,
        Work::Instruction(call, _) => call.edges,
        Work::Program(input, _) => read_list(&input).unwrap(),
        Work::Turns(..) => panic!("{} has no edges", id),
    }
}

fn sorted(sheet: &Sheet) -> Vec<Edge> {
    let mut edges = read_edges(sheet);
    edges.sort();
    edges
}

#[test]
fn the_saws_of_the_vectors() {
    let random = &mut Random::new(1);
    assert_eq!(sorted(&saw(random, 5)), sorted(&vector("base/97")));
    let teeth = [12, 12, 12, 12, 6, 3].map(|lowest_points| vec![lowest_points]);
    assert_eq!(sorted(&saws(random, &teeth)), sorted(&vector("base/95")));
    let teeth = vec![vec![2]; 128];
    assert_eq!(
        sorted(&saws(random, &teeth)),
        sorted(&vector("base/forced/0"))
    );
}

/// The cross-section of a saw meets as many edges of every level as Hartley
/// says, so the rows grow faster than C alone.
#[test]
fn saws_need_many_rows() {
    for order in 2..=11 {
        let edges = read_edges(&saw(&mut Random::new(2), order));
        let order = order as usize;
        let peak = sweep_up(&edges, usize::MAX).unwrap().peak;
        let passing = declared::passing(&edges);
        assert_eq!(passing, 2 * order);
        assert!(peak >= order * (order + 1) / 2, "order {}: {}", order, peak);
    }
}

#[test]
fn shapes_have_the_edges_they_claim() {
    let random = &mut Random::new(3);
    let edges = |sheet: Sheet| read_edges(&sheet).len();
    assert_eq!(edges(comb(random, 7)), 28);
    assert_eq!(edges(spiral(random, 9)), 18);
    assert_eq!(edges(squares(random, 3, 5)), 60);
    assert_eq!(edges(chessboard(random, 3, 5)), 32);
    assert_eq!(edges(saw(random, 11)), 4094);
    assert_eq!(edges(patchwork(random, 32, 32)), 4096);
    for sheet in [comb(random, 7), spiral(random, 9), saw(random, 4)] {
        assert_eq!(declared::outlines(&read_edges(&sheet)).len(), 1);
    }
    let grid = read_edges(&squares(random, 3, 5));
    assert_eq!(declared::outlines(&grid).len(), 15);
    let board = read_edges(&chessboard(random, 3, 5));
    assert_eq!(declared::outlines(&board).len(), 8);
    assert_eq!(declared::touching_sites(&board).len(), 2 * 4);
    assert_eq!(declared::apart_sites(&board).len(), 4);
}

/// Sound, one outline with its film inside, and many more rows in use than a comb
/// of as many edges has, which has no more than a quarter of them.
#[test]
fn a_steep_comb_needs_more_rows_than_a_comb() {
    for (tops, most_seed, least_peak) in [(2, 9, 2), (255, 9, 160), (2_047, 3, 1_401)] {
        for seed in 1..=most_seed {
            let sheet = steep_comb(&mut Random::new(seed), tops);
            assert!(is_sound(&sheet), "seed {}", seed);
            let edges = read_edges(&sheet);
            assert_eq!(edges.len(), 2 * tops + 2);
            assert_eq!(declared::outlines(&edges).len(), 1);
            assert!(twice_area(&edges) > 0, "seed {}", seed);
            let peak = sweep_up(&edges, usize::MAX).unwrap().peak;
            assert!(peak >= least_peak, "seed {}: {}", seed, peak);
        }
    }
}

#[test]
fn film_lies_on_the_left() {
    let full = pixels(&mut Random::new(4), 5, 3, 100, true);
    assert_eq!(sorted(&full).len(), 4);
    assert_eq!(twice_area(&read_edges(&full)), 2 * 15);
    let unit = pixels(&mut Random::new(4), 5, 3, 100, false);
    assert_eq!(read_edges(&unit).len(), 16);
    for seed in 0..200 {
        let unit = read_edges(&pixels(&mut Random::new(seed), 9, 9, 50, false));
        let merged = read_edges(&pixels(&mut Random::new(seed), 9, 9, 50, true));
        assert!(twice_area(&unit) > 0 && twice_area(&unit) == twice_area(&merged));
        assert!(merged.len() < unit.len());
        let outlines = |edges: &[Edge]| declared::outlines(edges).len();
        assert_eq!(outlines(&unit), outlines(&merged), "seed {}", seed);
    }
}

/// The films of a list.
fn films(edges: &[Edge]) -> BTreeSet<i32> {
    edges.iter().map(|edge| edge.film).collect()
}

/// Each film by itself is pixel art, and every side that two films share is
/// there twice, run opposite ways.
#[test]
fn neighbours_of_two_films_share_whole_sides() {
    let mut shared = 0;
    for seed in 0..200 {
        let sheet = mosaic(&mut Random::new(seed), 6, 6, &[0, 7, 255], false);
        let edges = read_edges(&sheet);
        assert!(is_sound(&sheet), "seed {}", seed);
        for film in films(&edges) {
            let of_film = |edge: &&Edge| edge.film == film;
            let alone: Vec<Edge> = edges.iter().filter(of_film).copied().collect();
            assert!(twice_area(&alone) > 0, "seed {}", seed);
        }
        let turned = |edge: &Edge, film: i32| edge.reversed().in_film(film);
        let is_shared = |edge: &&Edge| {
            let others = [0, 7, 255].map(|film| turned(edge, film));
            others.iter().any(|other| edges.contains(other))
        };
        shared += edges.iter().filter(is_shared).count();
    }
    assert!(shared > 5_000, "{}", shared);
}

#[test]
fn every_pixel_of_a_patchwork_is_an_outline() {
    let edges = read_edges(&patchwork(&mut Random::new(6), 32, 32));
    assert_eq!(declared::outlines(&edges).len(), 1024);
    assert_eq!(declared::longest(&edges), 4);
    assert_eq!(films(&edges).len(), 256);
}

/// Outlines of one film that are laid in several films keep their numbers;
/// laid on itself a sheet has each of its outlines in every film.
#[test]
fn one_film_laid_in_several() {
    let (mut several, mut equal_tops) = (0, 0);
    for seed in 0..300 {
        let random = &mut Random::new(seed);
        let one_film = walks(random, 4, 12, &[0]);
        let count = declared::outlines(&read_edges(&one_film)).len();
        let palette = some_films(random);
        let spread = read_edges(&in_films(random, &one_film, &palette));
        assert_eq!(declared::outlines(&spread).len(), count);
        several += (films(&spread).len() > 1) as usize;
        let on_itself = layered(random, &one_film, &palette);
        assert!(is_sound(&on_itself), "seed {}", seed);
        let layers = declared::outlines(&read_edges(&on_itself));
        assert_eq!(layers.len(), count * palette.len());
        equal_tops += (palette.len() > 1 && count > 0) as usize;
    }
    assert!(several > 100 && equal_tops > 100);
}

#[test]
fn films_of_any_sheet() {
    let (mut met, mut several) = (BTreeSet::new(), 0);
    for seed in 0..500 {
        let of_sheet = films(&read_edges(&any(&mut Random::new(seed))));
        several += (of_sheet.len() > 1) as usize;
        met.extend(of_sheet);
    }
    assert!(several > 150, "{}", several);
    assert!(met.contains(&0) && met.contains(&Edge::MOST_FILM) && met.len() > 50);
}

/// A sheet with parts run the other way has as many outlines as before where no
/// four edges meet; corners that were apart are joined where their part is
/// turned, and the other way round.
fn check_turned(sheet: &[Edge], round: &[Edge]) {
    let count = |edges: &[Edge]| declared::outlines(edges).len();
    let corners = declared::touching_sites(sheet);
    assert_eq!(declared::touching_sites(round), corners);
    if corners.is_empty() {
        assert_eq!(count(round), count(sheet));
    }
    let (before, after) = (declared::apart_sites(sheet), declared::apart_sites(round));
    for site in corners {
        let ends_here = |edge: &&Edge| edge.ends().iter().any(|(end, _)| *end == site);
        let here = sheet.iter().find(ends_here).unwrap();
        let is_turned = !round.contains(here);
        let changed = before.contains(&site) != after.contains(&site);
        assert_eq!(changed, is_turned, "{:?}", site);
    }
}

#[test]
fn changes_that_keep_a_sheet_sound() {
    let (mut turned, mut reordered, mut corners) = (0, 0, [0; 4]);
    for seed in 0..500 {
        let random = &mut Random::new(seed);
        let sheet = any(random);
        let round = turned_round(random, &sheet);
        let pushed = moved(random, &sheet);
        let elsewhere = anywhere(random, &sheet);
        let again = in_sweep_order(random, read_edges(&sheet));
        for sheet in [&sheet, &round, &pushed, &elsewhere, &again] {
            assert!(is_sound(sheet), "seed {}", seed);
        }
        assert_eq!(sorted(&again), sorted(&sheet));
        let count = |sheet: &Sheet| declared::outlines(&read_edges(sheet)).len();
        assert_eq!(count(&pushed), count(&sheet));
        assert_eq!(count(&elsewhere), count(&sheet));
        check_turned(&read_edges(&sheet), &read_edges(&round));
        turned += (sorted(&round) != sorted(&sheet)) as usize;
        reordered += (again != sheet) as usize;
        let pushed = read_edges(&pushed);
        let ends = || pushed.iter().flat_map(|edge| [edge.tail, edge.head]);
        let right = ends().any(|end| end.x == Point::LIMIT);
        let up = ends().any(|end| end.y == Point::LIMIT);
        corners[2 * right as usize + up as usize] += 1;
    }
    assert!(turned > 200 && reordered > 200, "{} {}", turned, reordered);
    assert!(corners.iter().all(|times| *times > 50), "{:?}", corners);
}

#[test]
fn chance_that_can_be_had_again() {
    let draws = |seed: u64| {
        let mut random = Random::new(seed);
        [random.draw(), random.draw(), random.draw()]
    };
    let first_of_zero = [
        0xE220_A839_7B1D_CDAF,
        0x6E78_9E6A_A1B9_65F4,
        0x06C4_5D18_8009_454F,
    ];
    assert_eq!(draws(0), first_of_zero);
    assert_ne!(draws(0), draws(1));
    let mut random = Random::new(5);
    let mut met = [0; 3];
    for _ in 0..300 {
        met[(random.between(-1, 1) + 1) as usize] += 1;
    }
    assert!(met.iter().all(|times| *times > 50), "{:?}", met);
    assert_eq!(random.between(i32::MAX, i32::MAX), i32::MAX);
    let whole = random.between(i32::MIN, i32::MAX);
    assert_ne!(whole, random.between(i32::MIN, i32::MAX));
}
