//! Tens of thousands of random sheets: the sweeps must give what is declared,
//! and keep the bounds on rows and records. Each sheet has its own seed, which
//! is printed when it fails.

use std::ops::Range;

use witness::call::{Call, Outcome, TurnCall};
use witness::corners::Meetings;
use witness::declared;
use witness::generate::{
    any, chessboard, comb, in_films, layered, mosaic, patchwork, pixels, saw, soup,
};
use witness::generate::{some_films, spiral, squares, turned_round, walks, Random, Seed, Sheet};
use witness::geometry::{read_edges, Edge, Point, Site};
use witness::steps::{sweep_down, sweep_up};
use witness::{assemble, turns, Answer, TurnAnswer};

/// What was met with, over many sheets, so that no test passes for want of
/// sheets that could fail it.
#[derive(Default)]
struct Met {
    sheets: usize,
    empty: usize,
    touching_sheets: usize,
    touching_points: usize,
    apart_points: usize,
    apart_sheets: usize,
    many_outlines: usize,
    highest_level: i32,
    highest_peak: usize,
    refused_rows: usize,
    longest: usize,
    level_edges: usize,
    largest: usize,
    equal_tops: usize,
}

/// Checks the sheet of each seed, naming the seed of the first that fails.
fn check_seeds(seeds: Range<u64>, make: impl Fn(&mut Random) -> Sheet) -> Met {
    let mut met = Met::default();
    for seed in seeds {
        let seed = Seed(seed);
        let mut random = seed.random();
        let sheet = make(&mut random);
        check_sheet(&mut random, &sheet, &mut met);
    }
    met
}

impl Met {
    fn add(&mut self, other: Met) {
        self.sheets += other.sheets;
        self.empty += other.empty;
        self.touching_sheets += other.touching_sheets;
        self.touching_points += other.touching_points;
        self.apart_points += other.apart_points;
        self.apart_sheets += other.apart_sheets;
        self.many_outlines += other.many_outlines;
        self.highest_level = self.highest_level.max(other.highest_level);
        self.highest_peak = self.highest_peak.max(other.highest_peak);
        self.refused_rows += other.refused_rows;
        self.longest = self.longest.max(other.longest);
        self.level_edges += other.level_edges;
        self.largest = self.largest.max(other.largest);
        self.equal_tops += other.equal_tops;
    }
}

fn check_sheet(random: &mut Random, sheet: &Sheet, met: &mut Met) {
    let edges = read_edges(sheet);
    let rows = declared::sufficient_rows(&edges);
    let outcome = Call::fitting(sheet.clone(), rows).outcome(assemble);
    let (polygons, peak, records) = match outcome.answer {
        Answer::Accepted {
            polygons,
            peak,
            records,
        } => (polygons as usize, peak as usize, records as usize),
        Answer::Refused(refusal) => panic!("a sound sheet gets {:?}", refusal),
    };
    check_numbers(&edges, &outcome, polygons);
    assert!(records <= 2 * edges.len() - polygons, "too many records");
    assert!(2 * peak <= edges.len(), "too many rows");
    check_rows(random, sheet, &outcome, peak, met);
    check_turns(&edges, &outcome, polygons);
    met.equal_tops += check_tops(&edges);
    count(&edges, polygons, peak, met);
}

/// The sweeps give the declared numbers, the slices hold what the steps left.
fn check_numbers(edges: &[Edge], outcome: &Outcome, polygons: usize) {
    let declared = declared::numbering(edges);
    assert_eq!(outcome.polygons, declared.polygons);
    assert_eq!(outcome.sequences, declared.sequences);
    let outlines = declared::outlines(edges).concat();
    let turns = outlines.into_iter().map(|place| place as u32);
    assert!(turns.eq(outcome.turns.iter().copied()));
    assert_eq!(polygons, declared.count as usize);
    let swept = sweep_up(edges, usize::MAX).unwrap();
    let mut journal: Vec<i32> = swept.records.iter().flat_map(|r| r.numbers()).collect();
    journal.resize(8 * edges.len(), 0);
    assert_eq!(outcome.journal, journal);
    assert_eq!(sweep_down(&swept.records, edges.len()), declared);
    assert!(outcome.rows.iter().all(|number| *number == 0));
}

/// As many rows as the peak do, with nothing changed; fewer never do.
fn check_rows(random: &mut Random, sheet: &Sheet, outcome: &Outcome, peak: usize, met: &mut Met) {
    let just_enough = Call::fitting(sheet.clone(), peak).outcome(assemble);
    assert_eq!(just_enough.answer, outcome.answer);
    assert_eq!(just_enough.polygons, outcome.polygons);
    assert_eq!(just_enough.sequences, outcome.sequences);
    assert_eq!(just_enough.turns, outcome.turns);
    assert_eq!(just_enough.journal, outcome.journal);
    if peak == 0 {
        return;
    }
    for rows in [peak - 1, random.below(peak)] {
        let refused = Call::fitting(sheet.clone(), rows).outcome(assemble);
        let place = edge_that_opens(&outcome.journal, rows as i32);
        let refusal = witness::Refusal { number: 10, place };
        assert_eq!(refused.answer, Answer::Refused(refusal));
        let zeros = |slice: &[i32]| slice.iter().all(|number| *number == 0);
        assert!(zeros(&refused.journal) && zeros(&refused.rows));
        let untouched = |list: &[u32]| list.iter().all(|number| *number == 77);
        assert!(untouched(&refused.polygons) && untouched(&refused.sequences));
        assert!(untouched(&refused.turns));
        met.refused_rows += 1;
    }
}

/// The edge that first opens a row with at least this name. It is one of the
/// list. Since the lowest free row is opened, so many rows are too few from this
/// edge on.
fn edge_that_opens(journal: &[i32], rows: i32) -> u32 {
    let mut records = journal.chunks_exact(4);
    let opening = records.find(|record| record[2] >= rows);
    let opening = opening.unwrap_or_else(|| panic!("no row {} in the journal", rows));
    assert_eq!(opening[0], 0, "an edge passed up lacks a row");
    opening[1] as u32
}

/// The turn list of the two lists is the one that the call gave, and lays each
/// outline's edges end to end.
fn check_turns(edges: &[Edge], outcome: &Outcome, polygons: usize) {
    let call = TurnCall::fitting(outcome.polygons.clone(), outcome.sequences.clone());
    let turned = call.outcome(turns);
    let accepted = TurnAnswer::Accepted {
        polygons: polygons as u32,
    };
    assert_eq!(turned.answer, accepted);
    assert_eq!(turned.turns, outcome.turns);
    let polygon = |at: usize| outcome.polygons[turned.turns[at] as usize];
    let edge = |at: usize| edges[turned.turns[at] as usize];
    let mut first = 0;
    for at in 0..edges.len() {
        if polygon(first) != polygon(at) {
            first = at;
        }
        let is_last = at + 1 == edges.len() || polygon(at + 1) != polygon(at);
        let next = if is_last { first } else { at + 1 };
        assert_eq!(edge(at).head, edge(next).tail);
        assert_eq!(edge(at).film, edge(next).film);
    }
    let mut places = turned.turns.clone();
    places.sort_unstable();
    assert!(places.into_iter().eq(0..edges.len() as u32));
}

fn count(edges: &[Edge], polygons: usize, peak: usize, met: &mut Met) {
    let meetings = Meetings::of(edges);
    let (touching, apart) = (meetings.corners().count(), meetings.apart().len());
    let records = sweep_up(edges, usize::MAX).unwrap().records;
    let level = records.iter().map(|record| record.level).max();
    let level_edge = |edge: &&Edge| edge.tail.y == edge.head.y;
    met.add(Met {
        sheets: 1,
        empty: edges.is_empty() as usize,
        touching_sheets: (touching > 0) as usize,
        touching_points: touching,
        apart_points: apart,
        apart_sheets: (apart > 0) as usize,
        many_outlines: (polygons > 1) as usize,
        highest_level: level.unwrap_or(0),
        highest_peak: peak,
        refused_rows: 0,
        longest: declared::longest(edges),
        level_edges: edges.iter().filter(level_edge).count(),
        largest: edges.len(),
        equal_tops: 0,
    });
}

/// Each outline's top is no higher than that of the one before it, and equal
/// tops are of two films. Gives how many are equal.
fn check_tops(edges: &[Edge]) -> usize {
    let top = |outline: &Vec<usize>| edges[outline[0]].site(edges[outline[0]].tail);
    let tops: Vec<Site> = declared::outlines(edges).iter().map(top).collect();
    let mut equal = 0;
    for pair in tops.windows(2) {
        assert!(pair[0].point >= pair[1].point && pair[0] != pair[1]);
        equal += (pair[0].point == pair[1].point) as usize;
    }
    equal
}

#[test]
fn sheets_of_every_shape() {
    let met = check_seeds(0..16_000, any);
    assert_eq!(met.sheets, 16_000);
    assert!((1..1_600).contains(&met.empty), "{} empty", met.empty);
    assert!(met.touching_sheets > 4_000, "{}", met.touching_sheets);
    let joined = met.touching_points - met.apart_points;
    assert!(met.apart_sheets > 3_000, "{}", met.apart_sheets);
    assert!(met.apart_points > 5_000, "{}", met.apart_points);
    assert!(joined > 5_000, "{}", joined);
    assert!(met.many_outlines > 5_000, "{}", met.many_outlines);
    assert!(met.refused_rows > 25_000, "{}", met.refused_rows);
    assert!(met.level_edges > 50_000, "{}", met.level_edges);
    assert!(met.highest_level >= 5, "{}", met.highest_level);
    assert!(met.highest_peak >= 20, "{}", met.highest_peak);
    assert!(met.equal_tops > 1_000, "{}", met.equal_tops);
}

#[test]
fn touching_walks() {
    let make = |random: &mut Random| {
        let side = random.between(4, 10);
        walks(random, side, 100, &[9])
    };
    let met = check_seeds(100_000..102_500, make);
    assert!(met.touching_sheets > 2_200, "{}", met.touching_sheets);
    let joined = met.touching_points - met.apart_points;
    assert!(met.apart_points > 7_000, "{}", met.apart_points);
    assert!(joined > 7_000, "{}", joined);
}

#[test]
fn pixel_art() {
    let make = |random: &mut Random| {
        let merged = random.one_in(2);
        pixels(random, 20, 12, 50, merged)
    };
    let met = check_seeds(200_000..201_500, make);
    assert_eq!(met.touching_sheets, 1_500);
    assert!(met.touching_points > 20_000, "{}", met.touching_points);
    assert!(met.many_outlines > 1_400, "{}", met.many_outlines);
}

#[test]
fn films_on_one_another() {
    let make = |random: &mut Random| {
        let (side, films) = (random.between(2, 4), some_films(random));
        let one_film = walks(random, side, 10, &[0]);
        layered(random, &one_film, &films)
    };
    let met = check_seeds(400_000..401_000, make);
    assert!(met.equal_tops > 1_000, "{}", met.equal_tops);
}

#[test]
fn films_side_by_side() {
    let make = |random: &mut Random| {
        let (films, merged) = (some_films(random), random.one_in(2));
        mosaic(random, 9, 8, &films, merged)
    };
    let met = check_seeds(500_000..500_300, make);
    assert!(met.many_outlines > 280, "{}", met.many_outlines);
    assert!(met.touching_sheets > 200, "{}", met.touching_sheets);
}

/// A sheet of one film answers as before, journal and all, when its outlines are
/// laid in several films.
#[test]
fn films_of_outlines_that_do_not_matter() {
    for seed in 600_000..600_500 {
        let seed = Seed(seed);
        let random = &mut seed.random();
        let one_film = walks(random, 5, 40, &[0]);
        let rows = declared::sufficient_rows(&read_edges(&one_film));
        let films = some_films(random);
        let several = in_films(random, &one_film, &films);
        let outcome = |sheet: Sheet| Call::fitting(sheet, rows).outcome(assemble);
        assert_eq!(outcome(one_film), outcome(several));
    }
}

#[test]
fn long_outlines_in_general_position() {
    let make = |random: &mut Random| soup(random, 2, 150, 1_000_000, &[0, 1]);
    let met = check_seeds(300_000..300_300, make);
    assert!(met.longest >= 150 && met.highest_level >= 4);
}

#[test]
fn large_sheets() {
    let make = |random: &mut Random| comb(random, 1024);
    assert_eq!(check_seeds(1..4, make).largest, 4096);
    let make = |random: &mut Random| spiral(random, 2048);
    assert_eq!(check_seeds(4..5, make).largest, 4096);
    let make = |random: &mut Random| squares(random, 32, 32);
    assert_eq!(check_seeds(5..6, make).largest, 4096);
    let make = |random: &mut Random| chessboard(random, 45, 45);
    assert_eq!(check_seeds(5..6, make).apart_points, 44 * 22);
    let make = |random: &mut Random| pixels(random, 52, 52, 50, false);
    assert!(check_seeds(6..8, make).touching_points > 400);
    let make = |random: &mut Random| soup(random, 1, 4096, 1_000_000, &[255]);
    assert_eq!(check_seeds(8..9, make).longest, 4096);
    let make = |random: &mut Random| patchwork(random, 32, 32);
    assert_eq!(check_seeds(8..9, make).largest, 4096);
    let make = |random: &mut Random| walks(random, 26, 2_000, &[0, 1, 2]);
    let touching = check_seeds(9..11, make).touching_points;
    assert!(touching > 300, "{}", touching);
}

#[test]
fn saws_of_every_order() {
    for order in 1..=11 {
        let make = |random: &mut Random| {
            let sheet = saw(random, order);
            turned_round(random, &sheet)
        };
        let met = check_seeds(11..12, make);
        assert_eq!(met.largest, (2 << order) - 2);
        assert_eq!(met.highest_level, order as i32);
    }
}

/// C is taken at tops only; no end of an edge, and no point just before or just
/// after one, is passed by more.
#[test]
fn the_most_edges_pass_a_top() {
    for seed in 0..400 {
        let edges = read_edges(&any(&mut Random::new(seed)));
        let most = declared::passing(&edges);
        let ends = edges.iter().flat_map(|edge| [edge.tail, edge.head]);
        let around = |end: Point| [-1, 0, 1].map(|x| Point::new(end.x + x, end.y));
        let passes = |point: Point| {
            let passes = |edge: &&Edge| edge.bottom() < point && point <= edge.top();
            edges.iter().filter(passes).count()
        };
        let met = ends.flat_map(around).map(passes).max();
        assert_eq!(met.unwrap_or(0), most, "seed {}", seed);
    }
}
