//! Refusals 1 to 9, 16 and 17 held against a statement of them that looks at all
//! pairs of edges: for calls damaged on purpose once or twice, for lists of
//! random numbers, and for every list of up to four edges on four points, in one
//! film and in two.

mod clockwise;

use std::collections::BTreeMap;

use clockwise::{alike, is_between};
use witness::call::Call;
use witness::checks::{BY_EDGE, IN_ORDER};
use witness::declared;
use witness::generate::{any, damage, damaged, Random};
use witness::geometry::read_edges;
use witness::{assemble, Answer, Refusal};

type At = (i64, i64);

/// An edge: its tail, its head and its film.
type Ends = (At, At, i64);

/// What the table of document 01, with M-100, M-101 and M-104, says of a call, row by row;
/// nothing when none of the refusals before 10 is due.
fn stated(call: &Call) -> Option<(u32, u32)> {
    let edges = call.edges.len() / 5;
    if edges * 5 != call.edges.len() {
        return Some((1, 0));
    }
    if edges >= 4097 {
        return Some((2, 0));
    }
    if call.polygons != edges || call.sequences != edges || call.turns != edges {
        return Some((3, 0));
    }
    if call.journal < 8 * edges {
        return Some((4, 0));
    }
    let numbers: Vec<i64> = call.edges.iter().map(|number| i64::from(*number)).collect();
    let ends = |edge: &[i64]| ((edge[0], edge[1]), (edge[2], edge[3]), edge[4]);
    let list: Vec<Ends> = numbers.chunks(5).map(ends).collect();
    stated_by_itself(&list)
        .or_else(|| first(&list, |edge| has_earlier_kind(&list, edge)).map(|place| (8, place)))
        .or_else(|| first(&list, |edge| is_open(&list, edge)).map(|place| (9, place)))
        .or_else(|| first(&list, |edge| is_twisted(&list, edge)).map(|place| (17, place)))
}

fn first(list: &[Ends], fault: impl Fn(usize) -> bool) -> Option<u32> {
    let place = (0..list.len()).find(|edge| fault(*edge));
    place.map(|place| place as u32)
}

fn is_below(one: At, other: At) -> bool {
    one.1 < other.1 || (one.1 == other.1 && one.0 < other.0)
}

fn top(edge: Ends) -> At {
    if is_below(edge.0, edge.1) {
        edge.1
    } else {
        edge.0
    }
}

fn stated_by_itself(list: &[Ends]) -> Option<(u32, u32)> {
    let past = |number: i64| number.abs() > 1_000_000;
    for (place, (tail, head, film)) in list.iter().copied().enumerate() {
        let faults = [
            past(tail.0) || past(tail.1) || past(head.0) || past(head.1),
            !(0..=255).contains(&film),
            tail == head,
            place > 0 && is_below(top(list[place]), top(list[place - 1])),
        ];
        if let Some(fault) = faults.iter().position(|fault| *fault) {
            return Some((BY_EDGE[fault], place as u32));
        }
    }
    None
}

/// Whether an earlier edge of the same film has the same tail and runs the same
/// way from it, or the same head and runs the same way into it.
fn has_earlier_kind(list: &[Ends], edge: usize) -> bool {
    let (tail, head, film) = list[edge];
    list[..edge].iter().any(|earlier| {
        let same_way = is_below(earlier.0, earlier.1) == is_below(tail, head);
        earlier.2 == film && same_way && (earlier.0 == tail || earlier.1 == head)
    })
}

/// Whether at an end of the edge not as many edges of its film arrive as leave.
fn is_open(list: &[Ends], edge: usize) -> bool {
    let film = list[edge].2;
    let of_film = || list.iter().filter(|other| other.2 == film);
    let differs = |point: At| {
        let leaving = of_film().filter(|other| other.0 == point).count();
        let arriving = of_film().filter(|other| other.1 == point).count();
        leaving != arriving
    };
    differs(list[edge].0) || differs(list[edge].1)
}

/// The ways from a point along the edges of a film that leave it, and back along
/// those that arrive.
fn ways(list: &[Ends], point: At, film: i64) -> [Vec<At>; 2] {
    let of_film = || list.iter().filter(|edge| edge.2 == film);
    let way = |to: At| (to.0 - point.0, to.1 - point.1);
    let leaving = of_film().filter(|edge| edge.0 == point);
    let arriving = of_film().filter(|edge| edge.1 == point);
    [
        leaving.map(|edge| way(edge.1)).collect(),
        arriving.map(|edge| way(edge.0)).collect(),
    ]
}

/// Whether at an end of the edge two edges of its film arrive and two leave, and
/// not exactly one of the leaving ones lies between the arriving ones, on either
/// side; or whether two of the four lie in one direction.
fn is_twisted(list: &[Ends], edge: usize) -> bool {
    let (tail, head, film) = list[edge];
    [tail, head].into_iter().any(|point| {
        let [leaving, arriving] = ways(list, point, film);
        if leaving.len() < 2 {
            return false;
        }
        let inside = |from: usize, to: usize| {
            let between = |way: &&At| is_between(arriving[from], **way, arriving[to]);
            leaving.iter().filter(between).count()
        };
        let all = [leaving.clone(), arriving.clone()].concat();
        let repeats = |at: usize| all[..at].iter().any(|way| alike(*way, all[at]));
        (0..4).any(repeats) || inside(0, 1) != 1 || inside(1, 0) != 1
    })
}

/// Checks the answer to a call and gives its refusal's number, 0 if accepted.
fn check(call: &Call, seed: u64) -> u32 {
    let outcome = call.outcome(assemble);
    let due = stated(call);
    let refused = match outcome.answer {
        Answer::Refused(refusal) => Some((refusal.number, refusal.place)),
        Answer::Accepted { .. } => None,
    };
    let of_the_sweep = refused.filter(|refusal| refusal.0 == 10);
    assert_eq!(refused, due.or(of_the_sweep), "seed {}: {:?}", seed, call);
    if refused.is_some() {
        let filled = |length: usize| vec![call.fill as u32; length];
        assert_eq!(outcome.polygons, filled(call.polygons), "seed {}", seed);
        assert_eq!(outcome.sequences, filled(call.sequences), "seed {}", seed);
        assert_eq!(outcome.turns, filled(call.turns), "seed {}", seed);
    }
    let left = if due.is_some() { call.fill } else { 0 };
    if due.is_some() || of_the_sweep.is_some() {
        assert_eq!(outcome.journal, vec![left; call.journal], "seed {}", seed);
    }
    assert_eq!(outcome.rows, vec![left; call.rows], "seed {}", seed);
    refused.map_or(0, |refusal| refusal.0)
}

#[test]
fn each_refusal_on_purpose() {
    for refusal in IN_ORDER {
        let calls = if refusal == 2 { 20 } else { 300 };
        for seed in 0..calls {
            let call = damaged(&mut Random::new(seed), refusal);
            assert_eq!(check(&call, seed), refusal, "seed {}", seed);
        }
    }
}

#[test]
fn two_faults_at_once() {
    let mut done = 0;
    for (at, second) in IN_ORDER.into_iter().enumerate() {
        for first in IN_ORDER.into_iter().take(at) {
            for seed in 0..if first == 2 { 5 } else { 60 } {
                let mut random = Random::new(seed);
                let mut call = damaged(&mut random, second);
                if !damage(&mut random, &mut call, first) {
                    continue;
                }
                let got = check(&call, seed);
                let by_edge = BY_EDGE.contains(&first) && BY_EDGE.contains(&second);
                assert!(got == first || (by_edge && got == second));
                done += 1;
            }
        }
    }
    assert!(done > 2_000, "{}", done);
}

#[test]
fn undamaged_calls_get_none() {
    for seed in 0..300 {
        let sheet = any(&mut Random::new(seed));
        let rows = declared::sufficient_rows(&read_edges(&sheet));
        assert_eq!(check(&Call::fitting(sheet, rows), seed), 0);
    }
}

#[test]
fn faults_within_one_edge() {
    let refusal = |edges: &[i32]| match Call::fitting(edges.to_vec(), 9).outcome(assemble).answer {
        Answer::Refused(Refusal { number, place }) => (number, place),
        Answer::Accepted { .. } => (0, 0),
    };
    let (far, high, low) = (1_000_001, [0, 9, 1, 9, 3], [0, 0, 1, 0, 3]);
    let second = |edge: [i32; 5]| refusal(&[high, edge].concat());
    let third = |edge: [i32; 5]| refusal(&[low, low, edge].concat());
    assert_eq!(refusal(&[far, 0, far, 0, 0]), (5, 0));
    assert_eq!(second([0, -far, 1, 0, 3]), (5, 1));
    assert_eq!(second([3, 3, 3, 3, 3]), (6, 1));
    let falls = [3, 3, 4, 3, 3];
    assert_eq!(refusal(&[high, falls, [5, 5, 5, 5, 3]].concat()), (7, 1));
    let equal = [5, 9, 5, 9, 3];
    assert_eq!(refusal(&[high, equal, [far, 0, 0, 0, 3]].concat()), (6, 1));
    assert_eq!(third([3, 3, 3, 3, 3]), (6, 2));
    assert_eq!(third([0, 0, 0, 0, -1]), (16, 2));
    assert_eq!(third([0, 5, 1, 5, 3]), (8, 1));
    assert_eq!(refusal(&[low, [0, 0, 1, 0, 4]].concat()), (9, 0));
    assert_eq!(refusal(&[low, [2, 0, 1, 0, 3]].concat()), (9, 0));
    let extremes = [i32::MIN, i32::MIN, i32::MAX, i32::MAX, i32::MIN];
    assert_eq!(refusal(&extremes), (5, 0));
}

#[test]
fn lists_of_random_numbers() {
    let mut met: BTreeMap<u32, usize> = BTreeMap::new();
    for seed in 0..20_000 {
        let mut random = Random::new(seed);
        let extremes = [i32::MIN, i32::MAX, -1_000_001, -1_000_000, 1_000_000];
        let length = match random.below(8) {
            0 => random.below(20),
            _ => 5 * random.below(6),
        };
        let number = |random: &mut Random, at: usize| match at % 5 {
            4 => [0, 0, 0, 1, random.between(-1, 1)][random.below(5)],
            _ => random.between(-1, 1),
        };
        let mut edges: Vec<i32> = (0..length).map(|at| number(&mut random, at)).collect();
        if length > 0 && random.one_in(8) {
            edges[random.below(length)] = extremes[random.below(5)];
        }
        let rows = random.below(3);
        let mut call = Call::fitting(edges, rows);
        call.fill = random.between(-9, 9);
        if random.one_in(8) {
            call.sequences = random.below(7);
        }
        if random.one_in(8) {
            call.journal = random.below(9 * length + 1);
        }
        *met.entry(check(&call, seed)).or_insert(0) += 1;
    }
    let all: Vec<u32> = met.into_keys().collect();
    assert_eq!(all, [0, 1, 3, 4, 5, 6, 7, 8, 9, 10, 16]);
}

/// Every list of edges with these films on the points of a square.
fn each_list(films: &[i32], mut visit: impl FnMut(Vec<i32>)) {
    for mut choice in 0..16_usize.pow(films.len() as u32) {
        let mut list = Vec::new();
        for film in films {
            list.extend([0, 1, 2, 3].map(|bit| ((choice >> bit) & 1) as i32));
            list.push(*film);
            choice >>= 4;
        }
        visit(list);
    }
}

/// The films of up to four edges. One film or the other makes no difference, and
/// an outline has two edges or more.
const FILMS: [&[i32]; 10] = [
    &[],
    &[0],
    &[0, 0],
    &[0, 1],
    &[0, 0, 0],
    &[0, 1, 0],
    &[0, 0, 0, 0],
    &[0, 0, 1, 1],
    &[0, 1, 0, 1],
    &[0, 1, 1, 0],
];

/// One row is lent; where that is too few, half as many rows as edges are enough.
#[test]
fn every_list_of_up_to_four_edges_on_four_points() {
    let mut met: BTreeMap<u32, usize> = BTreeMap::new();
    for films in FILMS {
        each_list(films, |list| {
            let mut call = Call::fitting(list, 1);
            let got = check(&call, 0);
            *met.entry(got).or_insert(0) += 1;
            if got == 10 {
                call.rows = 8 * films.len() / 2;
                assert_eq!(check(&call, 0), 0);
            }
            if got == 0 || got == 10 {
                let outcome = call.outcome(assemble);
                let declared = declared::numbering(&read_edges(&call.edges));
                assert_eq!(outcome.polygons, declared.polygons);
                assert_eq!(outcome.sequences, declared.sequences);
            }
        });
    }
    let least = [
        (0, 60),
        (6, 30_000),
        (7, 20_000),
        (8, 5_000),
        (9, 300),
        (10, 30),
        (17, 10),
    ];
    let enough = |(refusal, times): &(u32, usize)| met[refusal] > *times;
    assert!(least.iter().all(enough), "{:?}", met);
}
