//! A hundred thousand random calls of the engine through its static library,
//! each held against the witness: good sheets with every number of rows that
//! matters, every lent size wrong by one, damaged calls, lists of mere numbers.
//! A failure names its seed.

use std::collections::BTreeMap;
use std::ops::Range;

use tests::held::{assemble, refusal};
use witness::call::Call;
use witness::checks::IN_ORDER;
use witness::corners::Meetings;
use witness::generate::{any, damaged, Random, Seed};
use witness::geometry::read_edges;
use witness::steps::{sweep_up, NUMBERS_PER_ROW};

/// What has been met with.
#[derive(Default)]
struct Met {
    /// How often each refusal, 0 standing for acceptance.
    answers: BTreeMap<u32, usize>,
    /// How many sound sheets with a corner whose lower edges are apart.
    apart: usize,
    /// How many with a corner whose lower edges join.
    joined: usize,
}

impl Met {
    /// Counts a sound sheet by its corners.
    fn count_corners(&mut self, sheet: &[i32]) {
        let meetings = Meetings::of(&read_edges(sheet));
        let (corners, apart) = (meetings.corners().count(), meetings.apart().len());
        self.apart += (apart > 0) as usize;
        self.joined += (corners > apart) as usize;
    }
}

/// Makes a call of both engines and counts its answer.
fn hold(random: &mut Random, call: &Call, met: &mut Met) -> u32 {
    let refusal = refusal(assemble(random, call));
    *met.answers.entry(refusal).or_insert(0) += 1;
    refusal
}

/// The calls that a sound sheet is good for.
fn hold_sheet(random: &mut Random, met: &mut Met) {
    let sheet = any(random);
    met.count_corners(&sheet);
    let peak = sweep_up(&read_edges(&sheet), usize::MAX).unwrap().peak;
    let enough = outline::rows_enough(&sheet);
    assert!(peak <= enough, "{} rows do not suffice", enough);
    let call = Call::fitting(sheet, peak);
    hold_rows(random, &call, peak, met);
    hold_lengths(random, &call, met);
    let mut call = call;
    call.rows = NUMBERS_PER_ROW * enough;
    call.journal += random.below(40);
    assert_eq!(hold(random, &call, met), 0);
}

/// Rows from none to one more than are needed; all of them, if they are few. A
/// part of a row is lent beside them and does not count.
fn hold_rows(random: &mut Random, call: &Call, peak: usize, met: &mut Met) {
    let mut numbers: Vec<usize> = (0..=peak + 1).collect();
    while numbers.len() > 8 {
        let last_but_three = numbers.len() - 3;
        numbers.remove(1 + random.below(last_but_three - 1));
    }
    for rows in numbers {
        let mut call = call.clone();
        call.rows = NUMBERS_PER_ROW * rows + random.below(NUMBERS_PER_ROW);
        let expected = if rows < peak { 10 } else { 0 };
        assert_eq!(hold(random, &call, met), expected);
    }
}

/// Every size wrong by one, up and down.
fn hold_lengths(random: &mut Random, call: &Call, met: &mut Met) {
    let sizes: [fn(&mut Call) -> &mut usize; 5] = [
        |call| &mut call.polygons,
        |call| &mut call.sequences,
        |call| &mut call.turns,
        |call| &mut call.journal,
        |call| &mut call.rows,
    ];
    for size in sizes {
        let mut longer = call.clone();
        *size(&mut longer) += 1;
        hold(random, &longer, met);
        let mut shorter = call.clone();
        if *size(&mut shorter) > 0 {
            *size(&mut shorter) -= 1;
            hold(random, &shorter, met);
        }
    }
    let mut longer = call.clone();
    longer.edges.push(random.between(-9, 9));
    assert_eq!(hold(random, &longer, met), 1);
    let mut shorter = call.clone();
    if shorter.edges.pop().is_some() {
        assert_eq!(hold(random, &shorter, met), 1);
    }
}

/// A sheet damaged so that one refusal must come; lists that are too long are
/// slow to make, and few do.
fn hold_damaged(random: &mut Random, met: &mut Met) {
    let wanted = match IN_ORDER[random.below(IN_ORDER.len())] {
        2 if !random.one_in(20) => 9,
        wanted => wanted,
    };
    let call = damaged(random, wanted);
    assert_eq!(hold(random, &call, met), wanted);
}

/// A list of numbers from a small range, with now and then an extreme one.
fn hold_numbers(random: &mut Random, met: &mut Met) {
    let extremes = [i32::MIN, i32::MAX, -1_000_001, -1_000_000, 1_000_000];
    let length = match random.below(8) {
        0 => random.below(30),
        _ => 5 * random.below(7),
    };
    let number = |random: &mut Random, at: usize| match at % 5 {
        4 => [0, 0, 0, 1, random.between(-1, 1)][random.below(5)],
        _ => random.between(-1, 1),
    };
    let mut edges: Vec<i32> = (0..length).map(|at| number(random, at)).collect();
    if length > 0 && random.one_in(6) {
        edges[random.below(length)] = extremes[random.below(5)];
    }
    let mut call = Call::fitting(edges, random.below(3));
    if random.one_in(8) {
        call.sequences = random.below(7);
    }
    if random.one_in(8) {
        call.turns = random.below(7);
    }
    if random.one_in(8) {
        call.journal = random.below(9 * length + 1);
    }
    hold(random, &call, met);
}

/// All the calls of these seeds.
fn hold_seeds(seeds: Range<u64>) -> Met {
    let mut met = Met::default();
    for seed in seeds {
        let seed = Seed(seed);
        let random = &mut seed.random();
        hold_sheet(random, &mut met);
        for _ in 0..3 {
            hold_damaged(random, &mut met);
            hold_numbers(random, &mut met);
        }
    }
    met
}

/// Enough calls in all, and enough of each answer.
fn check_met(met: &Met) {
    let calls: usize = met.answers.values().sum();
    println!("{} calls: {:?}", calls, met.answers);
    assert!(calls >= 50_000, "{} calls", calls);
    for refusal in [0].into_iter().chain(IN_ORDER) {
        let least = if refusal == 2 { 20 } else { 500 };
        let times = met.answers.get(&refusal).copied().unwrap_or(0);
        assert!(times >= least, "{} times {}", times, refusal);
    }
    assert!(met.apart >= 400, "{} sheets", met.apart);
    assert!(met.joined >= 400, "{} sheets", met.joined);
}

#[test]
fn fifty_thousand_random_calls() {
    check_met(&hold_seeds(0..2_400));
}

#[test]
fn fifty_thousand_more() {
    check_met(&hold_seeds(1_000_000..1_002_400));
}
