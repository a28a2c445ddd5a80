//! The journal replayed with no geometry: from its records alone it can be told
//! which rows are in use when. A row is free from when it is passed up, and the
//! very record that names it may open it; opened must be the lowest free row. Of
//! two chains that end at a peak the one that waited there goes up first, and the
//! other's row stays in use until all above that is over. The peak is what it
//! says, and only an edge of the list raises it.

use std::collections::BTreeMap;

use witness::generate::{any, saw, walks, Random, Seed, Sheet};
use witness::geometry::read_edges;
use witness::steps::{sweep_up, Record, NO_ROW};

/// The rows in use while records are read, and what is being passed up.
#[derive(Default)]
struct Replay {
    /// Each row in use with the level of its chain.
    in_use: BTreeMap<i32, i32>,
    /// The last record of each level that is not over: the row of its chain and
    /// the rows that it caused to be passed up.
    open: Vec<(i32, Vec<i32>)>,
    peak: usize,
    met: Met,
}

/// How often two different rows went up at one peak, and how often a record is
/// named by its own chain's row.
#[derive(Default)]
struct Met {
    pairs: usize,
    same_row: usize,
}

impl Replay {
    fn read(&mut self, record: &Record) {
        assert!(
            record.level as usize <= self.open.len(),
            "a level is left out"
        );
        self.open.truncate(record.level as usize);
        if record.level > 0 {
            let level_below = Some(record.level - 1);
            assert_eq!(self.in_use.remove(&record.name), level_below);
            self.pass_up(record);
        }
        if record.row != NO_ROW {
            self.hang(record);
        }
        self.open.push((record.row, Vec::new()));
    }

    fn pass_up(&mut self, record: &Record) {
        let (row, caused) = self.open.last_mut().expect("a record below");
        caused.push(record.name);
        if caused.len() > 1 {
            assert_eq!(caused[1..], [*row], "this row goes up last");
            assert_ne!(caused[0], *row, "one row goes up once");
            self.met.pairs += 1;
        }
        self.met.same_row += (record.name == record.row) as usize;
    }

    fn hang(&mut self, record: &Record) {
        if let Some(level) = self.in_use.get(&record.row) {
            assert_eq!(*level, record.level);
            return;
        }
        let lower_in_use = (0..record.row).all(|row| self.in_use.contains_key(&row));
        assert!(lower_in_use, "row {} is not the lowest", record.row);
        self.in_use.insert(record.row, record.level);
        if self.in_use.len() > self.peak {
            assert_eq!(record.level, 0, "an edge passed up raises the peak");
            self.peak = self.in_use.len();
        }
    }
}

/// Replays the journal of a sheet; gives what it met.
fn check(sheet: &Sheet) -> Met {
    let edges = read_edges(sheet);
    let swept = sweep_up(&edges, usize::MAX).unwrap();
    let mut replay = Replay::default();
    for record in &swept.records {
        replay.read(record);
        if record.level == 0 {
            let is_up = edges[record.name as usize].is_up();
            assert_eq!(record.offset >= 0, is_up, "the sign of an offset");
        }
    }
    assert!(replay.in_use.is_empty(), "rows left in use");
    assert_eq!(replay.peak, swept.peak);
    replay.met
}

#[test]
fn journals_replayed() {
    let mut all = Met::default();
    let mut add = |met: Met| {
        all.pairs += met.pairs;
        all.same_row += met.same_row;
    };
    for seed in 0..3_000 {
        let seed = Seed(seed);
        let mut random = seed.random();
        add(check(&any(&mut random)));
        add(check(&walks(&mut random, 5, 40, &[0])));
    }
    for order in 1..=11 {
        add(check(&saw(&mut Random::new(0), order)));
    }
    assert!(all.pairs > 3_000, "{}", all.pairs);
    assert!(all.same_row > 3_000, "{}", all.same_row);
}
