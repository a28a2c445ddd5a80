//! What the searches of a sweep up fetch, by M-105: how many numbers of the lent
//! rows they read. A copy of the engine's searches, with the same order of looking
//! over the same rows, that counts; beside it two other ways to look for a tip. All
//! three must find what the plain sweep finds.

use std::collections::{BTreeSet, HashMap};

use crate::geometry::{Edge, Site};
use crate::steps::{sweep_up_watched, Branch, Row, Swept, Tip, Watch};

/// A number of a row that a look for a tip may read.
#[derive(Clone, Copy, PartialEq, Eq, Debug)]
pub enum Number {
    /// The level, which also says whether the row is in use.
    Level,
    /// Whether the branch is finished: the sign of its length.
    Mark,
    /// The y of the branch's tip.
    Y,
    /// The x of the branch's tip.
    X,
    /// The film of the row.
    Film,
}

/// The order in which a look at a row reads them; it ends at the first that does
/// not agree.
pub const ORDER: [Number; 5] = [
    Number::Level,
    Number::Mark,
    Number::Y,
    Number::X,
    Number::Film,
];

/// How many searches there were, and how many numbers of the rows they read.
#[derive(Clone, Copy, PartialEq, Eq, Default, Debug)]
pub struct Fetches {
    /// How often a tip was looked for, in steps 1 and 4.
    pub searches: usize,
    /// Read by them where every row is looked at until one has the tip, and of a
    /// row in use all that makes its tip. A free row is told by one number.
    pub whole_tips: usize,
    /// The same where a look at a row ends at the first number that differs.
    pub level_first: usize,
    /// By the index: the row that a slot tells, all rows where it is crowded.
    pub by_index: usize,
    /// Read so that the index stays good: of the row that a slot tells, where
    /// another one gets a tip there.
    pub for_index: usize,
    /// How often the lowest free row was looked for.
    pub free_searches: usize,
    /// Read by that where every row is looked at until one is free.
    pub free_every_row: usize,
    /// By the notes of the rows in use: the first that is not noted, and on.
    pub free_by_notes: usize,
}

/// Sweeps a sound list with as many rows as it takes, and counts.
pub fn counted(edges: &[Edge]) -> (Swept, Fetches) {
    let mut counter = Counter::default();
    let swept = sweep_up_watched(edges, usize::MAX, &mut counter);
    (swept.expect("rows enough"), counter.fetches)
}

/// The place of a tip, its side, and whether its level is above 0: what a slot
/// of the index stands for.
type Slot = (Site, Branch, bool);

/// What a slot tells.
#[derive(Clone, Copy)]
enum Owner {
    Row(usize),
    Crowded,
}

/// What a search found, and how many numbers it read.
struct Looked {
    found: Option<usize>,
    read: usize,
}

#[derive(Default)]
struct Counter {
    fetches: Fetches,
    slots: HashMap<Slot, Owner>,
    noted: BTreeSet<usize>,
}

impl Watch for Counter {
    fn sought(&mut self, rows: &[Option<Row>], tip: Tip, found: Option<usize>) {
        let whole = look_at_all(rows, |row| (has(row, tip), whole_tip(row)));
        let short = look_at_all(rows, |row| look(row, tip));
        let by_slot = self.by_slot(rows, tip);
        for way in [&whole, &short, &by_slot] {
            assert_eq!(way.found, found, "{:?} is looked for", tip);
        }
        self.fetches.searches += 1;
        self.fetches.whole_tips += whole.read;
        self.fetches.level_first += short.read;
        self.fetches.by_index += by_slot.read;
    }

    fn free_sought(&mut self, rows: &[Option<Row>], free: usize) {
        let is_free = |row: Option<&Row>| (row.is_none(), 1);
        let from_first = look_at_all(rows, is_free);
        let unnoted = (0..rows.len()).find(|row| !self.noted.contains(row));
        let unnoted = unnoted.unwrap_or(rows.len());
        let mut by_notes = look_at_all(&rows[unnoted..], is_free);
        by_notes.found = by_notes.found.map(|further| unnoted + further);
        for way in [&from_first, &by_notes] {
            assert_eq!(way.found.unwrap_or(rows.len()), free, "the lowest free row");
        }
        self.fetches.free_searches += 1;
        self.fetches.free_every_row += from_first.read;
        self.fetches.free_by_notes += by_notes.read;
    }

    fn opened(&mut self, row: usize) {
        self.noted.insert(row);
    }

    fn freed(&mut self, row: usize) {
        self.noted.remove(&row);
    }

    fn waits(&mut self, rows: &[Option<Row>], row: usize, branch: Branch) {
        let waiting = rows[row].as_ref().expect("a row in use");
        let slot = slot(waiting.tip(branch));
        let crowded = match self.slots.get(&slot) {
            None => false,
            Some(Owner::Crowded) => true,
            Some(Owner::Row(told)) => *told != row && self.is_live(rows, slot, *told),
        };
        let owner = if crowded {
            Owner::Crowded
        } else {
            Owner::Row(row)
        };
        self.slots.insert(slot, owner);
    }
}

impl Counter {
    /// The search by the slot of the tip.
    fn by_slot(&self, rows: &[Option<Row>], tip: Tip) -> Looked {
        match self.slots.get(&slot(tip)) {
            None => Looked {
                found: None,
                read: 0,
            },
            Some(Owner::Crowded) => look_at_all(rows, |row| look(row, tip)),
            Some(Owner::Row(told)) => {
                let (has_it, read) = look(rows[*told].as_ref(), tip);
                let found = Some(*told).filter(|_| has_it);
                Looked { found, read }
            }
        }
    }

    /// Whether a row is in use with an unfinished branch whose tip is in the slot.
    /// Which slot that is the index tells, not the row.
    fn is_live(&mut self, rows: &[Option<Row>], slot: Slot, told: usize) -> bool {
        self.fetches.for_index += 1;
        let row = match &rows[told] {
            Some(row) => row,
            None => return false,
        };
        self.fetches.for_index += 1;
        let (_, branch, _) = slot;
        !row.reach(branch).finished && self::slot(row.tip(branch)) == slot
    }
}

fn slot(tip: Tip) -> Slot {
    (tip.site, tip.branch, tip.level > 0)
}

/// Looks at one row after the other until one passes; a look tells whether it
/// does, and how many numbers it read.
fn look_at_all(rows: &[Option<Row>], look: impl Fn(Option<&Row>) -> (bool, usize)) -> Looked {
    let mut read = 0;
    for (place, row) in rows.iter().enumerate() {
        let (passes, numbers) = look(row.as_ref());
        read += numbers;
        if passes {
            return Looked {
                found: Some(place),
                read,
            };
        }
    }
    Looked { found: None, read }
}

fn has(row: Option<&Row>, tip: Tip) -> bool {
    row.map_or(false, |row| row.has(tip))
}

/// How many numbers make the tip of a row in use; one says that a row is free.
fn whole_tip(row: Option<&Row>) -> usize {
    row.map_or(1, |_| ORDER.len())
}

/// A look at a row, number by number: whether it has the tip, and how many were
/// read. The first number of a free row agrees with no level.
fn look(row: Option<&Row>, tip: Tip) -> (bool, usize) {
    let row = match row {
        Some(row) => row,
        None => return (false, 1),
    };
    match ORDER.iter().position(|number| !agrees(*number, row, tip)) {
        Some(differs) => (false, differs + 1),
        None => (true, ORDER.len()),
    }
}

fn agrees(number: Number, row: &Row, tip: Tip) -> bool {
    let here = row.tip(tip.branch);
    match number {
        Number::Level => here.level == tip.level,
        Number::Mark => !row.reach(tip.branch).finished,
        Number::Y => here.site.point.y == tip.site.point.y,
        Number::X => here.site.point.x == tip.site.point.x,
        Number::Film => here.site.film == tip.site.film,
    }
}
