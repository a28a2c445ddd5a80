//! "The sweep up" of document 01, rows given back in the order of M-103: edges
//! are hung on the rising and falling branches of chains, one row a chain; a
//! chain finished on both sides gives its row back and is passed up as an edge
//! of the next level. An edge hangs only on chains of its own film, and no branch
//! is finished at a corner whose lower edges are apart by M-104. Each of the
//! paper's four steps has its functions, said once for both directions with
//! `Branch` choosing. Only for sound lists in sweep order.

use std::collections::BTreeSet;

use crate::corners::Meetings;
use crate::geometry::{Edge, Point, Site};

use super::row::{Branch, Lengths, Row, Tip};
use super::watch::{Nobody, Watch};
use super::{Record, NO_ROW};

/// What the sweep up leaves.
#[derive(Clone, PartialEq, Eq, Debug)]
pub struct Swept {
    /// The journal, in the order written.
    pub records: Vec<Record>,
    /// The most rows that were in use at any moment.
    pub peak: usize,
}

/// Sweeps a sound list with this many rows, all free at the start. `Err` is
/// refusal 10's place: the edge of the list for which no row was free.
pub fn sweep_up(edges: &[Edge], rows: usize) -> Result<Swept, usize> {
    sweep_up_watched(edges, rows, &mut Nobody)
}

/// The same while somebody looks on.
pub(crate) fn sweep_up_watched<W: Watch>(
    edges: &[Edge],
    rows: usize,
    watch: &mut W,
) -> Result<Swept, usize> {
    let mut sweep = Sweep {
        lent: rows,
        apart: Meetings::of(edges).apart(),
        rows: Vec::new(),
        records: Vec::new(),
        peak: 0,
        watch,
    };
    for (place, edge) in edges.iter().enumerate() {
        let name = place as i32;
        let lengths = Lengths {
            falling: 0,
            rising: 1,
        };
        sweep
            .treat(*edge, 0, name, lengths)
            .map_err(|NoFreeRow| place)?;
    }
    Ok(Swept {
        records: sweep.records,
        peak: sweep.peak,
    })
}

/// Step 1 found no free row.
struct NoFreeRow;

/// The state of the sweep. A row is `None` while it is free; rows past the end
/// of `rows`, up to the number lent, were never opened.
struct Sweep<'w, W: Watch> {
    lent: usize,
    apart: BTreeSet<Site>,
    rows: Vec<Option<Row>>,
    records: Vec<Record>,
    peak: usize,
    watch: &'w mut W,
}

impl<W: Watch> Sweep<'_, W> {
    /// Treats one edge of some level, and all that it sets going above.
    fn treat(
        &mut self,
        edge: Edge,
        level: i32,
        name: i32,
        lengths: Lengths,
    ) -> Result<(), NoFreeRow> {
        if edge.tail == edge.head {
            self.write_record(level, name, NO_ROW, lengths.falling);
            return Ok(());
        }
        let branch = Branch::of(edge);
        let row = self.find_or_open(level, branch, edge.site(edge.bottom()))?;
        let offset = self.offset(row, branch, lengths);
        self.write_record(level, name, row as i32, offset);
        self.grow(row, branch, edge.top(), lengths);
        self.finish(row, level, branch, edge.site(edge.top()))
    }

    /// Step 1: the row on whose branch the edge hangs, opened if need be.
    fn find_or_open(
        &mut self,
        level: i32,
        branch: Branch,
        bottom: Site,
    ) -> Result<usize, NoFreeRow> {
        if let Some(row) = self.find(level, branch, bottom) {
            return Ok(row);
        }
        let row = self.open(level, bottom)?;
        self.watch.waits(&self.rows, row, branch.other());
        Ok(row)
    }

    /// The row of this level and film whose unfinished branch has its tip here.
    fn find(&mut self, level: i32, branch: Branch, site: Site) -> Option<usize> {
        let tip = Tip {
            level,
            branch,
            site,
        };
        let has_it = |row: &Option<Row>| row.as_ref().map_or(false, |row| row.has(tip));
        let found = self.rows.iter().position(has_it);
        self.watch.sought(&self.rows, tip, found);
        found
    }

    /// Opens the lowest free row.
    fn open(&mut self, level: i32, lowest: Site) -> Result<usize, NoFreeRow> {
        let free = self.rows.iter().position(|row| row.is_none());
        let row = free.unwrap_or(self.rows.len());
        self.watch.free_sought(&self.rows, row);
        if row >= self.lent {
            return Err(NoFreeRow);
        }
        if row == self.rows.len() {
            self.rows.push(None);
        }
        self.rows[row] = Some(Row::opened(level, lowest));
        self.watch.opened(row);
        let in_use = self.rows.iter().flatten().count();
        self.peak = self.peak.max(in_use);
        Ok(row)
    }

    /// Step 2's offset: where the edge's reference point lies as seen from the
    /// lowest point of the chain, counted in edges of the list.
    fn offset(&self, row: usize, branch: Branch, lengths: Lengths) -> i32 {
        let before = self.in_use(row).reach(branch).length;
        match branch {
            Branch::Rising => before + lengths.falling,
            Branch::Falling => -(before + lengths.rising),
        }
    }

    /// Step 2's writing.
    fn write_record(&mut self, level: i32, name: i32, row: i32, offset: i32) {
        self.records.push(Record {
            level,
            name,
            row,
            offset,
        });
    }

    /// Step 3: the branch now reaches to the edge's top.
    fn grow(&mut self, row: usize, branch: Branch, top: Point, lengths: Lengths) {
        let reach = self.in_use_mut(row).reach_mut(branch);
        reach.tip = top;
        reach.length += lengths.falling + lengths.rising;
    }

    /// Step 4: where the other branch of some chain waits at the top, the two
    /// branches are finished, and so perhaps are their chains. What waited goes
    /// up first, and all that this sets going is over before the row of the
    /// other is given back.
    fn finish(
        &mut self,
        row: usize,
        level: i32,
        branch: Branch,
        top: Site,
    ) -> Result<(), NoFreeRow> {
        let met = match self.waiting(level, branch.other(), top) {
            Some(met) => met,
            None => {
                self.watch.waits(&self.rows, row, branch);
                return Ok(());
            }
        };
        self.in_use_mut(met).reach_mut(branch.other()).finished = true;
        self.in_use_mut(row).reach_mut(branch).finished = true;
        self.pass_up_if_finished(met)?;
        if met == row {
            return Ok(());
        }
        self.pass_up_if_finished(row)
    }

    /// The row that step 4 finds. It finds none for an edge of the list whose top
    /// is a corner that is apart.
    fn waiting(&mut self, level: i32, branch: Branch, top: Site) -> Option<usize> {
        if level == 0 && self.apart.contains(&top) {
            return None;
        }
        self.find(level, branch, top)
    }

    /// Frees the row of a finished chain and passes the chain up as an edge of
    /// the next level, which may open the very same row.
    fn pass_up_if_finished(&mut self, row: usize) -> Result<(), NoFreeRow> {
        let chain = *self.in_use(row);
        if !chain.is_finished() {
            return Ok(());
        }
        self.rows[row] = None;
        self.watch.freed(row);
        let edge = Edge::new(chain.falling.tip, chain.rising.tip, chain.film);
        let lengths = Lengths {
            falling: chain.falling.length,
            rising: chain.rising.length,
        };
        self.treat(edge, chain.level + 1, row as i32, lengths)
    }

    fn in_use(&self, row: usize) -> &Row {
        self.rows[row].as_ref().expect("a row in use")
    }

    fn in_use_mut(&mut self, row: usize) -> &mut Row {
        self.rows[row].as_mut().expect("a row in use")
    }
}
