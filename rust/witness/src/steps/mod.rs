//! The steps of document 01 on plain data: the sweep up writes the journal,
//! the sweep down reads it backwards. Each has its file; what passes between
//! them, the record, stands here. Who looks on while a sweep goes up is told of
//! its searches.

mod down;
mod row;
mod up;
mod watch;

pub use down::sweep_down;
pub(crate) use row::{Branch, Row, Tip};
pub(crate) use up::sweep_up_watched;
pub use up::{sweep_up, Swept};
pub(crate) use watch::Watch;

/// How many numbers one row takes in the lent rows.
pub const NUMBERS_PER_ROW: usize = 8;

/// How many numbers one record takes in the journal.
pub const NUMBERS_PER_RECORD: usize = 4;

/// The row that a closing record has instead of a chain's.
pub const NO_ROW: i32 = -1;

/// One record of the journal.
#[derive(Clone, Copy, PartialEq, Eq, Hash, Debug)]
pub struct Record {
    /// 0 for an edge of the list, more for edges made of chains.
    pub level: i32,
    /// The edge's place in the list, or the row that it came from, which may be
    /// its chain's row too.
    pub name: i32,
    /// The row of its chain, or [`NO_ROW`] where an outline closes.
    pub row: i32,
    /// How far from its chain's lowest point, below 0 on a falling branch.
    pub offset: i32,
}

impl Record {
    /// The record as it stands in the journal.
    pub fn numbers(self) -> [i32; NUMBERS_PER_RECORD] {
        [self.level, self.name, self.row, self.offset]
    }
}
