//! Somebody who looks on while a sweep goes up, and is told of every search among
//! the rows and of what changes there. The sweep asks nothing of him.

use super::row::{Branch, Row, Tip};

/// The rows that were ever opened, a free one as `None`.
pub type Rows = [Option<Row>];

/// What is told, each when it has happened.
pub trait Watch {
    /// Steps 1 and 4: the first row with this tip was looked for.
    fn sought(&mut self, _rows: &Rows, _tip: Tip, _found: Option<usize>) {}

    /// Step 1: the lowest free row was looked for. It is the next one that was
    /// never opened where all others are in use.
    fn free_sought(&mut self, _rows: &Rows, _free: usize) {}

    /// A row was opened.
    fn opened(&mut self, _row: usize) {}

    /// A row was freed.
    fn freed(&mut self, _row: usize) {}

    /// The tip of a branch is at a new place, and stays there for now: of a row
    /// just opened on the side that its first edge does not hang on, or where step
    /// 4 met nothing.
    fn waits(&mut self, _rows: &Rows, _row: usize, _branch: Branch) {}
}

/// Nobody looks on.
pub struct Nobody;

impl Watch for Nobody {}
