//! What the tests of the engine share: lent slices with guards round them or at
//! the end of memory, a call made of the engine and of the witness at once,
//! processes started on either kind of machine, programs in C, the figures of
//! docs/ROWS.md, and the peaks that were before M-103.

#![warn(missing_docs)]

pub mod before;
pub mod c;
pub mod guarded;
pub mod held;
pub mod numbers;
pub mod page_end;
pub mod process;
pub mod rows;
