//! A witness for the outline engine: the rules of document 01, and of requests
//! M-100 for films, M-101 for numbers and turns in one call, M-102 for
//! instructions, M-103 for rows given back first and M-104 for corners that stay
//! apart, written a second time, for clearness only, so that the engine can be
//! held against it. `checks`, `corners`, `steps`, `assemble`, `turns`,
//! `instructions` and `text` answer as the engine must;
//! `declared` says what the numbers are without any sweep, `fetches` what the
//! searches among the rows read; `call`, `vectors`,
//! `worked` and `generate` are what tests of either engine need.
//!
//! ```
//! use witness::{assemble, Answer};
//!
//! let triangle = [0, 0, 4, 2, 0, 4, 2, 1, 5, 0, 1, 5, 0, 0, 0];
//! let (mut polygons, mut sequences, mut turns) = ([0; 3], [0; 3], [0; 3]);
//! let (mut journal, mut rows) = ([0; 24], [0; 8]);
//! let answer = assemble(
//!     &triangle,
//!     &mut polygons,
//!     &mut sequences,
//!     &mut turns,
//!     &mut journal,
//!     &mut rows,
//! );
//! let (count, peak, records) = (1, 1, 4);
//! assert_eq!(answer, Answer::Accepted { polygons: count, peak, records });
//! assert_eq!((polygons, sequences, turns), ([1, 1, 1], [1, 2, 0], [2, 0, 1]));
//! ```

#![forbid(unsafe_code)]
#![warn(missing_docs)]

pub mod assemble;
mod before;
pub mod call;
pub mod checks;
pub mod corners;
pub mod declared;
pub mod fetches;
pub mod generate;
pub mod geometry;
pub mod instructions;
pub mod json;
pub mod numbering;
pub mod steps;
pub mod text;
pub mod turns;
pub mod vectors;
pub mod worked;

pub use assemble::{assemble, Answer};
pub use checks::Refusal;
pub use instructions::{instruction, instructions, Instruction, Machine};
pub use text::outline;
pub use turns::{turns, TurnAnswer};
