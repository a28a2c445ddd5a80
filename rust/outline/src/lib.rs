//! The outline engine for Rust programs. It takes the directed edges of a
//! drawing in sweep order and gives each edge the number of the closed outline
//! that it belongs to and its place round that outline, and lists the edges in
//! the order in which they are cut, or says what is wrong with the list. The
//! engine itself is proved and comes as a static library; this crate is a thin
//! safe face over it.
//!
//! An [`Edge`] has a tail, a head and a film, which lies to its left. Edges meet
//! only within a film, so neighbours of two films may share whole sides. All edges
//! in, all outlines out:
//!
//! ```
//! use outline::{sort_into_sweep_order, Edge, Outlines, Point};
//!
//! let [low, right, high] = [(0, 0), (4, 2), (1, 5)].map(Point::from);
//! let sides = [(right, high), (high, low), (low, right)];
//! let mut triangle = sides.map(|(tail, head)| Edge::new(tail, head, 7));
//! sort_into_sweep_order(&mut triangle);
//! for outline in &Outlines::of_edges(&triangle)? {
//!     assert_eq!((outline.number(), outline.film()), (1, 7));
//!     assert_eq!(outline.points().collect::<Vec<Point>>(), [high, low, right]);
//! }
//! # Ok::<(), outline::Refusal>(())
//! ```
//!
//! In a plain list an edge is five numbers: tail x, tail y, head x, head y, film.
//! [`read_edges`] and [`write_edges`] go from one to the other, and every number
//! that the engine gives can be had as it gives it:
//!
//! ```
//! use outline::Outlines;
//!
//! let triangle = [0, 0, 4, 2, 7, 4, 2, 1, 5, 7, 1, 5, 0, 0, 7];
//! let outlines = Outlines::of(&triangle)?;
//! assert_eq!(outlines.count(), 1);
//! assert_eq!(outlines.polygons(), [1, 1, 1]);
//! assert_eq!(outlines.sequences(), [1, 2, 0]);
//! assert_eq!(outlines.places(1), [2, 0, 1]);
//! # Ok::<(), outline::Refusal>(())
//! ```
//!
//! [`Outlines::instructions`] says what a cutter is to do. [`from_pixels`] makes
//! edges of the cells of a bitmap and [`pixels`] of a bitmap that is text, [`text`]
//! reads sheets as the program `outline` does, and [`picture`] draws them.
//!
//! A list that is not as it should be is refused: a [`Refusal`] is an error that
//! says which edge is meant, what is wrong with it and what to do. No list makes
//! this crate panic.
//!
//! Film lies to the left of every edge. Where four edges of a film meet at a
//! point, an arriving edge is followed by the leaving edge first met turning
//! clockwise from the way it came: so two pixels that touch corner to corner are
//! two outlines.
//!
//! # Without an allocator
//!
//! With `default-features = false` the crate needs neither an allocator nor the
//! standard library. What is left works in slices that the caller lends:
//! [`assemble()`] numbers a list and puts its edges in turn, [`rows_enough`] says
//! how many rows to lend it, [`turns()`] puts the edges of a numbering that was
//! read from elsewhere in turn, [`instruction()`] and [`instructions()`] say what a
//! cutter is to do, and [`sort_into_sweep_order`] sorts edges in place. What needs
//! the feature `std` says so.
//!
//! ```
//! use outline::{assemble, instructions, Instruction, Machine};
//!
//! let triangle = [0, 0, 4, 2, 7, 4, 2, 1, 5, 7, 1, 5, 0, 0, 7];
//! let (mut polygons, mut sequences, mut turns) = ([0; 3], [0; 3], [0; 3]);
//! let (mut journal, mut rows) = ([0; 24], [0; 8]);
//! assemble(
//!     &triangle,
//!     &mut polygons,
//!     &mut sequences,
//!     &mut turns,
//!     &mut journal,
//!     &mut rows,
//! )?;
//! let mut cuts = 0;
//! for told in instructions(Machine::Flatbed, &triangle, &polygons, &sequences, &turns) {
//!     match told? {
//!         Instruction::Cut(_) => cuts += 1,
//!         Instruction::Travel(_) | Instruction::Lift => {}
//!     }
//! }
//! assert_eq!(cuts, 3);
//! # Ok::<(), outline::Refusal>(())
//! ```

#![deny(unsafe_code, unsafe_op_in_unsafe_fn, missing_docs)]
#![cfg_attr(not(feature = "std"), no_std)]
// Without `std` the documentation still names what is then left out.
#![cfg_attr(not(feature = "std"), allow(rustdoc::broken_intra_doc_links))]

// The examples of the README are run with those of the crate.
#[cfg(doctest)]
#[doc = include_str!("../../../README.md")]
struct Readme;

mod assemble;
mod edge;
mod engine;
#[cfg(feature = "std")]
mod from_pixels;
mod instructions;
#[cfg(feature = "std")]
mod outline;
#[cfg(feature = "std")]
mod outlines;
#[cfg(feature = "std")]
pub mod picture;
#[cfg(feature = "std")]
pub mod pixels;
#[cfg(feature = "std")]
mod plain;
mod point;
mod refusal;
mod rows;
mod sayings;
#[cfg(feature = "std")]
pub mod text;
mod turns;

pub use assemble::{assemble, Accepted};
pub use edge::{sort_into_sweep_order, Edge};
#[cfg(feature = "std")]
pub use from_pixels::from_pixels;
pub use instructions::{instruction, instructions, Instruction, Instructions, Machine, Place};
#[cfg(feature = "std")]
pub use outline::{Iter, Outline};
#[cfg(feature = "std")]
pub use outlines::Outlines;
#[cfg(feature = "std")]
pub use plain::{read_edges, write_edges};
pub use point::Point;
pub use refusal::Refusal;
pub use rows::rows_enough;
pub use turns::turns;

/// How many numbers an edge takes in a list: tail x, tail y, head x, head y, film.
///
/// ```
/// let triangle = [0, 0, 4, 2, 7, 4, 2, 1, 5, 7, 1, 5, 0, 0, 7];
/// assert_eq!(triangle.chunks(outline::NUMBERS_PER_EDGE).count(), 3);
/// ```
pub const NUMBERS_PER_EDGE: usize = 5;

/// The most edges that a list may hold.
///
/// ```
/// use outline::{Outlines, Refusal, MOST_EDGES, NUMBERS_PER_EDGE};
///
/// let too_many = vec![0; NUMBERS_PER_EDGE * (MOST_EDGES + 1)];
/// assert_eq!(Outlines::of(&too_many), Err(Refusal::TooMany));
/// ```
pub const MOST_EDGES: usize = 4096;

/// The greatest coordinate, on either side of zero.
///
/// ```
/// use outline::{Outlines, Refusal, LIMIT};
///
/// let past = Outlines::of(&[0, 0, LIMIT + 1, 0, 7]);
/// assert_eq!(past, Err(Refusal::PastRange { edge: 0 }));
/// ```
pub const LIMIT: i32 = 1_000_000;

/// The greatest film; the least is 0.
///
/// ```
/// use outline::{Outlines, Refusal, MOST_FILM};
///
/// let past = Outlines::of(&[0, 0, 4, 2, MOST_FILM + 1]);
/// assert_eq!(past, Err(Refusal::FilmPastRange { edge: 0 }));
/// ```
pub const MOST_FILM: i32 = 255;

/// How many units of a list make a millimetre.
///
/// ```
/// use outline::{Instruction, Machine, Outlines, Place, UNITS_PER_MILLIMETRE};
///
/// let far = 10 * UNITS_PER_MILLIMETRE;
/// let there_and_back = Outlines::of(&[0, 0, far, 0, 7, far, 0, 0, 0, 7])?;
/// let start = Instruction::Travel(Place { first: 10.0, second: 0.0 });
/// assert_eq!(there_and_back.instructions(Machine::Flatbed).next(), Some(start));
/// # Ok::<(), outline::Refusal>(())
/// ```
pub const UNITS_PER_MILLIMETRE: i32 = 64;

/// How many numbers must be lent to the journal for each edge.
///
/// ```
/// use outline::{assemble, Refusal, JOURNAL_NUMBERS_PER_EDGE};
///
/// let mut journal = [0; 2 * JOURNAL_NUMBERS_PER_EDGE];
/// let mut lent = |journal: &mut [i32]| {
///     let there_and_back = [0, 0, 4, 2, 7, 4, 2, 0, 0, 7];
///     let (mut polygons, mut sequences, mut turns) = ([0; 2], [0; 2], [0; 2]);
///     assemble(&there_and_back, &mut polygons, &mut sequences, &mut turns, journal, &mut [0; 8])
/// };
/// assert!(lent(&mut journal).is_ok());
/// assert_eq!(lent(&mut journal[1..]), Err(Refusal::JournalShort));
/// ```
pub const JOURNAL_NUMBERS_PER_EDGE: usize = 8;

/// How many numbers a record takes in the journal.
///
/// ```
/// use outline::{assemble, NUMBERS_PER_RECORD};
///
/// let there_and_back = [0, 0, 4, 2, 7, 4, 2, 0, 0, 7];
/// let (mut polygons, mut sequences, mut turns) = ([0; 2], [0; 2], [0; 2]);
/// let (mut journal, mut rows) = ([7; 16], [0; 8]);
/// let accepted = assemble(
///     &there_and_back,
///     &mut polygons,
///     &mut sequences,
///     &mut turns,
///     &mut journal,
///     &mut rows,
/// )?;
/// let written = NUMBERS_PER_RECORD * accepted.records as usize;
/// assert!(journal[written..].iter().all(|number| *number == 0));
/// # Ok::<(), outline::Refusal>(())
/// ```
pub const NUMBERS_PER_RECORD: usize = 4;

/// How many numbers a row takes in the rows slice.
///
/// ```
/// use outline::{rows_enough, NUMBERS_PER_ROW};
///
/// let there_and_back = [0, 0, 4, 2, 7, 4, 2, 0, 0, 7];
/// let rows = vec![0; NUMBERS_PER_ROW * rows_enough(&there_and_back)];
/// assert_eq!(rows.len(), 8);
/// ```
pub const NUMBERS_PER_ROW: usize = 8;
