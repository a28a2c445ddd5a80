//! Numbers and turns in one call, on lent slices.

use crate::engine;
use crate::refusal::Refusal;

/// What [`assemble()`] answers of a list that is numbered and whose edges are put
/// in turn.
///
/// ```
/// use outline::{assemble, Accepted};
///
/// let nothing = assemble(&[], &mut [], &mut [], &mut [], &mut [], &mut []);
/// assert_eq!(nothing, Ok(Accepted { polygons: 0, peak: 0, records: 0 }));
/// ```
#[derive(Clone, Copy, PartialEq, Eq, Hash, Debug)]
pub struct Accepted {
    /// How many outlines there are.
    pub polygons: u32,
    /// The most rows that were in use at any moment. So many are needed and
    /// enough for this list.
    pub peak: u32,
    /// How many records stand in the journal.
    pub records: u32,
}

/// Numbers a list of edges and puts them in turn, in slices that the caller
/// lends. Nothing is allocated, and no length and no number makes the call
/// panic: what does not fit is refused.
///
/// - `edges`: five numbers an edge, in sweep order, with film to the left of each.
/// - `polygons`, `sequences`: one number an edge. When accepted they hold each
///   edge's outline, from 1, and its place round it, from 0.
/// - `turns`: one number an edge. When accepted it holds the edges' places in
///   the list, outline by outline and each outline in sequence order: what
///   [`turns()`] reads from the two lists. Each edge ends where the next of its
///   outline begins, and the last where the first does.
/// - `journal`: at least eight numbers an edge. When accepted it holds the
///   records of the sweep up, four numbers each, and then zeros.
/// - `rows`: eight numbers a row, as many rows as [`rows_enough`] says or fewer
///   at the risk of refusal 10. What they hold before does not matter. When
///   accepted they are all zero.
///
/// # Errors
///
/// The refusals 1 to 10, 16 and 17. A refusal leaves the three lists as they were;
/// refusal 10 leaves journal and rows all zero, every other leaves these as they
/// were too.
///
/// ```
/// use outline::{assemble, Accepted};
///
/// let triangle = [0, 0, 4, 2, 7, 4, 2, 1, 5, 7, 1, 5, 0, 0, 7];
/// let (mut polygons, mut sequences, mut turns) = ([0; 3], [0; 3], [0; 3]);
/// let (mut journal, mut rows) = ([0; 24], [0; 8]);
/// let accepted = assemble(
///     &triangle,
///     &mut polygons,
///     &mut sequences,
///     &mut turns,
///     &mut journal,
///     &mut rows,
/// )?;
/// assert_eq!(accepted, Accepted { polygons: 1, peak: 1, records: 4 });
/// assert_eq!((polygons, sequences), ([1, 1, 1], [1, 2, 0]));
/// assert_eq!(turns, [2, 0, 1]);
/// # Ok::<(), outline::Refusal>(())
/// ```
///
/// [`rows_enough`]: crate::rows_enough
/// [`turns()`]: crate::turns()
pub fn assemble(
    edges: &[i32],
    polygons: &mut [u32],
    sequences: &mut [u32],
    turns: &mut [u32],
    journal: &mut [i32],
    rows: &mut [i32],
) -> Result<Accepted, Refusal> {
    let sheet = engine::assemble(edges, polygons, sequences, turns, journal, rows);
    match Refusal::of(sheet.refusal, sheet.place) {
        Some(refusal) => Err(refusal),
        None => Ok(Accepted {
            polygons: sheet.polygons,
            peak: sheet.peak,
            records: sheet.records,
        }),
    }
}
