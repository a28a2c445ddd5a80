//! The turn list call on lent slices.

use crate::engine;
use crate::refusal::Refusal;

/// Fills the turn list of a numbering that was read from elsewhere: the edges'
/// places in the list, outline by outline, each outline in the order of its
/// sequence numbers. All three lists have one number an edge. The answer is how
/// many outlines there are. Who has the edges themselves need not call this:
/// [`assemble()`](crate::assemble()) fills the turn list too.
///
/// # Errors
///
/// The refusals 11 to 14. They leave the turn list as it was.
///
/// ```
/// use outline::{turns, Refusal};
///
/// let (polygons, sequences) = ([2, 1, 2, 1], [1, 0, 0, 1]);
/// let mut places = [0; 4];
/// assert_eq!(turns(&polygons, &sequences, &mut places), Ok(2));
/// assert_eq!(places, [1, 3, 2, 0]);
/// let repeated = turns(&[1, 1], &[0, 0], &mut [0; 2]);
/// assert_eq!(repeated, Err(Refusal::PairRepeated { edge: 1 }));
/// ```
pub fn turns(polygons: &[u32], sequences: &[u32], turns: &mut [u32]) -> Result<u32, Refusal> {
    let turned = engine::turns(polygons, sequences, turns);
    match Refusal::of(turned.refusal, turned.place) {
        Some(refusal) => Err(refusal),
        None => Ok(turned.polygons),
    }
}
