//! The turn list as the engine lays it inside `outline_assemble`, from numbers
//! that it has just given and need not check. The static library does not export
//! that part. The archive that native.sh makes does, and native.sh says so by
//! the feature `laying`.

#[cfg(feature = "laying")]
extern "C" {
    fn outline_lay_turns(
        polygons: *const u32,
        polygons_length: usize,
        sequences: *const u32,
        sequences_length: usize,
        count: usize,
        turns: *mut u32,
        turns_length: usize,
    );
}

/// Lays the turn list of two lists that the engine filled, with so many
/// outlines; says whether the archive has the part.
#[cfg(feature = "laying")]
pub fn lay(polygons: &[u32], sequences: &[u32], count: usize, turns: &mut [u32]) -> bool {
    assert!(polygons.len() == sequences.len() && polygons.len() == turns.len());
    // SAFETY: the part asks for three lists of one length and the numbering of
    // a sheet in the first two; whoever calls has it from the engine. It keeps
    // no pointer, and the borrows make the slices valid and disjoint.
    unsafe {
        outline_lay_turns(
            polygons.as_ptr(),
            polygons.len(),
            sequences.as_ptr(),
            sequences.len(),
            count,
            turns.as_mut_ptr(),
            turns.len(),
        );
    }
    true
}

/// Without the part nothing is laid.
#[cfg(not(feature = "laying"))]
pub fn lay(_: &[u32], _: &[u32], _: usize, _: &mut [u32]) -> bool {
    false
}
