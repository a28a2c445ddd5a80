//! The engine's functions as its static library exports them, and the only
//! unsafe code of this crate: each slice is handed over as its pointer and its
//! length. `include/outline.h` declares the same for C.
#![allow(unsafe_code)]

use crate::instructions::Machine;

/// The answer to `outline_assemble`. Accepted: refusal and place are 0. Refused:
/// the other three are 0.
#[repr(C)]
pub struct Sheet {
    pub refusal: u32,
    pub place: u32,
    pub polygons: u32,
    pub peak: u32,
    pub records: u32,
}

/// The answer to `outline_turns`. Accepted: refusal and place are 0. Refused:
/// the number of polygons is 0.
#[repr(C)]
pub struct Turned {
    pub refusal: u32,
    pub place: u32,
    pub polygons: u32,
}

/// The answer to `outline_flatbed` and to `outline_roll_feeder`. Accepted:
/// refusal and place are 0. Refused: the other three are 0. `x` and `y` are the
/// numbers that the machine takes first and second.
#[repr(C)]
pub struct Cut {
    pub refusal: u32,
    pub place: u32,
    pub what: u32,
    pub x: f32,
    pub y: f32,
}

extern "C" {
    fn outline_assemble(
        edges: *const i32,
        edges_length: usize,
        polygons: *mut u32,
        polygons_length: usize,
        sequences: *mut u32,
        sequences_length: usize,
        turns: *mut u32,
        turns_length: usize,
        journal: *mut i32,
        journal_length: usize,
        rows: *mut i32,
        rows_length: usize,
    ) -> Sheet;

    fn outline_turns(
        polygons: *const u32,
        polygons_length: usize,
        sequences: *const u32,
        sequences_length: usize,
        turns: *mut u32,
        turns_length: usize,
    ) -> Turned;

    fn outline_flatbed(
        edges: *const i32,
        edges_length: usize,
        polygons: *const u32,
        polygons_length: usize,
        sequences: *const u32,
        sequences_length: usize,
        turns: *const u32,
        turns_length: usize,
        k: u32,
    ) -> Cut;

    fn outline_roll_feeder(
        edges: *const i32,
        edges_length: usize,
        polygons: *const u32,
        polygons_length: usize,
        sequences: *const u32,
        sequences_length: usize,
        turns: *const u32,
        turns_length: usize,
        k: u32,
    ) -> Cut;
}

/// Numbers a list and puts its edges in turn, on lent slices of any lengths.
pub fn assemble(
    edges: &[i32],
    polygons: &mut [u32],
    sequences: &mut [u32],
    turns: &mut [u32],
    journal: &mut [i32],
    rows: &mut [i32],
) -> Sheet {
    // SAFETY: the engine reads and writes only inside the slices that it is
    // told of, whatever their lengths and contents; it keeps no pointer, has no
    // state and calls nothing back. The borrows make the slices valid and
    // disjoint for the call.
    unsafe {
        outline_assemble(
            edges.as_ptr(),
            edges.len(),
            polygons.as_mut_ptr(),
            polygons.len(),
            sequences.as_mut_ptr(),
            sequences.len(),
            turns.as_mut_ptr(),
            turns.len(),
            journal.as_mut_ptr(),
            journal.len(),
            rows.as_mut_ptr(),
            rows.len(),
        )
    }
}

/// Reads the turn list from two lists of any lengths.
pub fn turns(polygons: &[u32], sequences: &[u32], turns: &mut [u32]) -> Turned {
    // SAFETY: as for `assemble`.
    unsafe {
        outline_turns(
            polygons.as_ptr(),
            polygons.len(),
            sequences.as_ptr(),
            sequences.len(),
            turns.as_mut_ptr(),
            turns.len(),
        )
    }
}

/// The k-th instruction of a machine, from four lists of any lengths.
pub fn instruction(
    machine: Machine,
    edges: &[i32],
    polygons: &[u32],
    sequences: &[u32],
    turns: &[u32],
    k: u32,
) -> Cut {
    let of_machine = match machine {
        Machine::Flatbed => outline_flatbed,
        Machine::RollFeeder => outline_roll_feeder,
    };
    // SAFETY: as for `assemble`; nothing is written.
    unsafe {
        of_machine(
            edges.as_ptr(),
            edges.len(),
            polygons.as_ptr(),
            polygons.len(),
            sequences.as_ptr(),
            sequences.len(),
            turns.as_ptr(),
            turns.len(),
            k,
        )
    }
}
