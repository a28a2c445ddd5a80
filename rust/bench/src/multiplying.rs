//! A fast hasher for the three numbers of a point and its film: each is added to
//! what there is, and the sum multiplied by an odd number. Unlike std's it is no
//! guard against points that were chosen to fall on one another.

use std::hash::Hasher;

/// An odd number whose bits are in no order.
const ODD: u64 = 0x9E37_79B9_7F4A_7C15;

/// What has been hashed so far.
#[derive(Default)]
pub struct Multiplying {
    state: u64,
}

impl Multiplying {
    fn add(&mut self, number: u64) {
        self.state = self.state.wrapping_add(number).wrapping_mul(ODD);
    }
}

impl Hasher for Multiplying {
    /// A product's high bits depend on all of the number, its low bits on few.
    /// The map takes the low ones for the place and the highest for the tag.
    fn finish(&self) -> u64 {
        self.state.rotate_left(26)
    }

    fn write(&mut self, bytes: &[u8]) {
        bytes.iter().for_each(|byte| self.add(u64::from(*byte)));
    }

    fn write_i32(&mut self, number: i32) {
        self.add(number as u32 as u64);
    }
}
