//! Slices that are lent out of the middle of a larger buffer. What lies before
//! and after them must be the same afterwards. The slice does not always begin
//! at the same alignment.

use std::fmt::Debug;

use witness::generate::Random;

/// How many guard numbers there are on each side, at least.
const GUARDS: usize = 16;

/// A number that a slice may hold.
pub trait Number: Copy + PartialEq + Debug {
    /// Any number.
    fn any(random: &mut Random) -> Self;
}

impl Number for u32 {
    fn any(random: &mut Random) -> u32 {
        random.draw() as u32
    }
}

impl Number for i32 {
    fn any(random: &mut Random) -> i32 {
        random.draw() as i32
    }
}

/// A slice to lend, with guards before and after it.
pub struct Guarded<T> {
    buffer: Vec<T>,
    guards: Vec<T>,
    before: usize,
    length: usize,
}

impl<T: Number> Guarded<T> {
    /// A copy of a slice, between guards of random numbers.
    pub fn copy(random: &mut Random, inner: &[T]) -> Guarded<T> {
        let before = GUARDS + random.below(4);
        let guards: Vec<T> = (0..before + GUARDS).map(|_| T::any(random)).collect();
        let buffer = [&guards[..before], inner, &guards[before..]].concat();
        Guarded {
            buffer,
            guards,
            before,
            length: inner.len(),
        }
    }

    /// The slice, to be lent.
    pub fn lent(&mut self) -> &mut [T] {
        &mut self.buffer[self.before..self.before + self.length]
    }

    /// What the slice holds.
    ///
    /// # Panics
    /// When a guard is not as it was.
    pub fn held(&self) -> &[T] {
        let (before, rest) = self.buffer.split_at(self.before);
        let (inner, after) = rest.split_at(self.length);
        assert_eq!(before, &self.guards[..self.before], "a guard before");
        assert_eq!(after, &self.guards[self.before..], "a guard after");
        inner
    }
}

/// So many numbers of any kind: what nobody has cleared.
pub fn rubbish<T: Number>(random: &mut Random, length: usize) -> Vec<T> {
    (0..length).map(|_| T::any(random)).collect()
}
