//! Chance that can be had again: the SplitMix64 sequence of a seed. A test that
//! fails prints its seed, and the seed alone brings the same sheet back on any
//! machine. Rests on nothing.

/// A sequence of numbers that its seed determines.
#[derive(Clone, Debug)]
pub struct Random {
    state: u64,
}

impl Random {
    /// The sequence of this seed.
    pub fn new(seed: u64) -> Random {
        Random { state: seed }
    }

    /// The next number, any of 64 bits.
    pub fn draw(&mut self) -> u64 {
        self.state = self.state.wrapping_add(0x9E37_79B9_7F4A_7C15);
        let mixed = (self.state ^ (self.state >> 30)).wrapping_mul(0xBF58_476D_1CE4_E5B9);
        let mixed = (mixed ^ (mixed >> 27)).wrapping_mul(0x94D0_49BB_1331_11EB);
        mixed ^ (mixed >> 31)
    }

    /// A number from 0 to one below the bound, which is above 0.
    pub fn below(&mut self, bound: usize) -> usize {
        (self.draw() % bound as u64) as usize
    }

    /// A number from the lowest to the highest, both possible.
    pub fn between(&mut self, lowest: i32, highest: i32) -> i32 {
        let width = i64::from(highest) - i64::from(lowest) + 1;
        let above = (self.draw() % width as u64) as i64;
        (i64::from(lowest) + above) as i32
    }

    /// True once in so many times.
    pub fn one_in(&mut self, times: usize) -> bool {
        self.below(times) == 0
    }

    /// Puts things in random order.
    pub fn shuffle<T>(&mut self, things: &mut [T]) {
        for last in (1..things.len()).rev() {
            things.swap(last, self.below(last + 1));
        }
    }
}

/// A seed that names itself on the error stream when it is given up in a panic,
/// so that the test that held it need not.
#[derive(Debug)]
pub struct Seed(pub u64);

impl Seed {
    /// The sequence of this seed.
    pub fn random(&self) -> Random {
        Random::new(self.0)
    }
}

impl Drop for Seed {
    fn drop(&mut self) {
        if std::thread::panicking() {
            eprintln!("with seed {}", self.0);
        }
    }
}
