//! Places on the picture, in its own units, y downwards. Only the four kinds of
//! arithmetic and the square root are used, which are the same everywhere.

use std::ops::{Add, Mul, Sub};

/// A place on the picture, or the way from one to another.
#[derive(Clone, Copy, PartialEq, Debug)]
pub struct Spot {
    /// To the right.
    pub x: f64,
    /// Downwards.
    pub y: f64,
}

impl Spot {
    /// The place with these coordinates.
    pub fn new(x: f64, y: f64) -> Spot {
        Spot { x, y }
    }

    /// How long the way is.
    pub fn length(self) -> f64 {
        (self.x * self.x + self.y * self.y).sqrt()
    }

    /// The way of length 1 in the same direction; for a way that has a length.
    pub fn unit(self) -> Spot {
        self * (1.0 / self.length())
    }

    /// The way of the same length a quarter turn to the left.
    pub fn left(self) -> Spot {
        Spot::new(self.y, -self.x)
    }
}

impl Add for Spot {
    type Output = Spot;
    fn add(self, other: Spot) -> Spot {
        Spot::new(self.x + other.x, self.y + other.y)
    }
}

impl Sub for Spot {
    type Output = Spot;
    fn sub(self, other: Spot) -> Spot {
        Spot::new(self.x - other.x, self.y - other.y)
    }
}

impl Mul<f64> for Spot {
    type Output = Spot;
    fn mul(self, factor: f64) -> Spot {
        Spot::new(self.x * factor, self.y * factor)
    }
}
