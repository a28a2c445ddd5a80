//! Hartley's saws (section 9 of his report): the shapes for which the sweep up
//! needs the most rows. A tooth is two teeth side by side, the right one wholly
//! above the left one, and a peak above both that joins them; the smallest is a
//! single lowest point. A saw is a row of teeth, large to small, and its
//! joining peaks lie above all the teeth. All is of film 0.

use crate::geometry::Point;

use super::sound::closed;
use super::{in_sweep_order, Random, Sheet};

/// The saw with teeth of all orders from the given one (1 to 11) down to 1; a
/// tooth of order i has 2 to the (i-1) lowest points. It has 2 to the order+1
/// edges, less 2.
pub fn saw(random: &mut Random, order: u32) -> Sheet {
    let teeth = (0..order).rev().map(|halvings| 1 << halvings).collect();
    saws(random, &[teeth])
}

/// Several saws side by side. For each outline the teeth are given by their
/// numbers of lowest points, each 1 or more; two edges a lowest point.
pub fn saws(random: &mut Random, outlines: &[Vec<usize>]) -> Sheet {
    let mut drawing = Drawing::default();
    let mut starts = Vec::new();
    let mut peaks = Vec::new();
    for teeth in outlines {
        starts.push(drawing.corners.len());
        for lowest_points in teeth {
            drawing.tooth(*lowest_points);
            peaks.push(drawing.leave_room());
        }
    }
    for peak in peaks {
        drawing.raise(peak);
    }
    starts.push(drawing.corners.len());
    let outline = |ends: &[usize]| closed(&drawing.corners[ends[0]..ends[1]]);
    let edges = starts.windows(2).flat_map(outline).collect();
    in_sweep_order(random, edges)
}

/// Corners from left to right, no two at one height.
#[derive(Default)]
struct Drawing {
    corners: Vec<Point>,
    height: i32,
}

impl Drawing {
    /// Draws a tooth: the left part has as many lowest points as the greatest
    /// power of two that leaves something for the right part.
    fn tooth(&mut self, lowest_points: usize) {
        if lowest_points == 1 {
            let lowest = self.leave_room();
            self.raise(lowest);
            return;
        }
        let left = lowest_points.next_power_of_two() / 2;
        self.tooth(left);
        let peak = self.leave_room();
        self.tooth(lowest_points - left);
        self.raise(peak);
    }

    /// A next corner whose height is not known yet.
    fn leave_room(&mut self) -> usize {
        let place = self.corners.len();
        self.corners.push(Point::new(place as i32, 0));
        place
    }

    /// Puts a corner above all that have a height.
    fn raise(&mut self, place: usize) {
        self.corners[place].y = self.height;
        self.height += 1;
    }
}
