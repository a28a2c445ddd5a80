//! How the sheet lies on the picture: its scale, its margins, the sizes of
//! lines and letters, and the grid behind it. All follow from how long edges
//! are and how close they lie, so that small and large sheets are readable.

use super::canvas::{shown, Canvas};
use super::plane::Spot;
use super::sheet::{Point, Sheet};
use super::MOST_NUMBERED;

/// How far apart edges are to lie on the picture, if it may be so large.
const WANTED_PITCH: f64 = 40.0;

/// The least and the greatest extent of the drawing on the picture.
const EXTENT: (f64, f64) = (420.0, 1600.0);

/// The least width of the whole picture, which has room for the legend.
const LEAST_WIDTH: f64 = 510.0;

/// The room at the bottom for the legend.
const LEGEND: f64 = 40.0;

/// Sheets of at most so many units a side have a grid.
const GRID: i64 = 64;

/// Sheets of at most so many units a side have a grid line at every unit, each
/// with its number.
const FINE_GRID: i64 = 16;

/// The place of a sheet on the picture.
pub struct Frame {
    low: Point,
    high: Point,
    scale: f64,
    /// The size that all marks follow: 1 where edges are as far apart as wanted.
    pub size: f64,
    /// Whether outlines and edges are numbered.
    pub numbered: bool,
    /// The width of the picture.
    pub width: f64,
    /// The height of the picture.
    pub height: f64,
    corner: Spot,
}

impl Frame {
    /// A frame that holds the whole sheet.
    pub fn around(sheet: &Sheet) -> Frame {
        let (low, high) = bounds(sheet);
        let (across, up) = (extent(low.0, high.0), extent(low.1, high.1));
        let longest = across.max(up).max(1.0);
        let pitch = pitch(sheet, across, up);
        let scale = (WANTED_PITCH / pitch).clamp(EXTENT.0 / longest, EXTENT.1 / longest);
        let size = (pitch * scale / WANTED_PITCH).clamp(0.05, 1.4);
        let margin = 34.0;
        let width = (across * scale + 2.0 * margin).max(LEAST_WIDTH);
        Frame {
            low,
            high,
            scale,
            size,
            numbered: sheet.edges <= MOST_NUMBERED,
            width,
            height: up * scale + 2.0 * margin + LEGEND,
            corner: Spot::new((width - across * scale) / 2.0, margin),
        }
    }

    /// Where a point of the sheet lies on the picture.
    pub fn spot(&self, point: Point) -> Spot {
        let right = extent(self.low.0, point.0);
        let down = extent(point.1, self.high.1);
        self.corner + Spot::new(right, down) * self.scale
    }

    /// The middle of the legend's line, at the left.
    pub fn legend(&self) -> Spot {
        Spot::new(24.0, self.height - LEGEND / 2.0)
    }

    /// Draws a grid behind a small sheet, with its numbers if it is fine.
    pub fn draw_grid(&self, canvas: &mut Canvas) {
        let across = i64::from(self.high.0) - i64::from(self.low.0);
        let up = i64::from(self.high.1) - i64::from(self.low.1);
        if across.max(up) > GRID || across.max(up) == 0 {
            return;
        }
        let step = if across.max(up) > FINE_GRID { 5 } else { 1 };
        canvas.open("stroke=\"#e4e7ec\" stroke-width=\"1\" fill=\"#98a2b3\" font-size=\"10\"");
        for x in multiples(step, self.low.0, self.high.0) {
            let (high, low) = ((x, self.high.1), (x, self.low.1));
            self.grid_line(canvas, self.spot(high), self.spot(low));
            let below = self.spot(low) + Spot::new(0.0, 22.0);
            canvas.plain_text(below, "stroke=\"none\"", &x.to_string());
        }
        for y in multiples(step, self.low.1, self.high.1) {
            let (left, right) = ((self.low.0, y), (self.high.0, y));
            self.grid_line(canvas, self.spot(left), self.spot(right));
            let before = self.spot(left) - Spot::new(22.0, 0.0);
            canvas.plain_text(before, "stroke=\"none\"", &y.to_string());
        }
        canvas.close();
    }

    fn grid_line(&self, canvas: &mut Canvas, from: Spot, to: Spot) {
        canvas.add(&format!(
            "<line x1=\"{}\" y1=\"{}\" x2=\"{}\" y2=\"{}\"/>",
            shown(from.x),
            shown(from.y),
            shown(to.x),
            shown(to.y)
        ));
    }
}

/// The least and the greatest coordinates; both 0 for a sheet with no edge.
fn bounds(sheet: &Sheet) -> (Point, Point) {
    let xs = || sheet.corners().map(|point| point.0);
    let ys = || sheet.corners().map(|point| point.1);
    let low = (xs().min().unwrap_or(0), ys().min().unwrap_or(0));
    let high = (xs().max().unwrap_or(0), ys().max().unwrap_or(0));
    (low, high)
}

fn extent(low: i32, high: i32) -> f64 {
    f64::from(high) - f64::from(low)
}

/// How far apart edges lie, in units of the sheet: the length of an edge of
/// middle length, or the side of the square that each edge has to itself if
/// that is less.
fn pitch(sheet: &Sheet, across: f64, up: f64) -> f64 {
    let length = |(tail, head): (Point, Point)| {
        Spot::new(extent(tail.0, head.0), extent(tail.1, head.1)).length()
    };
    let edges = sheet.rounds.iter().flat_map(|round| round.edges());
    let mut lengths: Vec<f64> = edges.map(length).collect();
    lengths.sort_by(f64::total_cmp);
    match lengths.get(lengths.len() / 2) {
        None => 1.0,
        Some(middle) => {
            let own = (across.max(1.0) * up.max(1.0) / lengths.len() as f64).sqrt();
            middle.min(own)
        }
    }
}

/// The multiples of a step from one number to another.
fn multiples(step: i32, from: i32, to: i32) -> impl Iterator<Item = i32> {
    (from..=to).filter(move |number| number % step == 0)
}
