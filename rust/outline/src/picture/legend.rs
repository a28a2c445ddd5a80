//! A line under the drawing that says what its marks mean.

use super::blade::{draw_dashes, draw_down};
use super::canvas::Canvas;
use super::frame::Frame;
use super::marks::{draw_disc, draw_dot, draw_ring};
use super::plane::Spot;
use super::sheet::Sheet;

/// The colour of the legend's letters and marks.
const COLOUR: &str = "#475467";

/// Draws the legend.
pub fn draw(sheet: &Sheet, frame: &Frame, canvas: &mut Canvas) {
    let at = |right: f64| frame.legend() + Spot::new(right, 0.0);
    let next = if frame.numbered {
        draw_disc(at(0.0), 0.85, COLOUR, "n", canvas);
        write(at(14.0), "top of outline n", canvas);
        draw_arrow(at(126.0), canvas);
        write(at(154.0), "edge, with its sequence number", canvas);
        358.0
    } else {
        draw_dot(at(0.0), 1.0, COLOUR, canvas);
        write(at(14.0), "top of an outline", canvas);
        draw_arrow(at(126.0), canvas);
        write(at(154.0), "edge", canvas);
        206.0
    };
    if !sheet.touching.is_empty() {
        draw_ring(at(next), 0.6, canvas);
        write(at(next + 16.0), "four edges meet", canvas);
    }
}

/// Draws the legend of the blade's way.
pub fn draw_blade(frame: &Frame, canvas: &mut Canvas) {
    let at = |right: f64| frame.legend() + Spot::new(right, 0.0);
    draw_down(at(0.0), 1.0, canvas);
    write(at(10.0), "the blade comes down", canvas);
    draw_arrow(at(150.0), canvas);
    write(at(178.0), "cut", canvas);
    draw_dashes(at(216.0), at(242.0), 1.0, canvas);
    write(at(250.0), "travel with the blade up", canvas);
    if frame.numbered {
        draw_disc(at(412.0), 0.85, COLOUR, "n", canvas);
        write(at(426.0), "outline n", canvas);
    }
}

/// A text that begins here.
fn write(at: Spot, text: &str, canvas: &mut Canvas) {
    let letters = format!("text-anchor=\"start\" font-size=\"11\" fill=\"{}\"", COLOUR);
    canvas.plain_text(at, &letters, text);
}

/// An edge with an arrow head, from left to right.
fn draw_arrow(at: Spot, canvas: &mut Canvas) {
    canvas.add(&format!(
        "<path fill=\"{c}\" stroke=\"{c}\" stroke-width=\"1.6\" d=\"M{x} {y}h20m-9 -3l8 3l-8 3z\"/>",
        c = COLOUR,
        x = super::canvas::shown(at.x),
        y = super::canvas::shown(at.y)
    ));
}
