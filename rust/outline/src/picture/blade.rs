//! The way of the blade, as the flatbed is told it: what is cut, where the blade
//! comes down for it, and where the head travels from one outline to the next.

use crate::instructions::{Instruction, Machine, Place};
use crate::outlines::Outlines;
use crate::UNITS_PER_MILLIMETRE;

use super::canvas::{shown, shown_spot, Canvas};
use super::colour;
use super::frame::Frame;
use super::marks::{arrow_head, draw_disc, draw_film, tops, Way, DISC, LINE};
use super::plane::Spot;
use super::sheet::{Point, Sheet};

/// The colour of what is not cut.
pub const COLOUR: &str = "#1d2939";

/// Sizes at which marks are drawn where edges lie as far apart as wanted.
const TRAVEL: f64 = 1.4;
const DOWN: f64 = 3.6;

/// What is told to the flatbed, as points of the list.
pub struct Blade {
    /// For each outline the points from where the blade comes down to where it
    /// is lifted.
    cuts: Vec<Vec<Point>>,
    /// The travels from one outline to the next. The one to the first outline is
    /// not among them: it begins where the head happens to stand.
    travels: Vec<(Point, Point)>,
    /// How many instructions there are.
    pub count: usize,
}

impl Blade {
    /// The blade's way along the outlines of a sheet.
    pub fn of(outlines: &Outlines) -> Blade {
        let instructions = outlines.instructions(Machine::Flatbed);
        let count = instructions.len();
        let (mut cuts, mut travels): (Vec<Vec<Point>>, Vec<_>) = Default::default();
        let mut head = None;
        for instruction in instructions {
            match instruction {
                Instruction::Travel(place) => {
                    let to = point(place);
                    travels.extend(head.map(|from| (from, to)));
                    cuts.push(vec![to]);
                    head = Some(to);
                }
                Instruction::Cut(place) => {
                    head = Some(point(place));
                    cuts.last_mut().into_iter().for_each(|cut| cut.extend(head));
                }
                Instruction::Lift => {}
            }
        }
        Blade {
            cuts,
            travels,
            count,
        }
    }

    /// Draws the blade's way over the film of the sheet, the outlines' numbers
    /// above the points where it comes down.
    pub fn draw(&self, sheet: &Sheet, frame: &Frame, canvas: &mut Canvas) {
        draw_film(sheet, frame, canvas);
        for (cut, round) in self.cuts.iter().zip(&sheet.rounds) {
            draw_cut(cut, &colour::of_film(round.film), frame, canvas);
        }
        self.draw_travels(frame, canvas);
        for first in self.cuts.iter().filter_map(|cut| cut.first()) {
            draw_down(frame.spot(*first), frame.size, canvas);
        }
        if frame.numbered {
            draw_numbers(sheet, frame, canvas);
        }
    }

    /// Dashed lines, each with an arrow head; none where the next outline begins
    /// at the point where the last one ended.
    fn draw_travels(&self, frame: &Frame, canvas: &mut Canvas) {
        canvas.open(&format!("class=\"travels\" fill=\"{}\"", COLOUR));
        for (from, to) in self.travels.iter().filter(|(from, to)| from != to) {
            draw_dashes(frame.spot(*from), frame.spot(*to), frame.size, canvas);
            let head = arrow_head(&Way::of((*from, *to), frame), frame.size);
            canvas.add(&format!("<path d=\"{}\"/>", head));
        }
        canvas.close();
    }
}

/// A place of the flatbed as a point of the list.
fn point(place: Place) -> Point {
    let units = |millimetres: f32| (millimetres * UNITS_PER_MILLIMETRE as f32) as i32;
    (units(place.first), units(place.second))
}

/// The line of what is cut at one go, with an arrow head for each edge.
fn draw_cut(cut: &[Point], colour: &str, frame: &Frame, canvas: &mut Canvas) {
    let spots: Vec<String> = cut.iter().map(|at| shown_spot(frame.spot(*at))).collect();
    canvas.add(&format!(
        "<path class=\"cut\" fill=\"none\" stroke=\"{}\" stroke-width=\"{}\" stroke-linejoin=\"round\" d=\"M{}\"/>",
        colour,
        shown(LINE * frame.size),
        spots.join("L")
    ));
    let edges = cut.windows(2).map(|ends| (ends[0], ends[1]));
    let heads: String = edges
        .map(|edge| arrow_head(&Way::of(edge, frame), frame.size))
        .collect();
    canvas.add(&format!("<path fill=\"{}\" d=\"{}\"/>", colour, heads));
}

/// A dashed line.
pub fn draw_dashes(from: Spot, to: Spot, size: f64, canvas: &mut Canvas) {
    canvas.add(&format!(
        "<line class=\"travel\" stroke=\"{}\" stroke-width=\"{}\" stroke-dasharray=\"{} {}\" x1=\"{}\" y1=\"{}\" x2=\"{}\" y2=\"{}\"/>",
        COLOUR,
        shown(TRAVEL * size),
        shown(5.0 * size),
        shown(3.5 * size),
        shown(from.x),
        shown(from.y),
        shown(to.x),
        shown(to.y)
    ));
}

/// The mark where the blade comes down.
pub fn draw_down(at: Spot, size: f64, canvas: &mut Canvas) {
    let paint = format!(
        "class=\"down\" fill=\"{}\" stroke=\"#ffffff\" stroke-width=\"{}\"",
        COLOUR,
        shown(size)
    );
    canvas.circle(at, DOWN * size, &paint);
}

/// The outlines' numbers, each above the point where the blade comes down.
fn draw_numbers(sheet: &Sheet, frame: &Frame, canvas: &mut Canvas) {
    let above = Spot::new(0.0, (DISC + DOWN) * frame.size);
    for (round, top) in sheet.rounds.iter().zip(tops(sheet, frame)) {
        let (colour, number) = (colour::of_film(round.film), round.number.to_string());
        draw_disc(top - above, frame.size, &colour, &number, canvas);
    }
}
