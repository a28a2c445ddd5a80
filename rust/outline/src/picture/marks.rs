//! The marks of a sheet, from the bottom layer to the top: film, edges with
//! arrow heads, rings, tops with the outlines' numbers.

use std::cmp::Reverse;
use std::collections::BTreeMap;

use super::canvas::{shown, shown_spot, Canvas};
use super::colour;
use super::frame::Frame;
use super::plane::Spot;
use super::sheet::{Point, Round, Sheet};

/// Sizes at which marks are drawn where edges lie as far apart as wanted.
const CORE: f64 = 1.2;
const ARROW: f64 = 9.0;
const DOT: f64 = 5.5;
const DASH: f64 = 6.0;

/// How much of an edge is cut off at a point where four meet.
const CUT: f64 = 8.0;

/// The width of an outline's line.
pub const LINE: f64 = 2.2;

/// The radius of a top's disc.
pub const DISC: f64 = 9.5;

/// The radius of the ring round a touching point.
pub const RING: f64 = 12.0;

/// Draws the whole sheet.
pub fn draw(sheet: &Sheet, frame: &Frame, canvas: &mut Canvas) {
    draw_film(sheet, frame, canvas);
    draw_lines(sheet, frame, canvas);
    for round in &sheet.rounds {
        draw_arrow_heads(round, frame, canvas);
    }
    draw_rings(sheet, frame, canvas);
    for (round, top) in sheet.rounds.iter().zip(tops(sheet, frame)) {
        draw_top(round, top, frame, canvas);
    }
}

/// Film lies on the left of each edge: an outline that holds film is tinted, a
/// hole is white. The larger come first, so that a hole lies on its surround,
/// and a hole before another film that fills it.
pub fn draw_film(sheet: &Sheet, frame: &Frame, canvas: &mut Canvas) {
    let mut rounds: Vec<&Round> = sheet.rounds.iter().collect();
    rounds.sort_by_key(|round| (Reverse(round.area().abs()), round.area() > 0));
    canvas.open("stroke=\"none\" fill-rule=\"evenodd\"");
    for round in rounds {
        let film = if round.area() > 0 {
            let colour = colour::of_film(round.film);
            format!("fill=\"{}\" fill-opacity=\"0.13\"", colour)
        } else {
            "fill=\"#ffffff\"".to_string()
        };
        let line = line(round, sheet, frame);
        canvas.add(&format!("<path {} d=\"{}\"/>", film, line));
    }
    canvas.close();
}

/// The closed line of an outline. Where four edges of its film meet its corner is
/// cut, on the side of its own film, so that two outlines that touch there, or
/// one that comes there twice, can be seen to be apart.
fn line(round: &Round, sheet: &Sheet, frame: &Frame) -> String {
    let count = round.corners.len();
    let spot = |at: usize| frame.spot(round.corners[at % count]);
    let mut spots = Vec::new();
    for (at, corner) in round.corners.iter().enumerate() {
        if sheet.is_met_twice(*corner, round.film) {
            let cut = |to: Spot| short_of(spot(at), to, CUT * frame.size);
            spots.extend([spot(at + count - 1), spot(at + 1)].map(cut));
        } else {
            spots.push(spot(at));
        }
    }
    let spots: Vec<String> = spots.into_iter().map(shown_spot).collect();
    format!("M{}Z", spots.join("L"))
}

/// The spot so far from a corner on the way to the next, which is not reached.
fn short_of(corner: Spot, next: Spot, far: f64) -> Spot {
    let way = next - corner;
    corner + way.unit() * far.min(0.3 * way.length())
}

/// The lines of all outlines. A side that two films share is covered by the later
/// outline's line; thinner dashes in the opposite order bring the earlier one's
/// back, so that both colours show there and nothing changes elsewhere.
fn draw_lines(sheet: &Sheet, frame: &Frame, canvas: &mut Canvas) {
    let mut draw = |round: &Round, kind: &str, width: f64| {
        canvas.add(&format!(
            "<path {} fill=\"none\" stroke=\"{}\" stroke-width=\"{}\" stroke-linejoin=\"round\" d=\"{}\"/>",
            kind,
            colour::of_film(round.film),
            shown(width * frame.size),
            line(round, sheet, frame)
        ));
    };
    for round in &sheet.rounds {
        draw(round, "class=\"outline\"", LINE);
    }
    if sheet.films > 1 {
        let dashes = format!("stroke-dasharray=\"{}\"", shown(DASH * frame.size));
        for round in sheet.rounds.iter().rev() {
            draw(round, &dashes, CORE);
        }
    }
}

/// An arrow head past the middle of each edge of an outline.
fn draw_arrow_heads(round: &Round, frame: &Frame, canvas: &mut Canvas) {
    let colour = colour::of_film(round.film);
    let heads: String = round
        .edges()
        .map(|edge| arrow_head(&Way::of(edge, frame), frame.size))
        .collect();
    canvas.add(&format!("<path fill=\"{}\" d=\"{}\"/>", colour, heads));
}

/// An edge on the picture.
pub struct Way {
    /// Its middle.
    pub middle: Spot,
    /// Its direction, of length 1.
    pub along: Spot,
    /// Its length.
    pub length: f64,
}

impl Way {
    /// The way of an edge from its tail to its head.
    pub fn of(edge: (Point, Point), frame: &Frame) -> Way {
        let (tail, head) = (frame.spot(edge.0), frame.spot(edge.1));
        Way {
            middle: (tail + head) * 0.5,
            along: (head - tail).unit(),
            length: (head - tail).length(),
        }
    }

    /// How far a spot is from the nearest one on the edge.
    pub fn distance(&self, spot: Spot) -> f64 {
        let from_middle = spot - self.middle;
        let along = from_middle.x * self.along.x + from_middle.y * self.along.y;
        let half = 0.5 * self.length;
        (from_middle - self.along * along.clamp(-half, half)).length()
    }
}

/// A triangle that begins at the middle of the edge and points to its head. Two
/// edges that lie on one another the opposite way both show theirs.
pub fn arrow_head(way: &Way, size: f64) -> String {
    let long = (ARROW * size).min(0.4 * way.length);
    let half = way.along.left() * (0.42 * long);
    let tip = way.middle + way.along * long;
    format!(
        "M{}L{}L{}Z",
        shown_spot(way.middle + half),
        shown_spot(tip),
        shown_spot(way.middle - half)
    )
}

/// A ring round every point where four edges of a film meet.
fn draw_rings(sheet: &Sheet, frame: &Frame, canvas: &mut Canvas) {
    for point in &sheet.touching {
        draw_ring(frame.spot(*point), frame.size, canvas);
    }
}

/// One ring, dark on yellow.
pub fn draw_ring(middle: Spot, size: f64, canvas: &mut Canvas) {
    let halo = format!(
        "fill=\"none\" stroke=\"#ffd60a\" stroke-width=\"{}\"",
        shown(5.0 * size)
    );
    let ring = format!(
        "class=\"touching\" fill=\"none\" stroke=\"#1d2939\" stroke-width=\"{}\"",
        shown(1.6 * size)
    );
    canvas.circle(middle, RING * size, &halo);
    canvas.circle(middle, RING * size, &ring);
}

/// Where the tops of the outlines are marked. Outlines of several films may have
/// one top; their marks lie in a row from it to the left, inside the picture.
pub fn tops(sheet: &Sheet, frame: &Frame) -> Vec<Spot> {
    let mut marked: BTreeMap<Point, f64> = BTreeMap::new();
    let mut tops = Vec::new();
    for round in &sheet.rounds {
        let before = marked.entry(round.corners[0]).or_insert(0.0);
        let mut top = frame.spot(round.corners[0]);
        top.x = (top.x - *before * 2.0 * DISC * frame.size).max(0.0);
        *before += 1.0;
        tops.push(top);
    }
    tops
}

/// The top of an outline: a disc with its number, or a dot where there is no
/// room for numbers.
fn draw_top(round: &Round, top: Spot, frame: &Frame, canvas: &mut Canvas) {
    let colour = colour::of_film(round.film);
    if frame.numbered {
        draw_disc(top, frame.size, &colour, &round.number.to_string(), canvas);
    } else {
        draw_dot(top, frame.size, &colour, canvas);
    }
}

/// A disc with a number in it.
pub fn draw_disc(middle: Spot, size: f64, colour: &str, number: &str, canvas: &mut Canvas) {
    let (radius, border) = (DISC * size, 1.5 * size);
    let paint = format!(
        "class=\"top\" fill=\"{}\" stroke=\"#ffffff\" stroke-width=\"{}\"",
        colour,
        shown(border)
    );
    canvas.circle(middle, radius, &paint);
    let letters = match number.len() {
        1 => 1.3,
        2 => 1.1,
        3 => 0.8,
        _ => 0.6,
    };
    let letters = format!(
        "fill=\"#ffffff\" font-weight=\"bold\" font-size=\"{}\"",
        shown(radius * letters)
    );
    canvas.plain_text(middle, &letters, number);
}

/// A small disc without a number.
pub fn draw_dot(middle: Spot, size: f64, colour: &str, canvas: &mut Canvas) {
    let paint = format!(
        "class=\"top\" fill=\"{}\" stroke=\"#ffffff\" stroke-width=\"{}\"",
        colour,
        shown(size)
    );
    canvas.circle(middle, DOT * size, &paint);
}
