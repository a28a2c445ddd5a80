//! The sequence numbers, each beside the middle of its edge on the side where
//! it has room. A number keeps clear of the other edges, of the discs and
//! rings, and of the numbers that are there already.

use super::canvas::{shown, Canvas};
use super::colour;
use super::frame::Frame;
use super::marks::{tops, Way, DISC, RING};
use super::plane::Spot;
use super::sheet::Sheet;

/// The height of the letters where edges lie as far apart as wanted.
const LETTERS: f64 = 12.0;

/// Where a number may stand: how far along its edge, and on which side, the
/// right one being 1. The first that is clear is taken.
const PLACES: [(f64, f64); 6] = [
    (0.5, 1.0),
    (0.5, -1.0),
    (0.36, 1.0),
    (0.64, 1.0),
    (0.36, -1.0),
    (0.64, -1.0),
];

/// Draws all sequence numbers, with white rims.
pub fn draw(sheet: &Sheet, frame: &Frame, canvas: &mut Canvas) {
    let letters = LETTERS * frame.size;
    let mut room = Room::of(sheet, frame, letters);
    canvas.open(&format!(
        "class=\"sequences\" font-size=\"{}\" stroke=\"#ffffff\" stroke-width=\"{}\" \
         stroke-linejoin=\"round\" paint-order=\"stroke\"",
        shown(letters),
        shown(letters / 4.0)
    ));
    let mut edge = 0;
    for round in &sheet.rounds {
        canvas.open(&format!("fill=\"{}\"", colour::of_film(round.film)));
        for sequence in 0..round.corners.len() {
            canvas.plain_text(room.place(edge), "", &sequence.to_string());
            edge += 1;
        }
        canvas.close();
    }
    canvas.close();
}

/// What the numbers must keep clear of.
struct Room {
    letters: f64,
    ways: Vec<Way>,
    /// Middles with how far around them is taken.
    taken: Vec<(Spot, f64)>,
}

impl Room {
    /// The room beside the edges of a sheet.
    fn of(sheet: &Sheet, frame: &Frame, letters: f64) -> Room {
        let edges = sheet.rounds.iter().flat_map(|round| round.edges());
        let ways = edges.map(|edge| Way::of(edge, frame)).collect();
        let tops = tops(sheet, frame).into_iter().map(|top| (top, DISC));
        let rings = sheet.touching.iter();
        let rings = rings.map(|point| (frame.spot(*point), RING));
        let taken = tops
            .chain(rings)
            .map(|(spot, radius)| (spot, radius * frame.size))
            .collect();
        Room {
            letters,
            ways,
            taken,
        }
    }

    /// The place for the number of an edge, which is taken from now on.
    fn place(&mut self, edge: usize) -> Spot {
        let enough = 0.7 * self.letters;
        let mut best = (self.beside(edge, PLACES[0]), f64::NEG_INFINITY);
        for place in PLACES {
            let spot = self.beside(edge, place);
            let clear = self.clear(edge, spot);
            if clear > best.1 {
                best = (spot, clear);
            }
            if clear >= enough {
                break;
            }
        }
        self.taken.push((best.0, 0.5 * self.letters));
        best.0
    }

    /// A place beside an edge.
    fn beside(&self, edge: usize, (along, side): (f64, f64)) -> Spot {
        let way = &self.ways[edge];
        let from_middle = way.along * ((along - 0.5) * way.length);
        way.middle + from_middle - way.along.left() * (0.9 * self.letters * side)
    }

    /// How far a spot is from all that is taken, the edge itself left out.
    fn clear(&self, edge: usize, spot: Spot) -> f64 {
        let others = self.ways.iter().enumerate().filter(|(at, _)| *at != edge);
        let to_edges = others.map(|(_, way)| way.distance(spot));
        let to_marks = self
            .taken
            .iter()
            .map(|(middle, radius)| (spot - *middle).length() - radius);
        to_edges.chain(to_marks).fold(f64::INFINITY, f64::min)
    }
}
