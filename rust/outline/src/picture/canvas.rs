//! The text of the SVG: elements one to a line, numbers with two digits after
//! the point at most.

use super::frame::Frame;
use super::plane::Spot;

/// The letters of all texts.
const FONT: &str = "DejaVu Sans, Verdana, Helvetica, Arial, sans-serif";

/// An SVG that is being written.
pub struct Canvas {
    text: String,
}

impl Canvas {
    /// A white picture of the frame's size, with a title.
    pub fn new(frame: &Frame, title: &str) -> Canvas {
        let (width, height) = (shown(frame.width), shown(frame.height));
        let mut canvas = Canvas {
            text: String::new(),
        };
        canvas.add(&format!(
            "<svg xmlns=\"http://www.w3.org/2000/svg\" viewBox=\"0 0 {w} {h}\" width=\"{w}\" height=\"{h}\" \
             role=\"img\" font-family=\"{f}\" text-anchor=\"middle\">",
            w = width,
            h = height,
            f = FONT
        ));
        canvas.add(&format!("<title>{}</title>", title));
        canvas.add(&format!(
            "<rect width=\"{}\" height=\"{}\" fill=\"#ffffff\"/>",
            width, height
        ));
        canvas
    }

    /// Adds an element.
    pub fn add(&mut self, element: &str) {
        self.text.push_str(element);
        self.text.push('\n');
    }

    /// Opens a group whose elements share these attributes.
    pub fn open(&mut self, attributes: &str) {
        self.add(&format!("<g {}>", attributes));
    }

    /// Closes the group.
    pub fn close(&mut self) {
        self.add("</g>");
    }

    /// Adds a circle.
    pub fn circle(&mut self, middle: Spot, radius: f64, attributes: &str) {
        self.add(&format!(
            "<circle cx=\"{}\" cy=\"{}\" r=\"{}\"{}/>",
            shown(middle.x),
            shown(middle.y),
            shown(radius),
            spaced(attributes)
        ));
    }

    /// Adds a text whose middle is here. Texts hold letters and digits only, so
    /// nothing in them needs an escape.
    pub fn plain_text(&mut self, middle: Spot, attributes: &str, text: &str) {
        self.add(&format!(
            "<text x=\"{}\" y=\"{}\" dy=\"0.35em\"{}>{}</text>",
            shown(middle.x),
            shown(middle.y),
            spaced(attributes),
            text
        ));
    }

    /// The whole text.
    pub fn finish(mut self) -> String {
        self.add("</svg>");
        self.text
    }
}

/// Attributes with a space before them, if there are any.
fn spaced(attributes: &str) -> String {
    if attributes.is_empty() {
        String::new()
    } else {
        format!(" {}", attributes)
    }
}

/// A number with at most two digits after the point and no needless zeros.
pub fn shown(number: f64) -> String {
    let text = format!("{:.2}", number);
    let text = text.trim_end_matches('0').trim_end_matches('.');
    match text {
        "-0" => "0".to_string(),
        text => text.to_string(),
    }
}

/// A place as it stands in a path.
pub fn shown_spot(spot: Spot) -> String {
    format!("{} {}", shown(spot.x), shown(spot.y))
}
