//! The outlines of a sheet that is text.

use outline::text::read_sheet;
use outline::{Outlines, Refusal};

use crate::png_picture;

/// The outlines of a sheet.
///
/// # Errors
///
/// Why it is refused, and in which line.
pub fn outlines(text: &[u8]) -> Result<Outlines, String> {
    if png_picture::begins(text) {
        return Err("a picture, and no sheet: `workshop sheet` makes one of it".to_string());
    }
    read_sheet(text)
        .and_then(|edges| Outlines::of(&edges))
        .map_err(in_its_line)
}

/// A refusal with the line of the edge that it speaks of, if it does.
fn in_its_line(refusal: Refusal) -> String {
    match refusal.edge() {
        Some(edge) => format!("line {}: {}", edge + 1, refusal),
        None => refusal.to_string(),
    }
}
