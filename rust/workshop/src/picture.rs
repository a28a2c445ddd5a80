//! The outlines of a picture: pixel art as PNG, or as a text of cells.

use std::str;

use outline::text::read_sheet;
use outline::{from_pixels, pixels, write_edges, Outlines, NUMBERS_PER_EDGE};

use crate::png_picture;

/// The outlines of a picture whose pixels are so many units wide and high.
///
/// # Errors
///
/// What is wrong with it, and where: it is no picture, or no sheet holds it.
pub fn outlines(bytes: &[u8], pixel: i32) -> Result<Outlines, String> {
    let mut edges = if png_picture::begins(bytes) {
        write_edges(&from_pixels(&png_picture::cells(bytes)?))
    } else {
        edges_of_cells(bytes)?
    };
    enlarge(&mut edges, pixel);
    let count = edges.len() / NUMBERS_PER_EDGE;
    Outlines::of(&edges).map_err(|refusal| format!("it makes {} edges: {}", count, refusal))
}

/// The edges of a text of cells. The figures of a sheet would do for cells, but
/// nobody means them so.
fn edges_of_cells(bytes: &[u8]) -> Result<Vec<i32>, String> {
    let none = |why: String| format!("neither a PNG picture nor a text of cells: {}", why);
    if bytes.is_empty() {
        return Err(none("it is empty".to_string()));
    }
    if read_sheet(bytes).is_ok() {
        let hint = "`workshop instructions` takes it; in a text of cells write . for no film";
        return Err(format!("a sheet, and no picture: {}", hint));
    }
    let text = str::from_utf8(bytes).map_err(|error| {
        let place = error.valid_up_to();
        none(format!(
            "byte {}, 0x{:02x}, is no text",
            place + 1,
            bytes[place]
        ))
    })?;
    pixels::sheet(text).map_err(|fault| none(fault.to_string()))
}

/// Makes edges so many times as long. What no number can say is past the range
/// that the engine takes, and so is the greatest number.
fn enlarge(edges: &mut [i32], times: i32) {
    for edge in edges.chunks_exact_mut(NUMBERS_PER_EDGE) {
        let (ends, _film) = edge.split_at_mut(NUMBERS_PER_EDGE - 1);
        for coordinate in ends {
            *coordinate = coordinate.saturating_mul(times);
        }
    }
}
