//! Sheets made of bitmaps that are text, as [`from_pixels`] makes them of cells: a
//! line a row from the top down, a character a pixel: `0` to `9` for the films of
//! these numbers, `a` to `z` for films 10 to 35, `#` for film 0 too, `.` or a space
//! for no film. Needs the feature `std`.

use std::error::Error;
use std::fmt;

use crate::from_pixels::from_pixels;
use crate::plain::write_edges;

/// How many characters stand for a film.
const FILMS: u32 = 36;

/// A character that stands for no film, nor for none.
///
/// ```
/// let fault = outline::pixels::sheet("#.\n.?\n").unwrap_err();
/// assert_eq!((fault.line, fault.column, fault.character), (2, 2, '?'));
/// assert_eq!(fault.to_string(), "line 2, column 2: '?' stands for no film");
/// ```
#[derive(Clone, Copy, PartialEq, Eq, Debug)]
pub struct NoFilm {
    /// Its line, from 1.
    pub line: usize,
    /// Its column, from 1.
    pub column: usize,
    /// The character.
    pub character: char,
}

impl fmt::Display for NoFilm {
    fn fmt(&self, to: &mut fmt::Formatter) -> fmt::Result {
        write!(
            to,
            "line {}, column {}: {:?} stands for no film",
            self.line, self.column, self.character
        )
    }
}

impl Error for NoFilm {}

/// The edge list of a bitmap, five numbers for each edge.
///
/// # Errors
///
/// The first character that stands for nothing.
///
/// ```
/// use outline::{pixels, Outlines};
///
/// let sheet = pixels::sheet("#.\n.#\n")?;
/// assert_eq!(Outlines::of(&sheet)?.count(), 2);
/// assert_eq!(pixels::sheet("?").unwrap_err().character, '?');
/// # Ok::<(), Box<dyn std::error::Error>>(())
/// ```
pub fn sheet(bitmap: &str) -> Result<Vec<i32>, NoFilm> {
    let rows: Result<Vec<Vec<Option<u8>>>, NoFilm> = bitmap.lines().enumerate().map(row).collect();
    Ok(write_edges(&from_pixels(&rows?)))
}

/// The cells of a line, which has so many lines above it.
fn row((above, text): (usize, &str)) -> Result<Vec<Option<u8>>, NoFilm> {
    let cell = |(before, character)| {
        film(character).ok_or(NoFilm {
            line: above + 1,
            column: before + 1,
            character,
        })
    };
    text.chars().enumerate().map(cell).collect()
}

/// The film that a character stands for, if any; none where it stands for
/// nothing at all.
fn film(character: char) -> Option<Option<u8>> {
    match character {
        '.' | ' ' => Some(None),
        '#' => Some(Some(0)),
        _ => Some(Some(character.to_digit(FILMS)? as u8)),
    }
}
