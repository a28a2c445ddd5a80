//! A sheet drawn as SVG: every outline in the colour of its film with its number
//! at its top, every edge with an arrow head and its sequence number, a ring
//! round every point where four edges of a film meet, y upwards. Or the way of
//! the blade along the outlines. The same list gives the same bytes on every
//! machine. Needs the feature `std`.

mod blade;
mod canvas;
mod colour;
mod frame;
mod legend;
mod marks;
mod numbers;
mod plane;
mod sheet;

use crate::outlines::Outlines;
use crate::refusal::Refusal;

use blade::Blade;
use canvas::Canvas;
use frame::Frame;
use sheet::Sheet;

/// Lists with more edges than this are drawn without any numbers.
///
/// ```
/// use outline::picture::{draw, MOST_NUMBERED};
///
/// let there_and_back = |y| [[0, y, 9, y, 7], [9, y, 0, y, 7]];
/// let sheet = |edges: i32| -> Vec<i32> { (0..edges / 2).flat_map(there_and_back).flatten().collect() };
/// let numbered = |edges: usize| Ok(draw(&sheet(edges as i32))?.contains("sequences"));
/// assert_eq!(numbered(MOST_NUMBERED), Ok(true));
/// assert_eq!(numbered(MOST_NUMBERED + 2), Ok::<bool, outline::Refusal>(false));
/// ```
pub const MOST_NUMBERED: usize = 400;

/// Numbers a list and draws it.
///
/// # Errors
///
/// The refusals of [`Outlines::of`].
///
/// ```
/// let svg = outline::picture::draw(&[0, 0, 4, 2, 7, 4, 2, 1, 5, 7, 1, 5, 0, 0, 7])?;
/// assert!(svg.starts_with("<svg ") && svg.ends_with("</svg>\n"));
/// # Ok::<(), outline::Refusal>(())
/// ```
pub fn draw(edges: &[i32]) -> Result<String, Refusal> {
    let outlines = Outlines::of(edges)?;
    let sheet = Sheet::new(&outlines);
    let frame = Frame::around(&sheet);
    let mut canvas = Canvas::new(&frame, &title(&sheet, &outlines));
    frame.draw_grid(&mut canvas);
    marks::draw(&sheet, &frame, &mut canvas);
    if frame.numbered {
        numbers::draw(&sheet, &frame, &mut canvas);
    }
    legend::draw(&sheet, &frame, &mut canvas);
    Ok(canvas.finish())
}

/// Numbers a list and draws the way of the blade: a mark where it comes down, a
/// line in the film's colour where it cuts, and a dashed one where the head
/// travels from one outline to the next. From where it travels to the first is
/// not known, and not drawn.
///
/// # Errors
///
/// The refusals of [`Outlines::of`].
///
/// ```
/// let svg = outline::picture::draw_blade(&[0, 0, 4, 2, 7, 4, 2, 1, 5, 7, 1, 5, 0, 0, 7])?;
/// assert!(svg.contains("instructions: 5</title>"));
/// # Ok::<(), outline::Refusal>(())
/// ```
pub fn draw_blade(edges: &[i32]) -> Result<String, Refusal> {
    let outlines = Outlines::of(edges)?;
    let (sheet, blade) = (Sheet::new(&outlines), Blade::of(&outlines));
    let frame = Frame::around(&sheet);
    let title = format!(
        "The way of the blade. {}, instructions: {}",
        title(&sheet, &outlines),
        blade.count
    );
    let mut canvas = Canvas::new(&frame, &title);
    frame.draw_grid(&mut canvas);
    blade.draw(&sheet, &frame, &mut canvas);
    legend::draw_blade(&frame, &mut canvas);
    Ok(canvas.finish())
}

/// What the picture shows, in words.
fn title(sheet: &Sheet, outlines: &Outlines) -> String {
    format!(
        "Outlines: {}, edges: {}, films: {}, touching points: {}, peak: {}, records: {}",
        outlines.count(),
        sheet.edges,
        sheet.films,
        sheet.touching.len(),
        outlines.peak(),
        outlines.records()
    )
}
