//! Sheets as text, in the form that the program `outline` reads: a line an
//! edge, five whole numbers with one space between, a newline after. The
//! program's own limits, 512 lines and 20,480 bytes, are not kept here; a list
//! may be as long as the engine takes it. And what is made of a sheet as text:
//! its numbers, as that program prints them, and its instructions. Needs the
//! feature `std`.

use crate::instructions::{Instruction, Machine};
use crate::outlines::Outlines;
use crate::refusal::Refusal;
use crate::NUMBERS_PER_EDGE;

/// The most digits of a number.
///
/// ```
/// use outline::text::{read_sheet, MOST_DIGITS};
///
/// let line = |digits| format!("{} 0 0 0 7\n", "1".repeat(digits));
/// assert!(read_sheet(line(MOST_DIGITS).as_bytes()).is_ok());
/// assert!(read_sheet(line(MOST_DIGITS + 1).as_bytes()).is_err());
/// ```
pub const MOST_DIGITS: usize = 7;

/// The edge list in a text.
///
/// # Errors
///
/// Refusal 15 with the first malformed line.
///
/// ```
/// use outline::text::read_sheet;
/// use outline::Refusal;
///
/// assert_eq!(read_sheet(b"0 0 1 1 7\n1 1 0 0 7\n"), Ok(vec![0, 0, 1, 1, 7, 1, 1, 0, 0, 7]));
/// assert_eq!(read_sheet(b"0 0 1 1 7\n1 1 0 0\n"), Err(Refusal::Malformed { line: 2 }));
/// ```
pub fn read_sheet(text: &[u8]) -> Result<Vec<i32>, Refusal> {
    let mut edges = Vec::new();
    let lines = text.split_inclusive(|byte| *byte == b'\n');
    for (above, line) in lines.enumerate() {
        let edge = read_line(line).ok_or(Refusal::Malformed {
            line: above as u32 + 1,
        })?;
        edges.extend(edge);
    }
    Ok(edges)
}

/// The five numbers of a line, unless it is malformed.
fn read_line(line: &[u8]) -> Option<[i32; NUMBERS_PER_EDGE]> {
    let text = line.strip_suffix(b"\n")?;
    let mut words = text.split(|byte| *byte == b' ');
    let mut edge = [0; NUMBERS_PER_EDGE];
    for number in &mut edge {
        *number = read_number(words.next()?)?;
    }
    match words.next() {
        Some(_) => None,
        None => Some(edge),
    }
}

/// A number: perhaps a minus, then one to seven digits. Zero has one digit and
/// no minus, and no other number begins with it.
fn read_number(word: &[u8]) -> Option<i32> {
    let (sign, digits) = match word {
        [b'-', digits @ ..] => (-1, digits),
        digits => (1, digits),
    };
    let zero = digits.first() == Some(&b'0') && word != b"0";
    if zero || digits.is_empty() || digits.len() > MOST_DIGITS {
        return None;
    }
    let mut number = 0;
    for digit in digits {
        if !digit.is_ascii_digit() {
            return None;
        }
        number = 10 * number + i32::from(digit - b'0');
    }
    Some(sign * number)
}

/// An edge list as text; numbers left over after the last whole edge are left
/// out.
///
/// ```
/// assert_eq!(outline::text::write_sheet(&[0, 0, -1, 1, 7]), "0 0 -1 1 7\n");
/// ```
#[must_use]
pub fn write_sheet(edges: &[i32]) -> String {
    let line = |edge: &[i32]| {
        let words: Vec<String> = edge.iter().map(i32::to_string).collect();
        words.join(" ") + "\n"
    };
    edges.chunks_exact(NUMBERS_PER_EDGE).map(line).collect()
}

/// The numbers of a sheet as the program `outline` prints them: `accepted`, how
/// many outlines there are, the most rows in use and how many records; then the
/// edges from the last to the first, each with its place, outline and sequence
/// number.
///
/// ```
/// use outline::{text::write_numbers, Outlines};
///
/// let triangle = Outlines::of(&[0, 0, 4, 2, 7, 4, 2, 1, 5, 7, 1, 5, 0, 0, 7])?;
/// assert_eq!(write_numbers(&triangle), "accepted 1 1 4\n2 1 0\n1 1 2\n0 1 1\n");
/// # Ok::<(), outline::Refusal>(())
/// ```
#[must_use]
pub fn write_numbers(outlines: &Outlines) -> String {
    let (count, peak, records) = (outlines.count(), outlines.peak(), outlines.records());
    let head = format!("accepted {} {} {}\n", count, peak, records);
    let edges = outlines.polygons().iter().zip(outlines.sequences());
    let line = |(place, (polygon, sequence))| format!("{} {} {}\n", place, polygon, sequence);
    let lines = edges.enumerate().rev().map(line);
    [head].into_iter().chain(lines).collect()
}

/// What a machine is told to cut a sheet, an instruction a line.
///
/// ```
/// use outline::{text::write_instructions, Machine, Outlines};
///
/// let there_and_back = Outlines::of(&[0, 0, 64, 128, 7, 64, 128, 0, 0, 7])?;
/// let told = write_instructions(&there_and_back, Machine::RollFeeder);
/// assert_eq!(told, "travel 2 -1\ncut 0 0\ncut 2 -1\nlift\n");
/// # Ok::<(), outline::Refusal>(())
/// ```
#[must_use]
pub fn write_instructions(outlines: &Outlines, machine: Machine) -> String {
    let line = |instruction: Instruction| format!("{}\n", instruction);
    outlines.instructions(machine).map(line).collect()
}
