//! The program `outline` of document 01 as a function of bytes: the two limits
//! of its input, then the first malformed line, then the numbering with the
//! rows that the program lends, printed last edge first.
//! A line is well formed when single spaces part its five numbers and a newline
//! ends it.

use crate::assemble::{assemble, Answer};
use crate::checks::{Refusal, JOURNAL_NUMBERS_PER_EDGE};
use crate::geometry::NUMBERS_PER_EDGE;
use crate::steps::NUMBERS_PER_ROW;

/// The most bytes that the program reads.
pub const MOST_BYTES: usize = 20_480;

/// The most lines that the program reads.
pub const MOST_LINES: usize = 512;

/// The most digits of one number.
pub const MOST_DIGITS: usize = 7;

/// The rows that the program lends.
pub const PROGRAM_ROWS: usize = 256;

/// What the program prints for this input.
pub fn outline(input: &[u8]) -> Vec<u8> {
    let printed = match read_list(input) {
        Ok(edges) => print_numbers(&edges),
        Err(refusal) => print_refusal(refusal),
    };
    printed.into_bytes()
}

/// The list in the text, or refusal 2 or 15.
pub fn read_list(input: &[u8]) -> Result<Vec<i32>, Refusal> {
    let lines = lines(input);
    if input.len() > MOST_BYTES || lines.len() > MOST_LINES {
        return Err(Refusal::at(2, 0));
    }
    let mut edges = Vec::new();
    for (above, line) in lines.into_iter().enumerate() {
        match read_line(line) {
            Some(edge) => edges.extend(edge),
            None => return Err(Refusal::at(15, above + 1)),
        }
    }
    Ok(edges)
}

/// The lines, each with the newline that ends it; the last may lack one.
fn lines(input: &[u8]) -> Vec<&[u8]> {
    input.split_inclusive(|byte| *byte == b'\n').collect()
}

/// The five numbers of a line, unless it is malformed.
fn read_line(line: &[u8]) -> Option<Vec<i32>> {
    let text = line.strip_suffix(b"\n")?;
    let numbers = text.split(|byte| *byte == b' ').map(read_number);
    let numbers = numbers.collect::<Option<Vec<i32>>>()?;
    Some(numbers).filter(|numbers| numbers.len() == NUMBERS_PER_EDGE)
}

/// A number: perhaps a minus, then 1 to 7 digits, without needless zeros.
fn read_number(text: &[u8]) -> Option<i32> {
    let (negative, digits) = match text.strip_prefix(b"-") {
        Some(digits) => (true, digits),
        None => (false, text),
    };
    let leading_zero = digits.first() == Some(&b'0') && digits.len() > 1;
    let minus_zero = negative && digits == b"0";
    let well_formed = (1..=MOST_DIGITS).contains(&digits.len())
        && digits.iter().all(u8::is_ascii_digit)
        && !leading_zero
        && !minus_zero;
    if !well_formed {
        return None;
    }
    let add = |number: i32, digit: &u8| 10 * number + i32::from(digit - b'0');
    let number = digits.iter().fold(0, add);
    Some(if negative { -number } else { number })
}

/// Numbers the list with the program's rows and prints the answer.
fn print_numbers(list: &[i32]) -> String {
    let edges = list.len() / NUMBERS_PER_EDGE;
    let (mut polygons, mut sequences) = (vec![0; edges], vec![0; edges]);
    let mut turns = vec![0; edges];
    let mut journal = vec![0; JOURNAL_NUMBERS_PER_EDGE * edges];
    let mut rows = vec![0; NUMBERS_PER_ROW * PROGRAM_ROWS];
    let answer = assemble(
        list,
        &mut polygons,
        &mut sequences,
        &mut turns,
        &mut journal,
        &mut rows,
    );
    match answer {
        Answer::Refused(refusal) => print_refusal(refusal),
        Answer::Accepted {
            polygons: count,
            peak,
            records,
        } => {
            let first = format!("accepted {} {} {}\n", count, peak, records);
            let edge =
                |place: usize| format!("{} {} {}\n", place, polygons[place], sequences[place]);
            first + &(0..edges).rev().map(edge).collect::<String>()
        }
    }
}

fn print_refusal(refusal: Refusal) -> String {
    format!("refused {} {}\n", refusal.number, refusal.place)
}
