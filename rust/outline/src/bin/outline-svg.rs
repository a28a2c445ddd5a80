//! `outline-svg`: reads a sheet as text and writes its picture as SVG.

mod command;

use std::process::exit;

use command::Command;
use outline::{picture, Refusal};

const BLADE: &str = "--blade";

const COMMAND: Command = Command {
    name: "outline-svg",
    usage: "\
outline-svg: draw a numbered sheet as SVG

  outline-svg [--blade] [FILE]

reads FILE, or standard input where there is none or it is -, and writes the
picture to standard output. With --blade it is the way of the blade: where it
comes down, where it cuts, and dashed where the head travels with the blade up.

A sheet has a line for each edge: tail x, tail y, head x, head y, film, with one
space between and a newline after, in sweep order. An outline is drawn in the
colour of its film.

Exit status: 0 drawn; 1 the sheet is refused; 2 bad usage, or reading or writing
failed.
",
    options: &[BLADE],
};

fn main() {
    exit(COMMAND.run(drawn));
}

/// The picture of a sheet that was asked for.
fn drawn(option: Option<&str>, edges: &[i32]) -> Result<String, Refusal> {
    match option {
        Some(BLADE) => picture::draw_blade(edges),
        _ => picture::draw(edges),
    }
}
