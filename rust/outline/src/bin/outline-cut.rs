//! `outline-cut`: reads a sheet as text and writes what a cutter is told, an
//! instruction a line.

mod command;

use std::process::exit;

use command::Command;
use outline::text::write_instructions;
use outline::{Machine, Outlines, Refusal};

const ROLL_FEEDER: &str = "--roll-feeder";

const COMMAND: Command = Command {
    name: "outline-cut",
    usage: "\
outline-cut: print what a cutter is told to cut a sheet

  outline-cut [--flatbed | --roll-feeder] [FILE]

reads FILE, or standard input where there is none or it is -, and writes an
instruction a line to standard output:

  travel 0.03125 0.078125   go to the place with the blade up
  cut 1 -0.5                go to the place with the blade down
  lift                      raise the blade

A place is in millimetres, exact, a unit of the sheet being 1/64 mm. The flatbed,
which is meant where no machine is named, takes x and then y; the roll feeder
takes y and then x negated.

A sheet has a line for each edge: tail x, tail y, head x, head y, film, with one
space between and a newline after, in sweep order. Its outlines are cut in the
order of their numbers.

Exit status: 0 printed; 1 the sheet is refused; 2 bad usage, or reading or writing
failed.
",
    options: &["--flatbed", ROLL_FEEDER],
};

fn main() {
    exit(COMMAND.run(told));
}

/// The instructions of a sheet for the machine that was asked for.
fn told(option: Option<&str>, edges: &[i32]) -> Result<String, Refusal> {
    let machine = match option {
        Some(ROLL_FEEDER) => Machine::RollFeeder,
        _ => Machine::Flatbed,
    };
    Ok(write_instructions(&Outlines::of(edges)?, machine))
}
