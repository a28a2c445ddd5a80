//! The commands and their arguments, and the help that shows the whole way.

use std::path::PathBuf;

use clap::builder::{PossibleValuesParser, TypedValueParser};
use clap::{value_parser, Arg, ArgAction, ArgMatches, Command, Error};
use outline::{Machine, LIMIT};

use crate::job::{Given, Job, Made};
use crate::source::Source;
use crate::target::Target;

const ROLL_FEEDER: &str = "roll-feeder";

const THE_WAY: &str = "\
The whole way in one command:

  workshop cut portrait.png --pixel 64 --machine flatbed -o portrait.cut

The same step by step, and what else a sheet is good for:

  workshop sheet portrait.png --pixel 64 -o portrait.txt
  workshop numbers portrait.txt
  workshop draw portrait.txt -o portrait.svg
  workshop draw --blade portrait.txt -o portrait-blade.svg
  workshop instructions portrait.txt --machine roll-feeder -o portrait.cut

Through pipes:

  workshop sheet --pixel 64 <portrait.png | workshop instructions >portrait.cut

A pixel is as wide and high as --pixel says in units of 1/64 mm, so here 1 mm.
Where no file is named, or -, standard input is read and standard output written.
`workshop help COMMAND` says what a picture, a sheet and an instruction are.

Exit status: 0 done; 1 refused, or reading or writing failed: one line says what
and where, and nothing is written; 2 the command was not understood.";

const A_PICTURE: &str = "\
A picture is pixel art, as PNG or as a text of cells; it is seen by the first bytes
which of the two it is. A pixel is one unit wide and high, or as many as --pixel
says. The lowest row stands on y = 0, and film lies to the left of each edge.

PNG: each colour is a film. Films are numbered from 0 in the order in which their
colours are met, row by row from the top, each row from the left; so a picture makes
the same sheet with a palette and without. A pixel with alpha 0 is no film. One that
is partly transparent is refused: film is there or it is not. Up to 256 colours and
4,194,304 pixels; of a picture that moves the first frame is taken.

Cells: a line a row from the top down, a character a pixel: 0 to 9 and a to z for
films 0 to 35, # for film 0 too, . or a space for no film. A text in which every
line is five numbers is a sheet, and refused.

A sheet holds up to 4,096 edges. A picture that has more is refused.";

const A_SHEET: &str = "\
A sheet is a text with a line for each edge: tail x, tail y, head x, head y, film,
with one space between and a newline after, in sweep order: by the y of the higher
end, and at equal y by its x. Up to 4,096 edges. `workshop sheet` makes one of a
picture.";

const AN_INSTRUCTION: &str = "\
An instruction is a line:

  travel 0.03125 0.078125   go to the place with the blade up
  cut 1 -0.5                go to the place with the blade down
  lift                      raise the blade

A place is in millimetres, exact, a unit of the sheet being 1/64 mm. The flatbed
takes x and then y, the roll feeder y and then x negated. Outlines are cut in the
order of their numbers.";

const THE_NUMBERS: &str = "\
The first line is `accepted`, the number of outlines, the most rows in use and the
number of records. Then come the edges from the last to the first, each with its
place in the sheet, its outline and its place round that outline. The program
`outline` prints the same, of sheets of up to 512 lines.";

/// What the arguments ask for.
///
/// # Errors
///
/// What is to be said instead: what is wrong with them, or the help.
pub fn job() -> Result<Job, Error> {
    let matches = command().try_get_matches()?;
    let (name, words) = matches.subcommand().expect("clap wants a command");
    let (given, made) = match name {
        "cut" => (picture(words), Made::Instructions(machine(words))),
        "sheet" => (picture(words), Made::Sheet),
        "numbers" => (Given::Sheet, Made::Numbers),
        "draw" if words.get_flag("blade") => (Given::Sheet, Made::Blade),
        "draw" => (Given::Sheet, Made::Drawing),
        "instructions" => (Given::Sheet, Made::Instructions(machine(words))),
        other => unreachable!("clap knows no command {}", other),
    };
    let file = |name| words.get_one::<PathBuf>(name).cloned();
    Ok(Job {
        given,
        made,
        source: Source::of(file("input")),
        target: Target::of(file("output")),
    })
}

fn picture(words: &ArgMatches) -> Given {
    let pixel = words.get_one::<i32>("pixel").copied().unwrap_or(1);
    Given::Picture { pixel }
}

fn machine(words: &ArgMatches) -> Machine {
    let machine = words.get_one::<Machine>("machine");
    machine.copied().unwrap_or(Machine::Flatbed)
}

fn command() -> Command {
    Command::new("workshop")
        .version(env!("CARGO_PKG_VERSION"))
        .about(
            "From picture to blade: sheets, numbers, drawings and instructions for vinyl cutters",
        )
        .after_help(THE_WAY)
        .subcommand_required(true)
        .arg_required_else_help(true)
        .subcommand(cut())
        .subcommand(sheet())
        .subcommand(numbers())
        .subcommand(draw())
        .subcommand(instructions())
}

fn cut() -> Command {
    Command::new("cut")
        .about("From a picture to instructions, the whole way")
        .arg(input("PICTURE"))
        .arg(pixel_wanted())
        .arg(machine_wanted())
        .arg(output())
        .after_help(format!(
            "Example:\n\n  workshop cut portrait.png --pixel 64 --machine flatbed -o portrait.cut\n\n{}\n\n{}",
            A_PICTURE, AN_INSTRUCTION
        ))
}

fn sheet() -> Command {
    Command::new("sheet")
        .about("From a picture to a sheet")
        .arg(input("PICTURE"))
        .arg(pixel_wanted())
        .arg(output())
        .after_help(format!(
            "Example:\n\n  workshop sheet portrait.png --pixel 64 -o portrait.txt\n\n{}\n\n{}",
            A_PICTURE, A_SHEET
        ))
}

fn numbers() -> Command {
    Command::new("numbers")
        .about("From a sheet to the numbers of its outlines and edges")
        .arg(input("SHEET"))
        .arg(output())
        .after_help(format!(
            "Example:\n\n  workshop numbers portrait.txt\n\n{}\n\n{}",
            THE_NUMBERS, A_SHEET
        ))
}

fn draw() -> Command {
    let blade = Arg::new("blade")
        .long("blade")
        .action(ArgAction::SetTrue)
        .help("Draw the way of the blade instead of the numbers");
    Command::new("draw")
        .about("From a sheet to a drawing of its outlines and numbers, as SVG")
        .arg(input("SHEET"))
        .arg(blade)
        .arg(output())
        .after_help(format!(
            "Example:\n\n  workshop draw portrait.txt -o portrait.svg\n\n{}",
            A_SHEET
        ))
}

fn instructions() -> Command {
    Command::new("instructions")
        .about("From a sheet to instructions")
        .arg(input("SHEET"))
        .arg(machine_wanted())
        .arg(output())
        .after_help(format!(
            "Example:\n\n  workshop instructions portrait.txt --machine roll-feeder -o portrait.cut\n\n{}\n\n{}",
            AN_INSTRUCTION, A_SHEET
        ))
}

fn input(name: &'static str) -> Arg {
    Arg::new("input")
        .value_name(name)
        .value_parser(value_parser!(PathBuf))
        .help("Where to read it; standard input where there is none, or -")
}

fn output() -> Arg {
    Arg::new("output")
        .short('o')
        .long("output")
        .value_name("FILE")
        .value_parser(value_parser!(PathBuf))
        .help("Where to write; standard output where there is none, or -")
}

fn pixel_wanted() -> Arg {
    Arg::new("pixel")
        .long("pixel")
        .value_name("UNITS")
        .value_parser(value_parser!(i32).range(1..=i64::from(LIMIT)))
        .default_value("1")
        .help("How wide and high a pixel is; 64 units are a millimetre")
}

fn machine_wanted() -> Arg {
    let names = PossibleValuesParser::new(["flatbed", ROLL_FEEDER]);
    let machine = |name: String| match name.as_str() {
        ROLL_FEEDER => Machine::RollFeeder,
        _ => Machine::Flatbed,
    };
    Arg::new("machine")
        .short('m')
        .long("machine")
        .value_name("MACHINE")
        .value_parser(names.map(machine))
        .default_value("flatbed")
        .help("The cutter that is told")
}
