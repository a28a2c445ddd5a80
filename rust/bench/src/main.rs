//! How long the engine takes, beside joining by a hash map with the same checks,
//! by the same map with a fast hasher, and the witness's steps: eight shapes in
//! four sizes and small squares, printed as tables in Markdown. Everything is
//! compared before it is timed. The best of many runs counts; clearing the lent
//! slices is part of the engine's call. And all instructions of the largest
//! sheets, beside plain Rust with the same checks.

mod chart;
mod compare;
mod cutting;
mod hashed;
mod laying;
mod multiplying;
mod plain;
mod rivals;
mod sheets;
mod tables;
mod timing;

use std::env::consts::{ARCH, OS};
use std::path::PathBuf;
use std::process::{exit, Command};
use std::{env, fs};

use tables::Line;

/// How the program is called.
const USAGE: &str = "\
bench [--rounds N] [--first] [--picture FILE]
  --rounds N      rounds in which engine and joiners take turns (11)
  --first         the first table only
  --picture FILE  write the first table's largest sheets to a file, as SVG";

/// What is asked for on the command line.
struct Wishes {
    rounds: usize,
    first_only: bool,
    picture: Option<PathBuf>,
}

impl Wishes {
    /// The wishes of some words, or nothing where they are not understood.
    fn of(mut words: impl Iterator<Item = String>) -> Option<Wishes> {
        let mut wishes = Wishes {
            rounds: 11,
            first_only: false,
            picture: None,
        };
        while let Some(word) = words.next() {
            match word.as_str() {
                "--rounds" => wishes.rounds = words.next()?.parse().ok()?,
                "--first" => wishes.first_only = true,
                "--picture" => wishes.picture = Some(PathBuf::from(words.next()?)),
                _ => return None,
            }
        }
        Some(wishes).filter(|wishes| wishes.rounds > 0)
    }
}

fn main() {
    let wishes = Wishes::of(env::args().skip(1)).unwrap_or_else(|| {
        eprintln!("{}", USAGE);
        exit(2)
    });
    compare::random_sheets(0..2_000);
    compare::damaged_calls(0..200);
    let mut lines = Line::all();
    println!("{}\n", machine());
    let times = tables::assembling(&mut lines, wishes.rounds);
    if let Some(file) = wishes.picture {
        let title = "Numbers and turns of sheets of about 4,096 edges";
        let picture = chart::draw(title, &tables::groups(&lines, &times));
        fs::write(&file, picture).expect("the picture's file can be written");
    }
    if wishes.first_only {
        return;
    }
    tables::witness(&mut lines, &times);
    tables::turn_lists(&mut lines);
    tables::instructions();
    tables::rows(wishes.rounds);
}

/// What the program was built for, what it runs on, and which engine it has.
fn machine() -> String {
    let asked = Command::new("uname").arg("-m").output();
    let machine = asked.map(|output| String::from_utf8_lossy(&output.stdout).trim().to_string());
    let run = match machine {
        Ok(machine) if machine == ARCH => "run natively".to_string(),
        Ok(machine) => format!(
            "run under an emulator on {}: no measure of its speed",
            machine
        ),
        Err(_) => "on a machine that is not known".to_string(),
    };
    let engine = if ARCH == "x86_64" {
        "The engine is its static library."
    } else {
        "The engine is not the archive that is proved, which is for x86-64, but the same code compiled for this machine."
    };
    format!("Built for {} {}, {}. {}", ARCH, OS, run, engine)
}

#[test]
fn words_of_the_command_line() {
    let of = |words: &str| Wishes::of(words.split_whitespace().map(String::from));
    let none = of("").unwrap();
    assert_eq!(
        (none.rounds, none.first_only, none.picture),
        (11, false, None)
    );
    let all = of("--picture a.svg --first --rounds 3").unwrap();
    let picture = Some(PathBuf::from("a.svg"));
    assert_eq!(
        (all.rounds, all.first_only, all.picture),
        (3, true, picture)
    );
    for wrong in ["--rounds", "--rounds x", "--rounds 0", "--picture", "first"] {
        assert!(of(wrong).is_none(), "{}", wrong);
    }
}
