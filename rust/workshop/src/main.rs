//! `workshop`: from picture to blade. A picture of pixels becomes a sheet of
//! edges; a sheet becomes numbers, a drawing, or instructions for a cutter; and
//! one command goes all the way. Everything is made before anything is written,
//! so that a refusal leaves nothing behind.

mod arguments;
mod job;
mod picture;
mod png_picture;
mod sheet;
mod source;
mod target;

use std::io::{self, Write};
use std::process::exit;

use target::Target;

/// What was asked for could not be done.
const FAILED: i32 = 1;

/// The arguments were not understood.
const MISUSED: i32 = 2;

fn main() {
    exit(match arguments::job() {
        Ok(job) => status(job.done()),
        Err(answer) if answer.use_stderr() => {
            say(&answer.render().to_string());
            MISUSED
        }
        Err(help) => status(Target::Output.write(&help.render().to_string())),
    })
}

/// The exit status of what was done; a fault is said in one line.
fn status(done: Result<(), String>) -> i32 {
    match done {
        Ok(()) => 0,
        Err(fault) => {
            let in_one_line = fault.replace(char::is_control, " ");
            say(&format!("workshop: {}\n", in_one_line));
            FAILED
        }
    }
}

/// Says something to the person at the machine. Where that is not possible
/// there is nobody left to tell.
fn say(text: &str) {
    let _ = io::stderr().write_all(text.as_bytes());
}
