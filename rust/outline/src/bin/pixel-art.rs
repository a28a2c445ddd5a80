//! `pixel-art`: makes a sheet of a bitmap, as `outline::pixels` says. A character
//! that stands for nothing is refused, with its place.
//!
//! ```text
//! pixel-art samples/portrait.pixels > samples/portrait.txt
//! ```

use std::io::{self, Read, Write};
use std::process::exit;
use std::{env, fs};

use outline::pixels::sheet;
use outline::text::write_sheet;

fn main() {
    let arguments: Vec<String> = env::args().skip(1).collect();
    let (name, read) = match arguments.iter().map(String::as_str).collect::<Vec<_>>()[..] {
        [] | ["-"] => ("standard input", read_input()),
        [file] if !file.starts_with('-') => (file, fs::read_to_string(file)),
        _ => {
            eprintln!("usage: pixel-art [FILE]");
            exit(2)
        }
    };
    let bitmap = read.unwrap_or_else(|error| {
        eprintln!("pixel-art: cannot read {}: {}", name, error);
        exit(2)
    });
    match sheet(&bitmap) {
        Ok(edges) => write(&write_sheet(&edges)),
        Err(fault) => {
            eprintln!("pixel-art: {}: {}", name, fault);
            exit(1)
        }
    }
}

/// All of standard input.
fn read_input() -> io::Result<String> {
    let mut text = String::new();
    io::stdin().lock().read_to_string(&mut text)?;
    Ok(text)
}

/// Writes to standard output, or says that it cannot.
fn write(text: &str) {
    let mut output = io::stdout().lock();
    let written = output.write_all(text.as_bytes());
    if let Err(error) = written.and_then(|()| output.flush()) {
        eprintln!("pixel-art: cannot write: {}", error);
        exit(2)
    }
}
