//! What the commands have in common that read a sheet and write something of it:
//! their arguments, where a refusal points to, their exit status.

use std::io::{self, Read, Write};
use std::{env, fs};

use outline::{text, Refusal};

/// The sheet is refused.
const REFUSED: i32 = 1;

/// The command was not understood, or reading or writing failed.
const FAILED: i32 = 2;

/// A command.
pub struct Command {
    /// What it is called by.
    pub name: &'static str,
    /// What it says of itself.
    pub usage: &'static str,
    /// What may be asked for, at most one of these at a time.
    pub options: &'static [&'static str],
}

impl Command {
    /// Reads the sheet that the arguments name, and writes what the work makes
    /// of it with the option that they have, if any; gives the exit status.
    pub fn run(&self, work: fn(Option<&str>, &[i32]) -> Result<String, Refusal>) -> i32 {
        let arguments: Vec<String> = env::args().skip(1).collect();
        let words: Vec<&str> = arguments.iter().map(String::as_str).collect();
        if let ["-h"] | ["--help"] = words[..] {
            return self.write(self.usage);
        }
        match self.understood(&words) {
            Ok((option, file)) => match self.read(file) {
                Ok(text) => self.answer(file, &text, |edges| work(option, edges)),
                Err(error) => self.fail(&format!("cannot read {}: {}", shown(file), error)),
            },
            Err(fault) => self.fail(&format!(
                "{}; {} --help says what it takes",
                fault, self.name
            )),
        }
    }

    /// The option and the file that the arguments name, or what is wrong with
    /// them. No file is standard input, and so is `-`.
    fn understood<'a>(&self, words: &[&'a str]) -> Result<(Option<&'a str>, &'a str), String> {
        let (mut option, mut file) = (None, None);
        for word in words.iter().copied() {
            let is_option = word.starts_with('-') && word != "-";
            if is_option && !self.options.contains(&word) {
                return Err(format!("{:?} is not understood", word));
            }
            let taken = if is_option { &mut option } else { &mut file };
            if let Some(before) = taken.replace(word) {
                return Err(format!("{:?} and {:?} do not go together", before, word));
            }
        }
        Ok((option, file.unwrap_or("-")))
    }

    fn read(&self, file: &str) -> io::Result<Vec<u8>> {
        if file != "-" {
            return fs::read(file);
        }
        let mut text = Vec::new();
        io::stdin().lock().read_to_end(&mut text)?;
        Ok(text)
    }

    /// Writes what is made of a sheet, or says why it is refused.
    fn answer<F>(&self, file: &str, text: &[u8], work: F) -> i32
    where
        F: FnOnce(&[i32]) -> Result<String, Refusal>,
    {
        match text::read_sheet(text).and_then(|edges| work(&edges)) {
            Ok(made) => self.write(&made),
            Err(refusal) => {
                let place = place(file, refusal);
                eprintln!("{}: {}: {}", self.name, place, refusal);
                REFUSED
            }
        }
    }

    /// Writes to standard output; gives the exit status.
    fn write(&self, text: &str) -> i32 {
        let mut output = io::stdout().lock();
        let written = output.write_all(text.as_bytes());
        match written.and_then(|()| output.flush()) {
            Ok(()) => 0,
            Err(error) => self.fail(&format!("cannot write: {}", error)),
        }
    }

    fn fail(&self, fault: &str) -> i32 {
        eprintln!("{}: {}", self.name, fault);
        FAILED
    }
}

/// What a file is called.
fn shown(file: &str) -> &str {
    match file {
        "-" => "standard input",
        file => file,
    }
}

/// Where a refusal points to in the text: an edge has a line of its own.
fn place(file: &str, refusal: Refusal) -> String {
    let refused = format!("refused {} {}", refusal.number(), refusal.place());
    match refusal.edge() {
        Some(edge) => format!("{}: {} (line {})", shown(file), refused, edge + 1),
        None => format!("{}: {}", shown(file), refused),
    }
}
