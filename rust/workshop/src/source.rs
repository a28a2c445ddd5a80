//! Where a picture or a sheet is read.

use std::fs;
use std::io::{self, Read};
use std::path::{Path, PathBuf};

/// Where to read.
pub enum Source {
    /// Standard input.
    Input,
    /// A file.
    File(PathBuf),
}

impl Source {
    /// What an argument names: `-` is standard input, and so is none.
    pub fn of(named: Option<PathBuf>) -> Source {
        match named {
            Some(path) if path != Path::new("-") => Source::File(path),
            _ => Source::Input,
        }
    }

    /// What it is called.
    pub fn name(&self) -> String {
        match self {
            Source::Input => "standard input".to_string(),
            Source::File(path) => path.display().to_string(),
        }
    }

    /// All that is there.
    ///
    /// # Errors
    ///
    /// What could not be read, and why.
    pub fn read(&self) -> Result<Vec<u8>, String> {
        let read = match self {
            Source::Input => all_input(),
            Source::File(path) => fs::read(path),
        };
        read.map_err(|error| format!("cannot read {}: {}", self.name(), error))
    }
}

fn all_input() -> io::Result<Vec<u8>> {
    let mut bytes = Vec::new();
    io::stdin().lock().read_to_end(&mut bytes)?;
    Ok(bytes)
}
