//! Where what is made is written. A file is written beside its place under
//! another name, and takes its place when it is whole: so there is the old one or
//! the new one, and never a part.

use std::ffi::OsString;
use std::fs::{self, File, OpenOptions, Permissions};
use std::io::{self, Write};
use std::path::{Path, PathBuf};
use std::process;

/// Where to write.
pub enum Target {
    /// Standard output.
    Output,
    /// A file.
    File(PathBuf),
}

impl Target {
    /// What an argument names: `-` is standard output, and so is none.
    pub fn of(named: Option<PathBuf>) -> Target {
        match named {
            Some(path) if path != Path::new("-") => Target::File(path),
            _ => Target::Output,
        }
    }

    /// Writes a text.
    ///
    /// # Errors
    ///
    /// What could not be written, and why. A file is then as it was.
    pub fn write(&self, text: &str) -> Result<(), String> {
        let (name, written) = match self {
            Target::Output => {
                let written = write_all(&mut io::stdout().lock(), text);
                ("standard output".to_string(), written)
            }
            Target::File(path) => (path.display().to_string(), write_file(path, text)),
        };
        written.map_err(|error| format!("cannot write {}: {}", name, error))
    }
}

fn write_all(to: &mut impl Write, text: &str) -> io::Result<()> {
    to.write_all(text.as_bytes())?;
    to.flush()
}

/// Writes a file. A link stands for the file that it leads to. What is no plain
/// file, a pipe or a device, is written as it stands: it cannot be replaced.
fn write_file(path: &Path, text: &str) -> io::Result<()> {
    let path = fs::canonicalize(path).unwrap_or_else(|_| path.to_path_buf());
    match fs::metadata(&path) {
        Ok(there) if there.is_file() => replace(&path, text, Some(there.permissions())),
        Ok(_) => write_all(&mut OpenOptions::new().write(true).open(&path)?, text),
        Err(_) => replace(&path, text, None),
    }
}

/// Puts a whole file in a place, with the permissions that it had there.
fn replace(path: &Path, text: &str, permissions: Option<Permissions>) -> io::Result<()> {
    let draft = draft(path);
    let mut file = OpenOptions::new()
        .write(true)
        .create_new(true)
        .open(&draft)?;
    let placed = finish(&mut file, text, permissions).and_then(|()| fs::rename(&draft, path));
    if placed.is_err() {
        // That it is gone matters less than what went wrong before.
        let _ = fs::remove_file(&draft);
    }
    placed
}

/// Writes the draft to its end, so that it is on the disk before it is placed.
fn finish(file: &mut File, text: &str, permissions: Option<Permissions>) -> io::Result<()> {
    write_all(file, text)?;
    if let Some(permissions) = permissions {
        file.set_permissions(permissions)?;
    }
    file.sync_all()
}

/// The name beside a file's own under which it is written.
fn draft(path: &Path) -> PathBuf {
    let mut name = OsString::from(".");
    name.push(path.file_name().unwrap_or_default());
    name.push(format!(".{}.part", process::id()));
    path.with_file_name(name)
}
