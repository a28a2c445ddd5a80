//! The command started as a person would start it, and a folder for its files.
#![allow(dead_code)] // each test file uses a part

use std::io::Write;
use std::path::{Path, PathBuf};
use std::process::{Child, Command, Output, Stdio};
use std::{env, fs, process};

/// Where cargo is told how to run what it has built for x86-64.
const RUNNER: &str = "CARGO_TARGET_X86_64_UNKNOWN_LINUX_GNU_RUNNER";

const WORKSHOP: &str = env!("CARGO_BIN_EXE_workshop");

/// The command with these arguments and with pipes all round.
pub fn workshop(arguments: &[&str]) -> Command {
    let mut command = match env::var_os(RUNNER) {
        Some(runner) => {
            let mut command = Command::new(runner);
            command.arg(WORKSHOP);
            command
        }
        None => Command::new(WORKSHOP),
    };
    command.args(arguments).stdin(Stdio::piped());
    command.stdout(Stdio::piped()).stderr(Stdio::piped());
    command
}

/// What a started command says to this input. It may end without reading it.
pub fn ended(mut child: Child, input: &[u8]) -> Output {
    let _ = child.stdin.take().unwrap().write_all(input);
    child.wait_with_output().unwrap()
}

/// Runs the command with these arguments and this input.
pub fn run(arguments: &[&str], input: &[u8]) -> Output {
    ended(workshop(arguments).spawn().unwrap(), input)
}

/// What the command writes to standard output. It must do as it is told, and say
/// nothing.
pub fn made(arguments: &[&str], input: &[u8]) -> String {
    let output = run(arguments, input);
    assert_eq!(text(&output.stderr), "", "{:?}", arguments);
    assert_eq!(output.status.code(), Some(0), "{:?}", arguments);
    text(&output.stdout)
}

/// The one line that the command says when it fails. It must write nothing.
pub fn fault(arguments: &[&str], input: &[u8]) -> String {
    let output = run(arguments, input);
    assert_eq!(text(&output.stdout), "", "{:?}", arguments);
    line_of(&output)
}

/// The one line of a command that has failed.
pub fn line_of(output: &Output) -> String {
    let said = text(&output.stderr);
    assert_eq!(output.status.code(), Some(1), "{}", said);
    let line = said.strip_suffix('\n').unwrap();
    assert!(!line.contains('\n'), "{}", said);
    let fault = line.strip_prefix("workshop: ");
    fault.unwrap_or_else(|| panic!("{}", line)).to_string()
}

pub fn text(bytes: &[u8]) -> String {
    String::from_utf8(bytes.to_vec()).unwrap()
}

/// A file of the samples.
pub fn sample(name: &str) -> String {
    format!("{}/../../samples/{}", env!("CARGO_MANIFEST_DIR"), name)
}

/// What a file of the samples holds.
pub fn sample_bytes(name: &str) -> Vec<u8> {
    fs::read(sample(name)).unwrap_or_else(|error| panic!("{}: {}", name, error))
}

/// A folder of a test's own, which goes away with it.
pub struct Folder(PathBuf);

impl Folder {
    pub fn new(test: &str) -> Folder {
        let name = format!("{}-{}", test, process::id());
        let path = Path::new(env!("CARGO_TARGET_TMPDIR")).join(name);
        fs::create_dir_all(&path).unwrap();
        Folder(path)
    }

    /// The path of a file in it.
    pub fn file(&self, name: &str) -> String {
        self.0.join(name).to_str().unwrap().to_string()
    }

    /// The path of a file in it that holds these bytes.
    pub fn holding(&self, name: &str, bytes: &[u8]) -> String {
        fs::write(self.file(name), bytes).unwrap();
        self.file(name)
    }

    /// The names of all that is in it.
    pub fn names(&self) -> Vec<String> {
        let name = |entry: fs::DirEntry| entry.file_name().into_string().unwrap();
        let entries = fs::read_dir(&self.0).unwrap();
        let mut names: Vec<String> = entries.map(|entry| name(entry.unwrap())).collect();
        names.sort();
        names
    }
}

impl Drop for Folder {
    fn drop(&mut self) {
        let _ = fs::remove_dir_all(&self.0);
    }
}
