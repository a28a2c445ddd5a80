//! Programs for x86-64, started as cargo starts the tests themselves: by the
//! machine, or by the emulator that cargo is told to use for them.

use std::env;
use std::path::{Path, PathBuf};
use std::process::{Child, Command, Stdio};

/// Where cargo is told how to run what it has built for x86-64.
const RUNNER: &str = "CARGO_TARGET_X86_64_UNKNOWN_LINUX_GNU_RUNNER";

/// Where the program `outline` is: what `OUTLINE_PROGRAM` names, or what
/// `tools/build outline` has left in target/bin.
///
/// # Panics
/// When there is none.
pub fn program() -> PathBuf {
    let program = match env::var_os("OUTLINE_PROGRAM") {
        Some(named) => PathBuf::from(named),
        None => Path::new(env!("CARGO_MANIFEST_DIR")).join("../../target/bin/outline"),
    };
    assert!(
        program.is_file(),
        "there is no program at {}: run `tools/build outline` in the repository's root, or name another with OUTLINE_PROGRAM",
        program.display()
    );
    program
}

/// Starts a program with pipes for its input and its output.
///
/// # Panics
/// When it cannot be started.
pub fn start(program: &Path) -> Child {
    let mut command = match env::var_os(RUNNER) {
        Some(runner) => {
            let mut command = Command::new(runner);
            command.arg(program);
            command
        }
        None => Command::new(program),
    };
    let piped = command.stdin(Stdio::piped()).stdout(Stdio::piped());
    let started = piped.spawn();
    started.unwrap_or_else(|error| panic!("cannot start {}: {}", program.display(), error))
}
