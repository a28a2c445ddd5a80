//! Programs in C that include the header and are linked with an archive, for
//! this kind of machine or for Arm, and what they print.

use std::fs;
use std::io::{Read, Write};
use std::path::{Path, PathBuf};
use std::process::{Command, Stdio};
use std::thread;

use crate::process::start;

/// The kind of machine that a program is for.
#[derive(Clone, Copy, PartialEq, Eq, Debug)]
pub enum Kind {
    /// That of the tests, x86-64.
    Own,
    /// Arm Linux.
    Arm,
}

/// A file of the repository, by its path from the root.
pub fn of_repository(path: &str) -> PathBuf {
    Path::new(env!("CARGO_MANIFEST_DIR"))
        .join("../..")
        .join(path)
}

/// Compiles a C program with the header and this archive; gives the compiler's
/// complaint, or nothing where there is no such compiler.
fn compile(kind: Kind, name: &str, source: &Path, archive: &Path, to: &Path) -> Option<String> {
    let mut compiler = Command::new(name);
    // The emulator has no C library for Arm to load.
    compiler.args(match kind {
        Kind::Own => &[][..],
        Kind::Arm => &["-static"][..],
    });
    let output = compiler
        .args(["-std=c99", "-pedantic", "-Wall", "-Wextra", "-Werror", "-I"])
        .arg(of_repository("include"))
        .arg(source)
        .arg(archive)
        .arg("-o")
        .arg(to)
        .output()
        .ok()?;
    Some(String::from_utf8_lossy(&output.stderr).into_owned())
}

/// A C program with the header, compiled in a folder without a complaint and
/// linked with this archive.
///
/// # Panics
/// When it cannot be compiled.
pub fn compiled(kind: Kind, folder: &Path, name: &str, text: &str, archive: &Path) -> PathBuf {
    let name = format!("{name}-{kind:?}");
    let (source, program) = (folder.join(format!("{name}.c")), folder.join(name));
    fs::write(&source, text).unwrap();
    let own = format!("{}-linux-gnu-gcc", std::env::consts::ARCH);
    let compilers = match kind {
        Kind::Own => vec![own.as_str(), "gcc", "cc"],
        Kind::Arm => vec!["aarch64-linux-gnu-gcc"],
    };
    let complaint = compilers
        .iter()
        .find_map(|compiler| compile(kind, compiler, &source, archive, &program));
    assert_eq!(complaint.expect("a C compiler: .ci/setup installs it"), "");
    program
}

/// What starts a program for Arm: the machine, or the emulator.
///
/// # Panics
/// When the machine does not say what it is.
pub fn arm_command(program: &Path) -> Command {
    let machine = Command::new("uname").arg("-m").output().unwrap().stdout;
    if machine == b"aarch64\n" {
        return Command::new(program);
    }
    let mut command = Command::new("qemu-aarch64");
    command.arg(program);
    command
}

/// What a program prints for an input. It must end well.
///
/// # Panics
/// When it cannot be run, or fails.
pub fn printed(kind: Kind, program: &Path, input: Vec<u8>) -> Vec<u8> {
    let mut child = match kind {
        Kind::Own => start(program),
        Kind::Arm => arm_command(program)
            .stdin(Stdio::piped())
            .stdout(Stdio::piped())
            .spawn()
            .expect("an emulator: .ci/setup installs it"),
    };
    let mut stdin = child.stdin.take().unwrap();
    // The program may have seen enough and gone.
    let writing = thread::spawn(move || stdin.write_all(&input).is_ok());
    let mut output = Vec::new();
    let mut stdout = child.stdout.take().unwrap();
    stdout.read_to_end(&mut output).unwrap();
    let _ = writing.join().unwrap();
    let status = child.wait().unwrap();
    assert!(status.success(), "{}: {}", program.display(), status);
    output
}
