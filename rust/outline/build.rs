//! Finds the engine's static library for the target, or makes it, and links it.
//! In order:
//!
//! 1. the file that the variable `OUTLINE_ARCHIVE` names, for any target;
//! 2. what the command that makes it has left in the repository, where it is
//!    newer than every source: `tools/build desk` for x86-64 Linux, and
//!    `arm/build` for Arm Linux;
//! 3. the one in `dist/`, where it was made from the sources as they are now;
//! 4. a run of that command, which needs the Rattle toolchain.
//!
//! The library is copied beside what is built, under the name that the linker
//! is given, so that the file may have any name and may go away afterwards.

use std::path::{Path, PathBuf};
use std::process::{exit, Command};
use std::time::SystemTime;
use std::{env, fs};

/// Where a caller says that the archive is.
const VARIABLE: &str = "OUTLINE_ARCHIVE";

/// The name that the linker is given.
const NAME: &str = "desk";

/// What the archive is made from, seen from the repository's root.
const SOURCES: [&str; 2] = ["crates.txt", "crates"];

/// What makes the archive for a kind of machine, and where it leaves it.
struct Maker {
    program: &'static str,
    words: &'static [&'static str],
    made: &'static str,
}

const X86_64: Maker = Maker {
    program: "tools/build",
    words: &[NAME],
    made: "target/staticlib/libdesk.a",
};

const ARM: Maker = Maker {
    program: "arm/build",
    words: &["--archive", "target/arm"],
    made: "target/arm/libdesk.a",
};

fn main() {
    println!("cargo:rerun-if-env-changed={}", VARIABLE);
    println!("cargo:rerun-if-changed=build.rs");
    match archive().and_then(|archive| link(&archive)) {
        Ok(()) => {}
        Err(message) => {
            eprintln!("\noutline: {}\n", message);
            exit(1);
        }
    }
}

/// The archive to link.
fn archive() -> Result<PathBuf, String> {
    if let Some(named) = env::var_os(VARIABLE) {
        return existing(PathBuf::from(named));
    }
    let (kind, system) = (
        variable("CARGO_CFG_TARGET_ARCH")?,
        variable("CARGO_CFG_TARGET_OS")?,
    );
    let maker = match (kind.as_str(), system.as_str()) {
        ("x86_64", "linux") => X86_64,
        ("aarch64", "linux") => ARM,
        _ => return Err(wrong_target(&variable("TARGET")?)),
    };
    let root = root()?;
    let made = root.join(maker.made);
    let ready = root.join("dist").join(kind).join("libdesk.a");
    for source in SOURCES {
        println!("cargo:rerun-if-changed={}", root.join(source).display());
    }
    let newer = |at: SystemTime| SOURCES.iter().all(|source| older(&root.join(source), at));
    if written(&made).map_or(false, newer) {
        return existing(made);
    }
    if ready.is_file() && dist_fits(&root) {
        return existing(ready);
    }
    make(&root, &maker)?;
    existing(made)
}

/// The repository's root, two folders above this crate.
fn root() -> Result<PathBuf, String> {
    let here = PathBuf::from(variable("CARGO_MANIFEST_DIR")?);
    match here.parent().and_then(Path::parent) {
        Some(root) => Ok(root.to_path_buf()),
        None => Err(format!("{} has no folder above it", here.display())),
    }
}

/// Whether `dist/` was made from the sources as they are now, as `./outline`
/// tells. Where that script cannot run, it is taken as it was handed over.
fn dist_fits(root: &Path) -> bool {
    let run = Command::new(root.join("outline")).arg("--sources").output();
    match (run, fs::read(root.join("dist/SOURCES"))) {
        (Ok(now), Ok(then)) if now.status.success() => now.stdout == then,
        (_, then) => then.is_ok(),
    }
}

/// When a file was written last.
fn written(file: &Path) -> Option<SystemTime> {
    fs::metadata(file).and_then(|file| file.modified()).ok()
}

/// Whether a file, or everything in a folder, was written before this time.
/// Edits that must fail and what the prover leaves in `out` are no part of what
/// is built.
fn older(path: &Path, than: SystemTime) -> bool {
    match fs::read_dir(path) {
        Ok(_) if path.ends_with("must-fail") || path.ends_with("out") => true,
        Ok(entries) => entries.flatten().all(|entry| older(&entry.path(), than)),
        Err(_) => written(path).map_or(false, |at| at < than),
    }
}

/// Has the archive made from the sources, which are proved on the way.
fn make(root: &Path, maker: &Maker) -> Result<(), String> {
    let run = Command::new(root.join(maker.program))
        .args(maker.words)
        .current_dir(root)
        .output();
    let command = format!("{} {}", maker.program, maker.words.join(" "));
    let output = run.map_err(|error| no_maker(root, maker, &command, &error.to_string()))?;
    if output.status.success() {
        return Ok(());
    }
    let said = [output.stdout, output.stderr].concat();
    let said = String::from_utf8_lossy(&said).into_owned();
    Err(format!(
        "there is no {}, what dist/ has was made from other sources, and `{}` did not make it; it said:\n\n{}",
        root.join(maker.made).display(),
        command,
        said.trim_end()
    ))
}

/// Copies the archive to the build's own folder and links it from there.
fn link(archive: &Path) -> Result<(), String> {
    let folder = PathBuf::from(variable("OUT_DIR")?);
    let copy = folder.join(format!("lib{}.a", NAME));
    fs::copy(archive, &copy)
        .map_err(|error| format!("cannot copy {}: {}", archive.display(), error))?;
    println!("cargo:rerun-if-changed={}", archive.display());
    println!("cargo:rustc-link-search=native={}", folder.display());
    println!("cargo:rustc-link-lib=static={}", NAME);
    println!("cargo:archive={}", copy.display());
    Ok(())
}

/// The file, made absolute, if it is there.
fn existing(archive: PathBuf) -> Result<PathBuf, String> {
    let missing = |error| {
        let archive = archive.display();
        format!("there is no engine's static library at {}: {}. Name it with {}, by its whole path, or unset that variable: dist/ has one", archive, error, VARIABLE)
    };
    archive.canonicalize().map_err(missing)
}

fn variable(name: &str) -> Result<String, String> {
    env::var(name).map_err(|_| format!("cargo has not set {}", name))
}

fn no_maker(root: &Path, maker: &Maker, command: &str, error: &str) -> String {
    format!(
        "the engine's static library is missing, what dist/ has was made from other sources, and the command\n\
         that makes it anew is missing too.\n\
         \n  looked for  {}\n  tried       {} ({})\n\n\
         Either install the Rattle toolchain, so that `rt` is on the PATH, and build again;\n\
         or take libdesk.a from a machine that has it, and set {} to its path.",
        root.join(maker.made).display(),
        command,
        error,
        VARIABLE
    )
}

fn wrong_target(target: &str) -> String {
    format!(
        "the engine's static library is for x86-64 and Arm Linux (x86_64 and aarch64), and this build is for {}.\n\
         An archive for this target, if you have one, is taken where {} names it.",
        target, VARIABLE
    )
}
