//! The README's commands are run as they stand, in a folder that has what the
//! repository has, and print what the README shows below them.

use std::fs;
use std::io;
use std::os::unix::fs::{symlink, PermissionsExt};
use std::path::{Path, PathBuf};
use std::process::Command;

/// A fenced block of the README: its language and its lines.
struct Block {
    language: String,
    lines: Vec<String>,
}

/// A command with what it prints.
struct Step {
    command: String,
    shown: String,
}

/// The repository.
fn repository() -> PathBuf {
    let here = Path::new(env!("CARGO_MANIFEST_DIR"));
    here.join("../..").canonicalize().unwrap()
}

/// The fenced blocks of a text.
fn blocks(text: &str) -> Vec<Block> {
    let mut blocks: Vec<Block> = Vec::new();
    let mut inside = false;
    for line in text.lines() {
        match line.strip_prefix("```") {
            Some(_) if inside => inside = false,
            Some(language) => {
                inside = true;
                blocks.push(Block {
                    language: language.to_string(),
                    lines: Vec::new(),
                });
            }
            None if inside => blocks.last_mut().unwrap().lines.push(line.to_string()),
            None => {}
        }
    }
    assert!(!inside, "a block is not closed");
    blocks
}

/// The README's blocks in a language.
fn readme(language: &str) -> Vec<Block> {
    let text = fs::read_to_string(repository().join("README.md")).unwrap();
    let wanted = |block: &Block| block.language == language;
    blocks(&text).into_iter().filter(wanted).collect()
}

/// The commands of a console block: each line after a dollar, and what is shown
/// up to the next one.
fn steps(block: &Block) -> Vec<Step> {
    let mut steps: Vec<Step> = Vec::new();
    for line in &block.lines {
        match line.strip_prefix("$ ") {
            Some(command) => steps.push(Step {
                command: command.to_string(),
                shown: String::new(),
            }),
            None => {
                let step = steps.last_mut().expect("a command comes first");
                step.shown += line;
                step.shown.push('\n');
            }
        }
    }
    steps
}

/// A folder of its own with links to all that the repository has. It is removed
/// when it is done with.
struct Copy(PathBuf);

impl Copy {
    fn new() -> io::Result<Copy> {
        let folder = std::env::temp_dir().join(format!("readme-{}", std::process::id()));
        fs::create_dir_all(folder.join("bin"))?;
        for entry in fs::read_dir(repository())? {
            let entry = entry?;
            symlink(entry.path(), folder.join(entry.file_name()))?;
        }
        Ok(Copy(folder))
    }

    /// Makes a program of this name that runs another.
    fn command(&self, name: &str, runs: &str) -> io::Result<()> {
        let file = self.0.join("bin").join(name);
        fs::write(&file, format!("#!/bin/sh\nexec {} \"$@\"\n", runs))?;
        fs::set_permissions(&file, fs::Permissions::from_mode(0o755))
    }

    /// Runs a command; gives its status and all that it prints, as a terminal
    /// shows it.
    fn run(&self, command: &str) -> (bool, String) {
        let path = std::env::var("PATH").unwrap();
        let output = Command::new("bash")
            .args(["-c", &format!("exec 2>&1\n{}", command)])
            .current_dir(&self.0)
            .env("PATH", format!("{}:{}", self.0.join("bin").display(), path))
            .output()
            .unwrap();
        let printed = String::from_utf8(output.stdout).unwrap();
        (output.status.success(), printed)
    }
}

impl Drop for Copy {
    fn drop(&mut self) {
        // What is left behind in the system's folder for such things does no harm.
        let _ = fs::remove_dir_all(&self.0);
    }
}

/// Builds the tool, which is a workspace of its own, and says how it is run.
fn workshop() -> String {
    let root = repository();
    let built = Command::new(root.join(".ci/cargo"))
        .args(["build", "--quiet"])
        .env("WORKSPACE", "rust/workshop")
        .env_remove("CARGO_TARGET_DIR")
        .status()
        .unwrap();
    assert!(built.success(), "the tool was not built");
    let folder = root.join("rust/workshop/target");
    let native = folder.join("debug/workshop");
    let emulated = folder.join("x86_64-unknown-linux-gnu/debug/workshop");
    if emulated.exists() {
        format!("qemu-x86_64 {}", emulated.display())
    } else {
        native.display().to_string()
    }
}

#[test]
fn commands_print_what_is_shown() {
    let copy = Copy::new().unwrap();
    copy.command("workshop", &workshop()).unwrap();
    let program = &readme("c")[0];
    fs::write(copy.0.join("program.c"), program.lines.join("\n")).unwrap();
    let console = readme("console");
    let steps: Vec<Step> = console.iter().flat_map(steps).collect();
    assert!(steps.len() >= 10, "{} commands", steps.len());
    for step in &steps {
        let (success, printed) = copy.run(&step.command);
        assert_eq!(printed, step.shown, "{}", step.command);
        assert!(success || !step.shown.is_empty(), "{}", step.command);
    }
}

/// What takes minutes is shown in blocks of their own, and is there.
#[test]
fn slow_commands_are_there() {
    let slow = readme("sh");
    let words = slow.iter().flat_map(|block| &block.lines);
    let programs: Vec<&str> = words.filter_map(|line| line.split(' ').next()).collect();
    assert_eq!(programs, ["./outline", ".ci/run"]);
    for program in programs {
        let mode = fs::metadata(repository().join(program))
            .unwrap()
            .permissions();
        assert_eq!(mode.mode() & 0o111, 0o111, "{}", program);
    }
}

#[test]
fn blocks_and_steps_of_a_text() {
    let text = "words\n```console\n$ one\nshown\n$ two\n```\n```sh\nthree\n```\n";
    let found = blocks(text);
    assert_eq!(found.len(), 2);
    assert_eq!(
        (found[1].language.as_str(), &found[1].lines[0]),
        ("sh", &"three".to_string())
    );
    let steps = steps(&found[0]);
    let told: Vec<(&str, &str)> = steps
        .iter()
        .map(|s| (s.command.as_str(), s.shown.as_str()))
        .collect();
    assert_eq!(told, [("one", "shown\n"), ("two", "")]);
}
