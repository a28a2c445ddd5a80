//! The commands `outline-svg`, `outline-cut` and `pixel-art`: what they write
//! where, and their exit status.

use std::env;
use std::io::Write;
use std::os::unix::io::OwnedFd;
use std::os::unix::net::UnixStream;
use std::process::{Child, Command, Output, Stdio};

/// Where cargo is told how to run what it has built for x86-64.
const RUNNER: &str = "CARGO_TARGET_X86_64_UNKNOWN_LINUX_GNU_RUNNER";

/// The commands.
const SVG: &str = env!("CARGO_BIN_EXE_outline-svg");
const CUT: &str = env!("CARGO_BIN_EXE_outline-cut");
const PIXELS: &str = env!("CARGO_BIN_EXE_pixel-art");

/// Starts a command with these arguments, a pipe for its input, and this for its
/// output.
fn started(command: &str, arguments: &[&str], output: Stdio) -> Child {
    let words = [env::var(RUNNER).unwrap_or_default()];
    let runner = words
        .iter()
        .map(String::as_str)
        .filter(|word| !word.is_empty());
    let mut words = runner.chain([command]);
    Command::new(words.next().unwrap())
        .args(words)
        .args(arguments)
        .stdin(Stdio::piped())
        .stdout(output)
        .stderr(Stdio::piped())
        .spawn()
        .unwrap()
}

/// Runs a command with these arguments and this input.
fn run(command: &str, arguments: &[&str], input: &[u8]) -> Output {
    let mut child = started(command, arguments, Stdio::piped());
    child.stdin.take().unwrap().write_all(input).unwrap();
    child.wait_with_output().unwrap()
}

fn text(bytes: &[u8]) -> String {
    String::from_utf8_lossy(bytes).into_owned()
}

const TRIANGLE: &[u8] = b"0 0 4 2 0\n4 2 1 5 0\n1 5 0 0 0\n";

#[test]
fn a_picture_from_standard_input() {
    let edges = outline::text::read_sheet(TRIANGLE).unwrap();
    let drawn = outline::picture::draw(&edges).unwrap();
    for arguments in [&[][..], &["-"][..]] {
        let output = run(SVG, arguments, TRIANGLE);
        assert_eq!(output.status.code(), Some(0));
        assert_eq!(text(&output.stdout), drawn);
        assert_eq!(text(&output.stderr), "");
    }
}

#[test]
fn a_picture_from_a_file() {
    let sample = concat!(env!("CARGO_MANIFEST_DIR"), "/../../samples/touching.txt");
    let output = run(SVG, &[sample], b"");
    assert_eq!(output.status.code(), Some(0));
    assert!(text(&output.stdout).starts_with("<svg "));
}

#[test]
fn a_refused_sheet() {
    let output = run(SVG, &[], b"0 0 4 2 0\n4 2 1 5 0\n");
    assert_eq!(output.status.code(), Some(1));
    assert_eq!(text(&output.stdout), "");
    let message = text(&output.stderr);
    let begin = "outline-svg: standard input: refused 9 0 (line 1): edge 0 (counted from 0) has ";
    assert!(message.starts_with(begin), "{}", message);
    let output = run(SVG, &[], b"0 0 4 2 0\n4 2 1,5 0\n");
    assert_eq!(output.status.code(), Some(1));
    let message = text(&output.stderr);
    let begin = "outline-svg: standard input: refused 15 2: line 2 is malformed (refusal 15, ";
    assert!(message.starts_with(begin), "{}", message);
}

#[test]
fn the_way_of_the_blade() {
    let edges = outline::text::read_sheet(TRIANGLE).unwrap();
    let drawn = outline::picture::draw_blade(&edges).unwrap();
    let output = run(SVG, &["--blade"], TRIANGLE);
    assert_eq!(output.status.code(), Some(0));
    assert_eq!(text(&output.stdout), drawn);
}

const FLATBED: &str = "\
travel 0.015625 0.078125
cut 0 0
cut 0.0625 0.03125
cut 0.015625 0.078125
lift
";

const ROLL_FEEDER: &str = "\
travel 0.078125 -0.015625
cut 0 0
cut 0.03125 -0.0625
cut 0.078125 -0.015625
lift
";

#[test]
fn instructions_from_standard_input() {
    let cases = [
        (&[][..], FLATBED),
        (&["-"][..], FLATBED),
        (&["--flatbed"][..], FLATBED),
        (&["--roll-feeder"][..], ROLL_FEEDER),
        (&["-", "--roll-feeder"][..], ROLL_FEEDER),
    ];
    for (arguments, expected) in cases {
        let output = run(CUT, arguments, TRIANGLE);
        assert_eq!(output.status.code(), Some(0));
        assert_eq!(text(&output.stdout), expected);
        assert_eq!(text(&output.stderr), "");
    }
    let output = run(CUT, &[], b"");
    assert_eq!((output.status.code(), output.stdout.len()), (Some(0), 0));
}

/// A line an instruction, as many as edges and two more for each outline.
#[test]
fn instructions_from_a_file() {
    let output = run(CUT, &["--roll-feeder", &sample("touching.txt")], b"");
    assert_eq!(output.status.code(), Some(0));
    let printed = text(&output.stdout);
    assert_eq!(printed.lines().count(), 7 + 2 * 2);
    assert!(printed.starts_with("travel 0.140625 0\ncut 0.09375 -0.015625\n"));
}

/// Nothing is printed of a sheet that is refused, and one line says why.
#[test]
fn a_refused_sheet_is_not_cut() {
    let output = run(CUT, &["--roll-feeder"], b"0 0 4 2 0\n4 2 1 5 0\n");
    assert_eq!(output.status.code(), Some(1));
    assert_eq!(text(&output.stdout), "");
    let message = text(&output.stderr);
    let begin = "outline-cut: standard input: refused 9 0 (line 1): edge 0 (counted from 0) has ";
    assert!(message.starts_with(begin), "{}", message);
    assert_eq!(message.lines().count(), 1);
}

/// A write that fails is said, on a full device and where nobody reads.
#[test]
fn instructions_that_cannot_be_written() {
    let full = std::fs::OpenOptions::new().write(true).open("/dev/full");
    let (reader, writer) = UnixStream::pair().unwrap();
    drop(reader);
    let outputs = [
        Stdio::from(full.unwrap()),
        Stdio::from(OwnedFd::from(writer)),
    ];
    for output in outputs {
        let mut child = started(CUT, &[], output);
        child.stdin.take().unwrap().write_all(TRIANGLE).unwrap();
        let ended = child.wait_with_output().unwrap();
        assert_eq!(ended.status.code(), Some(2));
        let message = text(&ended.stderr);
        assert!(message.starts_with("outline-cut: cannot write: "));
        assert_eq!(message.lines().count(), 1);
    }
}

#[test]
fn a_command_that_is_not_understood() {
    let wrong = [
        &["-x"][..],
        &["a", "b"][..],
        &["no/such/sheet.txt"][..],
        &["--help", "a"][..],
    ];
    for command in [SVG, CUT] {
        for arguments in wrong {
            let output = run(command, arguments, b"");
            assert_eq!(output.status.code(), Some(2));
            assert!(output.stdout.is_empty());
            assert_eq!(text(&output.stderr).lines().count(), 1);
        }
    }
    let both = run(CUT, &["--flatbed", "--roll-feeder"], b"");
    assert_eq!((both.status.code(), both.stdout.len()), (Some(2), 0));
    for (command, begin) in [(SVG, "outline-svg: draw"), (CUT, "outline-cut: print")] {
        let output = run(command, &["--help"], b"");
        assert_eq!(output.status.code(), Some(0));
        assert!(text(&output.stdout).starts_with(begin));
    }
}

/// A file of the samples.
fn sample(name: &str) -> String {
    format!("{}/../../samples/{}", env!("CARGO_MANIFEST_DIR"), name)
}

#[test]
fn the_portrait_from_its_pixels() {
    let output = run(PIXELS, &[&sample("portrait.pixels")], b"");
    assert_eq!(output.status.code(), Some(0));
    assert_eq!(
        output.stdout,
        std::fs::read(sample("portrait.txt")).unwrap()
    );
}

#[test]
fn neighbours_of_two_films_both_have_their_side() {
    let output = run(PIXELS, &[], b"#1\n");
    assert_eq!(output.status.code(), Some(0));
    let edges = outline::text::read_sheet(&output.stdout).unwrap();
    let side = |from, to, film| [1, from, 1, to, film];
    for side in [side(0, 1, 0), side(1, 0, 1)] {
        assert_eq!(edges.chunks(5).filter(|edge| **edge == side).count(), 1);
    }
    assert_eq!(outline::Outlines::of(&edges).unwrap().count(), 2);
}

#[test]
fn a_bitmap_that_is_none() {
    let output = run(PIXELS, &[], b"0.\n.*\n");
    assert_eq!(output.status.code(), Some(1));
    assert!(output.stdout.is_empty());
    let message = "pixel-art: standard input: line 2, column 2: '*' stands for no film\n";
    assert_eq!(text(&output.stderr), message);
    for arguments in [&["-x"][..], &["a", "b"][..], &["no/such/bitmap"][..]] {
        assert_eq!(run(PIXELS, arguments, b"").status.code(), Some(2));
    }
}
