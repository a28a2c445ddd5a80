//! The script `./outline`, used as a person would: what it prints where, the
//! status that it ends with, when the program in `dist/` answers, and when it
//! builds one.
//!
//! All but the last test run a copy of the script in a house of their own, a
//! small repository in which `rt` is a stand-in that counts its calls. The
//! program there is the real one, or a stand-in that fails on purpose.

use std::fs;
use std::path::{Path, PathBuf};
use std::process::{Command, Stdio};

use tests::process::program;
use witness::generate::{any, damaged, mosaic, Seed};
use witness::text::{MOST_BYTES, MOST_LINES, PROGRAM_ROWS};

const TRIANGLE: &str = "0 0 4 2 0\n4 2 1 5 0\n1 5 0 0 0\n";
const NUMBERED: &str = "accepted 1 1 4\n2 1 0\n1 1 2\n0 1 1\n";

/// Makes a house in the folder that it is started in. Executables are written
/// by this process alone, so that none is held open while another is started.
const FURNISH: &str = r#"
set -e
mkdir -p tools docs crates/{laws,sheet,turns,outline}/{src,must-fail}
cp "$REPOSITORY/outline" outline
cp "$REPOSITORY/tools/build" tools/build
cat >crates.txt <<'END'
# A line for each crate.
laws:
sheet: laws
turns: laws sheet
outline: laws sheet
END
for crate in laws sheet turns outline; do
    echo "// $crate" >crates/$crate/src/lib.rt
done
cat >tools/rt <<'END'
#!/bin/sh
cd "$(dirname "$0")/.."
echo "$*" >>calls
mkdir busy || echo "two at once" >>calls
sleep 0.1
rmdir busy
cat says
[ ! -f fails ] || exit 1
mkdir -p crates/outline/out
cp made crates/outline/out/outline
END
cat >says <<'END'
fn laws::choose: proved
crate laws: modules loaded=0 checked=117
logic=proved functions=2
library laws: modules loaded=90 checked=0
crate outline: modules loaded=0 checked=112
logic=proved functions=6
rt: running out/outline; to give it other input, run that file yourself
END
if [ -n "$STAND_IN" ]; then
    printf '#!/bin/sh\n%s\n' "$STAND_IN" >made
    printf '#!/bin/sh\nexec "$@"\n' >tools/qemu-x86_64
    chmod +x tools/qemu-x86_64
else
    cp "$PROGRAM" made
fi
chmod +x outline made tools/rt
"#;

/// The repository's root.
fn root() -> PathBuf {
    Path::new(env!("CARGO_MANIFEST_DIR")).join("../..")
}

/// What a command came to.
struct Ran {
    status: i32,
    output: String,
    errors: String,
}

/// Runs a line of bash in a folder, with no input and these variables.
fn bash(folder: &Path, line: &str, variables: &[(&str, String)]) -> Ran {
    let run = Command::new("bash")
        .args(["-c", line])
        .current_dir(folder)
        .envs(variables.iter().cloned())
        .stdin(Stdio::null())
        .output()
        .unwrap();
    Ran {
        status: run.status.code().unwrap(),
        output: String::from_utf8(run.stdout).unwrap(),
        errors: String::from_utf8(run.stderr).unwrap(),
    }
}

/// A small repository with the script in it.
struct House {
    folder: PathBuf,
    path: String,
}

/// A house is outside the repository, since `rt` asks which crate every source
/// below its root belongs to, and is gone with its test.
impl Drop for House {
    fn drop(&mut self) {
        let _ = fs::remove_dir_all(&self.folder);
    }
}

impl House {
    /// A house in which nothing is built yet. The program is what a stand-in
    /// says in sh, or the real one where that is empty.
    fn unbuilt(name: &str, stand_in: &str) -> House {
        let folder = std::env::temp_dir().join(format!("outline-{}-{name}", std::process::id()));
        let _ = fs::remove_dir_all(&folder);
        fs::create_dir_all(&folder).unwrap();
        let real = match stand_in {
            "" => program(),
            _ => PathBuf::new(),
        };
        let variables = [
            ("REPOSITORY", root().display().to_string()),
            ("PROGRAM", real.display().to_string()),
            ("STAND_IN", stand_in.to_string()),
        ];
        let furnished = bash(&folder, FURNISH, &variables);
        assert_eq!(furnished.status, 0, "{}", furnished.errors);
        let tools = folder.join("tools");
        let path = format!("{}:{}", tools.display(), std::env::var("PATH").unwrap());
        House { folder, path }
    }

    /// A house with the program built, so that nothing is said of building.
    fn built(name: &str, stand_in: &str) -> House {
        let house = House::unbuilt(name, stand_in);
        house.run("./outline");
        assert_eq!(house.calls(), 1);
        house
    }

    /// Runs a line of bash in the house.
    fn run(&self, line: &str) -> Ran {
        bash(&self.folder, line, &[("PATH", self.path.clone())])
    }

    fn write(&self, name: &str, text: impl AsRef<[u8]>) {
        fs::write(self.folder.join(name), text).unwrap();
    }

    /// How often rt was called, always in the same way and never twice at once.
    fn calls(&self) -> usize {
        let calls = fs::read_to_string(self.folder.join("calls")).unwrap_or_default();
        assert!(
            calls.lines().all(|call| call == "run --cpu x86-64"),
            "{calls}"
        );
        calls.lines().count()
    }

    /// Runs the script on a sheet; what it prints and its status must be those
    /// of the witness. Gives what it says beside.
    fn check(&self, sheet: impl AsRef<[u8]>) -> String {
        let wanted = String::from_utf8(witness::outline(sheet.as_ref())).unwrap();
        self.write("sheet.txt", sheet);
        let ran = self.run("./outline sheet.txt");
        assert_eq!(ran.output, wanted, "{}", ran.errors);
        assert_eq!(ran.status, i32::from(wanted.starts_with("refused")));
        ran.errors
    }
}

/// The line ends with this status and a sentence that begins so, and prints
/// nothing.
fn fails(house: &House, line: &str, status: i32, sentence: &str) {
    let ran = house.run(line);
    assert_eq!(ran.output, "", "{line}");
    assert_eq!(ran.status, status, "{line}: {}", ran.errors);
    let begin = format!("outline: {sentence}");
    assert!(ran.errors.starts_with(&begin), "{line}: {}", ran.errors);
}

#[test]
fn by_name_by_redirection_and_by_pipe() {
    let house = House::built("by-name", "");
    house.write("a sheet.txt", TRIANGLE);
    let lines = [
        "./outline 'a sheet.txt'",
        "./outline <'a sheet.txt'",
        "cat 'a sheet.txt' | ./outline",
        "./outline 'a sheet.txt' <&-",
        "(head -c 9; sleep 0.2; cat) <'a sheet.txt' | ./outline",
        "cd crates && ../outline '../a sheet.txt'",
        "ln -s ../outline docs/link && docs/link 'a sheet.txt'",
    ];
    for line in lines {
        let ran = house.run(line);
        assert_eq!(ran.output, NUMBERED, "{line}: {}", ran.errors);
        assert_eq!((ran.errors.as_str(), ran.status), ("", 0), "{line}");
    }
    let empty = house.run("./outline");
    assert_eq!(
        (empty.output.as_str(), empty.status),
        ("accepted 0 0 0\n", 0)
    );
}

#[test]
fn help_and_bad_usage() {
    let house = House::built("usage", "");
    for line in ["./outline -h", "./outline --help"] {
        let ran = house.run(line);
        assert_eq!((ran.errors.as_str(), ran.status), ("", 0));
        assert!(ran
            .output
            .starts_with("usage: ./outline [--prove] [FILE]\n"));
    }
    let bad = [
        "./outline a b",
        "./outline ''",
        "./outline -h a",
        "./outline --prove a b",
        "./outline --prove ''",
        "./outline --sources a",
    ];
    for line in bad {
        fails(&house, line, 2, "usage: ./outline [--prove] [FILE]\n");
    }
}

/// The sheet is refused so, and the explanation is this, to the letter.
fn explained(house: &House, sheet: &str, head: &str, wrong: &str, to_do: &str) {
    let said = house.check(sheet);
    let head = format!("outline: sheet.txt: refusal {head}\n");
    let wanted = format!("{head}  What is wrong: {wrong}.\n  What to do: {to_do}.\n");
    assert_eq!(said, wanted);
}

#[test]
fn refusals_of_an_edge() {
    let house = House::built("of-an-edge", "");
    explained(
        &house,
        "0 0 4 2 0\n4 2 1000001 -1000001 0\n",
        "5 (PastRange), line 2 (edge 1, counted from 0): 4 2 1000001 -1000001 0",
        "its head x is 1000001 and its head y is -1000001, and coordinates go from -1,000,000 to 1,000,000",
        "move the drawing or shrink it",
    );
    explained(
        &house,
        "5 -5 5 -5 0\n",
        "6 (EqualEnds), line 1 (edge 0, counted from 0): 5 -5 5 -5 0",
        "it begins and ends at (5, -5)",
        "leave the line out",
    );
    explained(
        &house,
        "4 2 1 5 0\n0 0 4 2 0\n1 5 0 0 0\n",
        "7 (TopFalls), line 2 (edge 1, counted from 0): 0 0 4 2 0",
        "its higher end (4, 2) is below (1, 5), the higher end of the line before it",
        "sort the lines by their higher ends: by the y of the higher end, and at equal y by its x",
    );
    let twice = "leave the line out if it is there twice; otherwise move the point apart into two (of two points at one height the right one is the higher)";
    explained(
        &house,
        &format!("0 0 4 2 0\n{TRIANGLE}"),
        "8 (Repeated), line 2 (edge 1, counted from 0): 0 0 4 2 0",
        "it arrives at (4, 2) from below, and so does line 1",
        twice,
    );
    explained(
        &house,
        "0 0 1 1 0\n5 1 1 1 0\n0 0 5 5 0\n",
        "8 (Repeated), line 3 (edge 2, counted from 0): 0 0 5 5 0",
        "it leaves (0, 0) upwards, and so does line 1",
        twice,
    );
    let open = "add the edge that is missing there, or turn round the one that runs the wrong way";
    explained(
        &house,
        "0 0 4 2 0\n4 2 1 5 0\n",
        "9 (Uneven), line 1 (edge 0, counted from 0): 0 0 4 2 0",
        "at (0, 0) 0 edges of film 0 arrive and 1 leaves, so that an outline is open there",
        open,
    );
    explained(
        &house,
        "0 0 4 2 0\n1 5 0 0 0\n",
        "9 (Uneven), line 1 (edge 0, counted from 0): 0 0 4 2 0",
        "at (4, 2) 1 edge of film 0 arrives and 0 leave, so that an outline is open there",
        open,
    );
}

#[test]
fn refusals_with_films() {
    let house = House::built("films", "");
    explained(
        &house,
        "0 0 4 2 0\n4 2 1 5 256\n",
        "16 (FilmPastRange), line 2 (edge 1, counted from 0): 4 2 1 5 256",
        "its film is 256, and films go from 0 to 255",
        "give the edge the film of its outline",
    );
    let said = house.check("0 0 4 2 1\n0 0 4 2 0\n1 1 4 2 0\n");
    assert!(said.contains("arrives at (4, 2) from below, and so does line 2."));
    let said = house.check("0 0 4 2 3\n4 2 0 0 5\n");
    assert!(said.contains("at (0, 0) 0 edges of film 3 arrive and 1 leaves, "));
}

#[test]
fn refusals_at_corners() {
    let house = House::built("corners", "");
    let to_do = "film lies to the left of every edge, so that going round such a point one edge arrives and the next leaves: turn round the outline that runs the wrong way, or move the point apart into two";
    let crossing = "1 -1 -1 -1 3\n-1 -1 0 0 3\n0 0 1 -1 3\n-1 1 0 0 3\n0 0 1 1 3\n1 1 -1 1 3\n";
    explained(
        &house,
        crossing,
        "17 (NotAlternating), line 2 (edge 1, counted from 0): -1 -1 0 0 3",
        "at (0, 0) four edges of film 3 meet, and arriving and leaving do not alternate: going round it clockwise line 4 arrives, line 5 leaves, line 3 leaves and line 2 arrives",
        to_do,
    );
    explained(
        &house,
        "-999999 -999999 -1000000 -1000000 0\n-1000000 -1000000 0 0 0\n0 0 -999999 -999999 0\n-1 1 0 0 0\n0 0 1 1 0\n1 1 -1 1 0\n",
        "17 (NotAlternating), line 2 (edge 1, counted from 0): -1000000 -1000000 0 0 0",
        "at (0, 0) four edges of film 0 meet, and line 2 and line 3 lie there in one direction",
        to_do,
    );
}

#[test]
fn a_sheet_that_is_too_large() {
    let house = House::built("too-large", "");
    let say = |lines: &str, bytes: &str| {
        format!("outline: sheet.txt: refusal 2 (TooMany)\n  What is wrong: it has {lines} lines and {bytes}; the program takes {MOST_LINES} lines and 20,480 bytes.\n  What to do: split it into sheets of whole outlines, or call the library, which takes 4,096 edges (README.md, \"Call it\").\n")
    };
    assert_eq!(MOST_BYTES, 20_480);
    let lines = "0 0 1 1 0\n".repeat(MOST_LINES) + "7";
    assert_eq!(house.check(lines), say("513", "5121 bytes"));
    let bytes = "1".repeat(MOST_BYTES + 1);
    assert_eq!(house.check(bytes), say("1", "20481 bytes"));
    let endless = house.run("yes | ./outline");
    assert_eq!(
        (endless.output.as_str(), endless.status),
        ("refused 2 0\n", 1)
    );
    let wanted = say("524288", "1048576 bytes or more");
    assert_eq!(
        endless.errors,
        wanted.replace("sheet.txt", "standard input")
    );
}

#[test]
fn malformed_lines() {
    let house = House::built("malformed", "");
    let cases: [(&[u8], &str, &str); 14] = [
        (b"0 0 1 1 0", "0 0 1 1 0", "there is no newline after it"),
        (b"\n", "", "it is empty"),
        (
            b"0 0 1 1 0\r\n",
            "0 0 1 1 0?",
            "it ends in a carriage return, as lines from Windows do (tr -d '\\r' takes them out)",
        ),
        (b"0 0\t1 1 0\n", "0 0?1 1 0", "it has a tab in it"),
        (b" 0 0 1 1 0\n", " 0 0 1 1 0", "it has a space too many"),
        (b"0 0 1 1 0 \n", "0 0 1 1 0 ", "it has a space too many"),
        (b"0 0  1 1 0\n", "0 0  1 1 0", "it has a space too many"),
        (b"0 0 1 1\n", "0 0 1 1", "it has 4 numbers, not five"),
        (
            b"0 0 1 1 1 1\n",
            "0 0 1 1 1 1",
            "it has 6 numbers, not five",
        ),
        (
            b"0 0 01 1 0\n",
            "0 0 01 1 0",
            "\"01\" is no number as the program reads them",
        ),
        (
            b"-0 0 1 1 0\n",
            "-0 0 1 1 0",
            "\"-0\" is no number as the program reads them",
        ),
        (
            b"0 0 1 12345678 0\n",
            "0 0 1 12345678 0",
            "\"12345678\" is no number as the program reads them",
        ),
        (
            b"* 0 1 1 0\n",
            "* 0 1 1 0",
            "\"*\" is no number as the program reads them",
        ),
        (
            b"0 0 1 1 \x00\xff\x1b\n",
            "0 0 1 1 ???",
            "\"???\" is no number as the program reads them",
        ),
    ];
    for (line, shown, wrong) in cases {
        let said = house.check([TRIANGLE.as_bytes(), line].concat());
        let head = format!("outline: sheet.txt: refusal 15 (Malformed), line 4: {shown}\n  What is wrong: {wrong}.\n  What to do: write five whole numbers ");
        assert!(said.starts_with(&head), "{said}");
    }
    let long = house.check("1".repeat(MOST_BYTES));
    assert!(long.lines().all(|line| line.len() < 200), "{long}");
}

/// What the program prints is passed on to the byte, explained or not.
#[test]
fn random_sheets() {
    let house = House::built("random", "");
    for seed in 0..8 {
        let random = &mut Seed(seed).random();
        let side_by_side = mosaic(random, 8, 8, &[0, 1, 255], true);
        for sheet in [any(random), side_by_side] {
            house.check(outline::text::write_sheet(&sheet));
        }
        for refusal in [5, 16, 6, 7, 8, 9, 17] {
            let mut call = damaged(random, refusal);
            call.edges.truncate(outline::NUMBERS_PER_EDGE * MOST_LINES);
            let said = house.check(outline::text::write_sheet(&call.edges));
            assert!(!said.contains("wrong: .") && !said.contains("(,"), "{said}");
        }
    }
}

/// The program never gives these; where it did it would be at fault.
#[test]
fn refusals_that_the_program_does_not_give() {
    let own = "nothing about the sheet: the program lends what is right, so this is a fault of its own; please report it with the sheet";
    let cases = [
        (1, "NotWhole", "the list ends in the middle of an edge", own),
        (
            3,
            "ListsDiffer",
            "the polygon list, the sequence list or the turn list has not one number for each edge",
            own,
        ),
        (
            4,
            "JournalShort",
            "the journal has fewer than 8 numbers for each edge",
            own,
        ),
        (
            77,
            "no word for it here",
            "the program is newer than this script",
            "look it up in docs/REFUSALS.md",
        ),
    ];
    for (number, word, wrong, to_do) in cases {
        let stand_in = format!("echo refused {number} 0");
        let house = House::built(&format!("not-given-{number}"), &stand_in);
        let ran = house.run("./outline");
        assert_eq!(
            (ran.output, ran.status),
            (format!("refused {number} 0\n"), 1)
        );
        let wanted = format!("outline: standard input: refusal {number} ({word})\n  What is wrong: {wrong}.\n  What to do: {to_do}.\n");
        assert_eq!(ran.errors, wanted);
    }
}

/// The same of 10, which names an edge: no sheet was found for which the rows that
/// the program lends are too few.
#[test]
fn a_row_that_the_program_does_not_lack() {
    let house = House::built("rows", "echo refused 10 1");
    house.write("sheet.txt", TRIANGLE);
    let ran = house.run("./outline sheet.txt");
    assert_eq!((ran.output.as_str(), ran.status), ("refused 10 1\n", 1));
    let said = ran.errors;
    let head = format!("outline: sheet.txt: refusal 10 (NoRow), line 2 (edge 1, counted from 0): 4 2 1 5 0\n  What is wrong: all {PROGRAM_ROWS} rows ");
    assert!(said.starts_with(&head), "{said}");
    assert!(said.contains("\n  What to do: call the library with more rows; "));
}

#[test]
fn what_cannot_be_read() {
    let house = House::built("unread", "");
    let cases = [
        ("./outline crates", "cannot read crates: Is a directory\n"),
        (
            "./outline <crates",
            "cannot read standard input: Is a directory\n",
        ),
        (
            "./outline none",
            "cannot read none: No such file or directory\n",
        ),
        (
            "./outline <&-",
            "cannot read standard input: it is closed\n",
        ),
        (
            "./outline 0>written",
            "cannot read standard input: Bad file descriptor\n",
        ),
        // Memory at address 0: an error of reading, or a file not to be opened.
        ("./outline /proc/$$/mem", "cannot read /proc/"),
        ("./outline </proc/$$/mem", "cannot read standard input: "),
    ];
    for (line, sentence) in cases {
        // A subshell keeps the shell whose memory is read alive beside it.
        fails(&house, &format!("({line}); exit $?"), 3, sentence);
    }
}

#[test]
fn what_cannot_be_written() {
    let house = House::built("unwritten", "");
    house.write("sheet.txt", TRIANGLE);
    let full = "cannot write to standard output: No space left on device\n";
    fails(&house, "./outline sheet.txt >/dev/full", 3, full);
    fails(
        &house,
        "./outline crates >/dev/full",
        3,
        "cannot read crates: ",
    );
    let closed = "cannot write: standard output is closed\n";
    fails(&house, "./outline sheet.txt >&-", 3, closed);
    let gone = "mkfifo pipe; (exec 3<pipe; exec 3<&-) & exec 4>pipe; wait; ./outline sheet.txt >&4";
    fails(&house, gone, 3, "cannot write to standard output: ");
    let mute = house.run("./outline sheet.txt 2>&-");
    assert_eq!((mute.output.as_str(), mute.status), (NUMBERED, 0));
    assert_eq!(house.run("./outline crates 2>&-").status, 3);
    assert_eq!(house.run("./outline sheet.txt <&- >&- 2>&-").status, 3);
}

/// What is not a whole answer to the sheet is not shown at all.
#[test]
fn answers_that_are_not_whole() {
    let cases = [
        (
            "exit 0",
            3,
            "cannot read sheet.txt: the program could not read it",
        ),
        (
            "printf 'accepted 1 1 4\\n2 1 0\\n1 1 2\\n0 1 1'",
            4,
            "what the program printed is not whole",
        ),
        (
            "printf 'accepted 1 1 4\\n2 1 0\\n1 1 2\\n'",
            4,
            "what the program printed is not whole",
        ),
        (
            "printf 'accepted 1 1 4\\n1 1 2\\n0 1 1\\n'",
            4,
            "what the program printed is not whole",
        ),
        (
            "printf 'accepted 1 1 4\\n2 1 0\\n1 1 2\\n0 1 1\\n0 1 1\\n'",
            4,
            "what the program printed is not whole",
        ),
        (
            "printf 'accepted 1 1\\n2 1 0\\n1 1 2\\n0 1 1\\n'",
            4,
            "what the program printed is not whole",
        ),
        (
            "printf 'accepted 0 0 0\\n'",
            4,
            "what the program printed is not whole",
        ),
        (
            "printf 'refused 7\\n'",
            4,
            "what the program printed is not whole",
        ),
        (
            "printf 'refused 7 1'",
            4,
            "what the program printed is not whole",
        ),
        (
            "printf 'refused 7 1\\n2 1 0\\n'",
            4,
            "what the program printed is not whole",
        ),
        (
            "printf 'Refused 7 1\\n'",
            4,
            "what the program printed is not whole",
        ),
        ("printf '\\n'", 4, "what the program printed is not whole"),
        (
            "printf 'accepted 1 1 4\\n2 1 0\\n1 1 2\\n0 1 1\\n'; exit 7",
            4,
            "the program failed (status 7)",
        ),
        (
            "echo refused 7 1; kill -SEGV $$",
            4,
            "the program failed (status 139)",
        ),
    ];
    for (at, (stand_in, status, sentence)) in cases.into_iter().enumerate() {
        let house = House::built(&format!("not-whole-{at}"), stand_in);
        house.write("sheet.txt", TRIANGLE);
        let ran = house.run("./outline sheet.txt");
        assert_eq!(
            (ran.output.as_str(), ran.status),
            ("", status),
            "{stand_in}"
        );
        assert!(
            ran.errors.contains(&format!("outline: {sentence}")),
            "{}",
            ran.errors
        );
    }
    let whole = House::built(
        "whole",
        "printf 'accepted 1 1 4\\n2 1 0\\n1 1 2\\n0 1 1\\n'",
    );
    whole.write("sheet.txt", TRIANGLE);
    let ran = whole.run("./outline sheet.txt");
    assert_eq!((ran.output.as_str(), ran.errors.as_str()), (NUMBERED, ""));
}

/// A program that takes more than the script hands on must not answer a part.
#[test]
fn a_part_of_a_sheet() {
    let house = House::built("part", "echo refused 9 0");
    fails(
        &house,
        "yes | ./outline",
        3,
        "cannot read all of standard input: it has more than 1048576 bytes\n",
    );
}

const FIRST: &str =
    "outline: proving and building the program: 3 to 8 minutes by the machine, more on a busy one; this is done once\n";
const AGAIN: &str = "outline: the program may be older than its sources: proving and building what has changed, a second to 8 minutes\n";
const PROGRESS: &str =
    "outline: crate 1 of 3: laws proved\noutline: crate 3 of 3: outline proved\n";

#[test]
fn built_once_with_its_progress_shown() {
    let house = House::unbuilt("once", "");
    house.write("sheet.txt", TRIANGLE);
    let first = house.run("./outline sheet.txt");
    assert_eq!((first.output.as_str(), first.status), (NUMBERED, 0));
    assert_eq!(first.errors, format!("{FIRST}{PROGRESS}"));
    for line in [
        "./outline sheet.txt",
        "touch crates/laws/src/lib.rt; ./outline sheet.txt",
    ] {
        let next = house.run(line);
        assert_eq!((next.output.as_str(), next.errors.as_str()), (NUMBERED, ""));
    }
    assert_eq!(house.calls(), 1);
    let log = fs::read_to_string(house.folder.join("target/outline.log")).unwrap();
    let says = fs::read_to_string(house.folder.join("says")).unwrap();
    assert_eq!(log, says);
}

#[test]
fn built_again_where_the_sources_changed() {
    let house = House::built("again", "");
    let building = format!("{AGAIN}{PROGRESS}");
    let edits = [
        ("echo '// more' >>crates/laws/src/lib.rt", true),
        ("echo '// more' >crates/sheet/src/new.rt", true),
        ("mv crates/sheet/src/new.rt crates/sheet/src/other.rt", true),
        ("rm crates/sheet/src/other.rt", true),
        ("echo '# more' >>crates.txt", true),
        (
            "echo more >docs/MORE.md; touch -d '1 hour' crates.txt crates/laws/src/lib.rt",
            false,
        ),
        ("echo more >crates/laws/must-fail/more.edit", false),
        // Somebody has had rt build another program, and has taken his edit back.
        ("echo more >>target/bin/outline", true),
        // The gate has built the program anew.
        ("rm target/outline.*", true),
    ];
    let mut calls = 1;
    for (edit, built) in edits {
        calls += usize::from(built);
        let said = house.run(&format!("{edit}; ./outline")).errors;
        assert_eq!(said, if built { &building } else { "" }, "{edit}");
        assert_eq!(house.calls(), calls, "{edit}");
        assert_eq!(house.run("./outline").errors, "", "after {edit}");
    }
    assert_eq!(house.calls(), calls);
}

#[test]
fn a_build_that_fails() {
    let house = House::built("fails", "");
    house.write("sheet.txt", TRIANGLE);
    let says = "crate laws: modules loaded=110 checked=7\nlogic=not-proved\nrt: the library laws did not build, so nothing above it was checked\n";
    let before = house.run("cp says said; cp crates/laws/src/lib.rt kept; touch fails; echo x >>crates/laws/src/lib.rt");
    assert_eq!(before.status, 0);
    house.write("says", says);
    let log = house
        .folder
        .join("target/outline.log")
        .canonicalize()
        .unwrap();
    let failed = house.run("./outline sheet.txt");
    assert_eq!((failed.output.as_str(), failed.status), ("", 4));
    let wanted = format!(
        "{AGAIN}outline: crate 1 of 3: laws NOT PROVED\n\
         outline: rt: the library laws did not build, so nothing above it was checked\noutline: the program could not be built; all that rt said is in {}\n",
        log.display()
    );
    assert_eq!(failed.errors, wanted);
    assert_eq!(fs::read_to_string(log).unwrap(), says);
    // The old program is not run, not even when the edit is taken back, until rt has seen that.
    assert_eq!(
        house
            .run("cp kept crates/laws/src/lib.rt; ./outline sheet.txt")
            .status,
        4
    );
    assert_eq!(
        house
            .run("rm fails; cp said says; ./outline sheet.txt")
            .output,
        NUMBERED
    );
    assert_eq!(house.calls(), 4);
}

/// Leaves every folder that has an rt out of the path.
const WITHOUT_RT: &str = "PATH=$(printf '%s' \"$PATH\" | tr : '\\n' | while read -r d; do [ -x \"$d/rt\" ] || printf '%s:' \"$d\"; done)";

#[test]
fn no_toolchain() {
    let house = House::built("no-toolchain", "");
    house.write("sheet.txt", TRIANGLE);
    house.run("mv tools/rt tools/away");
    let run = format!("{WITHOUT_RT}; ./outline sheet.txt");
    assert_eq!(house.run(&run).output, NUMBERED);
    house.run("echo x >>crates/laws/src/lib.rt");
    fails(&house, &run, 4, "the program is missing, or older than its sources, and building it needs the Rattle toolchain (rt)");
}

/// A house with the program in `dist/` for this kind of machine, made from the
/// sources of the house and not built. It is a stand-in, so that one that is built
/// can be told from it.
fn supplied(name: &str) -> House {
    let house = House::unbuilt(name, "");
    house.write("sheet.txt", TRIANGLE);
    let supply = r#"
        set -e
        mkdir -p dist/$(uname -m)
        printf '#!/bin/sh\necho refused 9 0\n' >dist/$(uname -m)/outline
        chmod +x dist/$(uname -m)/outline
        ./outline --sources >dist/SOURCES
        cd dist && sha256sum SOURCES */outline >SHA256SUMS
    "#;
    let ran = house.run(supply);
    assert_eq!(ran.status, 0, "{}", ran.errors);
    house
}

/// What the stand-in in `dist/` prints.
const READY: &str = "refused 9 0\n";

#[test]
fn ready_at_once_from_dist() {
    let house = supplied("ready");
    for line in ["./outline sheet.txt", "./outline <sheet.txt"] {
        let ran = house.run(line);
        assert_eq!((ran.output.as_str(), ran.status), (READY, 1));
        assert!(!ran.errors.contains("dist/"), "{}", ran.errors);
    }
    // What changes nothing of the program's changes nothing here.
    let edit = "echo more >docs/MORE.md; echo more >crates/laws/must-fail/more.edit; touch crates.txt; ./outline sheet.txt";
    assert_eq!(house.run(edit).output, READY);
    assert_eq!(house.calls(), 0);
}

#[test]
fn proved_and_built_where_that_is_asked_for() {
    let house = supplied("prove");
    let first = house.run("./outline --prove sheet.txt");
    assert_eq!((first.output.as_str(), first.status), (NUMBERED, 0));
    assert_eq!(first.errors, format!("{FIRST}{PROGRESS}"));
    for line in [
        "./outline --prove sheet.txt",
        "./outline --prove <sheet.txt",
    ] {
        let next = house.run(line);
        assert_eq!((next.output.as_str(), next.errors.as_str()), (NUMBERED, ""));
    }
    assert_eq!(house.calls(), 1);
    assert_eq!(house.run("./outline sheet.txt").output, READY);
}

#[test]
fn proved_and_built_where_dist_is_of_other_sources() {
    let house = supplied("other-sources");
    let kind = house.run("uname -m").output.trim_end().to_string();
    let other = format!("outline: dist/{kind}/outline is not run: the sources are not those that it was made from\n");
    let ran = house.run("echo '// more' >>crates/laws/src/lib.rt; ./outline sheet.txt");
    assert_eq!((ran.output.as_str(), ran.status), (NUMBERED, 0));
    assert_eq!(ran.errors, format!("{other}{FIRST}{PROGRESS}"));
    let next = house.run("./outline sheet.txt");
    assert_eq!((next.output.as_str(), next.errors.as_str()), (NUMBERED, ""));
    assert_eq!(house.calls(), 1);
    let without = format!("{}; rm -r target; ./outline sheet.txt", WITHOUT_RT);
    let ran = house.run(&without);
    assert_eq!((ran.output.as_str(), ran.status), ("", 4));
    let missing = "outline: the program is missing, or older than its sources, and building it needs the Rattle toolchain (rt)";
    assert!(ran.errors.starts_with(&format!("{other}{missing}")));
}

/// A program that is not the one that was put there is not run.
#[test]
fn a_program_in_dist_that_is_not_whole() {
    let house = supplied("not-its-checksum");
    let kind = house.run("uname -m").output.trim_end().to_string();
    let spoil = "cp -r dist kept; echo 'echo refused 9 0' >>dist/$(uname -m)/outline";
    let ran = house.run(&format!("{spoil}; ./outline sheet.txt"));
    let wrong = format!("outline: dist/{kind}/outline is not run: it does not fit its checksum in dist/SHA256SUMS\n");
    assert_eq!((ran.output.as_str(), ran.status), (NUMBERED, 0));
    assert_eq!(ran.errors, format!("{wrong}{FIRST}{PROGRESS}"));
    let edits = [
        ("rm dist/SHA256SUMS", wrong.clone()),
        ("sed -i 's/^./x/' dist/SHA256SUMS", wrong),
        (
            "chmod -x dist/$(uname -m)/outline",
            format!("outline: dist/{kind}/outline is not run: it is not marked as executable\n"),
        ),
        ("rm dist/$(uname -m)/outline", String::new()),
    ];
    for (edit, said) in edits {
        let line = format!("rm -r dist; cp -r kept dist; {edit}; ./outline sheet.txt");
        let ran = house.run(&line);
        assert_eq!(
            (ran.output.as_str(), ran.errors),
            (NUMBERED, said),
            "{edit}"
        );
    }
    assert_eq!(house.calls(), 1);
}

/// Three that are started at once build the program once.
#[test]
fn one_builds_and_the_others_wait() {
    let house = House::unbuilt("at-once", "");
    house.write("sheet.txt", TRIANGLE);
    let ran = house.run("for i in 1 2 3; do ./outline sheet.txt >got-$i & done; wait; cat got-*");
    assert_eq!(ran.output, NUMBERED.repeat(3));
    assert_eq!(house.calls(), 1);
}

/// The command of the README: it answers from `dist/`, and says nothing beside.
/// Left out where the tests are told of another program than the repository's own.
#[test]
fn in_the_repository() {
    if std::env::var_os("OUTLINE_PROGRAM").is_some() {
        return;
    }
    for sample in ["portrait", "touching", "triangle"] {
        let sheet = fs::read(root().join(format!("samples/{sample}.txt"))).unwrap();
        let ran = bash(&root(), &format!("./outline samples/{sample}.txt"), &[]);
        let wanted = String::from_utf8(witness::outline(&sheet)).unwrap();
        assert_eq!((ran.output, ran.status), (wanted, 0), "{}", ran.errors);
        assert_eq!(ran.errors, "");
    }
}
