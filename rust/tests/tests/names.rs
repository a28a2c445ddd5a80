//! One word for each refusal: docs/REFUSALS.md has the list, and the engine's
//! types, their definitions, the Rust crate, the C header and the script
//! `./outline` must have its words, with its numbers and no others. All are
//! read as text, so that a refusal that somebody adds or renames in one of them
//! is seen.

use std::collections::{BTreeMap, BTreeSet};
use std::fs;
use std::path::{Path, PathBuf};

/// A number and its word.
type Names = BTreeSet<(u32, String)>;

/// A word, and whether its refusal has a place.
type Places = BTreeMap<String, bool>;

/// A row of the list.
struct Row {
    number: u32,
    word: String,
    in_c: String,
    place: String,
    from: String,
    here: bool,
}

fn root() -> PathBuf {
    Path::new(env!("CARGO_MANIFEST_DIR")).join("../..")
}

fn read(file: impl AsRef<Path>) -> String {
    let file = root().join(file);
    fs::read_to_string(&file).unwrap_or_else(|error| panic!("{}: {}", file.display(), error))
}

/// All files of an ending in a folder of every crate, crate by crate.
fn of_every_crate(folder: &str, ending: &str) -> Vec<String> {
    let mut texts = Vec::new();
    for one in fs::read_dir(root().join("crates")).unwrap() {
        let mut text = String::new();
        add_files(&one.unwrap().path().join(folder), ending, &mut text);
        texts.push(text);
    }
    texts
}

fn add_files(folder: &Path, ending: &str, text: &mut String) {
    let entries = fs::read_dir(folder).into_iter().flatten();
    for path in entries.map(|entry| entry.unwrap().path()) {
        if path.is_dir() {
            add_files(&path, ending, text);
        } else if path.extension().map_or(false, |it| it == ending) {
            text.push_str(&fs::read_to_string(&path).unwrap());
        }
    }
}

/// The rows of the list.
fn rows() -> Vec<Row> {
    let text = read("docs/REFUSALS.md");
    let mut rows = Vec::new();
    for line in text.lines().filter(|line| line.contains("`OUTLINE_")) {
        let cells: Vec<&str> = line.split('|').map(str::trim).collect();
        let word = |at: usize| cells[at].trim_matches('`').to_string();
        assert_eq!(cells.len(), 9, "{line}");
        assert!(["here", "not yet"].contains(&cells[7]), "{line}");
        rows.push(Row {
            number: cells[1].parse().unwrap(),
            word: word(2),
            in_c: word(3),
            place: word(5),
            from: word(6),
            here: cells[7] == "here",
        });
    }
    rows
}

/// The names of the refusals that are here.
fn names() -> Names {
    let here = rows().into_iter().filter(|row| row.here);
    here.map(|row| (row.number, row.word)).collect()
}

/// Which of them have a place.
fn places() -> Places {
    let here = rows().into_iter().filter(|row| row.here);
    here.map(|row| (row.word, row.place != "0")).collect()
}

/// The engine's names: those of the list, and the cases that the list says have
/// the number of a refusal under a word of their own.
fn names_in_rattle() -> (Names, Places) {
    let (mut names, mut places) = (names(), places());
    let text = read("docs/REFUSALS.md");
    for line in text
        .lines()
        .filter(|line| line.starts_with("| `TextRefusal::"))
    {
        let cells: Vec<&str> = line.split('|').map(str::trim).collect();
        let case = cells[1].trim_matches('`').split_once("::").unwrap().1;
        let number = cells[2].parse().unwrap();
        let (_, word) = names.iter().find(|(it, _)| *it == number).unwrap();
        places.insert(case.to_string(), places[word]);
        names.insert((number, case.to_string()));
    }
    (names, places)
}

/// The word at the front of a text.
fn word(text: &str) -> &str {
    let end = text.find(|c: char| !c.is_alphanumeric() && c != '_');
    &text[..end.unwrap_or(text.len())]
}

/// The part of a text from a beginning to the next end.
fn between<'a>(text: &'a str, begin: &str, end: &str) -> &'a str {
    let at = text.find(begin).unwrap_or_else(|| panic!("no {begin:?}"));
    let rest = &text[at + begin.len()..];
    &rest[..rest.find(end).unwrap_or_else(|| panic!("no {end:?}"))]
}

/// A number, or what a name stands for that the text gives a number, as
/// `name = 15` or as `const NAME: u32 = 15;`.
fn value(written: &str, text: &str) -> u32 {
    let written = written.trim();
    if let Ok(number) = written.parse() {
        return number;
    }
    let name = written.rsplit("::").next().unwrap();
    let defines = |line: &str| {
        let (left, right) = line.split_once(" = ")?;
        let left = left.trim().trim_start_matches("pub ");
        let left = left.strip_prefix("const ").unwrap_or(left);
        let named =
            word(left) == name && !left.contains(' ') || left.starts_with(&format!("{name}: "));
        let right = right.trim_end_matches(';').replace('_', "");
        right.parse().ok().filter(|_| named)
    };
    let found = text.lines().find_map(defines);
    found.unwrap_or_else(|| panic!("{written} is no number, and no line gives it one"))
}

#[test]
fn the_list_is_whole() {
    let rows = rows();
    let numbers: Vec<u32> = rows.iter().map(|row| row.number).collect();
    assert_eq!(numbers, (1..=25).collect::<Vec<u32>>());
    let words: BTreeSet<&str> = rows.iter().map(|row| row.word.as_str()).collect();
    assert_eq!(words.len(), rows.len());
    for row in &rows {
        let mut in_c = String::from("OUTLINE");
        for letter in row.word.chars() {
            if letter.is_uppercase() {
                in_c.push('_');
            }
            in_c.extend(letter.to_uppercase());
        }
        assert_eq!(row.in_c, in_c);
        match row.number {
            1..=15 => assert!(row.from == "base" && row.here, "{}", row.word),
            _ => assert!(row.from.starts_with("M-1"), "{}", row.word),
        }
    }
}

/// Whether what a case is given is asked of what it holds, as `refusal.number()`
/// or `number_of r`: it holds another enum's refusal, and is none itself.
fn is_handed_on(given: &str) -> bool {
    let asked = given.split_once('.').map(|(_, asked)| asked);
    let of_another = |what: &str| word(given).ends_with(what) && given.contains(' ');
    asked == Some("number()") || of_another("umber_of") || of_another("lace_of")
}

/// The engine's enums: the cases of each that has a function `number`, with
/// what that answers, and whether a case holds a place.
#[test]
fn in_the_engines_types() {
    let (mut found, mut placed) = (Names::new(), Places::new());
    for text in of_every_crate("src", "rt") {
        for function in text.split("pub fn number(self) -> u32").skip(1) {
            let arms = between(function, "match self {", "\n        }");
            for arm in arms.lines().filter(|line| line.contains("=>")) {
                let (case, number) = arm.trim().trim_end_matches(',').split_once(" => ").unwrap();
                let (kind, case) = case.split_once("::").unwrap();
                if is_handed_on(number) || value(number, &text) == 0 {
                    continue;
                }
                let number = value(number, &text);
                let cases = between(&text, &format!("pub enum {kind} {{"), "\n}");
                let mut cases = cases.lines().map(str::trim);
                let declared = cases.find(|line| word(line) == word(case)).unwrap();
                found.insert((number, word(case).to_string()));
                placed.insert(word(case).to_string(), declared.contains('('));
            }
        }
    }
    assert_eq!((found, placed), names_in_rattle());
}

/// The definitions that give each case its number and its place: lines such as
/// `number_of (PastRange e) = 5` and `place_of (PastRange e) = e`. A name in capitals
/// is a type's, and gives none.
#[test]
fn in_the_engines_definitions() {
    let (mut found, mut placed, mut none) = (Names::new(), Places::new(), BTreeSet::new());
    for text in of_every_crate("specs", "antt") {
        for line in text.lines() {
            let (name, rest) = line.split_once(' ').unwrap_or((line, ""));
            let is = |what: &str| name.ends_with(&format!("{what}_of")) || name.ends_with(what);
            let case = word(rest.trim_start_matches('(')).to_string();
            let (number, place) = (is("umber"), is("lace"));
            let gives = name.starts_with(char::is_lowercase) && (number || place);
            if !gives || !case.starts_with(char::is_uppercase) {
                continue;
            }
            let given = match rest.split_once(" = ") {
                Some((_, given)) => given,
                None => continue,
            };
            if is_handed_on(given) {
                continue;
            } else if place {
                placed.insert(case, given != "0");
            } else if value(given, &text) == 0 {
                none.insert(case);
            } else {
                found.insert((value(given, &text), case));
            }
        }
    }
    placed.retain(|case, _| !none.contains(case));
    assert_eq!((found, placed), names_in_rattle());
}

/// The Rust crate: the numbers in its documentation, what `number` answers, and
/// what `of` makes of the engine's answer.
#[test]
fn in_the_rust_crate() {
    let text = read("rust/outline/src/refusal.rs");
    let (mut documented, mut placed) = (Names::new(), Places::new());
    let cases = between(&text, "pub enum Refusal {", "\n}\n");
    let mut number = None;
    for line in cases.lines() {
        if let Some(said) = line.strip_prefix("    /// ") {
            let said = said
                .split_once(':')
                .and_then(|(front, _)| front.parse().ok());
            number = said.or(number);
        } else if let Some(case) = line.strip_prefix("    ") {
            if case.starts_with(char::is_uppercase) {
                if let Some(number) = number.take() {
                    documented.insert((number, word(case).to_string()));
                    placed.insert(word(case).to_string(), case.ends_with('{'));
                } else {
                    assert_eq!(word(case), "Unknown");
                }
            }
        }
    }
    assert_eq!(documented, names());
    assert_eq!(placed, places());
    let answered = between(&text, "pub fn number(self) -> u32 {", "\n    }\n");
    let arms = answered.lines().filter_map(|line| line.split_once(" => "));
    let mut numbers = Names::new();
    for (case, number) in arms {
        let case = word(case.trim().strip_prefix("Refusal::").unwrap());
        if case != "Unknown" {
            let number = number.trim_end_matches(',').parse().unwrap();
            numbers.insert((number, case.to_string()));
        }
    }
    assert_eq!(numbers, names());
    let taken = between(&text, "fn of(number: u32, place: u32)", "\n    }\n");
    let arms = taken
        .lines()
        .filter_map(|line| line.split_once(" => Refusal::"));
    let number = |number: &str| number.trim().parse().ok();
    let made: Names = arms
        .filter_map(|(front, case)| Some((number(front)?, word(case).to_string())))
        .collect();
    let mut engines = names();
    engines.retain(|(number, _)| *number != 15);
    assert_eq!(made, engines);
}

/// What the crate says of each refusal is in a table, by number and word.
#[test]
fn in_the_rust_crates_sentences() {
    let text = read("rust/outline/src/sayings.rs");
    let table = between(&text, "static SAYINGS", "\n];");
    let (mut found, mut number) = (Names::new(), 0);
    for line in table.lines().map(str::trim) {
        if let Some(said) = line.strip_prefix("number: ") {
            number = word(said).parse().unwrap();
        } else if let Some(said) = line.strip_prefix("word: \"") {
            found.insert((number, word(said).to_string()));
        }
    }
    assert_eq!(found, names());
}

#[test]
fn in_the_c_header() {
    let text = read("include/outline.h");
    let constants = between(&text, "OUTLINE_ACCEPTED = 0,", "};");
    let mut found = Names::new();
    for line in constants.lines().map(str::trim) {
        if line.starts_with("OUTLINE_") {
            let (name, number) = line.split_once(" = ").unwrap();
            found.insert((word(number).parse().unwrap(), name.to_string()));
        }
    }
    let here = rows().into_iter().filter(|row| row.here);
    assert_eq!(found, here.map(|row| (row.number, row.in_c)).collect());
}

/// What the program never refuses with: the turn list's own refusals and the
/// instructions'.
const NOT_OF_THE_PROGRAM: [u32; 7] = [11, 12, 13, 14, 18, 24, 25];

/// The script explains what the numbering refuses, and malformed lines.
#[test]
fn in_the_script() {
    let text = read("outline");
    let mut found = Names::new();
    let mut number = 0;
    for line in text.lines().map(str::trim) {
        let mut rest = line;
        if let Some((label, after)) = line.split_once(')') {
            if let Ok(label) = label.parse() {
                (number, rest) = (label, after.trim());
            }
        }
        if let Some(said) = rest.strip_prefix("word=") {
            if said.starts_with(char::is_uppercase) {
                found.insert((number, word(said).to_string()));
            }
        }
    }
    let mut explained = names();
    explained.retain(|(number, _)| !NOT_OF_THE_PROGRAM.contains(number));
    assert_eq!(found, explained);
}
