//! The reader of vector files: blocks from `case ID OP` to `end`, each one call
//! with all that must be seen after it. The cases come out typed, with what the
//! file abbreviates (`untouched`, `zeros`, `empty`) written in full, so that
//! they can be held against any engine.

use std::borrow::Cow;
use std::collections::BTreeMap;
use std::str::FromStr;

use crate::assemble::Answer;
use crate::before;
use crate::call::{Call, CutCall, Outcome, TurnCall, TurnOutcome};
use crate::checks::Refusal;
use crate::geometry::NUMBERS_PER_EDGE;
use crate::instructions::{Instruction, Machine};
use crate::json::string_bytes;
use crate::turns::{in_turn, TurnAnswer};

/// The cases of document 01 itself, with four numbers an edge.
const BASE: &str = include_str!("../../vectors/base.txt");

/// The cases of request M-100, with a film for every edge.
const FILMS: &str = include_str!("../../vectors/M-100.txt");

/// The cases of request M-101, with the turn list in the same call.
const ONE_CALL: &str = include_str!("../../vectors/M-101.txt");

/// The cases of request M-102, with instructions.
const INSTRUCTIONS: &str = include_str!("../../vectors/M-102.txt");

/// The cases of request M-103, with rows given back first.
const ROWS_FIRST: &str = include_str!("../../vectors/M-103.txt");

/// The cases of request M-104, with corners that stay apart.
const CORNERS: &str = include_str!("../../vectors/M-104.txt");

/// One case of a vector file.
#[derive(Clone, PartialEq, Eq, Debug)]
pub struct Case {
    /// Its name in the file.
    pub id: String,
    /// What is done and what must come of it.
    pub work: Work,
    /// Whether it was worked before M-103, so that only what does not hang on
    /// rows must come of it.
    pub older: bool,
}

impl Case {
    /// Holds the outcome of its assembling call to the one expected.
    ///
    /// # Panics
    /// When they differ.
    pub fn check_outcome(&self, given: &Outcome, expected: &Outcome) {
        if self.older {
            before::check_outcome(&self.id, given, expected);
        } else {
            assert_eq!(given, expected, "case {}", self.id);
        }
    }

    /// Holds what the program prints to what is expected.
    ///
    /// # Panics
    /// When they differ.
    pub fn check_printed(&self, given: &[u8], expected: &[u8]) {
        let (given, expected) = (text(given), text(expected));
        if self.older {
            before::check_printed(&self.id, &given, &expected);
        } else {
            assert_eq!(given, expected, "case {}", self.id);
        }
    }
}

/// Bytes, to be shown.
fn text(bytes: &[u8]) -> Cow<'_, str> {
    String::from_utf8_lossy(bytes)
}

/// What a case does.
#[derive(Clone, PartialEq, Eq, Debug)]
pub enum Work {
    /// An assembling call and its outcome.
    Assemble(Call, Outcome),
    /// A turn list call and its outcome.
    Turns(TurnCall, TurnOutcome),
    /// A call for an instruction and its answer.
    Instruction(CutCall, Result<Instruction, Refusal>),
    /// The program's input and output.
    Program(Vec<u8>, Vec<u8>),
}

/// Reads a whole vector file. `Err` says which case is not understood and why.
pub fn read_cases(text: &str) -> Result<Vec<Case>, String> {
    let mut cases = Vec::new();
    let mut lines = text.lines();
    while let Some(line) = lines.next() {
        let words: Vec<&str> = line.split(' ').collect();
        if words.len() != 3 || words[0] != "case" {
            return Err(format!("no start of a case: {:?}", line));
        }
        let (id, operation) = (words[1].to_string(), words[2]);
        let block = Block::read(&mut lines).and_then(|block| block.work(operation));
        let work = block.map_err(|reason| format!("case {}: {}", id, reason))?;
        let older = false;
        cases.push(Case { id, work, older });
    }
    Ok(cases)
}

/// All cases of the repository's vector files that hold: those of document 01,
/// read in film 0, and those of requests M-100 to M-104, each file complete for
/// its own time. Of the files before M-104 those are left out that
/// [`overtaken_cases`] gives.
pub fn all_cases() -> Result<Vec<Case>, String> {
    let mut cases = before_corners()?;
    cases.retain(|case| !before::is_overtaken(&case.work));
    cases.extend(read_cases(CORNERS)?);
    Ok(cases)
}

/// The cases that M-104 overtakes: their sheets passed the checks of their time
/// and have four edges of one film at a point, which were joined otherwise.
pub fn overtaken_cases() -> Result<Vec<Case>, String> {
    let mut cases = before_corners()?;
    cases.retain(|case| before::is_overtaken(&case.work));
    Ok(cases)
}

/// The cases from before M-104; those from before M-103 have the rows of their
/// time.
fn before_corners() -> Result<Vec<Case>, String> {
    let base = read_cases(BASE)?.into_iter().map(in_film_0);
    let requests = [
        read_cases(FILMS)?,
        read_cases(ONE_CALL)?,
        read_cases(INSTRUCTIONS)?,
    ];
    let older = base.chain(requests.into_iter().flatten());
    let older = older.map(|case| Case {
        older: true,
        ..case
    });
    Ok(older.chain(read_cases(ROWS_FIRST)?).collect())
}

/// A case of document 01 with every edge in film 0, which leaves what must come
/// of it as it was. Numbers that are no whole edge, and lines that are malformed,
/// stay such.
fn in_film_0(mut case: Case) -> Case {
    match &mut case.work {
        Work::Assemble(call, outcome) => {
            call.edges = numbers_in_film_0(&call.edges);
            lend_turns(call, outcome);
        }
        Work::Program(input, _) => *input = lines_in_film_0(input),
        Work::Turns(..) | Work::Instruction(..) => {}
    }
    case
}

/// Lends a turn list of one number an edge to a case from before M-101. A
/// refusal leaves it, and else it is that of the numbers that the case gives.
fn lend_turns(call: &mut Call, outcome: &mut Outcome) {
    call.turns = call.edges.len() / NUMBERS_PER_EDGE;
    outcome.turns = match outcome.answer {
        Answer::Accepted { .. } => in_turn(&outcome.polygons, &outcome.sequences),
        Answer::Refused(_) => vec![call.fill as u32; call.turns],
    };
}

/// Each four numbers with a film after them.
fn numbers_in_film_0(numbers: &[i32]) -> Vec<i32> {
    let edges = numbers.chunks_exact(4);
    let left_over = edges.remainder();
    let mut filmed: Vec<i32> = edges.flat_map(|edge| [edge, &[0]].concat()).collect();
    filmed.extend(left_over);
    filmed
}

/// Each line with a film at its end. One that no newline ends is malformed as it
/// is, and may be as long as the limit.
fn lines_in_film_0(input: &[u8]) -> Vec<u8> {
    let filmed = |line: &[u8]| match line.strip_suffix(b"\n") {
        Some(text) => [text, b" 0\n"].concat(),
        None => line.to_vec(),
    };
    let lines = input.split_inclusive(|byte| *byte == b'\n');
    lines.flat_map(filmed).collect()
}

/// The lines of one block, looked up by how they begin.
struct Block<'a> {
    lines: BTreeMap<&'a str, &'a str>,
}

impl<'a> Block<'a> {
    /// Reads up to `end`. `in`, `lent` and `out` lines begin with two words,
    /// the others with one; no two lines may begin alike.
    fn read(lines: &mut std::str::Lines<'a>) -> Result<Block<'a>, String> {
        let mut block = BTreeMap::new();
        for line in lines {
            if line == "end" {
                return Ok(Block { lines: block });
            }
            let word = line.split(' ').next().unwrap_or(line);
            let words = match word {
                "in" | "lent" | "out" => 2,
                _ => 1,
            };
            let spaces = line.match_indices(' ').map(|(at, _)| at);
            let end = spaces.skip(words - 1).chain([line.len()]).next();
            let (begin, rest) = line.split_at(end.unwrap_or(line.len()));
            let rest = rest.strip_prefix(' ').unwrap_or(rest);
            if block.insert(begin, rest).is_some() {
                return Err(format!("two lines begin with {:?}", begin));
            }
        }
        Err("no end".to_string())
    }

    fn work(&self, operation: &str) -> Result<Work, String> {
        match operation {
            "number" => self.number(),
            "both" => self.both(),
            "turns" => self.turns(),
            "instruction" => self.instruction(),
            "program" => Ok(Work::Program(
                string_bytes(self.rest("input")?)?,
                string_bytes(self.rest("output")?)?,
            )),
            other => Err(format!("unknown operation {:?}", other)),
        }
    }

    /// A case from before M-101.
    fn number(&self) -> Result<Work, String> {
        let (mut call, mut outcome) = self.without_turns()?;
        lend_turns(&mut call, &mut outcome);
        Ok(Work::Assemble(call, outcome))
    }

    fn both(&self) -> Result<Work, String> {
        let (mut call, mut outcome) = self.without_turns()?;
        call.turns = self.one("lent turn")?;
        outcome.turns = self.slice("out turn", call.turns, call.fill as u32)?;
        Ok(Work::Assemble(call, outcome))
    }

    /// An assembling call and its outcome, in all but the turn list.
    fn without_turns(&self) -> Result<(Call, Outcome), String> {
        let call = Call {
            edges: self.list("in edges")?,
            polygons: self.one("lent poly")?,
            sequences: self.one("lent seq")?,
            turns: 0,
            journal: self.one("lent journal")?,
            rows: self.one("lent rows")?,
            fill: self.one("fill")?,
        };
        let fill = call.fill;
        let outcome = Outcome {
            answer: self.answer()?,
            polygons: self.slice("out poly", call.polygons, fill as u32)?,
            sequences: self.slice("out seq", call.sequences, fill as u32)?,
            turns: Vec::new(),
            journal: self.slice("out journal", call.journal, fill)?,
            rows: self.slice("out rows", call.rows, fill)?,
        };
        Ok((call, outcome))
    }

    fn turns(&self) -> Result<Work, String> {
        let call = TurnCall {
            polygons: self.list("in poly")?,
            sequences: self.list("in seq")?,
            turns: self.one("lent turn")?,
            fill: self.one("fill")?,
        };
        let answer = match self.refusal()? {
            Some(refusal) => TurnAnswer::Refused(refusal),
            None => TurnAnswer::Accepted {
                polygons: self.one("accepted")?,
            },
        };
        let turns = self.slice("out turn", call.turns, call.fill)?;
        Ok(Work::Turns(call, TurnOutcome { answer, turns }))
    }

    fn instruction(&self) -> Result<Work, String> {
        let call = CutCall {
            edges: self.list("in edges")?,
            polygons: self.list("in poly")?,
            sequences: self.list("in seq")?,
            turns: self.list("in turn")?,
            k: self.k()?,
            machine: match self.rest("in machine")? {
                "flat" => Machine::Flatbed,
                "roll" => Machine::RollFeeder,
                other => return Err(format!("unknown machine {:?}", other)),
            },
        };
        let answer = match self.refusal()? {
            Some(refusal) => Err(refusal),
            None => Ok(read_instruction(self.rest("instruction")?)?),
        };
        Ok(Work::Instruction(call, answer))
    }

    /// Some cases have a k that is too great to be handed over. The greatest that
    /// can be is past the last instruction too, so that its answer is the same.
    fn k(&self) -> Result<u32, String> {
        let k: u64 = self.one("in k")?;
        Ok(u32::try_from(k).unwrap_or(u32::MAX))
    }

    /// The answer to an assembling call.
    fn answer(&self) -> Result<Answer, String> {
        if let Some(refusal) = self.refusal()? {
            return Ok(Answer::Refused(refusal));
        }
        match self.list("accepted")?[..] {
            [polygons, peak, records] => Ok(Answer::Accepted {
                polygons,
                peak,
                records,
            }),
            _ => Err("not three numbers accepted".to_string()),
        }
    }

    /// The refusal, if the case expects one.
    fn refusal(&self) -> Result<Option<Refusal>, String> {
        if !self.lines.contains_key("refused") {
            return Ok(None);
        }
        match self.list("refused")?[..] {
            [number, place] => Ok(Some(Refusal { number, place })),
            _ => Err("not two numbers refused".to_string()),
        }
    }

    /// What a lent slice of this length must hold after the call.
    fn slice<T>(&self, begin: &str, length: usize, fill: T) -> Result<Vec<T>, String>
    where
        T: FromStr + Clone + Default,
    {
        let slice = match self.rest(begin)? {
            "untouched" => vec![fill; length],
            "zeros" => vec![T::default(); length],
            _ => self.list(begin)?,
        };
        if slice.len() == length {
            Ok(slice)
        } else {
            Err(format!("{:?} has not the length lent", begin))
        }
    }

    fn list<T: FromStr>(&self, begin: &str) -> Result<Vec<T>, String> {
        let rest = self.rest(begin)?;
        if rest == "empty" {
            return Ok(Vec::new());
        }
        rest.split(' ').map(read_number).collect()
    }

    fn one<T: FromStr>(&self, begin: &str) -> Result<T, String> {
        read_number(self.rest(begin)?)
    }

    fn rest(&self, begin: &str) -> Result<&'a str, String> {
        let rest = self.lines.get(begin).copied();
        rest.ok_or_else(|| format!("no line begins with {:?}", begin))
    }
}

fn read_number<T: FromStr>(word: &str) -> Result<T, String> {
    word.parse().map_err(|_| format!("bad number {:?}", word))
}

/// An instruction as it stands in a file: its word and the bits of its place.
fn read_instruction(text: &str) -> Result<Instruction, String> {
    let bits = |word: &str| {
        let read = u32::from_str_radix(word, 16);
        read.map_err(|_| format!("bad bits {:?}", word))
    };
    match text.split(' ').collect::<Vec<&str>>()[..] {
        ["travel", first, second] => Ok(Instruction::Travel([bits(first)?, bits(second)?])),
        ["cut", first, second] => Ok(Instruction::Cut([bits(first)?, bits(second)?])),
        ["lift"] => Ok(Instruction::Lift),
        _ => Err(format!("bad instruction {:?}", text)),
    }
}
