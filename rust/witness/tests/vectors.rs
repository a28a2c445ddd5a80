//! Every case of the vector files, every number of every slice; of the files from
//! before M-103 all that does not hang on rows, and of the files from before M-104
//! all sheets without a point of four edges of one film. The vectors were worked by
//! somebody else from the rules, so a rule misread here shows. The reader of the
//! files is tested too: what it does not understand it must say.

use std::collections::BTreeMap;

use witness::call::Outcome;
use witness::declared::{apart_sites, touching_sites};
use witness::geometry::read_edges;
use witness::json::string_bytes;
use witness::vectors::{all_cases, overtaken_cases, read_cases, Case, Work};
use witness::{assemble, outline, turns, Answer, Instruction};

fn check(case: &Case) {
    match &case.work {
        Work::Assemble(call, expected) => {
            case.check_outcome(&call.outcome(assemble), expected);
        }
        Work::Turns(call, expected) => {
            assert_eq!(&call.outcome(turns), expected, "case {}", case.id);
        }
        Work::Instruction(call, expected) => {
            assert_eq!(&call.answer(), expected, "case {}", case.id);
        }
        Work::Program(input, expected) => {
            case.check_printed(&outline(input), expected);
        }
    }
}

#[test]
fn every_case() {
    let cases = all_cases().unwrap();
    cases.iter().for_each(check);
    let expected = [
        (("base", "assemble"), 65),
        (("base", "program"), 21),
        (("base", "turns"), 16),
        (("M-100", "assemble"), 98),
        (("M-100", "program"), 53),
        (("M-100", "turns"), 40),
        (("M-101", "assemble"), 98),
        (("M-101", "program"), 49),
        (("M-101", "turns"), 40),
        (("M-102", "assemble"), 67),
        (("M-102", "instruction"), 111),
        (("M-102", "program"), 34),
        (("M-102", "turns"), 40),
        (("M-103", "assemble"), 97),
        (("M-103", "instruction"), 82),
        (("M-103", "program"), 46),
        (("M-103", "turns"), 40),
        (("M-104", "assemble"), 109),
        (("M-104", "instruction"), 80),
        (("M-104", "program"), 38),
        (("M-104", "turns"), 40),
    ];
    assert_eq!(counted(&cases), BTreeMap::from(expected));
}

/// What is left out is counted too, so that it cannot grow unseen.
#[test]
fn cases_that_say_nothing_any_more() {
    let expected = [
        (("base", "assemble"), 14),
        (("base", "program"), 4),
        (("M-100", "assemble"), 3),
        (("M-101", "assemble"), 3),
        (("M-102", "assemble"), 2),
        (("M-102", "program"), 2),
        (("M-103", "assemble"), 3),
    ];
    let overtaken = overtaken_cases().unwrap();
    assert_eq!(counted(&overtaken), BTreeMap::from(expected));
    let (mut joined_otherwise, mut refused, mut alike) = (0, 0, 0);
    for case in &overtaken {
        let (call, before) = match &case.work {
            Work::Assemble(call, before) => (call, before),
            _ => continue,
        };
        let now = call.outcome(assemble);
        match now.answer {
            Answer::Refused(refusal) if refusal.number == 17 => refused += 1,
            _ if now.polygons == before.polygons && now.sequences == before.sequences => alike += 1,
            _ => joined_otherwise += 1,
        }
    }
    assert_eq!((joined_otherwise, refused, alike), (13, 6, 6));
}

/// How many sheets of the file of M-104 are accepted with corners, how many of
/// these have one that is apart, and how many are refused with 17.
#[test]
fn corners_of_the_vectors() {
    let (mut with_corners, mut with_apart, mut refused) = (0, 0, 0);
    for case in all_cases().unwrap() {
        let (call, expected) = match &case.work {
            Work::Assemble(call, expected) if case.id.starts_with("M-104/") => (call, expected),
            _ => continue,
        };
        let edges = read_edges(&call.edges);
        match expected.answer {
            Answer::Accepted { .. } => {
                with_corners += !touching_sites(&edges).is_empty() as usize;
                with_apart += !apart_sites(&edges).is_empty() as usize;
            }
            Answer::Refused(refusal) => refused += (refusal.number == 17) as usize,
        }
    }
    assert_eq!((with_corners, with_apart, refused), (2, 1, 8));
}

/// How many cases there are of each file and operation.
fn counted(cases: &[Case]) -> BTreeMap<(&str, &str), usize> {
    let mut met = BTreeMap::new();
    for case in cases {
        let operation = match case.work {
            Work::Assemble(..) => "assemble",
            Work::Turns(..) => "turns",
            Work::Instruction(..) => "instruction",
            Work::Program(..) => "program",
        };
        let file = case.id.split('/').next().unwrap();
        *met.entry((file, operation)).or_insert(0) += 1;
    }
    met
}

#[test]
fn strings_stand_for_bytes() {
    let bytes = |text| string_bytes(text).unwrap();
    assert_eq!(bytes(r#""""#), b"");
    assert_eq!(bytes(r#""1 -2\n""#), b"1 -2\n");
    assert_eq!(bytes(r#""\"\\\/\b\f\t\r""#), b"\"\\/\x08\x0c\t\r");
    assert_eq!(bytes(r#""\u0000\u00e9\u00FF""#), [0, 0xe9, 0xff]);
    for bad in [
        r#"""#,
        "",
        "a",
        r#""\x""#,
        r#""\u12""#,
        r#""\u0100""#,
        r#""a"b""#,
    ] {
        assert!(string_bytes(bad).is_err(), "{}", bad);
    }
}

#[test]
fn files_that_are_not_understood() {
    let whole = "case a program\ninput \"\"\noutput \"\"\nend\n";
    assert_eq!(read_cases(whole).unwrap().len(), 1);
    assert_eq!(read_cases("").unwrap().len(), 0);
    let spoilt = [
        ("case a program", "case a"),
        ("case a program", "case a dance"),
        ("case a program", "a program"),
        ("input", "inputs"),
        ("output \"\"\n", ""),
        ("output \"\"", "input \"\""),
        ("end\n", ""),
    ];
    for (right, wrong) in spoilt {
        assert!(read_cases(&whole.replace(right, wrong)).is_err());
    }
}

#[test]
fn instructions_that_are_not_understood() {
    let whole = "case a instruction\nin edges empty\nin poly empty\nin seq empty\nin turn empty\nin k 0\nin machine flat\nfill 77\ninstruction cut 00000000 bf800000\nend\n";
    let case = read_cases(whole).unwrap().remove(0);
    match case.work {
        Work::Instruction(_, expected) => {
            let place = [0.0_f32, -1.0].map(f32::to_bits);
            assert_eq!(expected, Ok(Instruction::Cut(place)));
        }
        other => panic!("{:?}", other),
    }
    let spoilt = [
        ("machine flat", "machine bed"),
        ("in k 0", "in k -1"),
        ("in turn empty\n", ""),
        ("cut 00000000 bf800000", "cut 00000000"),
        ("cut 00000000 bf800000", "lift 00000000 bf800000"),
        ("bf800000", "bf80000g"),
        ("instruction cut", "instruction fall"),
        ("instruction cut 00000000 bf800000\n", ""),
    ];
    for (right, wrong) in spoilt {
        assert!(
            read_cases(&whole.replace(right, wrong)).is_err(),
            "{}",
            wrong
        );
    }
}

/// The case of this name, which must hold, with its expected outcome changed.
fn changed(id: &str, change: fn(&mut Outcome)) -> Case {
    let cases = all_cases().unwrap();
    let mut case = cases.into_iter().find(|case| case.id == id).unwrap();
    check(&case);
    match &mut case.work {
        Work::Assemble(_, expected) => change(expected),
        _ => panic!("{} assembles nothing", id),
    }
    case
}

fn is_noticed(id: &str, change: fn(&mut Outcome)) -> bool {
    let changed = changed(id, change);
    std::panic::catch_unwind(|| check(&changed)).is_err()
}

fn peak_of(expected: &mut Outcome) -> &mut u32 {
    match &mut expected.answer {
        Answer::Accepted { peak, .. } => peak,
        Answer::Refused(_) => panic!("refused"),
    }
}

#[test]
fn a_changed_case_is_noticed() {
    let changes: [fn(&mut Outcome); 6] = [
        |expected| expected.polygons[0] = 2,
        |expected| expected.turns.swap(0, 1),
        |expected| expected.journal[0] += 1,
        |expected| expected.journal[3] += 1,
        |expected| *expected.journal.last_mut().unwrap() += 1,
        |expected| *peak_of(expected) -= 1,
    ];
    let ids = [
        "base/fixed/1",
        "M-101/fixed/2",
        "M-103/fixed/3",
        "M-104/fixed/2",
    ];
    for id in ids {
        assert!(changes.iter().all(|change| is_noticed(id, *change)));
    }
}

/// Rows' names and larger peaks are noticed, but for the cases from before M-103.
#[test]
fn rows_of_older_cases_are_not_compared() {
    let changes: [fn(&mut Outcome); 2] = [
        |expected| expected.journal[2] += 1,
        |expected| *peak_of(expected) += 1,
    ];
    for change in changes {
        assert!(is_noticed("M-103/fixed/3", change));
        assert!(!is_noticed("M-101/fixed/2", change));
    }
}

/// Of the sheets that lacked a row before M-103 some have enough now, and the
/// others lack one at the same edge.
#[test]
fn rows_that_are_lacking_no_more() {
    let (mut accepted, mut as_before) = (0, 0);
    let cases = all_cases().unwrap();
    for case in cases.iter().filter(|case| case.older) {
        let (call, expected) = match &case.work {
            Work::Assemble(call, expected) => (call, expected),
            _ => continue,
        };
        match (expected.answer, call.outcome(assemble).answer) {
            (Answer::Refused(before), now) if before.number == 10 => match now {
                Answer::Accepted { .. } => accepted += 1,
                Answer::Refused(refusal) => as_before += (refusal == before) as usize,
            },
            _ => {}
        }
    }
    assert_eq!((accepted, as_before), (4, 36));
}

fn has_no_turn_list(id: &str) -> bool {
    id.starts_with("base/") || id.starts_with("M-100/")
}

/// A case from before M-101 is lent a turn list of one number an edge, to be left
/// or to hold the places in which the numbers of the case rise.
#[test]
fn cases_without_a_turn_list_are_lent_one() {
    let (mut filled, mut left) = (0, 0);
    for case in all_cases().unwrap() {
        let (call, expected) = match case.work {
            Work::Assemble(call, expected) if has_no_turn_list(&case.id) => (call, expected),
            _ => continue,
        };
        assert_eq!(call.turns, call.edges.len() / 5, "case {}", case.id);
        assert_eq!(expected.turns.len(), call.turns, "case {}", case.id);
        if let Answer::Refused(_) = expected.answer {
            assert!(expected.turns.iter().all(|turn| *turn == call.fill as u32));
            left += 1;
        } else {
            let pair = |turn: u32| {
                let edge = turn as usize;
                (expected.polygons[edge], expected.sequences[edge])
            };
            let rises = |two: &[u32]| pair(two[0]) < pair(two[1]);
            assert!(expected.turns.windows(2).all(rises), "case {}", case.id);
            filled += 1;
        }
    }
    assert_eq!((filled, left), (37, 126));
}
