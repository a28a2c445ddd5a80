//! What a refusal says to a person: which edge or line, what is wrong, what to
//! do. Every refusal says something of its own, and has its number and place.

use std::collections::BTreeSet;

use outline::{assemble, instruction, turns, Accepted, Machine, Outlines, Refusal};

const TRIANGLE: [i32; 15] = [0, 0, 4, 2, 7, 4, 2, 1, 5, 7, 1, 5, 0, 0, 7];

/// Two lines of one film that cross at (0, 0).
const CROSSING: [i32; 30] = [
    1, -1, -1, -1, 7, -1, -1, 0, 0, 7, 0, 0, 1, -1, 7, -1, 1, 0, 0, 7, 0, 0, 1, 1, 7, 1, 1, -1, 1,
    7,
];

/// The refusals that speak of no edge.
const OF_NO_EDGE: [Refusal; 6] = [
    Refusal::NotWhole,
    Refusal::TooMany,
    Refusal::ListsDiffer,
    Refusal::JournalShort,
    Refusal::TurnLengths,
    Refusal::PastLast,
];

/// The refusals that speak of an edge.
fn of_an_edge(edge: u32) -> [Refusal; 12] {
    [
        Refusal::PastRange { edge },
        Refusal::EqualEnds { edge },
        Refusal::TopFalls { edge },
        Refusal::Repeated { edge },
        Refusal::Uneven { edge },
        Refusal::NoRow { edge },
        Refusal::NoPolygon { edge },
        Refusal::PairRepeated { edge },
        Refusal::Gap { edge },
        Refusal::FilmPastRange { edge },
        Refusal::NotAlternating { edge },
        Refusal::HeadNotTail { edge },
    ]
}

#[test]
fn numbers_and_places() {
    let numbers = OF_NO_EDGE.map(|refusal| (refusal.number(), refusal.place(), refusal.edge()));
    let expected = [1, 2, 3, 4, 11, 18];
    assert_eq!(numbers, expected.map(|number| (number, 0, None)));
    let numbers = of_an_edge(9).map(|refusal| (refusal.number(), refusal.place(), refusal.edge()));
    let expected = [5, 6, 7, 8, 9, 10, 12, 13, 14, 16, 17, 25];
    assert_eq!(numbers, expected.map(|number| (number, 9, Some(9))));
    let malformed = Refusal::Malformed { line: 4 };
    assert_eq!((malformed.number(), malformed.place()), (15, 4));
    let differ = Refusal::TurnsDiffer { position: 6 };
    assert_eq!((differ.number(), differ.place()), (24, 6));
    assert_eq!((malformed.edge(), differ.edge()), (None, None));
    let unknown = Refusal::Unknown {
        number: 77,
        place: 5,
    };
    assert_eq!((unknown.number(), unknown.place()), (77, 5));
}

/// The word of a refusal is the name of its case.
#[test]
fn words() {
    let others = [
        Refusal::Malformed { line: 1 },
        Refusal::TurnsDiffer { position: 1 },
        Refusal::Unknown {
            number: 7,
            place: 1,
        },
    ];
    let all = OF_NO_EDGE.into_iter().chain(of_an_edge(1)).chain(others);
    for refusal in all {
        let name = format!("{:?}", refusal);
        assert_eq!(name.split(' ').next(), Some(refusal.word()));
    }
}

#[test]
fn every_refusal_has_a_sentence_of_its_own() {
    let mut sentences = BTreeSet::new();
    let mut say = |refusal: Refusal| {
        let sentence = refusal.to_string();
        let named = format!(" (refusal {}, {}): ", refusal.number(), refusal.word());
        let unknown = " (refusal 77, place 5): ";
        assert!(sentence.contains(&named) || sentence.contains(unknown));
        assert!(!sentence.ends_with(": "), "no remedy in {:?}", sentence);
        assert!(!sentence.contains('\n') && !sentence.contains("  "));
        sentences.insert(sentence.replace("edge 4095 (counted from 0) ", "an edge "));
        sentence
    };
    for refusal in OF_NO_EDGE {
        say(refusal);
    }
    for refusal in of_an_edge(4095) {
        assert!(say(refusal).starts_with("edge 4095 (counted from 0) "));
    }
    assert!(say(Refusal::Malformed { line: 12 }).starts_with("line 12 is malformed (refusal 15, "));
    let differ = say(Refusal::TurnsDiffer { position: 12 });
    assert!(differ.starts_with("position 12 of the turn list (counted from 0) has "));
    let unknown = Refusal::Unknown {
        number: 77,
        place: 5,
    };
    assert!(say(unknown).starts_with("the engine refuses for a reason "));
    assert_eq!(sentences.len(), 21);
}

#[test]
fn one_sentence_in_full() {
    let refusal = Outlines::of(&[0, 1, 1, 1, 7, 0, 0, 1, 0, 7]).unwrap_err();
    assert_eq!(
        refusal.to_string(),
        "edge 1 (counted from 0) has its higher end below the higher end of the edge before it \
         (refusal 7, TopFalls): sort the edges by the y of their higher ends, and at equal y by the x"
    );
}

#[test]
fn a_refusal_is_an_error() {
    let refuse = || -> Result<Outlines, Box<dyn std::error::Error>> { Ok(Outlines::of(&[1])?) };
    assert!(refuse().unwrap_err().to_string().starts_with("the list "));
}

/// The answer with so many numbers in the three lists, the journal and the rows.
fn answer(
    edges: &[i32],
    lists: [usize; 3],
    journal: usize,
    rows: usize,
) -> Result<Accepted, Refusal> {
    assemble(
        edges,
        &mut vec![0; lists[0]],
        &mut vec![0; lists[1]],
        &mut vec![0; lists[2]],
        &mut vec![0; journal],
        &mut vec![0; rows],
    )
}

#[test]
fn each_refusal_of_the_engine_comes_as_its_case() {
    let one_edge = |edge: &[i32]| answer(edge, [1; 3], 8, 8);
    let triangle = |lists, journal, rows| answer(&TRIANGLE, lists, journal, rows);
    let cases = [
        (one_edge(&[0; 6]), Refusal::NotWhole),
        (one_edge(&[0; 5 * 4097]), Refusal::TooMany),
        (triangle([2, 3, 3], 24, 8), Refusal::ListsDiffer),
        (triangle([3, 2, 3], 24, 8), Refusal::ListsDiffer),
        (triangle([3, 3, 2], 24, 8), Refusal::ListsDiffer),
        (triangle([3; 3], 23, 8), Refusal::JournalShort),
        (
            one_edge(&[0, 0, 1_000_001, 0, 256]),
            Refusal::PastRange { edge: 0 },
        ),
        (
            one_edge(&[0, 0, 0, 0, 256]),
            Refusal::FilmPastRange { edge: 0 },
        ),
        (
            answer(&CROSSING, [6; 3], 48, 0),
            Refusal::NotAlternating { edge: 1 },
        ),
        (triangle([3; 3], 24, 7), Refusal::NoRow { edge: 0 }),
    ];
    for (answer, refusal) in cases {
        assert_eq!(answer, Err(refusal));
    }
}

#[test]
fn each_refusal_of_the_turn_list_comes_as_its_case() {
    let refused = |polygons: &[u32], sequences: &[u32], length: usize| {
        turns(polygons, sequences, &mut vec![0; length]).unwrap_err()
    };
    assert_eq!(refused(&[1], &[0], 2), Refusal::TurnLengths);
    assert_eq!(refused(&[1, 0], &[0, 0], 2), Refusal::NoPolygon { edge: 1 });
    assert_eq!(
        refused(&[1, 1], &[0, 0], 2),
        Refusal::PairRepeated { edge: 1 }
    );
    assert_eq!(refused(&[1, 1], &[0, 2], 2), Refusal::Gap { edge: 1 });
}

#[test]
fn each_refusal_of_an_instruction_comes_as_its_case() {
    let refused = |edges: &[i32], turns: &[u32], k: u32| {
        let asked = instruction(Machine::Flatbed, edges, &[1, 1, 1], &[1, 2, 0], turns, k);
        asked.unwrap_err()
    };
    let mut open = TRIANGLE;
    open[7] += 1;
    let cases = [
        (refused(&TRIANGLE[1..], &[2, 0, 1], 0), Refusal::NotWhole),
        (refused(&TRIANGLE[5..], &[2, 0, 1], 0), Refusal::TurnLengths),
        (
            refused(&TRIANGLE, &[2, 1, 0], 0),
            Refusal::TurnsDiffer { position: 1 },
        ),
        (
            refused(&open, &[2, 0, 1], 0),
            Refusal::HeadNotTail { edge: 1 },
        ),
        (refused(&TRIANGLE, &[2, 0, 1], 5), Refusal::PastLast),
    ];
    for (given, wanted) in cases {
        assert_eq!(given, wanted);
    }
}
