//! The sheets worked by hand, and every case of the vector files, through the
//! static library. The expected numbers come from the papers and from the files,
//! not from the witness.

use outline::turns;
use tests::held::{asked, outcome, turned};
use witness::vectors::{all_cases, Work};
use witness::worked::{accepted_at_corners, accepted_by_document_01, accepted_in_films};
use witness::worked::{refused_at_corners, refused_by_document_01, refused_for_films};

#[test]
fn by_hand() {
    let of_document_01 = [accepted_by_document_01(), refused_by_document_01()];
    let of_films = [accepted_in_films(), refused_for_films()];
    let at_corners = [accepted_at_corners(), refused_at_corners()];
    let all = of_document_01.into_iter().chain(of_films).chain(at_corners);
    for worked in all.flatten() {
        worked.check(&outcome(&worked.call));
    }
}

#[test]
fn every_case_of_the_vectors() {
    let (mut assemble_cases, mut turn_cases, mut cut_cases) = (0, 0, 0);
    for case in &all_cases().unwrap() {
        match &case.work {
            Work::Assemble(call, expected) => {
                case.check_outcome(&outcome(call), expected);
                assemble_cases += 1;
            }
            Work::Turns(call, expected) => {
                let outcome = call.outcome(|a, b, c| turned(turns(a, b, c)));
                assert_eq!(&outcome, expected, "case {}", case.id);
                turn_cases += 1;
            }
            Work::Instruction(call, expected) => {
                let lists: [&[u32]; 3] = [&call.polygons, &call.sequences, &call.turns];
                let answer = asked(call.machine, &call.edges, lists, call.k);
                assert_eq!(&answer, expected, "case {}", case.id);
                cut_cases += 1;
            }
            Work::Program(..) => {}
        }
    }
    assert_eq!((assemble_cases, turn_cases, cut_cases), (534, 216, 273));
}
