//! What the cases worked before M-103, and before M-104, still say. Before M-103
//! a row was freed when all that it set going above was over, so that more rows
//! were in use and rows had other names. The numbers, the refusals, and of the
//! records the levels and offsets are the same, and no peak is larger now; only
//! where a row was lacking there may be enough. Before M-104 four edges of one
//! film at a point were joined lower to lower and upper to upper, in whatever
//! directions they lay: of sheets with such a point nothing is said any more,
//! unless they were refused before any edge was joined.

use crate::assemble::Answer;
use crate::call::Outcome;
use crate::declared::touching_sites;
use crate::geometry::read_edges;
use crate::steps::{NO_ROW, NUMBERS_PER_RECORD, NUMBERS_PER_ROW};
use crate::text::read_list;
use crate::vectors::Work;

/// Whether a case from before M-104 says nothing any more.
pub fn is_overtaken(work: &Work) -> bool {
    match work {
        Work::Assemble(call, before) => passed_checks(before.answer) && has_corner(&call.edges),
        Work::Program(input, before) => {
            let passed = before.starts_with(b"accepted ") || before.starts_with(b"refused 10 ");
            passed && read_list(input).map_or(false, |list| has_corner(&list))
        }
        Work::Turns(..) | Work::Instruction(..) => false,
    }
}

/// Whether an answer is none of the refusals that come before all steps.
fn passed_checks(answer: Answer) -> bool {
    match answer {
        Answer::Accepted { .. } => true,
        Answer::Refused(refusal) => refusal.number == 10,
    }
}

/// Whether four edges of one film meet at a point.
fn has_corner(list: &[i32]) -> bool {
    !touching_sites(&read_edges(list)).is_empty()
}

/// Holds an outcome to one of before.
///
/// # Panics
/// When it is not what the other still says.
pub fn check_outcome(case: &str, given: &Outcome, before: &Outcome) {
    let lacked_a_row = matches!(before.answer, Answer::Refused(refusal) if refusal.number == 10);
    let accepted = matches!(given.answer, Answer::Accepted { .. });
    if lacked_a_row && accepted {
        let lent = given.rows.len() / NUMBERS_PER_ROW;
        assert!(peak(given) as usize <= lent, "the peak of case {}", case);
        return;
    }
    assert!(peak(given) <= peak(before), "the peak of case {}", case);
    assert_eq!(without_rows(given), without_rows(before), "case {}", case);
}

fn peak(outcome: &Outcome) -> u32 {
    match outcome.answer {
        Answer::Accepted { peak, .. } => peak,
        Answer::Refused(_) => 0,
    }
}

/// An outcome in which the peak and the names of rows are 0.
fn without_rows(outcome: &Outcome) -> Outcome {
    let mut rest = outcome.clone();
    if let Answer::Accepted { peak, records, .. } = &mut rest.answer {
        *peak = 0;
        let journal = rest.journal.chunks_exact_mut(NUMBERS_PER_RECORD);
        for record in journal.take(*records as usize) {
            if record[0] > 0 {
                record[1] = 0;
            }
            if record[2] != NO_ROW {
                record[2] = 0;
            }
        }
    }
    rest
}

/// Holds what the program prints to what it printed before. The rows that it
/// lends are enough now for all these texts.
///
/// # Panics
/// When it is not what the other still says.
pub fn check_printed(case: &str, given: &str, before: &str) {
    if before.starts_with("refused 10 ") {
        assert!(given.starts_with("accepted "), "case {}: {}", case, given);
        return;
    }
    let ((given, rest), (before, rest_before)) = (peak_printed(given), peak_printed(before));
    assert!(given <= before, "the peak of case {}", case);
    assert_eq!(rest, rest_before, "case {}", case);
}

/// The peak, 0 where there is none, and all that is printed beside it.
fn peak_printed(printed: &str) -> (u32, Vec<&str>) {
    let mut words: Vec<&str> = printed.splitn(4, ' ').collect();
    let peak = match words[..] {
        ["accepted", _, peak, _] => peak.parse().ok(),
        _ => None,
    };
    if peak.is_some() {
        words.remove(2);
    }
    (peak.unwrap_or(0), words)
}
