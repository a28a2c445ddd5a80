//! The answers of the witness as the numbers of the exported structs: what each
//! field must hold, those that do not apply among them.

use witness::{Answer, Instruction, Refusal, TurnAnswer};

/// Refusal, place, polygons, peak and records of an assembling call.
pub fn of_sheet(answer: Answer) -> [u32; 5] {
    match answer {
        Answer::Accepted {
            polygons,
            peak,
            records,
        } => [0, 0, polygons, peak, records],
        Answer::Refused(Refusal { number, place }) => [number, place, 0, 0, 0],
    }
}

/// Refusal, place and polygons of a turn list.
pub fn of_turned(answer: TurnAnswer) -> [u32; 3] {
    match answer {
        TurnAnswer::Accepted { polygons } => [0, 0, polygons],
        TurnAnswer::Refused(Refusal { number, place }) => [number, place, 0],
    }
}

/// Refusal, place, what, and the bits of x and y of an instruction.
pub fn of_cut(answer: Result<Instruction, Refusal>) -> [u32; 5] {
    match answer {
        Ok(Instruction::Travel([x, y])) => [0, 0, 0, x, y],
        Ok(Instruction::Cut([x, y])) => [0, 0, 1, x, y],
        Ok(Instruction::Lift) => [0, 0, 2, 0, 0],
        Err(Refusal { number, place }) => [number, place, 0, 0, 0],
    }
}
