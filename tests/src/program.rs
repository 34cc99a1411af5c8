//! The program: a flow file is read, and judged with its names and its sets.

use crate::judge::{Answer, Lent};
use crate::reader::read;

pub const PROGRAM_READS: usize = 22_409;
pub const PROGRAM_ALLOWS: u32 = 1_000_000;

/// The answer that the program prints for this input.
pub fn program(input: &[u8]) -> Answer {
    program_within(u32::MAX, input).expect("no search enters more than its allowance")
}

/// The same, but None where more states than `patience` would have to be entered to know.
pub fn program_within(patience: u32, input: &[u8]) -> Option<Answer> {
    let bytes = &input[..input.len().min(PROGRAM_READS)];
    match read(bytes) {
        Err(refusal) => Some(Answer::Refused(refusal)),
        Ok(file) => {
            let (names, sets) = (file.names_section(), file.lent_sets());
            let lent = Lent::enough(Some(&names), &file.nodes, &file.records, PROGRAM_ALLOWS);
            Lent { sets: &sets, ..lent }.judged_within(patience)
        }
    }
}
