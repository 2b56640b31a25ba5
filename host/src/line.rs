//! The desk's line, and the exit status that goes with it.

use crate::reading::Reading;
use crate::told::{Outcome, Told};
use hraskell::Answer;

/// The desk's line, with no line end.
pub fn line(told: &Told) -> String {
    match &told.outcome {
        Outcome::Refused { number, .. } => format!("X {number}"),
        Outcome::Judged { judgement, .. } => answer_line(&judgement.answer, told.reading),
    }
}

/// 0 for E, 1 for D, 2 for R and U, 3 for a refusal.
pub fn exit_status(told: &Told) -> u8 {
    match &told.outcome {
        Outcome::Refused { .. } => 3,
        Outcome::Judged { judgement, .. } => match judgement.answer {
            Answer::Equal { .. } => 0,
            Answer::Differs { .. } => 1,
            Answer::OutOfRoom { .. } | Answer::Unfinished { .. } => 2,
        },
    }
}

fn answer_line(answer: &Answer, reading: Reading) -> String {
    match *answer {
        Answer::Equal { steps, terms } => format!("E {steps} {terms}"),
        Answer::OutOfRoom { step, terms } => format!("R {step} {terms}"),
        Answer::Unfinished { steps, terms } => format!("U {steps} {terms}"),
        Answer::Differs {
            steps,
            terms,
            a,
            b,
            c,
            got,
            wanted,
        } => {
            let added = if reading.adds() {
                format!(" {c}")
            } else {
                String::new()
            };
            format!("D {steps} {terms} {a} {b}{added} {got} {wanted}")
        }
    }
}
