//! What the one program is asked and leaves, in the types of the other. The second program shares no code with the library's
//! crate, so each has types of its own, and they meet here.

use hraskell::{Answer, Kind, Refused};
use second::reading::Reading;

/// The library's kind of a reading.
pub fn kind_for_library(reading: Reading) -> Kind {
    match reading {
        Reading::Plain => Kind::Plain,
        Reading::Signed => Kind::Signed,
        Reading::Truncated => Kind::Truncated,
        Reading::Adding => Kind::MultiplyAdd,
        Reading::SignedAdding => Kind::MultiplyAddSigned,
    }
}

/// The library's kind of record.
pub fn records_for_library(records: second::Records) -> hraskell::Records {
    match records {
        second::Records::Gates => hraskell::Records::Gates,
        second::Records::Cells => hraskell::Records::Cells,
    }
}

/// The library's counts.
pub fn counts_for_library(counts: second::Counts) -> hraskell::Counts {
    let second::Counts { m, i, l, o, a } = counts;
    hraskell::Counts { m, i, l, o, a }
}

/// The second program's counts.
pub fn counts_for_second(counts: hraskell::Counts) -> second::Counts {
    let hraskell::Counts { m, i, l, o, a } = counts;
    second::Counts { m, i, l, o, a }
}

/// The library's record of a step.
pub fn step_for_library(step: second::Step) -> hraskell::Step {
    let second::Step { gate, terms, made } = step;
    hraskell::Step { gate, terms, made }
}

/// The second program's record of a step.
pub fn step_for_second(step: hraskell::Step) -> second::Step {
    let hraskell::Step { gate, terms, made } = step;
    second::Step { gate, terms, made }
}

/// The library's answer or refusal.
pub fn answer_for_library(answer: second::Answer) -> Result<Answer, Refused> {
    Ok(match answer {
        second::Answer::Equal { steps, terms } => Answer::Equal {
            steps: steps.into(),
            terms: terms.into(),
        },
        second::Answer::Differs {
            steps,
            terms,
            a,
            b,
            c,
            got,
            wanted,
        } => Answer::Differs {
            steps: steps.into(),
            terms: terms.into(),
            a,
            b,
            c,
            got,
            wanted,
        },
        second::Answer::OutOfRoom { step, terms } => Answer::OutOfRoom {
            step: step.into(),
            terms: terms.into(),
        },
        second::Answer::Unfinished { steps, terms } => Answer::Unfinished {
            steps: steps.into(),
            terms: terms.into(),
        },
        second::Answer::Refused(number) => return Err(Refused(number)),
    })
}
