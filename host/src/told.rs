//! A file under one reading, with all that is told of it.

use crate::judging::Judgement;
use crate::reading::Reading;
use hraskell::Counts;

/// Where an order comes from.
#[derive(Clone, Debug, PartialEq, Eq)]
pub enum Rule {
    /// M down to I + 1.
    Falling,
    /// Of the gates whose readers are all done, the one of least growth.
    LeastGrowth,
    /// The same with a look at the steps that follow.
    LookAhead,
    /// Handed in, in this file.
    File(String),
    /// The desk program's own, M down to I + 1, which nobody can change.
    Desk,
}

/// An order, and where it comes from.
#[derive(Clone, Debug, PartialEq, Eq)]
pub struct Taken {
    pub rule: Rule,
    pub order: Vec<u32>,
}

/// What became of a file under one reading.
#[derive(Clone, Debug, PartialEq, Eq)]
pub enum Outcome {
    Judged {
        taken: Taken,
        judgement: Judgement,
    },
    /// The number of the refusal, and the line of the file that it is about, where it is about one.
    Refused {
        number: u32,
        line: Option<usize>,
    },
}

/// A file under one reading, with all that a line, a sentence, a report, a plot or a log tells of it.
#[derive(Clone, Debug, PartialEq, Eq)]
pub struct Told {
    /// The file as it was named; `-` is standard input.
    pub name: String,
    pub bytes: u64,
    /// 64 hexadecimal digits; none where it could not be had.
    pub sha256: Option<String>,
    /// None where the text was refused.
    pub counts: Option<Counts>,
    pub reading: Reading,
    /// The term limit T.
    pub limit: u64,
    pub outcome: Outcome,
}
