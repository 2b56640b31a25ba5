//! The proved library for Rust: netlists read, evaluated and judged. include/hraskell.h says what each function asks for and leaves.

pub mod raw; // the functions as C has them

/// The five numbers of a netlist's header line.
#[derive(Clone, Copy, Debug, Default, PartialEq, Eq)]
pub struct Counts {
    pub m: u32,
    pub i: u32,
    pub l: u32,
    pub o: u32,
    pub a: u32,
}

/// The kind of record that a table has for each gate.
#[derive(Clone, Copy, Debug, PartialEq, Eq)]
pub enum Records {
    Gates,
    Cells,
}

/// The reading that a block is judged under, by its number in C.
#[derive(Clone, Copy, Debug, PartialEq, Eq)]
pub enum Kind {
    Plain = 0,
    Signed = 1,
    Truncated = 2,
    MultiplyAdd = 3,
    MultiplyAddSigned = 4,
}

/// A record of the log: the gate of a step, the terms after it, and those before like ones met. Its layout is that of C.
#[derive(Clone, Copy, Debug, Default, PartialEq, Eq)]
#[repr(C)]
pub struct Step {
    pub gate: u32,
    pub terms: u32,
    pub made: u32,
}

/// The answer of the judge.
#[derive(Clone, Copy, Debug, PartialEq, Eq)]
pub enum Answer {
    Equal {
        steps: u64,
        terms: u64,
    },
    Differs {
        steps: u64,
        terms: u64,
        a: u64,
        b: u64,
        c: u64,
        got: u64,
        wanted: u64,
    },
    OutOfRoom {
        step: u64,
        terms: u64,
    },
    Unfinished {
        steps: u64,
        terms: u64,
    },
}

/// The number of a refusal, 1 to 12.
#[derive(Clone, Copy, Debug, PartialEq, Eq)]
pub struct Refused(pub u32);

/// What the judge is lent: it writes into all four.
pub struct Lent<'a> {
    pub store: &'a mut [u64],
    pub scratch: &'a mut [u64],
    pub log: &'a mut [Step],
    pub occurrences: &'a mut [u32],
}

/// What the judge is asked: a table, its reading, the term limit T and an order of gate variables.
#[derive(Clone, Copy)]
pub struct Question<'a> {
    pub counts: Counts,
    pub table: &'a [u32],
    pub records: Records,
    pub kind: Kind,
    pub limit: u64,
    pub order: &'a [u32],
}

impl Counts {
    /// W + 1: the words of one term.
    pub fn term_words(self) -> usize {
        self.m as usize / 64 + 2
    }
}

impl Records {
    /// The number that names them in C.
    pub fn number(self) -> u32 {
        match self {
            Records::Gates => 0,
            Records::Cells => 1,
        }
    }

    /// The most terms that a step makes of one: so many times the store's words scratch needs.
    pub fn most_made(self) -> usize {
        match self {
            Records::Gates => 4,
            Records::Cells => 8,
        }
    }
}

impl Question<'_> {
    /// T(W + 1): the words that the store needs.
    pub fn store_words(&self) -> usize {
        self.limit as usize * self.counts.term_words()
    }

    /// The words that scratch needs.
    pub fn scratch_words(&self) -> usize {
        self.records.most_made() * self.store_words()
    }

    /// M + 1: the words that the occurrences need.
    pub fn occurrence_words(&self) -> usize {
        self.counts.m as usize + 1
    }
}

/// Reads a netlist text into the table, which has at least O + 2A words.
pub fn read(text: &[u8], table: &mut [u32]) -> Result<Counts, Refused> {
    let mut counts = [0; 5];
    let number = raw::read(text, table, &mut counts);
    let [m, i, l, o, a] = counts;
    unless_refused(number, Counts { m, i, l, o, a })
}

/// The word that the outputs show for the inputs 1 to I/2 in x and those after them in y.
pub fn evaluate(
    counts: Counts,
    table: &[u32],
    records: Records,
    x: u64,
    y: u64,
) -> Result<u64, Refused> {
    let mut word = [0];
    let number = raw::evaluate(counts, table, records.number(), x, y, &mut word);
    unless_refused(number, word[0])
}

/// Judges a block. Afterwards the store has the last polynomial with room, the log a record of each step completed, and the
/// occurrences how often each variable occurs.
pub fn judge(question: &Question, lent: Lent) -> Result<Answer, Refused> {
    let mut values = [0; 7];
    let asked = raw::Question {
        counts: question.counts,
        table: question.table,
        cells: question.records.number(),
        kind: question.kind as u32,
        limit: question.limit,
        order: question.order,
    };
    let number = raw::judge(asked, lent, &mut values);
    let [steps, terms, a, b, c, got, wanted] = values;
    match number {
        0 => Ok(Answer::Equal { steps, terms }),
        1 => Ok(Answer::Differs {
            steps,
            terms,
            a,
            b,
            c,
            got,
            wanted,
        }),
        2 => Ok(Answer::OutOfRoom { step: steps, terms }),
        3 => Ok(Answer::Unfinished { steps, terms }),
        _ => Err(Refused(number - 100)),
    }
}

fn unless_refused<R>(number: u32, result: R) -> Result<R, Refused> {
    match number {
        0 => Ok(result),
        _ => Err(Refused(number - 100)),
    }
}
