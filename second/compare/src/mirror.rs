//! The second program behind the exported functions' own rules: numbers in place of answers, words in place of values. What it
//! is handed and lent is what `hraskell::raw` takes.

use crate::types::{counts_for_second, step_for_library, step_for_second};
use hraskell::raw::Question;
use hraskell::{Counts, Lent};
use second::rules::LENT_SHORT;
use second::{evaluate_by, judge_by, read_by, Answer, Records, Rules, Step};

/// Added to a number of refusal.
const REFUSED: u32 = 100;
/// M, I, L, O, A.
const COUNT_WORDS: usize = 5;
/// Steps, terms, a, b, c, got, wanted.
const ANSWER_WORDS: usize = 7;

/// What the exported functions add to the rules of the document.
#[derive(Clone, Copy)]
struct Boundary {
    own_buffer_is_measured_first: bool,
    other_words_are_kept: bool,
    refusal_changes_nothing: bool,
    every_number_but_0_is_cells: bool,
    cells_is_32_bits: bool,
    c_is_measured: bool,
    c_comes_after_b: bool,
    c_has_a_word_under_every_kind: bool,
}

impl Boundary {
    const fn of_document() -> Boundary {
        Boundary {
            own_buffer_is_measured_first: true,
            other_words_are_kept: true,
            refusal_changes_nothing: true,
            every_number_but_0_is_cells: true,
            cells_is_32_bits: true,
            c_is_measured: true,
            c_comes_after_b: true,
            c_has_a_word_under_every_kind: true,
        }
    }

    /// The kind of record that a number names.
    fn records(self, cells: u32) -> Records {
        let seen = if self.cells_is_32_bits {
            cells
        } else {
            cells % 256
        };
        match seen {
            0 => Records::Gates,
            2.. if !self.every_number_but_0_is_cells => Records::Gates,
            _ => Records::Cells,
        }
    }
}

/// The second program as it would be exported.
#[derive(Clone, Copy)]
pub struct Mirror {
    rules: Rules,
    boundary: Boundary,
}

impl Mirror {
    pub const fn of_document() -> Mirror {
        Mirror {
            rules: Rules::of_document(),
            boundary: Boundary::of_document(),
        }
    }

    /// The mutants of the second program for this function, then those of the boundary.
    pub fn mutants_of(function: &str) -> Vec<(&'static str, Mirror)> {
        let right = Mirror::of_document();
        let bent = Rules::mutants_of(function).into_iter();
        let mut mutants: Vec<(&'static str, Mirror)> = bent
            .map(|(name, rules)| (name, Mirror { rules, ..right }))
            .collect();
        mutants.extend([
            bend("own buffer measured last", |boundary| {
                boundary.own_buffer_is_measured_first = false
            }),
            bend("other words cleared", |boundary| {
                boundary.other_words_are_kept = false
            }),
            bend("a refusal clears the words", |boundary| {
                boundary.refusal_changes_nothing = false
            }),
        ]);
        // Reading is told of no cells.
        if function != "read" {
            mutants.extend([
                bend("only 1 names cells", |boundary| {
                    boundary.every_number_but_0_is_cells = false
                }),
                bend("the number that names cells taken modulo 256", |boundary| {
                    boundary.cells_is_32_bits = false
                }),
            ]);
        }
        if function == "judge" {
            mutants.extend(of_answers());
        }
        mutants
    }

    pub fn read(&self, text: &[u8], table: &mut [u32], counts: &mut [u32]) -> u32 {
        self.bounded(counts, COUNT_WORDS, || {
            let counts = read_by(&self.rules, text, table)?;
            let second::Counts { m, i, l, o, a } = counts;
            Ok((0, vec![m, i, l, o, a]))
        })
    }

    pub fn evaluate(
        &self,
        counts: Counts,
        table: &[u32],
        cells: u32,
        x: u64,
        y: u64,
        word: &mut [u64],
    ) -> u32 {
        let counts = counts_for_second(counts);
        let records = self.boundary.records(cells);
        self.bounded(word, 1, || {
            let shown = evaluate_by(&self.rules, counts, table, records, x, y)?;
            Ok((0, vec![shown]))
        })
    }

    pub fn judge(&self, question: Question, lent: Lent, answer: &mut [u64]) -> u32 {
        let records = self.boundary.records(question.cells);
        let needed = ANSWER_WORDS - usize::from(!self.boundary.c_is_measured);
        // The second program has records of its own; what it leaves in them goes back to where the log was lent.
        let mut log: Vec<Step> = lent.log.iter().copied().map(step_for_second).collect();
        let number = self.bounded(answer, needed, || {
            let answer = judge_by(
                &self.rules,
                counts_for_second(question.counts),
                question.table,
                records,
                question.kind,
                question.limit,
                question.order,
                second::Lent {
                    store: lent.store,
                    scratch: lent.scratch,
                    log: &mut log,
                    occurrences: lent.occurrences,
                },
            );
            numbered(&self.boundary, question.kind, answer)
        });
        for (record, step) in lent.log.iter_mut().zip(log) {
            *record = step_for_library(step);
        }
        number
    }

    /// Measures the buffer of the result, asks, and leaves the number and the words of what was answered.
    fn bounded<T: Copy + Default>(
        &self,
        buffer: &mut [T],
        needed: usize,
        ask: impl FnOnce() -> Result<(u32, Vec<T>), u32>,
    ) -> u32 {
        let is_short = buffer.len() < needed;
        if is_short && self.boundary.own_buffer_is_measured_first {
            return REFUSED + LENT_SHORT;
        }
        let (number, words) = match ask() {
            Ok(_) if is_short => return REFUSED + LENT_SHORT,
            Ok(answered) => answered,
            Err(refusal) => {
                if !self.boundary.refusal_changes_nothing {
                    buffer.fill(T::default());
                }
                return REFUSED + refusal;
            }
        };
        // A bent rule may take a buffer that is too short for all words.
        let written = words.len().min(buffer.len());
        buffer[..written].copy_from_slice(&words[..written]);
        if !self.boundary.other_words_are_kept {
            buffer[written..].fill(T::default());
        }
        number
    }
}

/// The second program by the document's rules, behind a boundary with one rule bent.
fn bend(name: &'static str, change: fn(&mut Boundary)) -> (&'static str, Mirror) {
    let mut mutant = Mirror::of_document();
    change(&mut mutant.boundary);
    (name, mutant)
}

/// Bent rules of the words that go with D.
fn of_answers() -> [(&'static str, Mirror); 3] {
    [
        bend("six words are enough for an answer", |boundary| {
            boundary.c_is_measured = false
        }),
        bend("c stands before a", |boundary| {
            boundary.c_comes_after_b = false
        }),
        bend("no word for c where it is not added", |boundary| {
            boundary.c_has_a_word_under_every_kind = false
        }),
    ]
}

/// The number of an answer and the words that go with it.
fn numbered(boundary: &Boundary, kind: u32, answer: Answer) -> Result<(u32, Vec<u64>), u32> {
    let (number, words) = match answer {
        Answer::Equal { steps, terms } => (0, vec![steps.into(), terms.into()]),
        Answer::Differs {
            steps,
            terms,
            a,
            b,
            c,
            got,
            wanted,
        } => {
            let operands = if kind < 3 && !boundary.c_has_a_word_under_every_kind {
                vec![a, b]
            } else if boundary.c_comes_after_b {
                vec![a, b, c]
            } else {
                vec![c, a, b]
            };
            let counts = [steps.into(), terms.into()];
            (1, [&counts[..], &operands, &[got, wanted]].concat())
        }
        Answer::OutOfRoom { step, terms } => (2, vec![step.into(), terms.into()]),
        Answer::Unfinished { steps, terms } => (3, vec![steps.into(), terms.into()]),
        Answer::Refused(number) => return Err(number),
    };
    Ok((number, words))
}

/// A number that names this kind of record: 0 for gates, now one and now another for cells.
pub fn number_of(records: Records, turn: usize) -> u32 {
    // The lowest byte, the lower half and the sign are each all that some of them have.
    let numbers = [1, u32::MAX, 256, 2, 1 << 16, 1 << 31];
    match records {
        Records::Gates => 0,
        Records::Cells => numbers[turn % numbers.len()],
    }
}
