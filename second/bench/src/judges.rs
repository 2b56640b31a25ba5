//! Three judges of one question: the proved library, the second program, and the plain C judge.

use compare::types::{counts_for_library, kind_for_library, records_for_library};
use second::netlists::Made;
use second::reading::Reading;
use second::{Counts, Records, Step};

/// What every judge is asked.
#[derive(Clone, Copy)]
pub struct Question<'a> {
    pub counts: Counts,
    pub table: &'a [u32],
    pub records: Records,
    pub reading: Reading,
    pub limit: u64,
    pub order: &'a [u32],
}

impl<'a> Question<'a> {
    pub fn of(made: &'a Made, reading: Reading, limit: u64, order: &'a [u32]) -> Question<'a> {
        Question {
            counts: made.counts,
            table: &made.table,
            records: made.records,
            reading,
            limit,
            order,
        }
    }

    /// M + 1: one for each variable, and one for the number of all terms.
    fn occurrence_words(&self) -> usize {
        self.counts.m as usize + 1
    }

    /// The number that tells C whether the records are cells.
    fn cells(&self) -> u32 {
        records_for_library(self.records).number()
    }

    /// The same question in the library's types.
    fn for_library(&self) -> hraskell::Question<'a> {
        hraskell::Question {
            counts: counts_for_library(self.counts),
            table: self.table,
            records: records_for_library(self.records),
            kind: kind_for_library(self.reading),
            limit: self.limit,
            order: self.order,
        }
    }
}

/// What every judge answers. A refusal has the letter X and its number as the step.
#[derive(Clone, Copy, Debug, PartialEq, Eq)]
pub struct Verdict {
    pub letter: char,
    pub step: u64,
    pub terms: u64,
}

impl Verdict {
    fn new(letter: char, step: impl Into<u64>, terms: impl Into<u64>) -> Verdict {
        Verdict {
            letter,
            step: step.into(),
            terms: terms.into(),
        }
    }

    fn refused(number: u32) -> Verdict {
        Verdict::new('X', number, 0u32)
    }

    pub fn is_decision(self) -> bool {
        matches!(self.letter, 'E' | 'D')
    }
}

impl std::fmt::Display for Verdict {
    fn fmt(&self, out: &mut std::fmt::Formatter) -> std::fmt::Result {
        out.pad(&format!("{} {} {}", self.letter, self.step, self.terms))
    }
}

/// The words and records lent to a judge, as many as documents 01 and 02 ask. A host lends the same ones again and again.
/// The library and the second program have each their own type of record.
pub struct Lent<Record> {
    pub store: Vec<u64>,
    pub scratch: Vec<u64>,
    pub log: Vec<Record>,
    pub occurrences: Vec<u32>,
}

impl<Record: Clone + Default> Lent<Record> {
    pub fn to(question: &Question) -> Lent<Record> {
        let words = question.limit as usize * question.counts.term_words();
        Lent {
            store: vec![0; words],
            scratch: vec![0; question.records.most_made() * words],
            log: vec![Record::default(); question.order.len()],
            occurrences: vec![0; question.occurrence_words()],
        }
    }
}

/// What the C judge works on.
pub struct LentToHash {
    terms: Vec<u64>,
    slots: Vec<u32>,
    pub occurrences: Vec<u32>,
    pub log: Vec<Step>,
}

impl LentToHash {
    pub fn to(question: &Question) -> LentToHash {
        // SAFETY: both only compute with numbers.
        let (words, slots) = unsafe {
            (
                hash_judge_term_words(question.counts.m, question.limit, question.cells()),
                hash_judge_slots(question.limit, question.cells()),
            )
        };
        LentToHash {
            terms: vec![0; words],
            slots: vec![0; slots],
            occurrences: vec![0; question.occurrence_words()],
            log: vec![Step::default(); question.order.len()],
        }
    }
}

extern "C" {
    fn hash_judge_term_words(m: u32, limit: u64, cells: u32) -> usize;

    fn hash_judge_slots(limit: u64, cells: u32) -> usize;

    fn hash_judge(
        m: u32,
        i: u32,
        o: u32,
        table: *const u32,
        cells: u32,
        kind: u32,
        limit: u64,
        order: *const u32,
        order_words: usize,
        terms: *mut u64,
        slots: *mut u32,
        occurrences: *mut u32,
        log: *mut Step,
        shown: *mut u64,
    ) -> u8;
}

pub fn by_library(question: &Question, lent: &mut Lent<hraskell::Step>) -> Verdict {
    use hraskell::{Answer, Refused};
    let lent = hraskell::Lent {
        store: &mut lent.store,
        scratch: &mut lent.scratch,
        log: &mut lent.log,
        occurrences: &mut lent.occurrences,
    };
    match hraskell::judge(&question.for_library(), lent) {
        Ok(Answer::Equal { steps, terms }) => Verdict::new('E', steps, terms),
        Ok(Answer::Differs { steps, terms, .. }) => Verdict::new('D', steps, terms),
        Ok(Answer::OutOfRoom { step, terms }) => Verdict::new('R', step, terms),
        Ok(Answer::Unfinished { steps, terms }) => Verdict::new('U', steps, terms),
        Err(Refused(number)) => Verdict::refused(number),
    }
}

pub fn by_second(question: &Question, lent: &mut Lent<Step>) -> Verdict {
    use second::Answer;
    let answer = second::judge(
        question.counts,
        question.table,
        question.records,
        question.reading.kind(),
        question.limit,
        question.order,
        &mut lent.store,
        &mut lent.scratch,
        &mut lent.log,
        &mut lent.occurrences,
    );
    match answer {
        Answer::Equal { steps, terms } => Verdict::new('E', steps, terms),
        Answer::Differs { steps, terms, .. } => Verdict::new('D', steps, terms),
        Answer::OutOfRoom { step, terms } => Verdict::new('R', step, terms),
        Answer::Unfinished { steps, terms } => Verdict::new('U', steps, terms),
        Answer::Refused(number) => Verdict::refused(number),
    }
}

/// The C judge refuses nothing: it is asked only what the others have taken.
pub fn by_hash(question: &Question, lent: &mut LentToHash) -> Verdict {
    let mut shown = [0; 2];
    // SAFETY: the question is sound, the words are as many as the C judge asks for, there is a record for each step, and
    // it is laid out as in C.
    let letter = unsafe {
        hash_judge(
            question.counts.m,
            question.counts.i,
            question.counts.o,
            question.table.as_ptr(),
            question.cells(),
            question.reading.kind(),
            question.limit,
            question.order.as_ptr(),
            question.order.len(),
            lent.terms.as_mut_ptr(),
            lent.slots.as_mut_ptr(),
            lent.occurrences.as_mut_ptr(),
            lent.log.as_mut_ptr(),
            shown.as_mut_ptr(),
        )
    };
    let [step, terms] = shown;
    Verdict::new(letter.into(), step, terms)
}
