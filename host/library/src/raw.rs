//! The exported functions as C has them: numbers and lent slices in, a number out. They are declared here and nowhere else in Rust.

use crate::{Counts, Lent, Step};

extern "C" {
    fn hraskell_read(
        text: *const u8,
        text_bytes: usize,
        table: *mut u32,
        table_words: usize,
        counts: *mut u32,
        counts_words: usize,
    ) -> u32;

    fn hraskell_evaluate(
        m: u32,
        i: u32,
        l: u32,
        o: u32,
        a: u32,
        table: *const u32,
        table_words: usize,
        cells: u32,
        x: u64,
        y: u64,
        word: *mut u64,
        word_words: usize,
    ) -> u32;

    fn hraskell_judge(
        m: u32,
        i: u32,
        l: u32,
        o: u32,
        a: u32,
        table: *const u32,
        table_words: usize,
        cells: u32,
        kind: u32,
        limit: u64,
        order: *const u32,
        order_words: usize,
        store: *mut u64,
        store_words: usize,
        scratch: *mut u64,
        scratch_words: usize,
        log: *mut Step,
        log_records: usize,
        occurrences: *mut u32,
        occurrences_words: usize,
        answer: *mut u64,
        answer_words: usize,
    ) -> u32;
}

/// What the judge is asked, in C's numbers: any number may stand for the records and for the kind.
#[derive(Clone, Copy)]
pub struct Question<'a> {
    pub counts: Counts,
    pub table: &'a [u32],
    pub cells: u32,
    pub kind: u32,
    pub limit: u64,
    pub order: &'a [u32],
}

/// The reader: the table and the five counts in front of what is lent, and 0; or a refusal's number plus 100.
#[rustfmt::skip]
pub fn read(text: &[u8], table: &mut [u32], counts: &mut [u32]) -> u32 {
    // SAFETY: slices are never null, and those lent for writing overlap nothing.
    unsafe {
        hraskell_read(
            text.as_ptr(), text.len(),
            table.as_mut_ptr(), table.len(),
            counts.as_mut_ptr(), counts.len(),
        )
    }
}

/// The evaluator at one choice of the operands: the word in front of what is lent, and 0; or a refusal's number plus 100.
#[rustfmt::skip]
pub fn evaluate(counts: Counts, table: &[u32], cells: u32, x: u64, y: u64, word: &mut [u64]) -> u32 {
    let Counts { m, i, l, o, a } = counts;
    // SAFETY: slices are never null, and the one lent for writing overlaps nothing.
    unsafe {
        hraskell_evaluate(
            m, i, l, o, a,
            table.as_ptr(), table.len(), cells,
            x, y,
            word.as_mut_ptr(), word.len(),
        )
    }
}

/// The judge: 0 to 3 for E, D, R and U with the values in front of `answer`; or a refusal's number plus 100.
#[rustfmt::skip]
pub fn judge(question: Question, lent: Lent, answer: &mut [u64]) -> u32 {
    let Counts { m, i, l, o, a } = question.counts;
    let (table, order) = (question.table, question.order);
    // SAFETY: slices are never null, those lent for writing overlap nothing, and a record is laid out as in C.
    unsafe {
        hraskell_judge(
            m, i, l, o, a,
            table.as_ptr(), table.len(), question.cells,
            question.kind, question.limit,
            order.as_ptr(), order.len(),
            lent.store.as_mut_ptr(), lent.store.len(),
            lent.scratch.as_mut_ptr(), lent.scratch.len(),
            lent.log.as_mut_ptr(), lent.log.len(),
            lent.occurrences.as_mut_ptr(), lent.occurrences.len(),
            answer.as_mut_ptr(), answer.len(),
        )
    }
}
