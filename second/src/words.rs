//! The words of store, scratch, log and occurrences: how many are needed, and what they hold afterwards.

use crate::judge::{Question, Run};
use crate::occurrences::occurrences_after;
use crate::polynomial::{Polynomial, Set};
use crate::rules::{self, JudgingRules, OccurrenceRules, Rules};
use crate::table::Counts;

/// A record of the log: the gate of a step, the terms after it, and those before like ones met. Its layout is that of a
/// C host.
#[derive(Clone, Copy, Debug, Default, PartialEq, Eq)]
#[repr(C)]
pub struct Step {
    pub gate: u32,
    pub terms: u32,
    pub made: u32,
}

/// The words and records lent to the judge.
pub struct Lent<'a> {
    pub store: &'a mut [u64],
    pub scratch: &'a mut [u64],
    pub log: &'a mut [Step],
    pub occurrences: &'a mut [u32],
}

impl Lent<'_> {
    /// Refusal 12 for the occurrences.
    pub fn has_words_for_occurrences(
        &self,
        rules: &OccurrenceRules,
        counts: Counts,
    ) -> Result<(), u32> {
        let needed = counts.m as usize + usize::from(rules.need_a_word_for_entry_0);
        if self.occurrences.len() >= needed || !rules.are_measured {
            Ok(())
        } else {
            Err(rules::LENT_SHORT)
        }
    }

    /// Refusal 12 for store, scratch and log.
    pub fn is_long_enough(&self, rules: &Rules, question: &Question) -> Result<(), u32> {
        let needed = store_words(question);
        let measured = question.netlist.records.measured_in_scratch(&rules.cells);
        let scratch_holds = self.scratch.len() >= measured.most_made() * needed;
        let steps = question.order.len();
        let log_holds = self.log.len() >= steps || !rules.judging.log_is_measured;
        if self.store.len() >= needed && scratch_holds && log_holds {
            Ok(())
        } else {
            Err(rules::LENT_SHORT)
        }
    }
}

/// T(W+1): the words of T terms.
fn store_words(question: &Question) -> usize {
    question.limit as usize * question.netlist.counts.term_words()
}

/// Leaves in the lent words what the run ended with.
pub fn leave(rules: &Rules, question: &Question, run: &Run, lent: Lent) {
    leave_occurrences(&rules.occurrences, question, run, lent.occurrences);
    let rules = &rules.judging;
    let cleared = if rules.store_is_cleared_to_its_end {
        lent.store.len()
    } else {
        store_words(question)
    };
    lent.store[..cleared].fill(0);
    if let Some(held) = &run.held {
        let words = polynomial_words(rules, held, question.netlist.counts.term_words());
        lent.store[..words.len()].copy_from_slice(&words);
    }
    if rules.scratch_is_cleared {
        lent.scratch.fill(0);
    }
    leave_log(rules, run, lent.log);
}

/// One record for each step completed; the other records keep their values.
fn leave_log(rules: &JudgingRules, run: &Run, log: &mut [Step]) {
    if !rules.other_records_are_kept {
        log.fill(Step::default());
    }
    for (place, &step) in log.iter_mut().zip(&run.log) {
        *place = if rules.gate_comes_before_terms {
            step
        } else {
            Step {
                gate: step.terms,
                terms: step.gate,
                ..step
            }
        };
    }
}

/// A number in each of the first M + 1 words; the other words keep their values.
fn leave_occurrences(rules: &OccurrenceRules, question: &Question, run: &Run, words: &mut [u32]) {
    let Some(numbers) = occurrences_after(rules, question.netlist.counts, run) else {
        return;
    };
    if !rules.words_past_are_kept {
        words.fill(0);
    }
    let first = usize::from(!rules.entry_0_is_written);
    for (word, number) in words.iter_mut().zip(numbers).skip(first) {
        *word = number;
    }
}

/// The terms one after another, sets falling when read as one number: the last word leads.
fn polynomial_words(rules: &JudgingRules, held: &Polynomial, term_words: usize) -> Vec<u64> {
    let mut terms: Vec<Vec<u64>> = held
        .terms()
        .rev()
        .map(|(set, coefficient)| words_of_term(set, coefficient, term_words))
        .collect();
    if !rules.last_word_leads {
        terms.sort_by(|one, other| other[1..].cmp(&one[1..]));
    }
    if !rules.sets_fall {
        terms.reverse();
    }
    terms.concat()
}

/// The coefficient, then the set: variable v at bit v mod 64 of word v/64.
fn words_of_term(set: &Set, coefficient: u64, term_words: usize) -> Vec<u64> {
    let mut words = vec![0; term_words];
    words[0] = coefficient;
    for &variable in set {
        let place = usize::from(variable);
        words[1 + place / 64] |= 1 << (place % 64);
    }
    words
}
