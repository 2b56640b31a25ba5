//! Judging: the checks, the run of steps, and the answer.

use crate::peak::made_in_step;
use crate::polynomial::{Polynomial, Set};
use crate::reading::{Layout, Reading};
use crate::records::Records;
use crate::rules::{self, AddingRules, JudgingRules, Rules};
use crate::table::{Counts, Netlist};
use crate::words::{self, Lent, Step};

#[derive(Clone, Copy, Debug, PartialEq, Eq)]
pub enum Answer {
    /// E: the last polynomial is zero.
    Equal { steps: u32, terms: u32 },
    /// D: the last polynomial is not zero and has input variables only, or is a constant.
    Differs {
        steps: u32,
        terms: u32,
        a: u64,
        b: u64,
        /// 0 where the kind has no c.
        c: u64,
        got: u64,
        wanted: u64,
    },
    /// R: more than T terms, first after this step (0 is the start).
    OutOfRoom { step: u32, terms: u32 },
    /// U: a gate variable occurs at the end.
    Unfinished { steps: u32, terms: u32 },
    /// X: a number of refusal.
    Refused(u32),
}

/// What a run of steps ends with.
#[derive(Clone, Debug)]
pub struct Run {
    pub answer: Answer,
    /// The last polynomial of at most T terms; none when the start had no room.
    pub held: Option<Polynomial>,
    /// The polynomial that had no room, where the answer is R. Only bent rules ask for it.
    pub without_room: Option<Polynomial>,
    /// A record for each step completed.
    pub log: Vec<Step>,
}

/// What is judged, once nothing is left to refuse.
#[derive(Clone, Copy, Debug)]
pub struct Question<'a> {
    pub netlist: Netlist<'a>,
    pub reading: Reading,
    pub limit: u64,
    pub order: &'a [u32],
}

impl<'a> Question<'a> {
    /// The checks 2, 3, 8, 9, 10 and 11; 12 is about the lent words.
    pub fn checked(
        rules: &Rules,
        counts: Counts,
        table: &'a [u32],
        records: Records,
        kind: u32,
        limit: u64,
        order: &'a [u32],
    ) -> Result<Question<'a>, u32> {
        let netlist = Netlist::of(rules, counts, table, records)?;
        let soundness = netlist.soundness(rules);
        let reading = reading_of(rules, counts, kind);
        if rules.judging.soundness_comes_before_kind {
            soundness?;
        }
        let reading = reading?;
        soundness?;
        let room = limit_is_allowed(&rules.judging, limit);
        let gates = order_is_allowed(&rules.judging, counts, order);
        if rules.judging.limit_comes_before_order {
            room?;
        }
        gates?;
        room?;
        Ok(Question {
            netlist,
            reading,
            limit,
            order,
        })
    }

    /// Takes the steps of the order while there is room.
    pub fn run(&self, rules: &Rules) -> Run {
        let start = Polynomial::start(rules, &self.netlist, self.reading);
        if !self.has_room(&rules.judging, &start) {
            return full_start(&rules.judging, start);
        }
        let mut held = start;
        let mut log = Vec::new();
        for &gate in self.order {
            let next = held.step(rules, gate, self.netlist.record(gate));
            let record = record_of_step(rules, gate, &held, &next);
            if !self.has_room(&rules.judging, &next) {
                let answer = Answer::OutOfRoom {
                    step: log.len() as u32 + 1,
                    terms: held.count() as u32,
                };
                if !rules.judging.step_without_room_has_no_record {
                    log.push(record);
                }
                return Run {
                    answer,
                    held: Some(held),
                    without_room: Some(next),
                    log,
                };
            }
            // A step that changes nothing is a step all the same.
            if rules.judging.idle_steps_count || held.mentions(gate) {
                log.push(record);
            }
            held = next;
        }
        Run {
            answer: self.answer(rules, &held, log.len() as u32),
            held: Some(held),
            without_room: None,
            log,
        }
    }

    /// Terms are counted once like terms are gathered, and exactly T of them have room.
    fn has_room(&self, rules: &JudgingRules, polynomial: &Polynomial) -> bool {
        let count = if rules.gathered_terms_are_counted {
            polynomial.count()
        } else {
            polynomial.ungathered_count()
        } as u64;
        count < self.limit || (count == self.limit && rules.exactly_the_limit_is_room)
    }

    /// The answer when every step had room.
    fn answer(&self, rules: &Rules, last: &Polynomial, steps: u32) -> Answer {
        let terms = last.count() as u32;
        let is_missed = |gate| !self.order.contains(&gate);
        if !rules.judging.missed_gates_may_be_equal && self.netlist.gates().any(is_missed) {
            return Answer::Unfinished { steps, terms };
        }
        if last.count() == 0 {
            return Answer::Equal { steps, terms };
        }
        let inputs = self.netlist.counts.i;
        if last.mentions_above(inputs) && rules.judging.gate_variables_are_unfinished {
            return Answer::Unfinished { steps, terms };
        }
        let layout = self.reading.layout(&rules.adding, inputs);
        let wrong = least_wrong_inputs(rules, last, layout, inputs);
        let operands = layout.operands(wrong);
        let values = self.netlist.values_at(rules, wrong);
        Answer::Differs {
            steps,
            terms,
            a: operands.a,
            b: operands.b,
            c: operands.c,
            got: self.netlist.word(&rules.table, &values),
            wanted: self.reading.wanted_by(&rules.adding, layout.n, operands),
        }
    }
}

/// What the log says of a step: its gate, the terms after it, and those before gathering.
fn record_of_step(rules: &Rules, gate: u32, before: &Polynomial, after: &Polynomial) -> Step {
    Step {
        gate,
        terms: after.count() as u32,
        made: made_in_step(&rules.peak, gate, before, after),
    }
}

/// R at step 0: nothing is held.
fn full_start(rules: &JudgingRules, start: Polynomial) -> Run {
    let terms = if rules.full_start_holds_nothing {
        0
    } else {
        start.count() as u32
    };
    Run {
        answer: Answer::OutOfRoom { step: 0, terms },
        held: None,
        without_room: Some(start),
        log: Vec::new(),
    }
}

/// Refusal 9, or the reading that the kind names.
pub fn reading_of(rules: &Rules, counts: Counts, kind: u32) -> Result<Reading, u32> {
    Reading::of_kind(rules, kind)
        .filter(|reading| reading.fits(&rules.adding, counts))
        .ok_or(rules::KIND)
}

/// Refusal 10.
fn limit_is_allowed(rules: &JudgingRules, limit: u64) -> Result<(), u32> {
    if (rules.least_limit..=rules.most_limit).contains(&limit) {
        Ok(())
    } else {
        Err(rules::LIMIT)
    }
}

/// Refusal 11.
fn order_is_allowed(rules: &JudgingRules, counts: Counts, order: &[u32]) -> Result<(), u32> {
    if order.len() <= rules.most_steps && order.iter().all(|&v| counts.is_gate(v)) {
        Ok(())
    } else {
        Err(rules::ORDER)
    }
}

/// The differing operands with the fewest 1 bits, of those the ones with the smallest a + 2^n·b, where c is added
/// a + 2^n·b + 2^(2n)·c. They are given as a set of inputs, input v at bit v - 1.
///
/// The polynomial's value is the sum of the coefficients of all terms inside
/// the set of inputs that are 1. So where no smaller set differs, a set
/// differs exactly when it is itself a term: the set sought is the term with
/// the fewest variables, of those the smallest.
fn least_wrong_inputs(rules: &Rules, last: &Polynomial, layout: Layout, inputs: u32) -> u128 {
    let sets = || last.terms().map(|(set, _)| set);
    let least = if !rules.judging.pair_is_a_least_term {
        sets().next_back()
    } else if !rules.judging.fewest_ones_come_first {
        sets().next()
    } else {
        sets().min_by_key(|set| (rank(&rules.adding, layout, set), *set))
    };
    let variables = least.into_iter().flatten().map(|&v| u32::from(v));
    variables
        .filter(|&variable| variable <= inputs)
        .fold(0, |wrong, input| wrong | 1 << (input - 1))
}

/// What comes before the size of a set: how many 1 bits it has, and by the bent rule its part outside of c.
fn rank(rules: &AddingRules, layout: Layout, set: &Set) -> (usize, Set) {
    let outside: Set = set
        .iter()
        .copied()
        .filter(|&variable| !layout.is_of_c(variable.into()))
        .collect();
    let ones = if rules.ones_of_c_count {
        set.len()
    } else {
        outside.len()
    };
    let first = if rules.c_is_above_b {
        Set::new()
    } else {
        outside
    };
    (ones, first)
}

/// Judges a netlist. Every lent word at the end is as documents 01 and 02 say; a refusal changes none.
pub fn judge(
    counts: Counts,
    table: &[u32],
    records: Records,
    kind: u32,
    limit: u64,
    order: &[u32],
    store: &mut [u64],
    scratch: &mut [u64],
    log: &mut [Step],
    occurrences: &mut [u32],
) -> Answer {
    let lent = Lent {
        store,
        scratch,
        log,
        occurrences,
    };
    judge_by(
        &Rules::of_document(),
        counts,
        table,
        records,
        kind,
        limit,
        order,
        lent,
    )
}

pub fn judge_by(
    rules: &Rules,
    counts: Counts,
    table: &[u32],
    records: Records,
    kind: u32,
    limit: u64,
    order: &[u32],
    lent: Lent,
) -> Answer {
    let question = Question::checked(rules, counts, table, records, kind, limit, order);
    let question = match all_checked(rules, counts, question, &lent) {
        Ok(question) => question,
        Err(number) => {
            if !rules.occurrences.refusal_keeps_them {
                lent.occurrences.fill(0);
            }
            return Answer::Refused(number);
        }
    };
    let run = question.run(rules);
    words::leave(rules, &question, &run, lent);
    run.answer
}

/// The checks of the question, then 12 for everything that is lent.
fn all_checked<'a>(
    rules: &Rules,
    counts: Counts,
    question: Result<Question<'a>, u32>,
    lent: &Lent,
) -> Result<Question<'a>, u32> {
    let numbers = lent.has_words_for_occurrences(&rules.occurrences, counts);
    if !rules.occurrences.are_measured_last {
        numbers?;
    }
    let question = question?;
    lent.is_long_enough(rules, &question)?;
    numbers?;
    Ok(question)
}
