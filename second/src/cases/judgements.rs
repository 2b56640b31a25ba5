//! Cases for judging.

use super::pairs::wrong_netlists;
use super::texts::made_at_limits;
use super::{adding, cells, marked_numbers, marked_steps, marked_words, occurrences, peak};
use crate::judge::{judge_by, Answer};
use crate::netlists::{random_for, right_multiplier, with_fault, Made};
use crate::orders;
use crate::random::Random;
use crate::reading::Reading;
use crate::records::Records;
use crate::rules::Rules;
use crate::table::Counts;
use crate::words::{Lent, Step};

#[derive(Clone, Debug, PartialEq, Eq)]
pub struct JudgeCase {
    pub counts: Counts,
    pub table: Vec<u32>,
    pub records: Records,
    pub kind: u32,
    pub limit: u64,
    pub order: Vec<u32>,
    pub store_words: usize,
    pub scratch_words: usize,
    pub log_records: usize,
    pub occurrence_words: usize,
}

#[derive(Clone, Debug, PartialEq, Eq)]
pub struct JudgeSeen {
    pub answer: Answer,
    pub store: Vec<u64>,
    pub scratch: Vec<u64>,
    pub log: Vec<Step>,
    pub occurrences: Vec<u32>,
}

impl JudgeCase {
    /// A case that lends exactly the least that is asked for.
    pub fn new(made: &Made, kind: u32, limit: u64, order: Vec<u32>) -> JudgeCase {
        // Counts and limits far outside are refused before the lent words are measured.
        let term_words = made.counts.term_words().min(18);
        let store_words = limit.min(16_384) as usize * term_words;
        JudgeCase {
            counts: made.counts,
            table: made.table.clone(),
            records: made.records,
            kind,
            limit,
            store_words,
            scratch_words: made.records.most_made() * store_words,
            log_records: order.len(),
            occurrence_words: made.counts.m.min(1_024) as usize + 1,
            order,
        }
    }

    pub fn seen(&self, rules: &Rules) -> JudgeSeen {
        let mut store = marked_words(self.store_words);
        let mut scratch = marked_words(self.scratch_words);
        let mut log = marked_steps(self.log_records);
        let mut occurrences = marked_numbers(self.occurrence_words);
        let lent = Lent {
            store: &mut store,
            scratch: &mut scratch,
            log: &mut log,
            occurrences: &mut occurrences,
        };
        let (table, order) = (&self.table, &self.order);
        let answer = judge_by(
            rules,
            self.counts,
            table,
            self.records,
            self.kind,
            self.limit,
            order,
            lent,
        );
        JudgeSeen {
            answer,
            store,
            scratch,
            log,
            occurrences,
        }
    }
}

/// The AND netlist of the bench sheet with these outputs.
pub fn and_netlist(outputs: &[u32]) -> Made {
    Made::new(2, outputs, &[(4, 2)])
}

/// The two-bit multiplier of P10.
pub fn two_bits() -> Made {
    let gates = [
        (6, 2),
        (8, 2),
        (6, 4),
        (8, 4),
        (14, 12),
        (15, 13),
        (21, 19),
        (18, 16),
        (19, 17),
        (27, 25),
    ];
    Made::new(4, &[10, 22, 28, 24], &gates)
}

/// Four bits, truncated: output 0 is true when all eight inputs are false, which has 256 terms.
pub fn all_false() -> Made {
    let gates = [
        (5, 3),
        (18, 7),
        (20, 9),
        (22, 11),
        (24, 13),
        (26, 15),
        (28, 17),
    ];
    Made::new(8, &[30, 0, 0, 0], &gates)
}

/// Eleven bits with no gates: 121 product terms and one more for each input shown.
pub fn eleven_bits(shown: u32) -> Made {
    let outputs: Vec<u32> = (1..=22)
        .map(|k| if k <= shown { 2 * k } else { 0 })
        .collect();
    Made::new(22, &outputs, &[])
}

/// Everything that the document names by a number or a word.
pub fn edges() -> Vec<JudgeCase> {
    let mut cases = bench_sheet();
    cases.extend(limits_and_room());
    cases.extend(wrong_pairs());
    cases.extend(lengths());
    cases.extend(handed_in_wrong());
    cases.extend(two_refusals(&and_netlist(&[6, 0])));
    cases.extend(cells::judgements());
    cases.extend(adding::judgements());
    cases.extend(occurrences::judgements());
    cases.extend(peak::judgements());
    cases
}

/// P1 to P11, and the netlists of P1 to P11 under the other kinds.
fn bench_sheet() -> Vec<JudgeCase> {
    let mut cases = Vec::new();
    let small = [&[6, 0][..], &[6, 6], &[7, 0], &[6], &[7], &[0, 1], &[2, 5]];
    for outputs in small {
        for kind in [0, 1, 2, 3, 4, 5, 256, 257, 258, 259, 260, u32::MAX] {
            for order in [vec![], vec![3], vec![3, 3]] {
                cases.push(JudgeCase::new(&and_netlist(outputs), kind, 128, order));
            }
        }
    }
    for kind in 0..5 {
        let falling = orders::falling(two_bits().counts);
        cases.push(JudgeCase::new(&two_bits(), kind, 128, falling));
        cases.push(JudgeCase::new(&two_bits(), kind, 128, vec![]));
    }
    cases
}

/// T and the room it gives, at the start and later; orders at their longest; a gate nobody reads.
fn limits_and_room() -> Vec<JudgeCase> {
    let mut cases = Vec::new();
    for limit in [0, 127, 128, 129, 16_384, 16_385, u64::MAX] {
        cases.push(JudgeCase::new(&and_netlist(&[6, 0]), 0, limit, vec![3]));
    }
    for limit in [128, 254, 255, 256] {
        let order = orders::falling(all_false().counts);
        cases.push(JudgeCase::new(&all_false(), 2, limit, order));
    }
    for shown in [0, 6, 7, 8, 22] {
        cases.push(JudgeCase::new(&eleven_bits(shown), 0, 128, vec![]));
    }
    let one_shown = Made::new(22, &[2; 22], &[]);
    cases.push(JudgeCase::new(&one_shown, 0, 128, vec![]));
    for steps in [4_096, 4_097] {
        cases.push(JudgeCase::new(
            &and_netlist(&[6, 0]),
            0,
            128,
            vec![3; steps],
        ));
    }
    let unread = Made::new(2, &[6, 0], &[(4, 2), (6, 2)]);
    for order in [vec![3], vec![4], vec![4, 3], vec![3, 4]] {
        cases.push(JudgeCase::new(&unread, 0, 128, order));
    }
    let squared = Made::new(2, &[10, 0], &[(4, 2), (6, 6), (9, 9)]);
    cases.push(JudgeCase::new(&squared, 0, 128, vec![5, 4, 3]));
    let two_words = Made::new(4, &[2, 140, 6, 132], &[(4, 2); 66]);
    cases.push(JudgeCase::new(&two_words, 0, 128, vec![]));
    cases
}

/// Inputs and ANDs of inputs shown in all ways, so that wrong pairs with few ones stand above ones with many.
fn wrong_pairs() -> Vec<JudgeCase> {
    let gates = [(4, 2), (6, 2), (8, 6)];
    let shown = [0, 2, 4, 6, 8, 10, 12, 14];
    let mut cases = Vec::new();
    for one in shown {
        for other in shown {
            let made = Made::new(4, &[one, other], &gates);
            cases.push(JudgeCase::new(&made, 2, 128, vec![7, 6, 5]));
        }
    }
    cases
}

/// Lent words and records: one too few of each, and more than the least of each.
fn lengths() -> Vec<JudgeCase> {
    let mut cases = Vec::new();
    for base in [
        JudgeCase::new(&and_netlist(&[6, 6]), 0, 128, vec![3]),
        JudgeCase::new(&all_false(), 2, 128, orders::falling(all_false().counts)),
    ] {
        for (store, scratch, log, occurrences) in [
            (-1, 0, 0, 0),
            (0, -1, 0, 0),
            (0, 0, -1, 0),
            (0, 0, 0, -1),
            (3, 0, 0, 0),
            (0, 5, 0, 0),
            (0, 0, 2, 0),
            (0, 0, 0, 4),
            (7, 7, 3, 5),
        ] {
            let mut case = base.clone();
            case.store_words = case.store_words.wrapping_add_signed(store);
            case.scratch_words = case.scratch_words.wrapping_add_signed(scratch);
            case.log_records = case.log_records.wrapping_add_signed(log);
            case.occurrence_words = case.occurrence_words.wrapping_add_signed(occurrences);
            cases.push(case);
        }
    }
    cases
}

/// Counts, tables and orders that are refused, or are just inside.
fn handed_in_wrong() -> Vec<JudgeCase> {
    let mut cases = Vec::new();
    for made in made_at_limits().iter().chain(&wrong_netlists()) {
        for kind in 0..5 {
            cases.push(JudgeCase::new(made, kind, 128, vec![]));
        }
    }
    for gate in [0, 1, 2, 4, 6, u32::MAX] {
        let order = vec![3, gate];
        cases.push(JudgeCase::new(&and_netlist(&[6, 0]), 0, 128, order));
    }
    cases
}

/// Pairs of wrong things, so that the order of the checks shows. The netlist is right, and has one gate or cell.
pub fn two_refusals(made: &Made) -> Vec<JudgeCase> {
    two_refusals_of(&JudgeCase::new(made, 0, 128, vec![3]))
}

/// The same for any case that is taken.
pub fn two_refusals_of(right: &JudgeCase) -> Vec<JudgeCase> {
    let wrong: [fn(&mut JudgeCase); 10] = [
        |case| case.counts.l = 1,
        |case| case.table.truncate(3),
        |case| case.table[0] = 2 * case.counts.m + 2,
        |case| case.kind = 5,
        |case| case.limit = 127,
        |case| case.limit = 16_385,
        |case| case.order = vec![2],
        |case| case.order = vec![3; 4_097],
        |case| case.store_words = 100,
        |case| case.occurrence_words = case.counts.m as usize,
    ];
    let mut cases = Vec::new();
    for (place, one) in wrong.iter().enumerate() {
        for other in &wrong[place..] {
            let mut case = right.clone();
            one(&mut case);
            other(&mut case);
            cases.push(case);
        }
    }
    cases
}

/// A small netlist under some reading, some order and some limit, with room for the words or more.
pub fn random(random: &mut Random, records: Records) -> JudgeCase {
    let reading = random.pick(&Reading::ALL);
    let made = random_netlist(random, records, reading);
    let order = random_order(random, &made);
    let limit = if random.one_in(3) {
        128 + random.below(400) as u64
    } else {
        128
    };
    let mut case = JudgeCase::new(&made, reading.kind(), limit, order);
    if random.one_in(3) {
        case.store_words += random.below(4);
        case.scratch_words += random.below(4);
        case.log_records += random.below(3);
        case.occurrence_words += random.below(4);
    }
    case
}

/// Right multipliers, multipliers with a fault, and netlists with nothing in mind.
pub fn random_netlist(random: &mut Random, records: Records, reading: Reading) -> Made {
    // With c there are twice as many inputs.
    let most = if reading.adds() { 3 } else { 4 };
    let n = 1 + random.below(most) as u32;
    match random.below(4) {
        0 => right_multiplier(random, records, reading, n),
        1 => {
            let right = right_multiplier(random, records, reading, n);
            with_fault(random, &right)
        }
        _ => {
            let count = random.below(16) as u32;
            random_for(random, records, reading, n, count)
        }
    }
}

pub fn random_order(random: &mut Random, made: &Made) -> Vec<u32> {
    match random.below(6) {
        0 => orders::falling(made.counts),
        1 | 2 => orders::honest(random, &made.netlist()),
        3 => orders::shuffled(random, made.counts),
        4 => {
            let steps = random.below(2 * made.counts.a as usize + 2);
            orders::arbitrary(random, made.counts, steps)
        }
        _ => {
            let mut order = orders::honest(random, &made.netlist());
            order.truncate(random.below(order.len() + 1));
            order
        }
    }
}
