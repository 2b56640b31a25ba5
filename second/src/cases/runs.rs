//! More cases for judging: room at its edge, sizes at theirs, long orders, real blocks, and refusals that meet.

use super::judgements::{self, random_order, JudgeCase};
use super::{marked_numbers, wrong};
use crate::blocks;
use crate::cell_netlists::gates_as_cells;
use crate::netlists::{random_for, random_records, Made};
use crate::orders;
use crate::polynomial::Polynomial;
use crate::random::Random;
use crate::reading::Reading;
use crate::records::Records;
use crate::rules::Rules;

/// Lends more of everything than is asked for, the table too.
pub fn lend_more(random: &mut Random, case: &mut JudgeCase) {
    case.table.extend(marked_numbers(random.below(5)));
    case.store_words += random.below(9);
    case.scratch_words += random.below(9);
    case.log_records += random.below(5);
    case.occurrence_words += random.below(9);
}

/// A run with T one below, at and one above the number of terms that it has after one of its steps.
pub fn around_terms(random: &mut Random, records: Records) -> Vec<JudgeCase> {
    loop {
        let reading = random.pick(&Reading::ALL);
        let made = judgements::random_netlist(random, records, reading);
        let order = random_order(random, &made);
        let numbers = terms_after_steps(&made, reading, &order);
        if !numbers.is_empty() {
            let terms = random.pick(&numbers);
            return around(&made, reading, terms, &order);
        }
    }
}

/// The numbers of terms after the steps, those near the limits of T left out; runs of many terms are cut short.
fn terms_after_steps(made: &Made, reading: Reading, order: &[u32]) -> Vec<u64> {
    let rules = Rules::of_document();
    let question = made.question(reading.kind(), 600, order);
    let run = question.expect("a case that is taken").run(&rules);
    let numbers = run.log.iter().map(|step| u64::from(step.terms));
    numbers.filter(|&terms| terms > 128).collect()
}

fn around(made: &Made, reading: Reading, terms: u64, order: &[u32]) -> Vec<JudgeCase> {
    (terms - 1..=terms + 1)
        .map(|limit| JudgeCase::new(made, reading.kind(), limit, order.to_vec()))
        .collect()
}

/// A start polynomial of 129 terms or more, up to I 64, with T one below, at and one above its number of terms.
pub fn around_start(random: &mut Random, records: Records) -> Vec<JudgeCase> {
    let reading = random.pick(&Reading::ALL);
    // The products are n², or for t n(n + 1)/2.
    let least = if reading.adds() { 12 } else { 16 };
    let n = least + random.below((reading.most_bits() - least) as usize + 1) as u32;
    let count = random.below(12) as u32;
    let made = random_for(random, records, reading, n, count);
    let rules = Rules::of_document();
    let start = Polynomial::start(&rules, &made.netlist(), reading);
    around(&made, reading, start.count() as u64, &[])
}

/// Twelve plain bits with any records: 144 product terms, and at most 169 at the start.
pub fn twelve_bits(random: &mut Random, records: Records, limit: u64) -> JudgeCase {
    let count = random.below(40) as u32;
    let made = random_records(random, records, 24, 24, count);
    let order = random_order(random, &made);
    JudgeCase::new(&made, Reading::Plain.kind(), limit, order)
}

/// M where a set takes one word more, and at its most; I 64 among them.
pub fn at_word_borders(random: &mut Random, records: Records) -> JudgeCase {
    let m = random.pick(&[63, 64, 65, 127, 128, 129, 191, 192, 1_022, 1_023]);
    let reading = random.pick(&Reading::ALL);
    let (n, limit) = if random.one_in(3) && m > 64 {
        (reading.most_bits(), random.pick(&[128, 1_200]))
    } else {
        (1 + random.below(6) as u32, random.pick(&[128, 200]))
    };
    let made = random_for(random, records, reading, n, m - reading.inputs(n));
    let mut order = random_order(random, &made);
    order.truncate(60);
    JudgeCase::new(&made, reading.kind(), limit, order)
}

/// A small netlist under an order of this many steps, repeats among them.
pub fn long_order(random: &mut Random, records: Records, steps: usize) -> JudgeCase {
    let reading = random.pick(&Reading::ALL);
    let n = 1 + random.below(2) as u32;
    let count = 1 + random.below(12) as u32;
    let made = random_for(random, records, reading, n, count);
    let order = orders::arbitrary(random, made.counts, steps);
    JudgeCase::new(&made, reading.kind(), 128, order)
}

/// Runs that end with 16,383 to 16,385 terms, under the largest T and just below it.
///
/// The AND of fourteen inverted inputs has a term for each set of them; that of a_0 b_0 meets the product's and
/// goes. Each gate variable shown and never replaced is one term more.
pub fn around_largest_limit(records: Records) -> Vec<JudgeCase> {
    let inverted: Vec<u32> = (1..=14).map(|input| 2 * input + 1).collect();
    let mut gates = vec![(inverted[1], inverted[0])];
    for (place, &literal) in inverted[2..].iter().enumerate() {
        gates.push((2 * (15 + place as u32), literal));
    }
    let all_false = 2 * (14 + gates.len() as u32);
    gates.extend([(4, 2), (6, 2)]);
    let order: Vec<u32> = (15..=all_false / 2).rev().collect();
    let mut cases = Vec::new();
    for kept in [[0, 0], [all_false + 2, 0], [all_false + 2, all_false + 4]] {
        let gates = Made::new(14, &[all_false, kept[0], kept[1], 0, 0, 0, 0], &gates);
        let made = match records {
            Records::Gates => gates,
            Records::Cells => gates_as_cells(&gates),
        };
        for limit in [16_382, 16_383, 16_384] {
            let kind = Reading::Truncated.kind();
            cases.push(JudgeCase::new(&made, kind, limit, order.clone()));
        }
    }
    cases
}

/// The real blocks of up to four bits, under each kind, in orders honest and not.
pub fn real_blocks() -> Vec<JudgeCase> {
    let mut cases = Vec::new();
    for block in blocks::all().into_iter().filter(|block| block.n <= 4) {
        for order in blocks::orders_for(&block, 2) {
            for kind in 0..5 {
                cases.push(JudgeCase::new(&block.made, kind, 256, order.steps.clone()));
            }
        }
    }
    cases
}

/// One thing handed in wrong.
type Wrong = fn(&mut Random, &mut JudgeCase);

/// Ways to be refused, in the order of checks.
const WRONGS: [Wrong; 11] = [
    |random, case| case.counts = wrong::wrong_counts(random, case.counts),
    |random, case| {
        let needed = case.counts.table_words(case.records) as usize;
        case.table.truncate(random.below(needed));
    },
    |random, case| wrong::make_unsound(random, case.counts, case.records, &mut case.table),
    |random, case| {
        let no_kinds = [5, 255, 256, 257, 258, 259, 260, 1 << 16, u32::MAX];
        case.kind = random.pick(&no_kinds);
    },
    // u and s have as many outputs as inputs, t, m and ms have half as many.
    |random, case| {
        case.kind = if case.kind < 2 {
            random.pick(&[2, 3, 4])
        } else {
            random.pick(&[0, 1])
        }
    },
    |random, case| {
        let limits = [0, 1, 127, 16_385, (1 << 32) + 128, u64::MAX];
        case.limit = random.pick(&limits);
    },
    |random, case| {
        let (i, m) = (case.counts.i, case.counts.m);
        let no_gates = [0, 1, i, m + 1, 2 * m + 2, (1 << 16) + m, u32::MAX];
        let at = random.below(case.order.len() + 1);
        case.order.insert(at, random.pick(&no_gates));
        case.log_records += 1;
    },
    |_, case| {
        case.order = vec![case.counts.m; 4_097];
        case.log_records = 4_097;
    },
    |random, case| {
        let needed = case.limit.min(16_384) as usize * case.counts.term_words();
        if random.one_in(2) {
            case.store_words = needed - 1;
        } else {
            // For cells some of these are as many words as gates would need.
            let made = case.records.most_made();
            case.scratch_words = made * needed - 1 - random.below((made - 1) * needed);
        }
    },
    |_, case| case.log_records = case.order.len().saturating_sub(1),
    |random, case| case.occurrence_words = random.pick(&[0, 1, case.counts.m as usize]),
];

/// Every pair of ways to be refused, and every way alone, each on a case of its own that is taken without them.
pub fn refusals(random: &mut Random, records: Records) -> Vec<JudgeCase> {
    let mut cases = Vec::new();
    for (place, one) in WRONGS.iter().enumerate() {
        for (further, other) in WRONGS[place..].iter().enumerate() {
            let mut case = judgements::random(random, records);
            // What is checked later is bent first: it needs counts and table that are still right.
            other(random, &mut case);
            if further > 0 {
                one(random, &mut case);
            }
            cases.push(case);
        }
    }
    cases
}
