//! Cases for the evaluator. Its two words are a and b, or a + 2^n·b and c.

use super::texts::made_at_limits;
use super::{cells, marked_numbers, wrong};
use crate::netlists::{random_records, random_size, right_multiplier, with_fault, Made};
use crate::random::Random;
use crate::reading::{low_bits, Reading};
use crate::records::Records;
use crate::rules::Rules;
use crate::table::{evaluate_by, Counts};

#[derive(Clone, Debug, PartialEq, Eq)]
pub struct PairCase {
    pub counts: Counts,
    pub table: Vec<u32>,
    pub records: Records,
    pub x: u64,
    pub y: u64,
}

impl PairCase {
    pub fn new(made: &Made, x: u64, y: u64) -> PairCase {
        PairCase {
            counts: made.counts,
            table: made.table.clone(),
            records: made.records,
            x,
            y,
        }
    }

    pub fn seen(&self, rules: &Rules) -> Result<u64, u32> {
        let (counts, records) = (self.counts, self.records);
        evaluate_by(rules, counts, &self.table, records, self.x, self.y)
    }
}

/// Netlists of both kinds at the limits and with one thing wrong, at a few pairs; every byte at all its values.
pub fn edges() -> Vec<PairCase> {
    let gates = made_at_limits().into_iter().chain(wrong_netlists());
    let cells = cells::made_at_limits()
        .into_iter()
        .chain(cells::wrong_netlists());
    let mut cases = Vec::new();
    for made in gates.chain(cells) {
        for (x, y) in [(0, 0), (1, 2), (u64::MAX, 5), (6, u64::MAX)] {
            cases.push(PairCase::new(&made, x, y));
        }
    }
    for made in cells::all_bytes_shown() {
        for bits in 0..8 {
            cases.push(PairCase::new(&made, bits % 4, bits / 4));
        }
    }
    cases
}

/// The AND netlist with one thing, or two, handed in wrong.
pub fn wrong_netlists() -> Vec<Made> {
    let right = Made::new(2, &[6, 0], &[(4, 2)]);
    let tables: [&[u32]; 12] = [
        &[6, 0, 4, 2],
        &[7, 0, 4, 2],
        &[8, 0, 4, 2],
        &[6, u32::MAX, 4, 2],
        &[6, 0, 2, 4],
        &[6, 0, 6, 2],
        &[6, 0, 7, 2],
        &[6, 0, 6, 6],
        &[6, 0, 4],
        &[],
        &[6, 0, 4, 2, u32::MAX],
        &[1, 1, 1, 1],
    ];
    let mut list: Vec<Made> = tables
        .into_iter()
        .map(|table| Made {
            table: table.to_vec(),
            ..right.clone()
        })
        .collect();
    for counts in wrong_counts(right.counts) {
        list.push(Made {
            counts,
            ..right.clone()
        });
        list.push(Made {
            counts,
            table: vec![9, 9],
            ..right
        });
    }
    list
}

/// Counts of the AND netlist with one or two of them changed; some sums come out right only when they wrap.
pub fn wrong_counts(right: Counts) -> Vec<Counts> {
    let Counts { m, i, l, o, a } = right;
    let high = u32::MAX;
    let changed = [
        (4, i, l, o, a),
        (2, i, l, o, a),
        (m, i, 1, o, a),
        (m, i, l, 0, a),
        (m, i, l, 1, a),
        (m, i, l, 3, a),
        (m, i, l, high, a),
        (m, 0, l, o, a),
        (m, 1, l, o, 2),
        (m, 3, l, o, 0),
        (m, i, l, o, 0),
        (m, 4, l, o, high),
        (m, high, l, o, 4),
        (high, i, l, o, high - 2),
    ];
    changed
        .into_iter()
        .map(|(m, i, l, o, a)| Counts { m, i, l, o, a })
        .collect()
}

/// A random sound netlist at a random pair of whole words, sometimes with one word changed.
pub fn random(random: &mut Random, records: Records) -> PairCase {
    let inputs = 2 * (1 + random.below(32)) as u32;
    let outputs = 1 + random.below(64) as u32;
    let count = random.below(40) as u32;
    let mut made = random_records(random, records, inputs, outputs, count);
    if random.one_in(10) {
        let at = random.below(made.table.len());
        made.table[at] = random.below(2 * made.counts.m as usize + 4) as u32;
    }
    if random.one_in(10) {
        made.table.push(random.word() as u32);
    }
    let (x, y) = (random.word(), random.word());
    PairCase::new(&made, x, y)
}

/// A sound netlist of any size, any O, at any pair; sometimes with words past its table.
pub fn sound(random: &mut Random, records: Records) -> PairCase {
    let mut made = random_size(random, records);
    if random.one_in(4) {
        made.table.extend(marked_numbers(1 + random.below(6)));
    }
    let half = made.counts.half();
    let (x, y) = (input_word(random, half), input_word(random, half));
    PairCase::new(&made, x, y)
}

/// A word with bits of the inputs, with bits from I/2 up, or with both.
fn input_word(random: &mut Random, half: u32) -> u64 {
    let word = random.word();
    match random.below(4) {
        0 => word & low_bits(half),
        1 => word & !low_bits(half),
        2 => 1 << random.below(64),
        _ => word,
    }
}

/// A block that adds c, right or with a fault, at any words.
pub fn of_sums(random: &mut Random, records: Records) -> PairCase {
    let reading = random.pick(&[Reading::Adding, Reading::SignedAdding]);
    let n = 1 + random.below(3) as u32;
    let mut made = right_multiplier(random, records, reading, n);
    if random.one_in(2) {
        made = with_fault(random, &made);
    }
    let half = made.counts.half();
    let (x, y) = (input_word(random, half), input_word(random, half));
    PairCase::new(&made, x, y)
}

/// A sound case but for its counts.
pub fn of_wrong_counts(random: &mut Random, records: Records) -> PairCase {
    let mut case = sound(random, records);
    case.counts = wrong::wrong_counts(random, case.counts);
    case
}

/// A sound case but for its table, which is too short.
pub fn of_short_table(random: &mut Random, records: Records) -> PairCase {
    let mut case = sound(random, records);
    let needed = case.counts.table_words(records) as usize;
    let left = if random.one_in(2) {
        needed - 1
    } else {
        random.below(needed)
    };
    case.table.truncate(left);
    case
}

/// A sound case but for one word of its table.
pub fn of_unsound_table(random: &mut Random, records: Records) -> PairCase {
    let mut case = sound(random, records);
    wrong::make_unsound(random, case.counts, records, &mut case.table);
    case
}
