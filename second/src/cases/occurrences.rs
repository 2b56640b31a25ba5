//! Cases in which the numbers of occurrences tell: every answer under every kind, and words around M + 1. None of the
//! edges is random but for the multipliers in them.

use super::judgements::{self, two_refusals_of, JudgeCase};
use crate::cell_netlists::gates_as_cells;
use crate::netlists::{right_multiplier, Made};
use crate::orders;
use crate::random::Random;
use crate::reading::Reading;
use crate::records::Records;

/// Every answer under each kind, of gates and of cells, each with the words asked for, too few, and more.
pub fn judgements() -> Vec<JudgeCase> {
    let mut random = Random::new(6);
    let mut cases = Vec::new();
    for records in Records::ALL {
        for reading in Reading::ALL {
            let taken = all_answers(&mut random, records, reading);
            cases.extend(taken.iter().flat_map(around_needed));
            cases.extend(refused_with_more_words(&taken[0]));
        }
    }
    cases.extend(last_variables());
    cases
}

/// Cases that end with E, D, R at step 0, R later and U, in this order.
pub fn all_answers(random: &mut Random, records: Records, reading: Reading) -> [JudgeCase; 5] {
    let right = right_multiplier(random, records, reading, 2);
    let mut wrong = right.clone();
    wrong.table[0] ^= 1;
    let full_start = as_records(records, &only_products(reading));
    let full_later = as_records(records, &all_false_under(reading));
    let judged = |made: &Made, order: Vec<u32>| JudgeCase::new(made, reading.kind(), 128, order);
    let falling = |made: &Made| judged(made, orders::falling(made.counts));
    let half = orders::falling(right.counts).split_off(right.counts.a as usize / 2);
    [
        falling(&right),
        falling(&wrong),
        falling(&full_start),
        falling(&full_later),
        judged(&right, half),
    ]
}

fn as_records(records: Records, gates: &Made) -> Made {
    match records {
        Records::Gates => gates.clone(),
        Records::Cells => gates_as_cells(gates),
    }
}

/// Outputs that show nothing, and more than 128 products: n² of them, for t n(n + 1)/2.
fn only_products(reading: Reading) -> Made {
    let n = if reading == Reading::Truncated {
        16
    } else {
        12
    };
    let outputs = vec![0; reading.outputs(n) as usize];
    Made::new(reading.inputs(n), &outputs, &[(4, 2)])
}

/// Output 0 is true when all eight inputs are false, which has 256 terms at the last step.
fn all_false_under(reading: Reading) -> Made {
    let made = judgements::all_false();
    let outputs = reading.outputs(8 / reading.inputs(1)) as usize;
    let gates: Vec<(u32, u32)> = made.table[made.counts.o as usize..]
        .chunks(2)
        .map(|literals| (literals[0], literals[1]))
        .collect();
    let mut shown = vec![0; outputs];
    shown[0] = made.table[0];
    Made::new(8, &shown, &gates)
}

/// No words, one too few, just enough, and more.
fn around_needed(taken: &JudgeCase) -> Vec<JudgeCase> {
    let needed = taken.counts.m as usize + 1;
    let lengths = [0, needed - 1, needed, needed + 1, needed + 9];
    lengths.map(|words| lending(taken, words)).to_vec()
}

fn lending(case: &JudgeCase, occurrence_words: usize) -> JudgeCase {
    JudgeCase {
        occurrence_words,
        ..case.clone()
    }
}

/// Each refusal, and each two at once, with more words than are asked for; 12 for them also with fewer.
fn refused_with_more_words(taken: &JudgeCase) -> Vec<JudgeCase> {
    two_refusals_of(&lending(taken, taken.occurrence_words + 3))
}

/// The last variable held or not, where sets have one word, two and sixteen; outputs that meet.
fn last_variables() -> Vec<JudgeCase> {
    let mut cases = Vec::new();
    for m in [3, 63, 64, 65, 127, 128, 1_023] {
        let gates = vec![(4, 2); m as usize - 2];
        for outputs in [[2 * m, 0], [2 * m + 1, 2 * m], [2 * m, 2 * m], [2, 4]] {
            let made = Made::new(2, &outputs, &gates);
            for order in [vec![], vec![m], vec![m, m]] {
                cases.push(JudgeCase::new(&made, 0, 128, order));
            }
        }
    }
    cases
}

/// A random case with any number of words up to a few more than are asked for, those around that number more often.
pub fn random(random: &mut Random, records: Records) -> JudgeCase {
    let case = judgements::random(random, records);
    let needed = case.counts.m as usize + 1;
    let words = match random.below(6) {
        0 => random.below(needed),
        1 => needed - 1,
        2 => needed,
        _ => needed + random.below(9),
    };
    lending(&case, words)
}
