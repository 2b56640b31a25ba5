//! Cases for the kinds that multiply and add, each at an edge of their rules. None is random.

use super::judgements::{two_refusals_of, JudgeCase};
use crate::cell_netlists::gates_as_cells;
use crate::netlists::Made;
use crate::orders;
use crate::reading::Reading;

/// The two kinds, and the numbers beside them.
const KINDS: [u32; 2] = [3, 4];
const KINDS_AND_BESIDE: [u32; 12] = [0, 1, 2, 3, 4, 5, 6, 256, 258, 259, 260, u32::MAX];

/// One bit: inputs a, b, c_0, c_1; 10 is a·b, 16 is its sum with c_0, 12 the carry, and 22 the sum of that with c_1.
///
/// With outputs 16 and 22 it is right under m, and under ms too: of one bit, 0 and -1 have the products of 0 and 1.
pub fn one_bit(outputs: &[u32]) -> Made {
    let gates = [
        (4, 2),
        (10, 6),
        (11, 7),
        (15, 13),
        (12, 8),
        (13, 9),
        (21, 19),
    ];
    Made::new(4, outputs, &gates)
}

/// Blocks without a gate that show each bit of c at its place, and nothing of the product.
pub fn only_c(n: u32) -> Made {
    let outputs: Vec<u32> = (2 * n + 1..=4 * n).map(|input| 2 * input).collect();
    Made::new(4 * n, &outputs, &[])
}

/// Wrong by a - a·c_0 - ab - 2 c_0·c_1: a alone has the fewest ones, but c has none outside of itself.
pub fn wrong_by_a_or_both_of_c() -> Made {
    // c_0 or a, then c_1 without c_0.
    Made::new(4, &[11, 12], &[(7, 3), (8, 7)])
}

/// Wrong by -b·c_0 - ab·c_0 - 2a·c_1: both pairs have two ones, and b·c_0 has the smaller c but the larger b.
pub fn wrong_by_two_pairs() -> Made {
    // The sum of ab and c_0 where not both b and c_0 are there, then c_1 without a.
    let gates = [(4, 2), (10, 6), (11, 7), (15, 13), (6, 4), (19, 16), (8, 3)];
    Made::new(4, &[20, 22], &gates)
}

/// The one-bit block with right and wrong outputs, blocks that leave the product out, and two that are wrong otherwise.
pub fn small_blocks() -> Vec<Made> {
    let mut blocks: Vec<Made> = [[16, 22], [22, 16], [17, 22], [16, 8], [10, 0], [10, 8]]
        .iter()
        .map(|outputs| one_bit(outputs))
        .collect();
    blocks.extend([1, 2, 4, 5, 16].map(only_c));
    blocks.extend([wrong_by_a_or_both_of_c(), wrong_by_two_pairs()]);
    blocks
}

/// Everything that the rules of these kinds name by a number or a word.
pub fn judgements() -> Vec<JudgeCase> {
    let mut cases = small();
    cases.extend(wrong_operands());
    cases.extend(other_counts());
    cases.extend(widest());
    let right = one_bit(&[16, 22]);
    let falling = orders::falling(right.counts);
    let taken = JudgeCase::new(&right, 3, 128, falling);
    cases.extend(two_refusals_of(&taken));
    cases
}

/// Small blocks of gates and of cells under every kind; under m and ms also in orders that end early, repeat or go the
/// wrong way.
fn small() -> Vec<JudgeCase> {
    let mut cases = Vec::new();
    for gates in small_blocks() {
        for made in [gates_as_cells(&gates), gates] {
            let falling = orders::falling(made.counts);
            let rising: Vec<u32> = falling.iter().rev().copied().collect();
            let twice = [&falling[..], &falling[..]].concat();
            let early = falling[..falling.len() / 2].to_vec();
            for kind in KINDS_AND_BESIDE {
                cases.push(JudgeCase::new(&made, kind, 128, falling.clone()));
            }
            for order in [rising, twice, early] {
                for kind in KINDS {
                    cases.push(JudgeCase::new(&made, kind, 128, order.clone()));
                }
            }
        }
    }
    cases
}

/// Inputs and ANDs of inputs shown in all ways, so that wrong operands differ in which of a, b and c have ones.
fn wrong_operands() -> Vec<JudgeCase> {
    // 10 is a·b, 12 is a·c_0, 14 is c_0·c_1.
    let gates = [(4, 2), (6, 2), (8, 6)];
    let shown = [0, 1, 2, 4, 6, 8, 9, 10, 12, 14];
    let mut cases = Vec::new();
    for one in shown {
        for other in shown {
            let made = Made::new(4, &[one, other], &gates);
            for kind in KINDS {
                cases.push(JudgeCase::new(&made, kind, 128, vec![7, 6, 5]));
            }
        }
    }
    cases
}

/// I that is no multiple of 4, with as many outputs as some reading has; O beside l.
fn other_counts() -> Vec<JudgeCase> {
    let mut cases = Vec::new();
    for inputs in [2, 4, 6, 8, 10, 12, 14, 58, 60, 62, 64] {
        let quarter = inputs / 4;
        let mut counts = vec![2 * quarter, inputs / 2, inputs / 2 - 1, inputs / 2 + 1];
        counts.extend([quarter, inputs]);
        counts.retain(|&outputs| outputs > 0);
        for outputs in counts {
            let shown: Vec<u32> = (0..outputs).map(|k| 2 * (k % inputs + 1)).collect();
            let made = Made::new(inputs, &shown, &[]);
            for kind in 0..6 {
                cases.push(JudgeCase::new(&made, kind, 300, vec![]));
            }
        }
    }
    cases
}

/// I 64: n is 16, with 256 products, 32 bits of c and what the outputs show.
fn widest() -> Vec<JudgeCase> {
    let n = Reading::Adding.most_bits();
    let mut cases = Vec::new();
    for made in [
        only_c(n),
        Made::new(64, &[1; 32], &[]),
        Made::new(64, &[128; 32], &[(4, 2); 959]),
    ] {
        for kind in KINDS {
            for limit in [255, 256, 287, 288, 289, 16_384] {
                cases.push(JudgeCase::new(&made, kind, limit, vec![]));
            }
        }
    }
    cases
}
