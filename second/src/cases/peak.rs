//! Cases in which the number of terms before gathering tells: every pair of literals that a gate can read, cells on equal
//! and on constant variables, coefficients that vanish, and gates that do not occur. None is random.

use super::cells::cell;
use super::judgements::JudgeCase;
use crate::netlists::Made;

pub fn judgements() -> Vec<JudgeCase> {
    let mut cases = every_two_literals();
    cases.extend(several_at_once());
    cases.extend(cells_on_few_variables());
    cases.extend(most_of_each());
    cases
}

/// One gate over all literals of two inputs; the second step of an order finds it nowhere.
fn every_two_literals() -> Vec<JudgeCase> {
    let mut cases = Vec::new();
    for rhs0 in 0..6 {
        for rhs1 in 0..=rhs0 {
            for outputs in [[6, 0], [7, 6], [0, 0]] {
                let made = Made::new(2, &outputs, &[(rhs0, rhs1)]);
                for kind in [0, 1] {
                    cases.push(JudgeCase::new(&made, kind, 128, vec![3, 3]));
                }
            }
        }
    }
    cases
}

/// A gate that two terms hold by the time of its step, over each two literals of one input or constants.
fn several_at_once() -> Vec<JudgeCase> {
    let mut cases = Vec::new();
    for two in [
        (3, 3),
        (3, 2),
        (2, 2),
        (3, 1),
        (3, 0),
        (1, 1),
        (1, 0),
        (0, 0),
    ] {
        let made = read_twice(two);
        for order in [vec![7, 6, 5], vec![5, 6, 7], vec![7, 5, 6, 5]] {
            cases.push(JudgeCase::new(&made, 0, 128, order));
        }
    }
    cases
}

/// Two bits: output 0 is gate 5 with a_1 and output 1 is gate 5 with b_0.
pub fn read_twice(literals: (u32, u32)) -> Made {
    Made::new(4, &[12, 14, 0, 0], &[literals, (10, 4), (10, 6)])
}

/// Cells on variables that are equal, constant or both. At output 3 of two bits every even coefficient vanishes.
fn cells_on_few_variables() -> Vec<JudgeCase> {
    let mut cases = Vec::new();
    for byte in [0, 1, 23, 107, 126, 128, 150, 232, 254, 255] {
        for x1 in [0, 1, 2] {
            for x2 in [0, 1, 2] {
                for x3 in [0, 1, 3] {
                    for outputs in [[10, 0, 0, 0], [0, 0, 0, 10]] {
                        let made = Made::of_cells(4, &outputs, &[cell(byte, x1, x2, x3)]);
                        cases.push(JudgeCase::new(&made, 0, 128, vec![5, 5]));
                    }
                }
            }
        }
    }
    cases
}

/// Steps that make four, or eight with a cell, of the only term there is.
fn most_of_each() -> Vec<JudgeCase> {
    let [gates, cells] = most_made();
    vec![
        JudgeCase::new(&gates, 0, 128, vec![3, 4]),
        JudgeCase::new(&cells, 0, 128, vec![3, 4]),
    ]
}

/// One bit: output 0 is ab, and after its step nothing but output 1 is left.
pub fn most_made() -> [Made; 2] {
    [
        Made::new(2, &[6, 8], &[(4, 2), (5, 3)]),
        Made::of_cells(2, &[6, 8], &[cell(136, 1, 2, 0), cell(1, 1, 2, 3)]),
    ]
}
