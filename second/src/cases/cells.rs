//! Cases with tables of lookup cells, each at an edge of the rules of cells. None is random.

use super::judgements::{all_false, two_refusals, JudgeCase};
use super::pairs::wrong_counts;
use super::texts::SIZES_AT_LIMITS;
use crate::cell_netlists::{gates_as_cells, random_cells};
use crate::cells::Cell;
use crate::netlists::Made;
use crate::orders;
use crate::random::Random;

pub fn cell(byte: u32, x1: u32, x2: u32, x3: u32) -> Cell {
    Cell {
        byte,
        variables: [x1, x2, x3],
    }
}

/// The AND of two inputs as one cell, with these outputs.
pub fn and_cell(outputs: &[u32]) -> Made {
    Made::of_cells(2, outputs, &[cell(136, 1, 2, 0)])
}

/// Tables of cells at and just past the limits of the counts.
pub fn made_at_limits() -> Vec<Made> {
    let mut random = Random::new(5);
    SIZES_AT_LIMITS
        .into_iter()
        .map(|(inputs, outputs, count)| random_cells(&mut random, inputs, outputs, count))
        .collect()
}

/// All 256 bytes on the inputs 1, 2 and 3, an output for each, in four tables.
pub fn all_bytes_shown() -> Vec<Made> {
    let outputs: Vec<u32> = (5..69).map(|variable| 2 * variable).collect();
    (0..4)
        .map(|quarter| {
            let bytes = 64 * quarter..64 * (quarter + 1);
            let cells: Vec<Cell> = bytes.map(|byte| cell(byte, 1, 2, 3)).collect();
            Made::of_cells(4, &outputs, &cells)
        })
        .collect()
}

/// The cell of the AND with one thing, or two, handed in wrong or just right.
pub fn wrong_netlists() -> Vec<Made> {
    let right = and_cell(&[6, 0]);
    let outputs = [[6, 0], [7, 1], [8, 0], [6, u32::MAX]];
    let words = |outputs: [u32; 2], cell: [u32; 4]| [&outputs[..], &cell].concat();
    let mut tables: Vec<Vec<u32>> = outputs.map(|o| words(o, [136, 1, 2, 0])).to_vec();
    for byte in [0, 255, 256, 256 + 136, (1 << 16) + 136, u32::MAX] {
        tables.push(words([6, 0], [byte, 1, 2, 0]));
    }
    // The cell's own variable is 3.
    for place in 1..4 {
        for variable in [0, 1, 2, 3, 4, (1 << 16) + 1, u32::MAX] {
            let mut cell = [150, 1, 2, 0];
            cell[place] = variable;
            tables.push(words([6, 0], cell));
        }
    }
    for length in 0..right.table.len() {
        tables.push(right.table[..length].to_vec());
    }
    tables.push([&right.table[..], &[u32::MAX, 0]].concat());
    let mut list: Vec<Made> = Vec::new();
    for table in tables {
        list.push(Made {
            table,
            ..right.clone()
        });
    }
    for counts in wrong_counts(right.counts) {
        for table in [right.table.clone(), vec![9, 9]] {
            list.push(Made {
                counts,
                table,
                ..right
            });
        }
    }
    list
}

/// Everything that the rules of cells name by a number or a word.
pub fn judgements() -> Vec<JudgeCase> {
    let mut cases = every_byte();
    cases.extend(joined_and_vanished());
    cases.extend(small());
    cases.extend(room());
    cases.extend(lengths());
    cases.extend(handed_in_wrong());
    cases.extend(two_refusals(&and_cell(&[6, 0])));
    cases
}

/// Each byte as output 0 of three bits: its polynomial is left in the store. Some also on equal and constant inputs.
fn every_byte() -> Vec<JudgeCase> {
    let mut cases = Vec::new();
    let mut shown = |cell: Cell| {
        let made = Made::of_cells(6, &[14, 0, 0, 0, 0, 0], &[cell]);
        cases.push(JudgeCase::new(&made, 0, 128, vec![7]));
    };
    for byte in 0..256 {
        shown(cell(byte, 1, 2, 3));
    }
    for byte in (0..256).step_by(11).chain([150, 232, 255]) {
        for [x1, x2, x3] in [[2, 2, 5], [4, 0, 1], [0, 6, 3], [3, 3, 3], [0, 0, 0]] {
            shown(cell(byte, x1, x2, x3));
        }
    }
    cases
}

/// Variables that a term holds already, and coefficients that vanish modulo 2^l.
fn joined_and_vanished() -> Vec<JudgeCase> {
    let mut cases = Vec::new();
    for byte in [128, 150, 232] {
        for variables in [[3, 1, 2], [3, 3, 1], [2, 3, 2]] {
            let cells = [cell(136, 1, 2, 0), Cell { byte, variables }];
            let made = Made::of_cells(2, &[8, 0], &cells);
            cases.push(JudgeCase::new(&made, 0, 128, vec![4, 3]));
        }
    }
    for outputs in [[0, 0, 0, 10], [0, 0, 10, 0], [0, 0, 10, 10]] {
        for variables in [[1, 2, 0], [1, 2, 4]] {
            let byte = 150;
            let made = Made::of_cells(4, &outputs, &[Cell { byte, variables }]);
            for kind in [0, 1] {
                cases.push(JudgeCase::new(&made, kind, 128, vec![5]));
            }
        }
    }
    cases
}

/// One cell under every kind and some orders.
fn small() -> Vec<JudgeCase> {
    let mut cases = Vec::new();
    for outputs in [&[6, 0][..], &[6, 6], &[7, 0], &[6], &[0, 1], &[2, 5]] {
        for kind in [0, 1, 2, 3, 4, 5, 256] {
            for order in [vec![], vec![3], vec![3, 3]] {
                cases.push(JudgeCase::new(&and_cell(outputs), kind, 128, order));
            }
        }
    }
    for gate in [0, 1, 2, 4, 6, u32::MAX] {
        let order = vec![3, gate];
        cases.push(JudgeCase::new(&and_cell(&[6, 0]), 0, 128, order));
    }
    for steps in [4_096, 4_097] {
        let order = vec![3; steps];
        cases.push(JudgeCase::new(&and_cell(&[6, 0]), 0, 128, order));
    }
    cases
}

/// Four bits, truncated: output 0 is true when all eight inputs are false. A step makes eight terms of one.
pub fn eight_of_one() -> Made {
    let cells = [
        cell(1, 1, 2, 3),
        cell(1, 4, 5, 6),
        cell(1, 7, 8, 0),
        cell(128, 9, 10, 11),
    ];
    Made::of_cells(8, &[24, 0, 0, 0], &cells)
}

/// T and the room it gives; sets of two words.
fn room() -> Vec<JudgeCase> {
    let mut cases = Vec::new();
    for limit in [127, 128, 129, 16_384, 16_385] {
        cases.push(JudgeCase::new(&and_cell(&[6, 0]), 0, limit, vec![3]));
    }
    for made in [eight_of_one(), gates_as_cells(&all_false())] {
        for limit in [128, 254, 255, 256] {
            let order = orders::falling(made.counts);
            cases.push(JudgeCase::new(&made, 2, limit, order));
        }
    }
    let two_words = Made::of_cells(4, &[2, 140, 6, 132], &[cell(150, 1, 2, 3); 66]);
    for order in [vec![], orders::falling(two_words.counts)] {
        cases.push(JudgeCase::new(&two_words, 0, 128, order));
    }
    cases
}

/// Lent words and records around what cells need; scratch also at what gates would need.
fn lengths() -> Vec<JudgeCase> {
    let mut cases = Vec::new();
    for made in [and_cell(&[6, 6]), eight_of_one()] {
        let kind = if made.counts.o == 2 { 0 } else { 2 };
        let order = orders::falling(made.counts);
        let base = JudgeCase::new(&made, kind, 128, order);
        let (store, scratch) = (base.store_words, base.scratch_words);
        for scratch_words in [
            0,
            scratch / 2 - 1,
            scratch / 2,
            scratch - 1,
            scratch,
            scratch + 5,
        ] {
            let mut case = base.clone();
            case.scratch_words = scratch_words;
            cases.push(case);
        }
        for (store_words, log_change) in [(store - 1, 0), (store + 3, 2), (store, -1)] {
            let mut case = base.clone();
            case.store_words = store_words;
            case.log_records = case.log_records.wrapping_add_signed(log_change);
            cases.push(case);
        }
    }
    cases
}

/// Counts and tables that are refused, or are just inside.
fn handed_in_wrong() -> Vec<JudgeCase> {
    let mut cases = Vec::new();
    for made in made_at_limits() {
        for kind in 0..5 {
            cases.push(JudgeCase::new(&made, kind, 128, vec![]));
        }
    }
    for made in wrong_netlists() {
        cases.push(JudgeCase::new(&made, 0, 128, vec![3]));
    }
    cases
}
