//! Lookup cells. Expected values are those of document 02, section 5, or worked out by hand from it.

mod common;

use common::{answered, holds, judged, records, DOCUMENT};
use second::cases::cells::{and_cell, cell, eight_of_one};
use second::cases::judgements::{random_netlist, random_order, JudgeCase};
use second::cases::{marked_numbers, marked_steps, marked_words};
use second::cell_netlists::gates_as_cells;
use second::cells::Cell;
use second::cells_file::read_cells;
use second::netlists::Made;
use second::orders::{falling, is_honest};
use second::polynomial::Polynomial;
use second::random::Random;
use second::reading::{Operands, Reading};
use second::Answer::{Differs, Equal, OutOfRoom, Refused};
use second::{blocks, evaluate, Counts, Records};

fn coefficients(byte: u32) -> [i64; 8] {
    cell(byte, 1, 2, 3).coefficients(&DOCUMENT.cells)
}

#[test]
fn byte_150_has_the_polynomial_of_the_document() {
    // a + b + c - 2ab - 2ac - 2bc + 4abc; bit 0 of a subset is a.
    assert_eq!(coefficients(150), [0, 1, 1, -2, 1, -2, -2, 4]);
}

#[test]
fn bytes_worked_out_by_hand() {
    assert_eq!(coefficients(0), [0; 8]);
    assert_eq!(coefficients(255), [1, 0, 0, 0, 0, 0, 0, 0]);
    // x1, x2, x3 and the inverse of x3.
    assert_eq!(coefficients(170), [0, 1, 0, 0, 0, 0, 0, 0]);
    assert_eq!(coefficients(204), [0, 0, 1, 0, 0, 0, 0, 0]);
    assert_eq!(coefficients(240), [0, 0, 0, 0, 1, 0, 0, 0]);
    assert_eq!(coefficients(15), [1, 0, 0, 0, -1, 0, 0, 0]);
    // x1·x2·x3, (1 - x1)(1 - x2)(1 - x3), and at least two of three: ab + ac + bc - 2abc.
    assert_eq!(coefficients(128), [0, 0, 0, 0, 0, 0, 0, 1]);
    assert_eq!(coefficients(1), [1, -1, -1, 1, -1, 1, 1, -1]);
    assert_eq!(coefficients(232), [0, 0, 0, 1, 0, 1, 1, -2]);
    // Only x1: x1(1 - x2)(1 - x3).
    assert_eq!(coefficients(2), [0, 1, 0, -1, 0, -1, 0, 1]);
}

#[test]
fn the_coefficients_of_the_subsets_inside_an_index_sum_up_to_the_bit() {
    for byte in 0..256 {
        let coefficients = coefficients(byte);
        for index in 0..8 {
            let inside = (0..8).filter(|subset| subset & !index == 0);
            let sum: i64 = inside.map(|subset| coefficients[subset]).sum();
            assert_eq!(sum, i64::from(byte >> index & 1), "byte {byte}");
        }
    }
}

#[test]
fn the_evaluator_takes_bit_x1_plus_2_x2_plus_4_x3() {
    for byte in 0..256u32 {
        let made = Made::of_cells(4, &[10, 11], &[cell(byte, 1, 2, 3)]);
        for index in 0..8 {
            // Inputs 1 and 2 are a's bits, input 3 is the lowest of b's.
            let word = made.word_at(index % 4, index / 4);
            let bit = u64::from(byte) >> index & 1;
            assert_eq!(word, Ok(bit + 2 * (1 - bit)));
        }
    }
}

#[test]
fn variable_0_is_false_and_variables_may_be_equal() {
    // Bit 0 alone, on the constant in every place; then bits 0 and 7 on one variable; then bit 6 on a, b, b.
    let word = |cell: Cell, a, b| Made::of_cells(2, &[6], &[cell]).word_at(a, b);
    assert_eq!(word(cell(1, 0, 0, 0), 1, 1), Ok(1));
    assert_eq!(word(cell(254, 0, 0, 0), 1, 1), Ok(0));
    for a in 0..2 {
        assert_eq!(word(cell(129, 1, 1, 1), a, 0), Ok(1));
        assert_eq!(word(cell(126, 1, 1, 1), a, 0), Ok(0));
        assert_eq!(word(cell(64, 1, 2, 2), a, 1), Ok(1 - a));
    }
}

#[test]
fn the_parity_of_three_inputs_leaves_its_polynomial() {
    let made = Made::of_cells(4, &[10, 0, 0, 0], &[cell(150, 1, 2, 3)]);
    let seen = judged(&made, 0, 128, &[5]);
    let answer = Differs {
        steps: 1,
        terms: 9,
        a: 1,
        b: 0,
        c: 0,
        got: 1,
        wanted: 0,
    };
    assert_eq!(seen.answer, answer);
    // a0 + a1 + b0 - 2 a0 a1 - 2 a0 b0 - 2 a1 b0 + 4 a0 a1 b0, less a0 b0 + 2 a1 b0 + 2 a0 b1 + 4 a1 b1, modulo 16.
    let words = [
        12, 20, 14, 18, 4, 14, 12, 12, 13, 10, 1, 8, 14, 6, 1, 4, 1, 2,
    ];
    assert!(holds(&seen.store, &words));
    assert_eq!((seen.store.len(), seen.scratch), (256, vec![0; 2_048]));
    // Four products stay, and seven coefficients of byte 150 are not 0.
    assert_eq!(seen.log, records(&[5], &[9], &[11]));
}

#[test]
fn a_full_adder_of_cells_is_right_and_squares_join() {
    // One bit: a·b as a cell, then again ANDed with both of its inputs.
    let equal = Equal { steps: 2, terms: 0 };
    for variables in [[3, 1, 2], [2, 3, 1], [3, 3, 1], [3, 3, 3]] {
        let byte = 128;
        let cells = [cell(136, 1, 2, 0), Cell { byte, variables }];
        let made = Made::of_cells(2, &[8, 0], &cells);
        assert_eq!(answered(&made, 0, 128, &[4, 3]), equal);
    }
    // x + x + x - 2x - 2x - 2x + 4x is x, and x + x - 2x is 0.
    let parity = |x3| Made::of_cells(2, &[8, 0], &[cell(136, 1, 2, 0), cell(150, 3, 3, x3)]);
    assert_eq!(answered(&parity(3), 0, 128, &[4, 3]), equal);
    let seen = judged(&parity(0), 0, 128, &[4, 3]);
    assert!(holds(&seen.store, &[3, 6]));
}

#[test]
fn a_coefficient_that_vanishes_is_put_in_and_dropped() {
    // 8(a0 + a1 - 2 a0 a1): the last is 0 modulo 16.
    let made = Made::of_cells(4, &[0, 0, 0, 10], &[cell(150, 1, 2, 0)]);
    let netlist = made.netlist();
    let start = Polynomial::start(&DOCUMENT, &netlist, Reading::Plain);
    let next = start.step(&DOCUMENT, 5, netlist.record(5));
    // Four terms of the product stay, and the cell makes three of one: a subset with the constant makes none.
    assert_eq!((start.count(), next.ungathered_count()), (5, 7));
    assert_eq!(next.count(), 6);
    let seen = judged(&made, 0, 128, &[5]);
    assert_eq!(seen.log, records(&[5], &[6], &[7]));
    assert!(holds(
        &seen.store,
        &[12, 20, 14, 18, 14, 12, 15, 10, 8, 4, 8, 2]
    ));
}

#[test]
fn a_step_makes_eight_terms_of_one() {
    let made = eight_of_one();
    let order = falling(made.counts);
    // Ten product terms below 2^4; then 1, 4, 32 and 256, of which that of a_0 b_0 meets the product's and goes.
    let terms = [11, 14, 42, 255];
    let peaks = [11, 14, 42, 266];
    let answer = Differs {
        steps: 4,
        terms: 255,
        a: 0,
        b: 0,
        c: 0,
        got: 1,
        wanted: 0,
    };
    let seen = judged(&made, 2, 255, &order);
    assert_eq!(seen.answer, answer);
    assert_eq!(seen.log, records(&order, &terms, &peaks));
    let full = judged(&made, 2, 254, &order);
    assert_eq!(full.answer, OutOfRoom { step: 4, terms: 42 });
    let before_full = records(&order[..3], &terms[..3], &peaks[..3]);
    assert_eq!(full.log[..3], before_full);
    assert_eq!(full.log[3..], marked_steps(4)[3..]);
}

#[test]
fn gates_turned_into_cells_are_judged_the_same() {
    for seed in 0..1_000 {
        let mut random = Random::new(seed);
        let reading = Reading::ALL[seed as usize % Reading::ALL.len()];
        let gates = random_netlist(&mut random, Records::Gates, reading);
        let order = random_order(&mut random, &gates);
        let cells = gates_as_cells(&gates);
        let by_gates = judged(&gates, reading.kind(), 128, &order);
        let by_cells = judged(&cells, reading.kind(), 128, &order);
        assert_eq!(by_gates.answer, by_cells.answer);
        assert_eq!(by_gates.store, by_cells.store);
        assert_eq!(by_gates.log, by_cells.log);
        assert_eq!(by_gates.occurrences, by_cells.occurrences);
        let (x, y) = (random.word(), random.word());
        assert_eq!(gates.word_at(x, y), cells.word_at(x, y));
        assert_eq!(
            is_honest(&gates.netlist(), &order),
            is_honest(&cells.netlist(), &order)
        );
    }
}

#[test]
fn an_order_is_honest_by_all_three_variables_of_a_cell() {
    for place in 0..3 {
        let mut variables = [1, 0, 2];
        variables[place] = 3;
        // The byte's function depends on nothing, but the record reads cell 3.
        let cells = [cell(136, 1, 2, 0), Cell { byte: 0, variables }];
        let made = Made::of_cells(2, &[8], &cells);
        assert!(is_honest(&made.netlist(), &[4, 3]));
        assert!(!is_honest(&made.netlist(), &[3, 4]));
    }
}

#[test]
fn the_evaluator_refuses_cells_by_2_3_and_8() {
    let right = and_cell(&[6, 0]);
    let at = |table: &[u32]| evaluate(right.counts, table, Records::Cells, 1, 1);
    assert_eq!(at(&[6, 0, 136, 1, 2, 0]), Ok(1));
    assert_eq!(at(&[6, 0, 136, 1, 2, 0, 256, u32::MAX]), Ok(1));
    assert_eq!(at(&[6, 0, 136, 1, 2]), Err(3));
    assert_eq!(at(&[8, 0, 256, 9]), Err(3));
    assert_eq!(at(&[]), Err(3));
    assert_eq!(at(&[7, 1, 255, 2, 2, 2]), Ok(2));
    for table in [
        [8, 0, 136, 1, 2, 0],
        [6, u32::MAX, 136, 1, 2, 0],
        [6, 0, 256, 1, 2, 0],
        [6, 0, u32::MAX, 1, 2, 0],
        [6, 0, 136, 3, 2, 0],
        [6, 0, 136, 1, 3, 0],
        [6, 0, 136, 1, 2, 3],
        [6, 0, 136, 1, 2, u32::MAX],
    ] {
        assert_eq!(at(&table), Err(8), "{table:?}");
    }
    let latched = Counts {
        l: 1,
        ..right.counts
    };
    assert_eq!(evaluate(latched, &[], Records::Cells, 1, 1), Err(2));
}

/// The number of refusal, after seeing that all words were left alone; 0 where the case is taken.
fn refusal(case: &JudgeCase) -> u32 {
    let seen = case.seen(&DOCUMENT);
    let Refused(number) = seen.answer else {
        return 0;
    };
    assert_eq!(seen.store, marked_words(case.store_words));
    assert_eq!(seen.scratch, marked_words(case.scratch_words));
    assert_eq!(seen.log, marked_steps(case.log_records));
    assert_eq!(seen.occurrences, marked_numbers(case.occurrence_words));
    number
}

/// One thing wrong, after its number.
type WrongThing = (u32, fn(&mut JudgeCase));

#[test]
fn judging_cells_refuses_by_2_3_and_8_to_12_in_order() {
    let right = JudgeCase::new(&and_cell(&[6, 0]), 0, 128, vec![3]);
    assert_eq!((right.store_words, right.scratch_words), (256, 2_048));
    assert_eq!(refusal(&right), 0);
    let things: [WrongThing; 15] = [
        (2, |case| case.counts.l = 1),
        (3, |case| case.table.truncate(5)),
        (8, |case| case.table[1] = 8),
        (8, |case| case.table[2] = 256),
        (8, |case| case.table[3] = 3),
        (9, |case| case.kind = 2),
        (9, |case| case.kind = 3),
        (10, |case| case.limit = 127),
        (10, |case| case.limit = 16_385),
        (11, |case| case.order = vec![2]),
        (12, |case| case.store_words = 255),
        (12, |case| case.scratch_words = 2_047),
        (12, |case| case.scratch_words = 1_024),
        (12, |case| case.log_records = 0),
        (12, |case| case.occurrence_words = 3),
    ];
    for (first, one) in &things {
        for (second, other) in &things {
            let mut case = right.clone();
            one(&mut case);
            other(&mut case);
            assert_eq!(refusal(&case), *first.min(second), "{case:?}");
        }
    }
}

#[test]
fn gates_need_half_of_the_scratch_that_cells_need() {
    let gates = JudgeCase::new(&Made::new(2, &[6, 0], &[(4, 2)]), 0, 128, vec![3]);
    assert_eq!((gates.scratch_words, refusal(&gates)), (1_024, 0));
    // The same words, so called by the caller: a table of gates is too short for cells.
    let mut cells = gates.clone();
    cells.records = Records::Cells;
    assert_eq!(refusal(&cells), 3);
}

#[test]
fn files_of_cells_have_the_lines_that_their_counts_tell() {
    let made = read_cells("3 2 0 2 1\n6\n0\n136 1 2 0\n").unwrap();
    assert_eq!(made, and_cell(&[6, 0]));
    for text in [
        "",
        "3 2 0 2\n6\n0\n136 1 2 0\n",
        "3 2 0 2 1\n6\n0\n",
        "3 2 0 2 1\n6\n0\n136 1 2\n",
        "3 2 0 2 1\n6\n136 1 2 0\n0\n",
        "3 2 0 2 1\n6\n0\n136 1 2 x\n",
        "3 2 0 2 1\n6\n0\n136 1 2 -1\n",
        "3 2 0 2 1\n6\n0\n136 1 2 4294967296\n",
        "3 2 0 2 1\n6\n0\n136 1 2 0\n136 1 2 0\n",
    ] {
        assert_eq!(read_cells(text), None, "{text:?}");
    }
}

#[test]
fn blocks_that_multiply_and_add_show_the_sum() {
    let mut random = Random::new(6);
    let mut blocks = blocks::of_cells();
    blocks.retain(|block| block.reading.adds());
    assert_eq!(blocks.len(), 4);
    for block in blocks {
        let n = block.made.counts.i / 4;
        assert_eq!(block.n, n);
        let product = match block.reading {
            Reading::SignedAdding => Reading::Signed,
            _ => Reading::Plain,
        };
        for _ in 0..300 {
            let (a, b, c) = (random.word(), random.word(), random.word());
            let low = second::reading::low_bits(n);
            let sum = product.wanted(n, Operands { a, b, c: 0 }).wrapping_add(c);
            let wanted = sum & second::reading::low_bits(2 * n);
            let both = a & low | (b & low) << n;
            assert_eq!(block.made.word_at(both, c), Ok(wanted), "{}", block.name);
        }
    }
}
