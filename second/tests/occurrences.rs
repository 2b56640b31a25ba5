//! How often each variable occurs. Expected numbers were worked out by hand from documents 01 and 02.

mod common;

use common::{judged, DOCUMENT};
use second::cases::adding::{one_bit, wrong_by_two_pairs};
use second::cases::cells::{cell, eight_of_one};
use second::cases::judgements::{self, all_false, and_netlist, eleven_bits, two_bits};
use second::cases::judgements::{JudgeCase, JudgeSeen};
use second::cases::{marked_numbers, occurrences};
use second::netlists::Made;
use second::orders::falling;
use second::random::Random;
use second::reading::Reading;
use second::Answer::{self, Differs, Equal, OutOfRoom, Refused, Unfinished};
use second::{Records, Rules};

const U: u32 = 0;
const S: u32 = 1;
const T: u32 = 2;
const M: u32 = 3;
const MS: u32 = 4;

/// The numbers left for a netlist with T = 128 and just the words asked for.
fn numbers(made: &Made, kind: u32, order: &[u32]) -> Vec<u32> {
    judged(made, kind, 128, order).occurrences
}

#[test]
fn p1_to_p9_leave_their_numbers() {
    // All terms, then a, b and the gate.
    let and = |outputs: &[u32], kind, order: &[u32]| numbers(&and_netlist(outputs), kind, order);
    assert_eq!(and(&[6, 0], U, &[3]), [0, 0, 0, 0], "P1");
    assert_eq!(and(&[6, 0], S, &[3]), [0, 0, 0, 0], "P2");
    // 2ab.
    assert_eq!(and(&[6, 6], U, &[3]), [1, 1, 1, 0], "P3");
    assert_eq!(and(&[6, 6], S, &[3]), [1, 1, 1, 0], "P4");
    // 1 - 2ab.
    assert_eq!(and(&[7, 0], U, &[3]), [2, 1, 1, 0], "P5");
    // x3 - ab.
    assert_eq!(and(&[6, 0], U, &[]), [2, 1, 1, 1], "P6");
    assert_eq!(and(&[6, 0], U, &[3, 3]), [0, 0, 0, 0], "P7");
    assert_eq!(and(&[6], T, &[3]), [0, 0, 0, 0], "P8");
    // a + b + 2ab.
    let example = Made::new(2, &[7, 0], &[(5, 3)]);
    assert_eq!(numbers(&example, U, &[3]), [3, 2, 2, 0], "P9");
}

/// P10 at the start and after each step, P being a0 b0 + 2 a1 b0 + 2 a0 b1 + 4 a1 b1, modulo 16.
#[rustfmt::skip]
const TWO_BITS: [[u32; 15]; 11] = [
    // x5 + 2 x11 + 4 x14 + 8 x12 - P.
    [8, 2, 2, 2, 2, 1, 0, 0, 0, 0, 0, 1, 1, 0, 1],
    // 14: x14 is 1 - x13 - x12 + x12 x13. 4 + x5 + 2 x11 + 4 x12 - 4 x13 + 4 x12 x13 - P.
    [10, 2, 2, 2, 2, 1, 0, 0, 0, 0, 0, 1, 2, 2, 0],
    // 13: x13 is 1 - x9 - x8 + x8 x9; the constants cancel.
    // x5 + 2 x11 + 8 x12 + 4 x9 + 4 x8 - 4 x8 x9 - 4 x9 x12 - 4 x8 x12 + 4 x8 x9 x12 - P.
    [13, 2, 2, 2, 2, 1, 0, 0, 4, 4, 0, 1, 4, 0, 0],
    // 12: x12 is x8 x9; 8 - 4 - 4 + 4 - 4 of it cancel. x5 + 2 x11 + 4 x9 + 4 x8 - P.
    [8, 2, 2, 2, 2, 1, 0, 0, 1, 1, 0, 1, 0, 0, 0],
    // 11: x11 is 1 - x10 - x9 + x9 x10. 2 + x5 + 4 x8 + 2 x9 - 2 x10 + 2 x9 x10 - P.
    [10, 2, 2, 2, 2, 1, 0, 0, 1, 2, 2, 0, 0, 0, 0],
    // 10: x10 is 1 - x7 - x6 + x6 x7; the constants cancel.
    // x5 + 4 x8 + 4 x9 + 2 x7 + 2 x6 - 2 x6 x7 - 2 x7 x9 - 2 x6 x9 + 2 x6 x7 x9 - P.
    [13, 2, 2, 2, 2, 1, 4, 4, 1, 4, 0, 0, 0, 0, 0],
    // 9: x9 is x6 x7, which cancels. x5 + 4 x8 + 2 x7 + 2 x6 - P.
    [8, 2, 2, 2, 2, 1, 1, 1, 1, 0, 0, 0, 0, 0, 0],
    // 8: a1 b1 cancels. 7: a1 b0 cancels. 6: a0 b1 cancels. 5: a0 b0 cancels.
    [6, 2, 1, 2, 1, 1, 1, 1, 0, 0, 0, 0, 0, 0, 0],
    [4, 2, 0, 1, 1, 1, 1, 0, 0, 0, 0, 0, 0, 0, 0],
    [2, 1, 0, 1, 0, 1, 0, 0, 0, 0, 0, 0, 0, 0, 0],
    [0; 15],
];

#[test]
fn p10_has_its_numbers_at_the_start_and_after_every_step() {
    let order = falling(two_bits().counts);
    for (steps, expected) in TWO_BITS.iter().enumerate() {
        let seen = judged(&two_bits(), U, 128, &order[..steps]);
        assert_eq!(seen.occurrences, expected, "{steps} steps");
    }
}

#[test]
fn p11_has_two_terms_left() {
    // 4 a0 b1 + 4 a1 b0.
    let order = falling(two_bits().counts);
    let expected = [2, 1, 1, 1, 1, 0, 0, 0, 0, 0, 0, 0, 0, 0, 0];
    assert_eq!(numbers(&two_bits(), S, &order), expected);
}

#[test]
fn at_r_the_numbers_are_those_of_the_polynomial_held() {
    let order = falling(all_false().counts);
    // Products below 2^4: a_0 and b_0 are in four, a_1 and b_1 in three, a_2 and b_2 in two, a_3 and b_3 in one.
    // x9 (1 - x3)···(1 - x8) has 64 terms: x9 is in all of them, x3 to x8 are in half of them each.
    let held = [74, 4, 3, 34, 33, 36, 35, 34, 33, 64, 0, 0, 0, 0, 0, 0];
    for limit in [128, 254] {
        let seen = judged(&all_false(), T, limit, &order);
        assert_eq!(seen.answer, OutOfRoom { step: 7, terms: 74 });
        assert_eq!(seen.occurrences, held);
    }
    // With room for all of them each input is in half of 256 terms; a_0 b_0 cancels.
    let last = [
        255, 127, 128, 128, 128, 127, 128, 128, 128, 0, 0, 0, 0, 0, 0, 0,
    ];
    assert_eq!(judged(&all_false(), T, 255, &order).occurrences, last);
}

#[test]
fn at_r_at_step_0_all_numbers_are_0() {
    // 121 products, and one term more for each input shown: an input is in eleven products.
    assert_eq!(numbers(&eleven_bits(8), U, &[]), [0; 23]);
    let mut expected = [11; 23];
    expected[0] = 128;
    expected[1..=7].fill(12);
    assert_eq!(numbers(&eleven_bits(7), U, &[]), expected);
}

#[test]
fn cells_are_counted_as_gates_are() {
    let parity = Made::of_cells(4, &[10, 0, 0, 0], &[cell(150, 1, 2, 3)]);
    // x5 less a0 b0 + 2 a1 b0 + 2 a0 b1 + 4 a1 b1.
    assert_eq!(numbers(&parity, U, &[]), [5, 2, 2, 2, 2, 1]);
    // a0 + a1 + b0 - 2 a0 a1 - 3 a0 b0 - 4 a1 b0 + 4 a0 a1 b0 - 2 a0 b1 - 4 a1 b1.
    assert_eq!(numbers(&parity, U, &[5]), [9, 5, 5, 4, 2, 0]);
    // 8(a0 + a1) - P: -16 a0 a1 vanishes.
    let vanishing = Made::of_cells(4, &[0, 0, 0, 10], &[cell(150, 1, 2, 0)]);
    assert_eq!(numbers(&vanishing, U, &[5]), [6, 3, 3, 2, 2, 0]);
    // x9 (1 - x4)···(1 - x8) has 32 terms; the products are those of four truncated bits.
    let seen = judged(&eight_of_one(), T, 254, &[12, 11, 10, 9]);
    assert_eq!(seen.answer, OutOfRoom { step: 4, terms: 42 });
    let held = [42, 4, 3, 2, 17, 20, 19, 18, 17, 32, 0, 0, 0];
    assert_eq!(seen.occurrences, held);
}

#[test]
fn bits_of_c_are_counted_as_others_are() {
    for kind in [M, MS] {
        // 2 x11 + x8 - 2 c1 - c0 - ab.
        let start = [5, 1, 1, 1, 1, 0, 0, 0, 1, 0, 0, 1];
        assert_eq!(numbers(&one_bit(&[16, 22]), kind, &[]), start);
        // x11 is 1 - x10 - x9 + x9 x10, twice.
        let next = [8, 1, 1, 1, 1, 0, 0, 0, 1, 2, 2, 0];
        assert_eq!(numbers(&one_bit(&[16, 22]), kind, &[11]), next);
        // -b c0 - a b c0 - 2 a c1.
        let order = falling(wrong_by_two_pairs().counts);
        let wrong = [3, 2, 2, 2, 1, 0, 0, 0, 0, 0, 0, 0];
        assert_eq!(numbers(&wrong_by_two_pairs(), kind, &order), wrong);
        // Every output is 1: a constant, 256 products and 32 bits of c.
        let seen = judged(&Made::new(64, &[1; 32], &[]), kind, 289, &[]);
        let mut widest = [16; 65];
        widest[0] = 289;
        widest[33..].fill(1);
        assert_eq!(seen.occurrences, widest);
    }
}

#[test]
fn a_variable_has_its_entry_in_every_word_of_a_set() {
    // x65 + 2a - ab.
    let two_words = Made::new(2, &[130, 2], &[(2, 0); 63]);
    let mut expected = vec![0; 66];
    (expected[0], expected[1], expected[2], expected[65]) = (3, 2, 1, 1);
    assert_eq!(numbers(&two_words, U, &[]), expected);
    // x1023 - ab.
    let most = Made::new(2, &[2_046, 0], &[(4, 2); 1_021]);
    let mut expected = vec![0; 1_024];
    (expected[0], expected[1], expected[2], expected[1_023]) = (2, 1, 1, 1);
    assert_eq!(numbers(&most, U, &[]), expected);
}

#[test]
fn m_plus_1_words_are_enough_and_m_are_not() {
    let mut case = JudgeCase::new(&and_netlist(&[7, 0]), U, 128, vec![3]);
    assert_eq!(case.occurrence_words, 4);
    for words in 0..4 {
        case.occurrence_words = words;
        let seen = case.seen(&DOCUMENT);
        assert_eq!(seen.answer, Refused(12), "{words} words");
        assert_eq!(seen.occurrences, marked_numbers(words));
    }
    for words in [4, 5, 13] {
        case.occurrence_words = words;
        let seen = case.seen(&DOCUMENT);
        assert!(matches!(seen.answer, Differs { terms: 2, .. }));
        assert_eq!(seen.occurrences[..4], [2, 1, 1, 0]);
        assert_eq!(seen.occurrences[4..], marked_numbers(words)[4..]);
    }
}

#[test]
fn words_past_the_numbers_are_kept_whatever_is_answered() {
    let mut random = Random::new(1);
    for records in Records::ALL {
        for reading in Reading::ALL {
            for mut case in occurrences::all_answers(&mut random, records, reading) {
                case.occurrence_words += 6;
                let (needed, lent) = (case.counts.m as usize + 1, case.occurrence_words);
                let seen = case.seen(&DOCUMENT);
                assert_eq!(seen.occurrences[needed..], marked_numbers(lent)[needed..]);
            }
        }
    }
}

#[test]
fn the_cases_have_every_answer_under_every_kind() {
    let mut random = Random::new(2);
    for records in Records::ALL {
        for reading in Reading::ALL {
            let cases = occurrences::all_answers(&mut random, records, reading);
            let [equal, differing, full_start, full_later, unfinished] =
                cases.map(|case| case.seen(&DOCUMENT).answer);
            assert!(matches!(equal, Equal { .. }), "{equal:?}");
            assert!(matches!(differing, Differs { .. }), "{differing:?}");
            assert_eq!(full_start, OutOfRoom { step: 0, terms: 0 });
            assert!(matches!(full_later, OutOfRoom { step: 7, .. }));
            assert!(matches!(unfinished, Unfinished { .. }), "{unfinished:?}");
        }
    }
}

/// How many of the terms in the store hold each variable; a term of the polynomial held has a coefficient.
fn counted_in_store(case: &JudgeCase, store: &[u64]) -> Vec<u32> {
    let mut numbers = vec![0; case.counts.m as usize + 1];
    for term in store.chunks_exact(case.counts.term_words()) {
        if term[0] == 0 {
            break;
        }
        numbers[0] += 1;
        for (variable, number) in numbers.iter_mut().enumerate().skip(1) {
            *number += (term[1 + variable / 64] >> (variable % 64) & 1) as u32;
        }
    }
    numbers
}

/// The terms that an answer says are held.
fn terms_of(answer: &Answer) -> u32 {
    match *answer {
        Equal { terms, .. } | Unfinished { terms, .. } => terms,
        Differs { terms, .. } | OutOfRoom { terms, .. } => terms,
        Refused(number) => panic!("refused {number}"),
    }
}

#[test]
fn the_numbers_are_those_of_the_words_in_the_store() {
    for seed in 0..1_500 {
        let mut random = Random::new(seed);
        let case = judgements::random(&mut random, Records::ALL[seed as usize % 2]);
        let seen = case.seen(&DOCUMENT);
        let needed = case.counts.m as usize + 1;
        let numbers = &seen.occurrences[..needed];
        assert_eq!(numbers, counted_in_store(&case, &seen.store), "{seed}");
        assert_eq!(numbers[0], terms_of(&seen.answer), "{seed}");
    }
}

/// All that is left but the occurrences.
fn others(seen: JudgeSeen) -> JudgeSeen {
    JudgeSeen {
        occurrences: Vec::new(),
        ..seen
    }
}

#[test]
fn bent_rules_of_occurrences_leave_the_other_words_alone() {
    let mut mutants = Rules::mutants_of("judge");
    mutants.retain(|(_, bent)| bent.occurrences != DOCUMENT.occurrences);
    assert_eq!(mutants.len(), 15);
    let mut random = Random::new(3);
    for turn in 0..200 {
        let case = judgements::random(&mut random, Records::ALL[turn % 2]);
        let right = others(case.seen(&DOCUMENT));
        for (name, bent) in &mutants {
            assert!(others(case.seen(bent)) == right, "{name}");
        }
    }
}
