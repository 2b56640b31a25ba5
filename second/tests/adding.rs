//! Multiply and add. Expected values are those of document 02, section 12, or worked out by hand from it.

mod common;

use common::{answered, holds, judged, records, wrong_operands, DOCUMENT};
use second::brute::least_wrong_operands;
use second::cases::adding::{self, one_bit, only_c, wrong_by_a_or_both_of_c, wrong_by_two_pairs};
use second::cases::judgements::JudgeCase;
use second::cases::{marked_numbers, marked_steps, marked_words};
use second::netlists::Made;
use second::orders::falling;
use second::Answer::{self, Differs, Equal, OutOfRoom, Refused, Unfinished};
use second::{blocks, desk, wanted};

const M: u32 = 3;
const MS: u32 = 4;
const SEVEN_DOWN: [u32; 7] = [11, 10, 9, 8, 7, 6, 5];

#[test]
fn wanted_words_worked_out_by_hand() {
    // 1·1 + 3 is 4, and 0 modulo 4; of one bit, -1·-1 is 1 as well.
    for kind in [M, MS] {
        assert_eq!(wanted(kind, 1, 1, 1, 3), 0);
        assert_eq!(wanted(kind, 1, 1, 1, 2), 3);
        assert_eq!(wanted(kind, 1, 1, 0, 2), 2);
    }
    assert_eq!(wanted(M, 2, 3, 3, 15), 8);
    assert_eq!(wanted(M, 2, 2, 1, 3), 5);
    // -2·1 + 3 is 1, -2·1 is 14 modulo 16, and -2·-2 + 15 is 19.
    assert_eq!(wanted(MS, 2, 2, 1, 3), 1);
    assert_eq!(wanted(MS, 2, 2, 1, 0), 14);
    assert_eq!(wanted(MS, 2, 2, 2, 15), 3);
    // 65,535² + 2^32 - 1 is 2^33 - 131,072; then -1·-1 + 2^32 - 1, and 2^30 + 2^31.
    let (most, all) = (0xffff, 0xffff_ffff);
    assert_eq!(wanted(M, 16, most, most, all), (1 << 32) - 131_072);
    assert_eq!(wanted(MS, 16, most, most, all), 0);
    assert_eq!(wanted(MS, 16, 1 << 15, 1 << 15, 1 << 31), 3 << 30);
}

#[test]
fn bits_of_a_and_b_from_n_and_of_c_from_2n_are_absent() {
    assert_eq!(wanted(M, 1, 3, 0xff, 7), 0);
    assert_eq!(wanted(MS, 2, 0xf6, 0xf1, 0xf3), 1);
    assert_eq!(wanted(M, 16, u64::MAX, 0, u64::MAX), 0xffff_ffff);
}

#[test]
fn a_kind_without_c_takes_no_notice_of_it() {
    for c in [0, 1, 2, 5, u64::MAX] {
        assert_eq!(wanted(0, 1, 1, 1, c), 1);
        assert_eq!(wanted(1, 2, 2, 1, c), 14);
        assert_eq!(wanted(2, 2, 3, 3, c), 1);
        assert_eq!(wanted(0, 32, 3, 1 << 31, c), 3 << 31);
    }
}

#[test]
fn the_reading_of_c_makes_no_difference_to_the_word() {
    for n in [1, 2] {
        let signed = |bits: u32, word: i64| {
            if word >> (bits - 1) == 1 {
                word - (1 << bits)
            } else {
                word
            }
        };
        for operands in 0..1 << (4 * n) {
            let (a, b, c) = (
                operands % (1 << n),
                (operands >> n) % (1 << n),
                operands >> (2 * n),
            );
            let (plain, product) = (a * b, signed(n, a) * signed(n, b));
            for (kind, product) in [(M, plain), (MS, product)] {
                let word = wanted(kind, n, a as u64, b as u64, c as u64) as i64;
                for c in [c, signed(2 * n, c)] {
                    assert_eq!((product + c).rem_euclid(1 << (2 * n)), word);
                }
            }
        }
    }
}

#[test]
#[should_panic(expected = "a and b have 1 to 16 bits")]
fn wanted_stops_where_m_would_have_68_inputs() {
    wanted(M, 17, 0, 0, 0);
}

#[test]
#[should_panic(expected = "a and b have 1 to 16 bits")]
fn wanted_stops_where_ms_would_have_no_inputs() {
    wanted(MS, 0, 0, 0, 0);
}

#[test]
#[should_panic(expected = "a kind is a number from 0 to 4")]
fn wanted_stops_at_kind_5() {
    wanted(5, 1, 0, 0, 0);
}

#[test]
fn one_bit_is_equal_and_leaves_the_terms_worked_out() {
    let made = one_bit(&[16, 22]);
    for kind in [M, MS] {
        let seen = judged(&made, kind, 128, &SEVEN_DOWN);
        assert_eq!(seen.answer, Equal { steps: 7, terms: 0 });
        assert!(holds(&seen.store, &[]) && holds(&seen.scratch, &[]));
        // Gates 11, 10, 8 and 7 make four, and are in 1, 2, 1 and 2 terms; the others make one.
        let (terms, peaks) = ([8, 8, 4, 6, 7, 2, 0], [8, 14, 8, 7, 12, 7, 2]);
        assert_eq!(seen.log, records(&SEVEN_DOWN, &terms, &peaks));
        // 2 x11 + x8 - 2 c1 - c0 - ab, modulo 4.
        let seen = judged(&made, kind, 128, &[]);
        assert_eq!(seen.answer, Unfinished { steps: 0, terms: 5 });
        assert!(holds(&seen.store, &[2, 2_048, 1, 256, 2, 16, 3, 8, 3, 6]));
    }
}

/// D with the operands and words, after so many steps and with so many terms.
fn differs(steps: u32, terms: u32, [a, b, c, got, wanted]: [u64; 5]) -> Answer {
    Differs {
        steps,
        terms,
        a,
        b,
        c,
        got,
        wanted,
    }
}

#[test]
fn wrong_operands_gain_c() {
    // c_0 is left out: -c_0 stays.
    let seen = judged(&one_bit(&[10, 8]), M, 128, &SEVEN_DOWN);
    assert_eq!(seen.answer, differs(7, 1, [0, 0, 1, 0, 1]));
    assert!(holds(&seen.store, &[3, 8]));
    // c_1 is left out.
    let seen = judged(&Made::new(4, &[6, 0], &[]), M, 128, &[]);
    assert_eq!(seen.answer, differs(0, 2, [0, 0, 2, 0, 2]));
    assert!(holds(&seen.store, &[2, 16, 3, 6]));
    // The product is left out.
    assert_eq!(
        answered(&only_c(1), M, 128, &[]),
        differs(0, 1, [1, 1, 0, 0, 1])
    );
}

#[test]
fn wrong_operands_with_c_have_the_fewest_ones_and_then_c_above_b() {
    // b + 2 c_1 is shown: b - ab - c_0 is wrong. As a + 2b + 4c, b is 2 and c_0 is 4.
    let made = Made::new(4, &[4, 8], &[]);
    assert_eq!(answered(&made, M, 128, &[]), differs(0, 3, [0, 1, 0, 1, 0]));
    // 2 c_1 is shown: -ab - c_0 is wrong. ab is 3 and has two ones, c_0 is 4 and has one.
    let made = Made::new(4, &[0, 8], &[]);
    assert_eq!(answered(&made, M, 128, &[]), differs(0, 2, [0, 0, 1, 0, 1]));
}

#[test]
fn ones_of_c_count_as_others_do_and_c_comes_before_b_in_size() {
    let seen = judged(&wrong_by_a_or_both_of_c(), M, 128, &[6, 5]);
    assert_eq!(seen.answer, differs(2, 4, [1, 0, 0, 1, 0]));
    assert!(holds(&seen.store, &[2, 24, 3, 10, 3, 6, 1, 2]));
    let seen = judged(&wrong_by_two_pairs(), M, 128, &SEVEN_DOWN);
    assert_eq!(seen.answer, differs(7, 3, [0, 1, 1, 0, 1]));
    assert!(holds(&seen.store, &[2, 18, 3, 14, 3, 12]));
}

#[test]
fn two_bits_differ_when_signed_as_products_do() {
    let block = blocks::of_gates()
        .into_iter()
        .find(|block| block.name == "yosys-synth-m2")
        .unwrap();
    let order = falling(block.made.counts);
    let steps = order.len() as u32;
    let equal = Equal { steps, terms: 0 };
    assert_eq!(answered(&block.made, M, 128, &order), equal);
    let seen = judged(&block.made, MS, 128, &order);
    assert_eq!(seen.answer, differs(steps, 2, [2, 1, 0, 2, 14]));
    // 4 a0 b1 + 4 a1 b0.
    assert!(holds(&seen.store, &[4, 18, 4, 12]));
}

#[test]
fn the_edges_of_adding_agree_with_trying_all_operands() {
    let (mut equal, mut differing) = (0, 0);
    for case in adding::judgements() {
        let answer = case.seen(&DOCUMENT).answer;
        if case.counts.i > 8 || case.kind < M || matches!(answer, Refused(_)) {
            continue;
        }
        let tried = least_wrong_operands(case.counts, &case.table, case.records, case.kind);
        match answer {
            Equal { .. } => {
                assert_eq!(tried, Ok(None));
                equal += 1;
            }
            Differs { .. } => {
                assert_eq!(tried, Ok(wrong_operands(&answer)));
                differing += 1;
            }
            _ => {}
        }
    }
    assert!(equal >= 4 && differing >= 150, "{equal} {differing}");
}

/// The number of refusal, after seeing that all words were left alone; 0 where the case is taken.
fn refusal(inputs: u32, outputs: usize, kind: u32) -> u32 {
    let made = Made::new(inputs, &vec![0; outputs], &[]);
    let case = JudgeCase::new(&made, kind, 16_384, vec![]);
    let seen = case.seen(&DOCUMENT);
    let Refused(number) = seen.answer else {
        return 0;
    };
    assert_eq!(seen.store, marked_words(case.store_words));
    assert_eq!(seen.scratch, marked_words(case.scratch_words));
    assert_eq!(seen.log, marked_steps(0));
    assert_eq!(seen.occurrences, marked_numbers(case.occurrence_words));
    number
}

#[test]
fn refusal_9_for_inputs_that_are_no_multiple_of_4_and_for_other_outputs() {
    for kind in [M, MS] {
        for (inputs, outputs) in [(4, 2), (8, 4), (12, 6), (60, 30), (64, 32)] {
            assert_eq!(refusal(inputs, outputs, kind), 0, "I {inputs}");
            for other in [outputs - 1, outputs + 1, inputs as usize, outputs / 2] {
                assert_eq!(refusal(inputs, other, kind), 9, "I {inputs}, O {other}");
            }
        }
        for inputs in [2, 6, 10, 14, 58, 62] {
            for outputs in 1..=64 {
                assert_eq!(refusal(inputs, outputs, kind), 9, "I {inputs}");
            }
        }
    }
    for kind in [5, 6, 255, 256 + 3, 256 + 4, (1 << 16) + 3, u32::MAX] {
        assert_eq!(refusal(4, 2, kind), 9, "kind {kind}");
    }
}

#[test]
fn sixteen_bits_are_taken_and_have_289_terms_at_most_at_the_start() {
    // Every output is 1: 2^32 - 1, 256 products and 32 bits of c.
    let made = Made::new(64, &[1; 32], &[]);
    for kind in [M, MS] {
        let seen = judged(&made, kind, 289, &[]);
        let all = 0xffff_ffff;
        assert_eq!(seen.answer, differs(0, 289, [0, 0, 0, all, 0]));
        // c_31 is variable 64 and weighs -2^31; W is 2.
        assert_eq!(seen.store[..3], [1 << 31, 0, 1]);
        assert_eq!(seen.store[3 * 288..3 * 289], [all, 0, 0]);
        let full = OutOfRoom { step: 0, terms: 0 };
        assert_eq!(answered(&made, kind, 288, &[]), full);
    }
}

#[test]
fn the_evaluator_takes_both_factors_in_one_word_and_c_in_the_other() {
    let made = one_bit(&[16, 22]);
    for (x, y) in (0..4).flat_map(|x| (0..4).map(move |y| (x, y))) {
        let sum = (x % 2 * (x / 2) + y) % 4;
        assert_eq!(made.word_at(x, y), Ok(sum));
        // Bits from I/2 up are absent, of either word.
        assert_eq!(made.word_at(x | !3, y | !3), Ok(sum));
        assert_eq!(made.word_at(x | 4, y | 1 << 63), Ok(sum));
    }
}

#[test]
fn lines_of_the_desk_have_c_after_b_where_it_is_added() {
    let line = |kind: &str, made: &Made| {
        let input = [format!("{kind}\n").into_bytes(), made.text()].concat();
        String::from_utf8(desk(&input)).unwrap()
    };
    let right = one_bit(&[16, 22]);
    assert_eq!(line("m", &right), "E 7 0\n");
    assert_eq!(line("ms", &right), "E 7 0\n");
    assert_eq!(line("u", &right), "X 9\n");
    assert_eq!(line("s", &right), "X 9\n");
    // x1 x2 + x3 + 2 x4 is shown, x1 x3 + 2 x1 x4 + 2 x2 x3 wanted: six terms, of which x3 is the least.
    assert_eq!(line("t", &right), "D 7 6 0 1 1 0\n");
    assert_eq!(line("m", &one_bit(&[10, 8])), "D 7 1 0 0 1 0 1\n");
    // c_1 and the carry into it are left out: -2 c_1 - 2 ab c_0.
    assert_eq!(line("ms", &one_bit(&[16, 0])), "D 7 2 0 0 2 0 2\n");
    let odd = Made::new(6, &[0, 0], &[]);
    assert_eq!(line("m", &odd), "X 9\n");
    assert_eq!(line("ms", &odd), "X 9\n");
}
