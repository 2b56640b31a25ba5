//! The limits that document 01 names, the errors it warns of, and cases worked out by hand.

mod common;

use common::{answered, holds, judged, records, DOCUMENT};
use second::cases::judgements::{all_false, and_netlist, eleven_bits, two_bits, JudgeCase};
use second::cases::{marked_numbers, marked_steps, marked_words};
use second::netlists::{random_sound, Made};
use second::random::Random;
use second::Answer::{Differs, Equal, OutOfRoom, Refused, Unfinished};
use second::{evaluate, orders, wanted, Counts, Records};

#[test]
fn twelve_bits_never_fit_128_and_always_fit_169_at_the_start() {
    for seed in 0..200 {
        let mut random = Random::new(seed);
        let gates = random.below(300) as u32;
        let made = random_sound(&mut random, 24, 24, gates);
        let order = orders::shuffled(&mut random, made.counts);
        let seen = judged(&made, 0, 128, &order);
        assert_eq!(seen.answer, OutOfRoom { step: 0, terms: 0 });
        assert!(holds(&seen.store, &[]) && holds(&seen.scratch, &[]));
        assert_eq!(seen.log, marked_steps(order.len()));
        let answer = answered(&made, 0, 169, &order);
        assert!(!matches!(answer, OutOfRoom { step: 0, .. }), "{seed}");
    }
}

#[test]
fn the_fullest_start_of_twelve_bits_has_169_terms() {
    let outputs: Vec<u32> = (1..=24).map(|input| 2 * input + 1).collect();
    let made = Made::new(24, &outputs, &[]);
    let differing = |limit| match answered(&made, 0, limit, &[]) {
        Differs { terms, .. } => terms,
        other => panic!("{other:?}"),
    };
    assert_eq!(differing(169), 169);
    assert_eq!(
        answered(&made, 0, 168, &[]),
        OutOfRoom { step: 0, terms: 0 }
    );
}

#[test]
fn the_limits_of_t_and_of_steps() {
    let and = and_netlist(&[6, 0]);
    let equal = Equal { steps: 1, terms: 0 };
    for limit in [0, 1, 127, 16_385, 1 << 32, u64::MAX] {
        assert_eq!(answered(&and, 0, limit, &[3]), Refused(10));
    }
    for limit in [128, 129, 16_383, 16_384] {
        assert_eq!(answered(&and, 0, limit, &[3]), equal);
    }
    let longest = Equal {
        steps: 4_096,
        terms: 0,
    };
    assert_eq!(answered(&and, 0, 128, &[3; 4_096]), longest);
    assert_eq!(answered(&and, 0, 128, &[3; 4_097]), Refused(11));
}

#[test]
fn the_limits_of_m_and_of_i() {
    let wide = |inputs: u32, gates: usize| {
        let outputs = vec![0; inputs as usize / 2];
        Made::new(inputs, &outputs, &vec![(2, 1); gates])
    };
    let answer_of = |made: &Made| answered(made, 2, 16_384, &[]);
    assert_eq!(answer_of(&wide(2, 1_022)), Refused(2));
    assert_eq!(answer_of(&wide(66, 0)), Refused(2));
    assert_eq!(answer_of(&wide(0, 0)), Refused(2));
    let truncated = |n: u32| n * (n + 1) / 2;
    for (inputs, gates) in [(2, 1_021), (64, 959), (64, 0)] {
        let terms = truncated(inputs / 2);
        match answer_of(&wide(inputs, gates)) {
            Differs { terms: held, .. } => assert_eq!(held, terms),
            other => panic!("{other:?}"),
        }
    }
}

#[test]
fn coefficients_drop_to_l_bits() {
    // 3ab - ab is 2ab.
    assert!(holds(
        &judged(&and_netlist(&[6, 6]), 0, 128, &[3]).store,
        &[2, 6]
    ));
    // -ab alone is 3ab at l = 2, and ab at l = 1.
    assert!(holds(
        &judged(&and_netlist(&[0, 0]), 0, 128, &[3]).store,
        &[3, 6]
    ));
    assert!(holds(
        &judged(&and_netlist(&[0]), 2, 128, &[3]).store,
        &[1, 6]
    ));
}

#[test]
fn coefficients_at_l_64_wrap() {
    // Every output is 1: the sum of all weights is 2^64 - 1, and a_31 b_31 has weight -2^62.
    let made = Made::new(64, &[1; 64], &[]);
    let seen = judged(&made, 0, 2_000, &[]);
    let answer = Differs {
        steps: 0,
        terms: 1_025,
        a: 0,
        b: 0,
        c: 0,
        got: u64::MAX,
        wanted: 0,
    };
    assert_eq!(seen.answer, answer);
    // W is 2 for M = 64, and b_31 is variable 64.
    assert_eq!(seen.store[..3], [3 << 62, 1 << 32, 1]);
    assert_eq!(seen.store[3 * 1_024..3 * 1_025], [u64::MAX, 0, 0]);
    assert_eq!(wanted(0, 32, u64::MAX, u64::MAX, 0), 0xffff_fffe_0000_0001);
}

#[test]
fn squares_join() {
    let one = Equal { steps: 3, terms: 0 };
    // x4 is x3 twice, x5 is x4 and a, and a is already in x3.
    let made = Made::new(2, &[10, 0], &[(4, 2), (6, 6), (8, 2)]);
    assert_eq!(answered(&made, 0, 128, &[5, 4, 3]), one);
    // (1 - x)(1 - x) is 1 - x.
    let twice = Made::new(2, &[11, 0], &[(4, 2), (7, 7), (8, 8)]);
    assert_eq!(answered(&twice, 0, 128, &[5, 4, 3]), one);
    // x(1 - x) is 0.
    let never = Made::new(2, &[6, 8], &[(4, 2), (7, 6)]);
    let two = Equal { steps: 2, terms: 0 };
    assert_eq!(answered(&never, 0, 128, &[4, 3]), two);
}

#[test]
fn room_is_counted_when_gathered() {
    // 121 product terms, and one input shown 22 times: 143 before gathering, 122 after.
    let shown = Made::new(22, &[2; 22], &[]);
    assert!(matches!(
        answered(&shown, 0, 128, &[]),
        Differs { terms: 122, .. }
    ));
    assert!(matches!(
        answered(&eleven_bits(7), 0, 128, &[]),
        Differs { terms: 128, .. }
    ));
    let full = OutOfRoom { step: 0, terms: 0 };
    assert_eq!(answered(&eleven_bits(8), 0, 128, &[]), full);
}

#[test]
fn out_of_room_at_a_later_step() {
    let order = orders::falling(all_false().counts);
    // Ten product terms below 2^4 throughout; the eight inverted inputs double at each step.
    // At the last step a_0 b_0 cancels one of 256.
    let terms = [12, 14, 18, 26, 42, 74, 255];
    // Before gathering the last step has 64 times four, and the ten.
    let peaks = [12, 14, 18, 26, 42, 74, 266];
    for limit in [128, 254] {
        let mut case = JudgeCase::new(&all_false(), 2, limit, order.clone());
        case.store_words += 5;
        case.scratch_words += 3;
        let seen = case.seen(&DOCUMENT);
        assert_eq!(seen.answer, OutOfRoom { step: 7, terms: 74 });
        assert_eq!(
            seen.log[..6],
            records(&order[..6], &terms[..6], &peaks[..6])
        );
        assert_eq!(seen.log[6..], marked_steps(7)[6..]);
        assert!(seen.store[2 * 74 - 2] != 0);
        assert!(holds(&seen.store[2 * 74..], &[]) && holds(&seen.scratch, &[]));
        // The highest set is x9 with the inputs 3 to 8, its sign plus; the lowest is a_0 b_0, minus one.
        assert_eq!(seen.store[..2], [1, 0x3f8]);
        assert_eq!(seen.store[2 * 73..2 * 74], [15, 1 << 5 | 1 << 1]);
    }
    let answer = Differs {
        steps: 7,
        terms: 255,
        a: 0,
        b: 0,
        c: 0,
        got: 1,
        wanted: 0,
    };
    let seen = judged(&all_false(), 2, 255, &order);
    assert_eq!(seen.answer, answer);
    assert_eq!(seen.log, records(&order, &terms, &peaks));
}

#[test]
fn sets_are_ordered_by_their_last_word() {
    // x65 + 2a - ab, with two words to a set.
    let made = Made::new(2, &[130, 2], &[(2, 0); 63]);
    let seen = judged(&made, 0, 128, &[]);
    assert_eq!(seen.answer, Unfinished { steps: 0, terms: 3 });
    assert_eq!(seen.store.len(), 128 * 3);
    assert!(holds(&seen.store, &[1, 0, 2, 3, 6, 0, 2, 2, 0]));
}

#[test]
fn the_wrong_pair_is_no_term_that_contains_a_smaller_one() {
    // P9 ends with a + b + 2ab. The term ab is left, but at a = b = 1 the sum is 4, which is 0.
    let made = Made::new(2, &[7, 0], &[(5, 3)]);
    assert_eq!(made.word_at(1, 1), Ok(1));
    assert_eq!(wanted(0, 1, 1, 1, 0), 1);
    match answered(&made, 0, 128, &[3]) {
        Differs { terms, a, b, .. } => assert_eq!((terms, a, b), (3, 1, 0)),
        other => panic!("{other:?}"),
    }
}

#[test]
fn the_wrong_pair_has_the_fewest_ones_before_it_is_smallest() {
    // Truncated to two bits: x5 = a0 b0, x6 = a1 b0, x7 = a0 b1, x10 = not (x6 xor x7).
    let gates = [(6, 2), (6, 4), (8, 2), (14, 13), (15, 12), (19, 17)];
    let right = Made::new(4, &[10, 21], &gates);
    let order = orders::falling(right.counts);
    let equal = Equal { steps: 6, terms: 0 };
    assert_eq!(answered(&right, 2, 128, &order), equal);
    // When output 0 shows b1, it is wrong by b1 - a0 b0. As a + 4b, a0 b0 is 5 and has two ones; b1 is 8 and has one.
    let made = Made::new(4, &[8, 21], &gates);
    let answer = Differs {
        steps: 6,
        terms: 2,
        a: 0,
        b: 2,
        c: 0,
        got: 1,
        wanted: 0,
    };
    let seen = judged(&made, 2, 128, &order);
    assert_eq!(seen.answer, answer);
    assert!(holds(&seen.store, &[1, 16, 3, 10]));
}

#[test]
fn a_polynomial_with_gate_variables_is_unfinished() {
    for order in [&[][..], &[5], &[5, 6, 7]] {
        let answer = answered(&two_bits(), 1, 128, order);
        assert!(matches!(answer, Unfinished { .. }), "{answer:?}");
    }
}

#[test]
fn missed_gates_do_not_matter_when_none_is_left() {
    let made = Made::new(2, &[6, 0], &[(4, 2), (6, 2)]);
    let equal = Equal { steps: 1, terms: 0 };
    assert_eq!(answered(&made, 0, 128, &[3]), equal);
    let wrong = Made::new(2, &[2, 0], &[(4, 2)]);
    let answer = Differs {
        steps: 0,
        terms: 2,
        a: 1,
        b: 0,
        c: 0,
        got: 1,
        wanted: 0,
    };
    assert_eq!(answered(&wrong, 0, 128, &[]), answer);
}

#[test]
fn steps_that_change_nothing_are_steps() {
    let made = Made::new(2, &[6, 0], &[(4, 2), (6, 2)]);
    let seen = judged(&made, 0, 128, &[4, 3, 4, 3]);
    assert_eq!(seen.answer, Equal { steps: 4, terms: 0 });
    let peaks = [2, 2, 0, 0];
    assert_eq!(seen.log, records(&[4, 3, 4, 3], &[2, 0, 0, 0], &peaks));
}

#[test]
fn a_gate_stepped_too_early_comes_back() {
    // x4 reads x3, but x3 comes first: nothing changes, then x3 is left.
    let made = Made::new(2, &[8, 0], &[(4, 2), (6, 6)]);
    let seen = judged(&made, 0, 128, &[3, 4]);
    assert_eq!(seen.answer, Unfinished { steps: 2, terms: 2 });
    assert_eq!(seen.log, records(&[3, 4], &[2, 2], &[2, 2]));
    assert!(holds(&seen.store, &[1, 8, 3, 6]));
}

#[test]
fn lent_words_past_the_least_are_cleared_and_records_kept() {
    let mut case = JudgeCase::new(&and_netlist(&[7, 0]), 0, 128, vec![3]);
    case.store_words += 9;
    case.scratch_words += 9;
    case.log_records += 3;
    let seen = case.seen(&DOCUMENT);
    assert!(holds(&seen.store, &[2, 6, 1, 0]) && holds(&seen.scratch, &[]));
    assert_eq!((seen.store.len(), seen.scratch.len()), (265, 1_033));
    assert_eq!(seen.log[..1], records(&[3], &[2], &[3]));
    assert_eq!(seen.log[1..], marked_steps(4)[1..]);
}

#[test]
fn a_refusal_changes_no_lent_word() {
    let mut case = JudgeCase::new(&and_netlist(&[7, 0]), 0, 128, vec![3]);
    case.scratch_words -= 1;
    let seen = case.seen(&DOCUMENT);
    assert_eq!(seen.answer, Refused(12));
    assert_eq!(seen.store, marked_words(256));
    assert_eq!(seen.scratch, marked_words(1_023));
    assert_eq!(seen.log, marked_steps(1));
    assert_eq!(seen.occurrences, marked_numbers(4));
}

#[test]
fn one_bit_signed_operands_are_0_or_minus_1() {
    assert_eq!(wanted(1, 1, 1, 1, 0), 1);
    assert_eq!(wanted(1, 1, 1, 0, 0), 0);
    assert_eq!(wanted(1, 2, 2, 1, 0), 14);
    assert_eq!(wanted(1, 2, 2, 2, 0), 4);
    assert_eq!(wanted(1, 32, 1 << 31, 1 << 31, 0), 1 << 62);
    assert_eq!(wanted(1, 32, 0xffff_ffff, 1, 0), u64::MAX);
    assert_eq!(wanted(0, 1, 3, 0xff, 0), 1);
    assert_eq!(wanted(2, 2, 3, 3, 0), 1);
    assert_eq!(wanted(2, 32, 0xffff_ffff, 0xffff_ffff, 0), 1);
}

#[test]
fn the_evaluator_takes_any_outputs_and_cuts_operands() {
    let made = Made::new(2, &[2, 4, 6, 7, 1, 0], &[(4, 2)]);
    let word = |a, b| made.word_at(a, b);
    assert_eq!(word(0, 0), Ok(0b011000));
    assert_eq!(word(1, 0), Ok(0b011001));
    assert_eq!(word(0, 1), Ok(0b011010));
    assert_eq!(word(1, 1), Ok(0b010111));
    assert_eq!(word(u64::MAX, 2), Ok(0b011001));
    let highest = Made::new(64, &[128; 64], &[]);
    assert_eq!(highest.word_at(0, 1 << 31), Ok(u64::MAX));
}

#[test]
fn sums_of_counts_do_not_wrap() {
    let counts = Counts {
        m: 3,
        i: 4,
        l: 0,
        o: 2,
        a: u32::MAX,
    };
    for records in Records::ALL {
        let table = [6, 0, 136, 1, 2, 0];
        assert_eq!(evaluate(counts, &table, records, 0, 0), Err(2));
    }
}
