//! The line, the status, the sentence and the log of a judgement. P1 to P11 are those of document 01; what is expected was
//! worked out by hand from its rules and those of document 02.

mod calls;
mod told_common;

use host::course::{most_held, most_made, Point};
use host::line::{exit_status, line};
use host::log::log;
use host::reading;
use host::refusals::meaning;
use host::sentence::{any_sentence, sentence};
use host::told::{Outcome, Rule, Told};
use hraskell::{Answer, Step};
use told_common::*;

const FALLING: &str = "the falling order (M down to I + 1) needed at most";
const UNDECIDED: &str = "the block may be right or wrong";

/// A judgement has this line, this status and this sentence after the file's name.
fn says(told: &Told, expected_line: &str, status: u8, expected: &str) {
    assert_eq!((&*line(told), exit_status(told)), (expected_line, status));
    assert_eq!(sentence(told), format!("block.aag: {expected}"));
}

#[test]
fn right_blocks_are_equal_for_all_operands() {
    let need = format!("{FALLING} 0 terms after a step (step 1) and 2 before gathering (step 1)");
    let pair = "equal, the outputs are the product for every operand pair";
    // P1 and P2.
    let expected = format!("u (plain): {pair}; {need}");
    says(&told(AND, "u", 128), "E 1 0", 0, &expected);
    let expected = format!("s (two's complement): {pair}; {need}");
    says(&told(AND, "s", 128), "E 1 0", 0, &expected);
    // P7: in the second step there is no term, and none before gathering.
    let twice = told_in_order(AND, "u", &[3, 3]);
    let need = "the order of the file order.txt needed at most 0 terms after a step (step 1) and 2 before gathering (step 1)";
    says(&twice, "E 2 0", 0, &format!("u (plain): {pair}; {need}"));
    // P8.
    let one_output = AND.replace("2 1\n", "1 1\n").replace("\n0\n", "\n");
    let expected = format!("t (truncated): {pair}, modulo 2^1; {FALLING} 0 terms after a step (step 1) and 2 before gathering (step 1)");
    says(&told(&one_output, "t", 128), "E 1 0", 0, &expected);
}

#[test]
fn wrong_blocks_differ_for_operands_with_both_words_and_the_lowest_wrong_output() {
    let need = |terms: &str, made: u32| {
        format!("{FALLING} {terms} after a step (step 1) and {made} before gathering (step 1)")
    };
    // P3 and P4: three times the product is shown.
    let thrice = AND.replace("\n0\n", "\n6\n");
    let second =
        "the lowest wrong output is output 1 (weight 2^1, line 5 of the file), which shows 1";
    let need_one = need("1 term", 2);
    says(
        &told(&thrice, "u", 128),
        "D 1 1 1 1 3 1",
        1,
        &format!("u (plain): differs, for a = 1 and b = 1 the outputs show 3, and 1 is wanted; {second}; {need_one}"),
    );
    says(
        &told(&thrice, "s", 128),
        "D 1 1 1 1 3 1",
        1,
        &format!("s (two's complement): differs, for a = -1 and b = -1 the outputs show 3, and 1 is wanted (as two's complement -1 and 1); {second}; {need_one}"),
    );
    // P5: 1 and the product stand beside the gate, which makes one term.
    let first =
        "the lowest wrong output is output 0 (weight 2^0, line 4 of the file), which shows 1";
    says(
        &told(&AND.replace("\n6\n", "\n7\n"), "u", 128),
        "D 1 2 0 0 1 0",
        1,
        &format!("u (plain): differs, for a = 0 and b = 0 the outputs show 1, and 0 is wanted; {first}; {}", need("2 terms", 3)),
    );
    // P9: 1 and the product stand beside the gate, which makes four terms.
    says(
        &told(DESK, "u", 128),
        "D 1 3 1 0 1 0",
        1,
        &format!("u (plain): differs, for a = 1 and b = 0 the outputs show 1, and 0 is wanted; {first}; {}", need("3 terms", 6)),
    );
}

#[test]
fn two_bits_are_right_under_u_and_wrong_under_s() {
    // P10 and P11.
    let right = told(TWO_BITS, "u", 128);
    assert_eq!((&*line(&right), exit_status(&right)), ("E 10 0", 0));
    let wrong = told(TWO_BITS, "s", 128);
    assert_eq!(
        (&*line(&wrong), exit_status(&wrong)),
        ("D 10 2 2 1 2 14", 1)
    );
    assert!(sentence(&wrong).starts_with(
        "block.aag: s (two's complement): differs, for a = -2 and b = 1 the outputs show 2, and 14 is wanted \
         (as two's complement 2 and -2); the lowest wrong output is output 2 (weight 2^2, line 8 of the file), which shows 0; "
    ));
}

#[test]
fn readings_that_add_tell_c() {
    let right = told(ADD, "m", 128);
    assert_eq!(line(&right), "E 7 0");
    assert!(sentence(&right).starts_with(
        "block.aag: m (multiply and add, plain): equal, the outputs are the product plus c for all operands, modulo 2^2; "
    ));
    // c_0 is left out, then c_1 and the carry into it.
    let wrong = told(&ADD.replace("\n16\n22\n", "\n10\n8\n"), "m", 128);
    assert_eq!(line(&wrong), "D 7 1 0 0 1 0 1");
    assert!(sentence(&wrong).contains(
        ": differs, for a = 0, b = 0 and c = 1 the outputs show 0, and 1 is wanted; \
         the lowest wrong output is output 0 (weight 2^0, line 6 of the file), which shows 0; "
    ));
    let wrong = told(&ADD.replace("\n16\n22\n", "\n16\n0\n"), "ms", 128);
    assert_eq!(line(&wrong), "D 7 2 0 0 2 0 2");
    assert!(sentence(&wrong).contains(
        "ms (multiply and add, two's complement): differs, for a = 0, b = 0 and c = 2 the outputs show 0, and 2 is wanted \
         (as two's complement 0 and -2); the lowest wrong output is output 1 (weight 2^1, line 7 of the file), which shows 0; "
    ));
}

/// A D with these words.
fn differing(letters: &str, a: u64, b: u64, c: u64, got: u64, wanted: u64) -> Told {
    let answer = Answer::Differs {
        steps: 0,
        terms: 1,
        a,
        b,
        c,
        got,
        wanted,
    };
    made_up(letters, 64, &[], answer)
}

#[test]
fn words_of_64_bits_are_told_as_they_are() {
    let (a, b) = (u64::from(u32::MAX), 1 << 31);
    let (got, wanted) = (u64::MAX, i64::MAX as u64);
    let words = "the outputs show 18446744073709551615, and 9223372036854775807 is wanted";
    let top =
        "the lowest wrong output is output 63 (weight 2^63, line 129 of the file), which shows 1";
    let plain = differing("u", a, b, 0, got, wanted);
    assert_eq!(
        line(&plain),
        "D 0 1 4294967295 2147483648 18446744073709551615 9223372036854775807"
    );
    let expected = format!("for a = 4294967295 and b = 2147483648 {words}; {top}; ");
    assert!(sentence(&plain).contains(&expected), "{}", sentence(&plain));
    let signed = sentence(&differing("s", a, b, 0, got, wanted));
    let expected = format!("for a = -1 and b = -2147483648 {words} (as two's complement -1 and 9223372036854775807); {top}; ");
    assert!(signed.contains(&expected), "{signed}");
}

#[test]
fn factors_of_ms_have_signs_and_c_has_none() {
    // Of 64 inputs a and b have 16 bits, c and the words have 32.
    let (a, b, c) = (65_535, 32_768, u64::from(u32::MAX));
    let (got, wanted) = (c - 1, i32::MAX as u64);
    let told = differing("ms", a, b, c, got, wanted);
    assert_eq!(
        line(&told),
        "D 0 1 65535 32768 4294967295 4294967294 2147483647"
    );
    let expected = "for a = -1, b = -32768 and c = 4294967295 the outputs show 4294967294, and 2147483647 is wanted \
                    (as two's complement -2 and 2147483647); the lowest wrong output is output 0 (weight 2^0, line 66 of the file), which shows 0";
    assert!(sentence(&told).contains(expected), "{}", sentence(&told));
}

#[test]
fn out_of_room_says_where_and_what_to_try() {
    // 144 products at the start.
    says(
        &told(&without_gates(24), "u", 128),
        "R 0 0",
        2,
        &format!("u (plain): out of room, more than 128 terms at the start; {UNDECIDED}; try a larger T with --terms (up to 16,384)"),
    );
    let place = "more than 512 terms after step 9 of 9 (gate 11) in the falling order (M down to I + 1), 271 terms before it";
    says(
        &told(&all_false(), "t", 512),
        "R 9 271",
        2,
        &format!("t (truncated): out of room, {place}; {UNDECIDED}; try a larger T with --terms (up to 16,384) or another order with --order (without it the program looks for one)"),
    );
}

#[test]
fn out_of_room_at_the_desk_is_tried_without_it() {
    let mut told = told(&all_false(), "t", 512);
    if let Outcome::Judged { taken, .. } = &mut told.outcome {
        taken.rule = Rule::Desk;
    }
    let place = "more than 512 terms after step 9 of 9 (gate 11) in the desk's order (M down to I + 1), 271 terms before it";
    says(
        &told,
        "R 9 271",
        2,
        &format!("t (truncated): out of room, {place}; {UNDECIDED}; try without --desk: up to 16,384 terms are held then, and an order is looked for"),
    );
}

#[test]
fn out_of_room_at_the_largest_limit_leaves_another_order_to_try() {
    let answer = Answer::OutOfRoom {
        step: 1_001,
        terms: 16_000,
    };
    let mut told = made_up("u", 2, &records((1..=1_000).chain([0])), answer);
    if let Outcome::Judged { judgement, .. } = &mut told.outcome {
        judgement.log.truncate(1_000);
    }
    says(
        &told,
        "R 1001 16000",
        2,
        &format!("u (plain): out of room, more than 16,384 terms after step 1,001 of 1,001 (gate 1101) in the order of least growth with look-ahead, 16,000 terms before it; {UNDECIDED}; try another order with --order"),
    );
}

#[test]
fn unfinished_tells_the_gates_that_the_order_missed() {
    let advice = format!("{UNDECIDED}, and an order with each gate after all that read it decides it if there is room");
    let order = "left at the end that the order missed: the order of the file order.txt";
    // P6.
    says(
        &told_in_order(AND, "u", &[]),
        "U 0 2",
        2,
        &format!("u (plain): unfinished, 1 gate is {order} does not name 3; {advice}"),
    );
    // Of 10, 22, 28 and 24 the outputs show the gates 5, 11, 14 and 12. 5 goes for good; 9 and 10 come with 11.
    let told = told_in_order(TWO_BITS, "u", &[9, 5, 11]);
    assert!(line(&told).starts_with("U 3 "), "{}", line(&told));
    let expected = format!("u (plain): unfinished, 4 gates are {order} does not name 14, 12 and 10 and names 9 only before a gate that reads it; {advice}");
    assert_eq!(sentence(&told), format!("block.aag: {expected}"));
}

#[test]
fn unfinished_tells_the_first_few_gates_of_many() {
    let mut told = made_up("u", 2, &[], Answer::Unfinished { steps: 0, terms: 9 });
    if let Outcome::Judged { judgement, .. } = &mut told.outcome {
        // Inputs 1 and 2 and the number of all terms are no gates.
        for (variable, terms) in [(0, 9), (1, 4), (2, 4), (3, 1), (4, 0), (5, 2)] {
            judgement.occurrences[variable] = terms;
        }
        judgement.occurrences[10..20].fill(7);
    }
    let told = sentence(&told);
    let expected = "unfinished, 12 gates are left at the end that the order missed: the order of least growth with look-ahead \
                    does not name 19, 18, 17, 16, 15 and 7 more; the block may be right or wrong";
    assert!(told.contains(expected), "{told}");
}

#[test]
fn refusals_tell_the_number_the_meaning_and_the_line() {
    let rows = [
        (AND.replace("aag", "aig"), 1, "; see line 1 of the file"),
        (AND.replace('\n', "\r\n"), 1, "; see line 1 of the file"),
        (
            AND.replace(" 0 2 1", " 0 65 1"),
            2,
            "; see line 1 of the file",
        ),
        (
            AND.replace("\n4\n", "\n04\n"),
            4,
            "; the first wrong one is line 3 of the file, which has to be 4",
        ),
        (
            AND.replace("\n0\n", "\n8\n"),
            5,
            "; the first wrong one is line 5 of the file",
        ),
        (
            AND.replace("6 4 2", "6 2 4"),
            6,
            "; the first wrong one is line 6 of the file",
        ),
        (
            format!("{AND}c\n"),
            7,
            "; line 7 of the file is the first too many",
        ),
    ];
    for (text, number, place) in rows {
        let told = told(&text, "u", 128);
        let meaning = meaning(number);
        let expected = format!("u (plain): refused with {number}, {meaning}{place}");
        says(&told, &format!("X {number}"), 3, &expected);
    }
}

#[test]
fn refusals_of_judging_tell_what_is_asked() {
    let ends_with = |told: &Told, number: u32, end: &str| {
        assert_eq!(line(told), format!("X {number}"));
        let expected = format!("refused with {number}, {}{end}", meaning(number));
        assert!(sentence(told).ends_with(&expected), "{}", sentence(told));
    };
    let outputs = "; here I is 2, for which t wants O = 1, and O is 2";
    ends_with(&told(AND, "t", 128), 9, outputs);
    let inputs = "; here I is 2, which is no multiple of 4";
    ends_with(&told(AND, "ms", 128), 9, inputs);
    let outputs = "; here I is 4, for which m wants O = 2, and O is 4";
    ends_with(&told(TWO_BITS, "m", 128), 9, outputs);
    ends_with(&told(AND, "u", 127), 10, "; it is 127 here");
    ends_with(&told(AND, "u", 16_385), 10, "; it is 16,385 here");
    ends_with(&told_in_order(AND, "u", &[2]), 11, "");
}

#[test]
fn every_refusal_has_a_meaning_of_its_own() {
    let parts = [
        "header line",
        "a count outside",
        "table shorter",
        "input line wrong",
        "output line wrong",
        "gate line wrong",
        "bytes after the last gate line",
        "unsound",
        "O is not l",
        "T outside",
        "order too long",
        "too short",
        "M > 127",
    ];
    for (number, part) in (1..).zip(parts) {
        let those: Vec<u32> = (0..20)
            .filter(|&number| meaning(number).contains(part))
            .collect();
        assert_eq!(those, [number], "{part}");
    }
    assert_eq!(meaning(14), meaning(0));
}

#[test]
fn any_says_under_which_readings_the_block_is_right() {
    let any = |text: &str, limit: u64| -> String {
        let all = reading::ALL.map(|reading| told(text, reading.letters(), limit));
        any_sentence(&all)
    };
    let several = "the netlist does not tell which is meant, and none is picked";
    assert_eq!(
        any(AND, 128),
        format!("block.aag: the block is right under u and s; {several}")
    );
    assert_eq!(
        any(ADD, 128),
        format!("block.aag: the block is right under m and ms; {several}")
    );
    assert_eq!(any(TWO_BITS, 128), "block.aag: the block is right under u");
    let none = "block.aag: the block is shown right under no reading";
    assert_eq!(any(DESK, 128), none);
    assert_eq!(any("", 128), none);
    assert_eq!(
        any(&all_false(), 512),
        format!("{none}; not decided under t")
    );
    assert_eq!(any_sentence(&[]), "nothing was judged");
    let mixed = [
        told(AND, "u", 128),
        told_in_order(AND, "s", &[]),
        told(&without_gates(24), "u", 128),
    ];
    assert_eq!(
        any_sentence(&mixed),
        "block.aag: the block is right under u; not decided under s and u"
    );
}

#[test]
fn names_stay_on_one_line_and_move_no_cursor() {
    for name in ODD_NAMES {
        let mut told = told_in_order(AND, "u", &[]);
        told.name = name.to_string();
        if let Outcome::Judged { taken, .. } = &mut told.outcome {
            taken.rule = Rule::File(name.to_string());
        }
        let sentence = sentence(&told);
        assert!(!sentence.contains(|c: char| c.is_control() || c == '\u{202e}'));
    }
    let mut told = told(AND, "u", 128);
    told.name = "two\nlines".to_string();
    assert!(sentence(&told).starts_with("two\\u{a}lines: u (plain): "));
    told.name = "-".to_string();
    assert!(sentence(&told).starts_with("standard input: u (plain): "));
}

#[test]
fn log_has_a_line_for_each_step() {
    let header = "step\tgate\tterms\tmade\n";
    assert_eq!(log(&told(DESK, "u", 128)), format!("{header}1\t3\t3\t6\n"));
    let twice = log(&told_in_order(AND, "u", &[3, 3]));
    assert_eq!(twice, format!("{header}1\t3\t0\t2\n2\t3\t0\t0\n"));
    assert_eq!(log(&told_in_order(AND, "u", &[])), header);
    assert_eq!(log(&told(AND, "t", 128)), header);
    // Step 9 has no room. Step 1 replaces gate 19 beside 15 products by two terms.
    let log = log(&told(&all_false(), "t", 512));
    let lines: Vec<&str> = log.lines().collect();
    assert_eq!(lines.len(), 9);
    assert_eq!((lines[1], lines[8]), ("1\t19\t17\t17", "8\t12\t271\t271"));
}

#[test]
fn peaks_are_at_the_first_step_that_has_them() {
    let step = |gate, terms, made| Step { gate, terms, made };
    let log = [step(9, 4, 7), step(8, 5, 6), step(7, 5, 7), step(6, 0, 0)];
    let judged = |log: &[Step], answer: Answer| match made_up("u", 2, log, answer).outcome {
        Outcome::Judged { judgement, .. } => judgement,
        Outcome::Refused { .. } => unreachable!(),
    };
    let judgement = judged(&log, Answer::Equal { steps: 4, terms: 0 });
    assert_eq!(most_held(&judgement), Some(Point { step: 2, terms: 5 }));
    assert_eq!(most_made(&judgement), Some(Point { step: 1, terms: 7 }));
    // With no step completed the terms of the answer are those of the start.
    let start = judged(&[], Answer::OutOfRoom { step: 1, terms: 6 });
    assert_eq!(most_held(&start), Some(Point { step: 0, terms: 6 }));
    assert_eq!(most_made(&start), None);
    let nothing = judged(&[], Answer::OutOfRoom { step: 0, terms: 0 });
    assert_eq!(most_held(&nothing), None);
}
