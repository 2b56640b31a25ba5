//! Each number of refusal by a case that only it explains, and pairs of them for the order of checks.

mod common;

use common::DOCUMENT;
use second::cases::judgements::{and_netlist, JudgeCase};
use second::cases::texts::{edited, TextCase, AND_TEXT};
use second::cases::{marked_numbers, marked_steps, marked_words};
use second::netlists::Made;
use second::Answer::{Equal, Refused};
use second::{desk, evaluate, read, Counts, Records};

/// What reading says, after seeing that a refusal left the table alone.
fn refusal_of(text: &[u8], table_words: usize) -> u32 {
    let text = text.to_vec();
    let seen = TextCase { text, table_words }.seen(&DOCUMENT);
    if seen.answer.is_err() {
        assert_eq!(seen.table, marked_numbers(table_words));
    }
    seen.answer.err().unwrap_or(0)
}

/// The same for the AND text with a part replaced.
fn refusal_with(part: &str, put: &str) -> u32 {
    assert!(AND_TEXT.contains(part));
    refusal_of(&edited(part, put), 4)
}

#[test]
fn the_and_text_is_taken() {
    let mut table = [99; 5];
    let counts = Counts {
        m: 3,
        i: 2,
        l: 0,
        o: 2,
        a: 1,
    };
    assert_eq!(read(AND_TEXT.as_bytes(), &mut table), Ok(counts));
    assert_eq!(table, [6, 0, 4, 2, 99]);
}

#[test]
fn refusal_1_header() {
    assert_eq!(refusal_of(b"", 4), 1);
    assert_eq!(refusal_of(b"\n", 4), 1);
    assert_eq!(refusal_of(b"aag 3 2 0 2 1", 4), 1);
    for header in [
        "aig 3 2 0 2 1",
        "AAG 3 2 0 2 1",
        "aag3 2 0 2 1",
        " aag 3 2 0 2 1",
        "aag  3 2 0 2 1",
        "aag 3 2 0 2 1 ",
        "aag 3 2 0 2",
        "aag 3 2 0 2 1 0",
        "aag 03 2 0 2 1",
        "aag 3 2 00 2 1",
        "aag 00003 2 0 2 1",
        "aag 10000 2 0 2 1",
        "aag 3 2 0 2 x",
        "aag 3 2 0 -2 1",
        "aag 3 2 0 +2 1",
        "aag 3\t2 0 2 1",
        "aag 3 2 0 2 1\r",
        "",
    ] {
        assert_eq!(refusal_with("aag 3 2 0 2 1", header), 1, "{header}");
    }
}

#[test]
fn refusal_2_counts() {
    for header in [
        "aag 3 2 1 2 1",
        "aag 4 2 0 2 1",
        "aag 2 2 0 2 1",
        "aag 1 0 0 2 1",
        "aag 4 3 0 2 1",
        "aag 67 66 0 2 1",
        "aag 3 2 0 0 1",
        "aag 3 2 0 65 1",
        "aag 1024 2 0 2 1022",
        "aag 9999 2 0 2 9997",
    ] {
        assert_eq!(refusal_with("aag 3 2 0 2 1", header), 2, "{header}");
    }
}

#[test]
fn refusal_3_table_short() {
    for table_words in 0..4 {
        assert_eq!(refusal_of(AND_TEXT.as_bytes(), table_words), 3);
    }
    assert_eq!(refusal_of(AND_TEXT.as_bytes(), 4), 0);
}

#[test]
fn refusal_4_input_line() {
    for lines in [
        "\n4\n2\n",
        "\n3\n4\n",
        "\n2\n5\n",
        "\n02\n4\n",
        "\n2 \n4\n",
        "\n\n4\n",
        "\n2\r\n4\n",
        "\n00002\n4\n",
        "\n0\n4\n",
        "\n2\n6\n",
    ] {
        assert_eq!(refusal_with("\n2\n4\n", lines), 4, "{lines}");
    }
    // A missing line counts as a wrong line of its kind.
    assert_eq!(refusal_of(b"aag 3 2 0 2 1\n", 4), 4);
    assert_eq!(refusal_of(b"aag 3 2 0 2 1\n2\n", 4), 4);
    assert_eq!(refusal_of(b"aag 3 2 0 2 1\n2\n4", 4), 4);
}

#[test]
fn refusal_5_output_line() {
    for lines in [
        "\n8\n0\n",
        "\n06\n0\n",
        "\n6\n00\n",
        "\n6 \n0\n",
        "\n6\n\n",
        "\n6\nx\n",
        "\n6\n10000\n",
        "\n6\n-1\n",
        "\n6\n9999\n",
        "\n6 4\n0\n",
    ] {
        assert_eq!(refusal_with("\n6\n0\n", lines), 5, "{lines}");
    }
    assert_eq!(refusal_with("\n6\n0\n", "\n7\n1\n"), 0);
    assert_eq!(refusal_of(b"aag 3 2 0 2 1\n2\n4\n", 4), 5);
    assert_eq!(refusal_of(b"aag 3 2 0 2 1\n2\n4\n6\n", 4), 5);
    assert_eq!(refusal_of(b"aag 3 2 0 2 1\n2\n4\n6\n0", 4), 5);
}

#[test]
fn refusal_6_gate_line() {
    for line in [
        "8 4 2\n",
        "7 4 2\n",
        "4 4 2\n",
        "6 2 4\n",
        "6 4 5\n",
        "6 6 2\n",
        "6 7 2\n",
        "6 8 2\n",
        "6 4\n",
        "6 4 2 0\n",
        "6  4 2\n",
        "6 4 2 \n",
        " 6 4 2\n",
        "06 4 2\n",
        "6 4 02\n",
        "6 4 2\r\n",
        "6 4 2",
        "\n",
        "",
    ] {
        assert_eq!(refusal_with("6 4 2\n", line), 6, "{line}");
    }
    for line in ["6 4 4\n", "6 5 5\n", "6 5 4\n", "6 0 0\n", "6 1 0\n"] {
        assert_eq!(refusal_with("6 4 2\n", line), 0, "{line}");
    }
}

#[test]
fn refusal_7_bytes_after() {
    for end in ["\n", " ", "c\n", "8 4 2\n", "\0"] {
        assert_eq!(refusal_with("6 4 2\n", &format!("6 4 2\n{end}")), 7);
    }
    // A text with no gates ends after its outputs.
    assert_eq!(refusal_of(b"aag 2 2 0 1 0\n2\n4\n5\n", 1), 0);
    assert_eq!(refusal_of(b"aag 2 2 0 1 0\n2\n4\n5\n6 4 2\n", 1), 7);
}

#[test]
fn reading_meets_its_refusals_in_text_order() {
    // From the back to the front, each thing wrong hides all that follow it.
    let mut text = AND_TEXT.replace("6 4 2\n", "6 4 2\nx");
    assert_eq!(refusal_of(text.as_bytes(), 4), 7);
    text = text.replace("6 4 2", "6 2 4");
    assert_eq!(refusal_of(text.as_bytes(), 4), 6);
    text = text.replace("\n6\n0\n", "\n6\n8\n");
    assert_eq!(refusal_of(text.as_bytes(), 4), 5);
    text = text.replace("\n2\n4\n", "\n2\n5\n");
    assert_eq!(refusal_of(text.as_bytes(), 4), 4);
    assert_eq!(refusal_of(text.as_bytes(), 3), 3);
    text = text.replace("aag 3 2 0 2 1", "aag 3 2 1 2 1");
    assert_eq!(refusal_of(text.as_bytes(), 3), 2);
    text = text.replace("aag 3 2 1 2 1", "aag 3 2 1 2 01");
    assert_eq!(refusal_of(text.as_bytes(), 3), 1);
}

#[test]
fn the_evaluator_checks_2_3_and_8() {
    let right = and_netlist(&[6, 0]);
    let at = |counts, table: &[u32]| evaluate(counts, table, Records::Gates, 1, 1);
    assert_eq!(at(right.counts, &right.table), Ok(1));
    assert_eq!(at(right.counts, &[6, 0, 4, 2, 99]), Ok(1));
    assert_eq!(at(right.counts, &[6, 0, 4]), Err(3));
    assert_eq!(at(right.counts, &[8, 0, 4]), Err(3));
    for table in [
        [8, 0, 4, 2],
        [6, u32::MAX, 4, 2],
        [6, 0, 2, 4],
        [6, 0, 6, 2],
        [6, 0, u32::MAX, 2],
    ] {
        assert_eq!(at(right.counts, &table), Err(8));
    }
    let latched = Counts {
        l: 1,
        ..right.counts
    };
    assert_eq!(at(latched, &right.table), Err(2));
    assert_eq!(at(latched, &[]), Err(2));
}

/// The answer, after seeing that a refusal left all words alone.
fn judged(case: &JudgeCase) -> u32 {
    let seen = case.seen(&DOCUMENT);
    match seen.answer {
        Refused(number) => {
            assert_eq!(seen.store, marked_words(case.store_words));
            assert_eq!(seen.scratch, marked_words(case.scratch_words));
            assert_eq!(seen.log, marked_steps(case.log_records));
            assert_eq!(seen.occurrences, marked_numbers(case.occurrence_words));
            number
        }
        answer => {
            assert_eq!(answer, Equal { steps: 1, terms: 0 });
            0
        }
    }
}

/// One thing wrong, after its number.
type WrongThing = (u32, fn(&mut JudgeCase));

/// Things wrong in the order of checks.
fn wrong_things() -> Vec<WrongThing> {
    vec![
        (2, |case| case.counts.l = 1),
        (2, |case| case.counts.m = 1_024),
        (3, |case| case.table.truncate(3)),
        (8, |case| case.table[1] = 8),
        (8, |case| case.table[2] = 1),
        (9, |case| case.kind = 2),
        (9, |case| case.kind = 3),
        (9, |case| case.kind = 4),
        (9, |case| case.kind = 5),
        (9, |case| case.kind = 256),
        (10, |case| case.limit = 127),
        (10, |case| case.limit = 16_385),
        (11, |case| case.order = vec![2]),
        (11, |case| case.order = vec![4]),
        (11, |case| case.order = vec![3; 4_097]),
        (12, |case| case.store_words = 255),
        (12, |case| case.scratch_words = 1_023),
        (12, |case| case.log_records = 0),
        (12, |case| case.occurrence_words = 3),
        (12, |case| case.occurrence_words = 0),
    ]
}

#[test]
fn judging_refuses_by_2_3_and_8_to_12_in_order() {
    let right = JudgeCase::new(&and_netlist(&[6, 0]), 0, 128, vec![3]);
    assert_eq!(judged(&right), 0);
    let things = wrong_things();
    for (first, one) in &things {
        for (second, other) in &things {
            let mut case = right.clone();
            other(&mut case);
            // A table cut short has no word left to spoil.
            if *first > 3 && case.table.len() < 4 {
                continue;
            }
            one(&mut case);
            assert_eq!(judged(&case), *first.min(second), "{case:?}");
        }
    }
}

#[test]
fn an_order_names_gates_only() {
    for variable in [0, 1, 2, 4, 6, 7, 1_024, u32::MAX] {
        let case = JudgeCase::new(&and_netlist(&[6, 0]), 0, 128, vec![3, variable]);
        assert_eq!(judged(&case), 11, "{variable}");
    }
    let no_gates = Made::new(2, &[2], &[]);
    let case = JudgeCase::new(&no_gates, 2, 128, vec![3]);
    assert_eq!(judged(&case), 11);
}

#[test]
fn refusal_13_at_the_desk() {
    let filled = |length: usize, kind: &str| {
        let mut input = format!("{kind}{AND_TEXT}").into_bytes();
        input.resize(length, b' ');
        String::from_utf8(desk(&input)).unwrap()
    };
    assert_eq!(filled(4_096, "u\n"), "X 7\n");
    assert_eq!(filled(4_097, "u\n"), "X 13\n");
    assert_eq!(filled(4_096, "x\n"), "X 9\n");
    assert_eq!(filled(4_097, "x\n"), "X 13\n");
    let with_gates = |gates: usize, outputs: &[u32]| {
        let text = Made::new(2, outputs, &vec![(4, 2); gates]).text();
        [b"u\n".to_vec(), text].concat()
    };
    assert_eq!(desk(&with_gates(125, &[6, 0])), b"E 125 0\n");
    assert_eq!(desk(&with_gates(126, &[6, 0])), b"X 13\n");
    assert_eq!(desk(&with_gates(125, &[6])), b"X 9\n");
    assert_eq!(desk(&with_gates(126, &[6])), b"X 13\n");
    let mut with_more = with_gates(126, &[6]);
    with_more.push(b'\n');
    assert_eq!(desk(&with_more), b"X 7\n");
}

#[test]
fn kind_lines_at_the_desk() {
    for kind in [
        "", "u", "m", "ms", "\n", "x\n", "U\n", "uu\n", "u \n", " u\n", "u\r\n", "0\n", "M\n",
        "mx\n", "sm\n", "m \n", "ms \n", " m\n", "m s\n", "mss\n", "m\r\n", "3\n",
    ] {
        assert_eq!(desk(kind.as_bytes()), b"X 9\n", "{kind}");
        let input = format!("{kind}{AND_TEXT}");
        assert_eq!(desk(input.as_bytes()), b"X 9\n", "{kind}");
    }
    for (kind, line) in [
        ("u", "E 1 0\n"),
        ("s", "E 1 0\n"),
        ("t", "X 9\n"),
        ("m", "X 9\n"),
        ("ms", "X 9\n"),
    ] {
        let input = format!("{kind}\n{AND_TEXT}");
        assert_eq!(desk(input.as_bytes()), line.as_bytes());
        assert_eq!(desk(format!("{kind}\n").as_bytes()), b"X 1\n");
    }
}
