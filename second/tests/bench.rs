//! The bench sheet P1 to P11. All expected values are those of documents 01 and 02 or worked out by hand from them.

mod common;

use common::{answered, holds, judged, records};
use second::cases::judgements::{and_netlist, two_bits};
use second::netlists::Made;
use second::Answer::{self, Differs, Equal, Refused, Unfinished};
use second::{desk, read};

const U: u32 = 0;
const S: u32 = 1;
const T: u32 = 2;
const TEN_DOWN_TO_FIVE: [u32; 10] = [14, 13, 12, 11, 10, 9, 8, 7, 6, 5];

/// A sheet's row: netlist, kind, order, answer, words of the last polynomial, terms in the log, terms before gathering.
type Row = (
    &'static str,
    Made,
    u32,
    &'static [u32],
    Answer,
    &'static [u64],
    &'static [u32],
    &'static [u32],
);

fn differs(terms: u32, a: u64, b: u64, got: u64, wanted: u64) -> Answer {
    Differs {
        steps: 1,
        terms,
        a,
        b,
        c: 0,
        got,
        wanted,
    }
}

#[rustfmt::skip]
fn rows() -> Vec<Row> {
    let one = Equal { steps: 1, terms: 0 };
    let none = Unfinished { steps: 0, terms: 2 };
    let two = Equal { steps: 2, terms: 0 };
    let and = |outputs: &[u32]| and_netlist(outputs);
    let inverted = Made::new(2, &[7, 0], &[(5, 3)]);
    vec![
        // x3 - ab: ab stays, and x3 makes one.
        ("P1", and(&[6, 0]), U, &[3], one, &[], &[0], &[2]),
        ("P2", and(&[6, 0]), S, &[3], one, &[], &[0], &[2]),
        // 3 x3 - ab.
        ("P3", and(&[6, 6]), U, &[3], differs(1, 1, 1, 3, 1), &[2, 6], &[1], &[2]),
        ("P4", and(&[6, 6]), S, &[3], differs(1, 1, 1, 3, 1), &[2, 6], &[1], &[2]),
        // 1 - x3 - ab.
        ("P5", and(&[7, 0]), U, &[3], differs(2, 0, 0, 1, 0), &[2, 6, 1, 0], &[2], &[3]),
        ("P6", and(&[6, 0]), U, &[], none, &[1, 8, 3, 6], &[], &[]),
        // After the first step there is no term.
        ("P7", and(&[6, 0]), U, &[3, 3], two, &[], &[0, 0], &[2, 0]),
        ("P8", and(&[6]), T, &[3], one, &[], &[0], &[2]),
        // 1 - x3 - ab, where x3 is (1 - a)(1 - b) and makes four.
        ("P9", inverted, U, &[3], differs(3, 1, 0, 1, 0), &[2, 6, 1, 4, 1, 2], &[3], &[6]),
    ]
}

#[test]
fn p1_to_p9_give_their_answers_words_and_logs() {
    for (name, made, kind, order, answer, words, terms, peaks) in rows() {
        let seen = judged(&made, kind, 128, order);
        assert_eq!(seen.answer, answer, "{name}");
        assert_eq!(seen.store.len(), 256, "{name}");
        assert!(holds(&seen.store, words), "{name}");
        assert_eq!(seen.scratch, vec![0; 1_024], "{name}");
        assert_eq!(seen.log, records(order, terms, peaks), "{name}");
    }
}

#[test]
fn p10_two_bits_are_equal() {
    let seen = judged(&two_bits(), U, 128, &TEN_DOWN_TO_FIVE);
    assert_eq!(
        seen.answer,
        Equal {
            steps: 10,
            terms: 0
        }
    );
    assert!(holds(&seen.store, &[]));
    // Gates 14, 13, 11 and 10 read two inverted literals and make four, the others make one. They are in 1, 2, 4, 1, 2,
    // 4, 1, 1, 1 and 1 of the terms before their steps, of which there are 8, 10, 13, 8, 10, 13, 8, 6, 4 and 2.
    let terms = [10, 13, 8, 10, 13, 8, 6, 4, 2, 0];
    let peaks = [11, 16, 13, 11, 16, 13, 8, 6, 4, 2];
    assert_eq!(seen.log, records(&TEN_DOWN_TO_FIVE, &terms, &peaks));
}

#[test]
fn p10_starts_with_8_terms() {
    let seen = judged(&two_bits(), U, 128, &[]);
    assert_eq!(seen.answer, Unfinished { steps: 0, terms: 8 });
    // 4 x14 + 8 x12 + 2 x11 + x5 - 4 a1 b1 - 2 a0 b1 - 2 a1 b0 - a0 b0, modulo 16.
    let words = [
        4, 16_384, 8, 4_096, 2, 2_048, 1, 32, 12, 20, 14, 18, 14, 12, 15, 10,
    ];
    assert!(holds(&seen.store, &words));
}

#[test]
fn p11_two_bits_differ_when_signed() {
    let seen = judged(&two_bits(), S, 128, &TEN_DOWN_TO_FIVE);
    let wanted = Differs {
        steps: 10,
        terms: 2,
        a: 2,
        b: 1,
        c: 0,
        got: 2,
        wanted: 14,
    };
    assert_eq!(seen.answer, wanted);
    // 4 a0 b1 + 4 a1 b0.
    assert!(holds(&seen.store, &[4, 18, 4, 12]));
    // As P10 until a1 b0 and a0 b1 no longer cancel at the steps of 7 and 6, but join.
    let terms = [10, 13, 8, 10, 13, 8, 6, 5, 4, 2];
    let peaks = [11, 16, 13, 11, 16, 13, 8, 6, 5, 4];
    assert_eq!(seen.log, records(&TEN_DOWN_TO_FIVE, &terms, &peaks));
}

#[test]
fn p10_text_is_read_into_its_table() {
    let text = "aag 14 4 0 4 10\n2\n4\n6\n8\n10\n22\n28\n24\n10 6 2\n12 8 2\n14 6 4\n16 8 4\n\
                18 14 12\n20 15 13\n22 21 19\n24 18 16\n26 19 17\n28 27 25\n";
    let mut table = [77; 26];
    let counts = read(text.as_bytes(), &mut table).unwrap();
    assert_eq!(counts, two_bits().counts);
    assert_eq!(table[..24], two_bits().table);
    assert_eq!(table[24..], [77, 77]);
    assert_eq!(two_bits().text(), text.as_bytes());
}

#[test]
fn p1_under_t_is_refused_9() {
    assert_eq!(answered(&and_netlist(&[6, 0]), T, 128, &[3]), Refused(9));
}

#[test]
fn p9_is_the_desk_example() {
    let input = b"u\naag 3 2 0 2 1\n2\n4\n7\n0\n6 5 3\n";
    assert_eq!(desk(input), b"D 1 3 1 0 1 0\n");
}

#[test]
fn the_bench_sheet_at_the_desk() {
    let and = |kind: &str, outputs: &str| {
        let count = outputs.lines().count();
        let text = format!("{kind}\naag 3 2 0 {count} 1\n2\n4\n{outputs}6 4 2\n");
        String::from_utf8(desk(text.as_bytes())).unwrap()
    };
    assert_eq!(and("u", "6\n0\n"), "E 1 0\n");
    assert_eq!(and("s", "6\n0\n"), "E 1 0\n");
    assert_eq!(and("u", "6\n6\n"), "D 1 1 1 1 3 1\n");
    assert_eq!(and("s", "6\n6\n"), "D 1 1 1 1 3 1\n");
    assert_eq!(and("u", "7\n0\n"), "D 1 2 0 0 1 0\n");
    assert_eq!(and("t", "6\n"), "E 1 0\n");
    assert_eq!(and("t", "6\n0\n"), "X 9\n");
    let two = String::from_utf8(two_bits().text()).unwrap();
    assert_eq!(desk(format!("u\n{two}").as_bytes()), b"E 10 0\n");
    assert_eq!(desk(format!("s\n{two}").as_bytes()), b"D 10 2 2 1 2 14\n");
}
