//! All operands against the polynomial, on seeded random netlists under all kinds and orders.

mod common;

use common::{wrong_operands, DOCUMENT};
use second::brute::WrongOperands;
use second::cases::judgements::{random_netlist, random_order};
use second::netlists::{multiplier, right_multiplier, Made};
use second::orders::{falling, honest, is_honest};
use second::random::Random;
use second::reading::{Operands, Reading};
use second::{wanted, Answer, Records};

/// The least wrong operands, found by trying all.
fn least_wrong_operands(made: &Made, kind: u32) -> Result<Option<WrongOperands>, u32> {
    second::brute::least_wrong_operands(made.counts, &made.table, made.records, kind)
}

/// How often each answer was met.
#[derive(Default, Debug)]
struct Met {
    equal: u32,
    differs: u32,
    out_of_room: u32,
    unfinished: u32,
}

/// Compares an answer with the least wrong operands found by trying all.
fn agree(answer: &Answer, brute: Option<WrongOperands>, order_is_honest: bool, met: &mut Met) {
    match *answer {
        Answer::Equal { .. } => {
            assert_eq!(brute, None);
            met.equal += 1;
        }
        Answer::Differs { .. } => {
            assert_eq!(brute, wrong_operands(answer));
            met.differs += 1;
        }
        Answer::Unfinished { .. } => {
            assert!(!order_is_honest);
            met.unfinished += 1;
        }
        Answer::OutOfRoom { .. } => met.out_of_room += 1,
        Answer::Refused(number) => panic!("refused {number}"),
    }
}

#[test]
fn trying_all_pairs_agrees_with_the_polynomial() {
    for reading in Reading::ALL {
        agrees_under(Records::Gates, reading);
    }
}

#[test]
fn trying_all_pairs_agrees_with_the_polynomial_of_cells() {
    for reading in Reading::ALL {
        agrees_under(Records::Cells, reading);
    }
}

/// Each answer is met often, and agrees with what trying all operands finds.
fn agrees_under(records: Records, reading: Reading) {
    let mut met = Met::default();
    for seed in 0..1_000 {
        try_all_and_judge(seed, records, reading, &mut met);
    }
    let least = 100;
    assert!(met.equal > least && met.differs > least, "{met:?}");
    assert!(met.unfinished > least, "{met:?}");
    // Truncated to four bits, a polynomial has few terms.
    let has_many_terms = reading != Reading::Truncated;
    assert!(met.out_of_room > least / 2 || !has_many_terms, "{met:?}");
}

/// One random netlist in three orders.
fn try_all_and_judge(seed: u64, records: Records, reading: Reading, met: &mut Met) {
    let mut random = Random::new(seed);
    let made = random_netlist(&mut random, records, reading);
    let kind = reading.kind();
    let brute = least_wrong_operands(&made, kind).unwrap();
    for _ in 0..3 {
        let order = random_order(&mut random, &made);
        let limit = random.pick(&[128, 200, 1_000]);
        let answer = answer_of(&made, kind, limit, &order);
        let order_is_honest = is_honest(&made.netlist(), &order);
        agree(&answer, brute, order_is_honest, met);
    }
}

#[test]
fn every_polynomial_held_is_got_minus_wanted_at_every_pair() {
    for seed in 0..2_500 {
        let mut random = Random::new(seed);
        let reading = Reading::ALL[seed as usize % Reading::ALL.len()];
        let records = Records::ALL[seed as usize % 2];
        let made = random_netlist(&mut random, records, reading);
        if made.counts.i > if reading.adds() { 8 } else { 6 } {
            continue;
        }
        let order = random_order(&mut random, &made);
        let kind = reading.kind();
        let run = made.question(kind, 128, &order).unwrap().run(&DOCUMENT);
        let Some(held) = run.held else { continue };
        let n = made.counts.i / reading.inputs(1);
        let bits = second::reading::low_bits(reading.outputs(n));
        for inputs in 0..1u64 << made.counts.i {
            let (a, b) = (inputs % (1 << n), (inputs >> n) % (1 << n));
            let c = inputs >> (2 * n);
            let got = made.word_for(reading, Operands { a, b, c }).unwrap();
            let error = got.wrapping_sub(wanted(kind, n, a, b, c)) & bits;
            let values = made.netlist().values_at(&DOCUMENT, inputs.into());
            assert_eq!(held.value(&values), error, "seed {seed}");
        }
    }
}

#[test]
fn made_multipliers_are_right_under_their_own_reading() {
    for seed in 0..10 {
        let records = Records::ALL[seed as usize % 2];
        for reading in Reading::ALL {
            // Trying all operands of sixteen inputs takes long; `sums_of_four_bits_are_decided_both_ways` does it.
            for n in 1..=if reading.adds() { 3 } else { 4 } {
                let made = right_multiplier(&mut Random::new(seed), records, reading, n);
                let kind = reading.kind();
                assert_eq!(least_wrong_operands(&made, kind), Ok(None));
                let answer = answer_of(&made, kind, 16_384, &falling(made.counts));
                assert!(matches!(answer, Answer::Equal { .. }), "{answer:?}");
            }
        }
    }
}

fn answer_of(made: &Made, kind: u32, limit: u64, order: &[u32]) -> Answer {
    let question = made.question(kind, limit, order);
    question.unwrap().run(&DOCUMENT).answer
}

#[test]
fn a_plain_multiplier_of_eight_bits_is_decided_both_ways() {
    let mut random = Random::new(8);
    for reading in [Reading::Plain, Reading::Truncated] {
        let made = multiplier(&mut random, reading, 8);
        let kind = reading.kind();
        assert_eq!(least_wrong_operands(&made, kind), Ok(None));
        let answer = answer_of(&made, kind, 16_384, &falling(made.counts));
        assert!(matches!(answer, Answer::Equal { .. }), "{answer:?}");
    }
    let plain = multiplier(&mut random, Reading::Plain, 8);
    let signed = Reading::Signed.kind();
    let brute = least_wrong_operands(&plain, signed).unwrap();
    let answer = answer_of(&plain, signed, 16_384, &falling(plain.counts));
    agree(&answer, brute, true, &mut Met::default());
    // The least wrong pair is the top bit of a with the lowest of b.
    assert!(matches!(answer, Answer::Differs { a: 128, b: 1, .. }));
}

#[test]
fn sums_of_four_bits_are_decided_both_ways() {
    let mut random = Random::new(9);
    let mut decided = |records, reading: Reading, asked: Reading| {
        let made = right_multiplier(&mut random, records, reading, 4);
        let brute = least_wrong_operands(&made, asked.kind()).unwrap();
        let answer = answer_of(&made, asked.kind(), 16_384, &falling(made.counts));
        agree(&answer, brute, true, &mut Met::default());
        answer
    };
    for records in Records::ALL {
        for reading in [Reading::Adding, Reading::SignedAdding] {
            let answer = decided(records, reading, reading);
            assert!(matches!(answer, Answer::Equal { .. }), "{answer:?}");
        }
        // As for products, the least wrong operands are the top bit of a with the lowest of b; c does not matter.
        let answer = decided(records, Reading::Adding, Reading::SignedAdding);
        // 8·1 is got, and -8·1 is wanted modulo 256.
        let wrong = WrongOperands {
            a: 8,
            b: 1,
            c: 0,
            got: 8,
            wanted: 248,
        };
        assert_eq!(wrong_operands(&answer), Some(wrong));
    }
}

#[test]
fn honest_orders_are_honest_and_others_are_not() {
    for seed in 0..300 {
        let mut random = Random::new(seed);
        let records = Records::ALL[seed as usize % 2];
        let made = random_netlist(&mut random, records, Reading::Plain);
        let netlist = made.netlist();
        let order = honest(&mut random, &netlist);
        assert!(is_honest(&netlist, &order));
        assert!(is_honest(&netlist, &falling(made.counts)));
        if let Some((_, rest)) = order.split_first() {
            assert!(!is_honest(&netlist, rest));
            assert!(!is_honest(&netlist, &[&order[..], &order[..1]].concat()));
        }
    }
}
