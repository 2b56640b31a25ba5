//! The real blocks of up to six bits, where c is added up to four. All of them are right under their own reading.

mod common;

use common::wrong_operands;
use second::blocks::{all, is_believable, most_terms, orders_for, run, thrifty_order, Block};
use second::brute::{least_wrong_operands, WrongOperands};
use second::orders::is_honest;
use second::reading::{Operands, Reading};
use second::{wanted, Answer};

fn small_blocks() -> Vec<Block> {
    let is_small = |block: &Block| block.n <= if block.reading.adds() { 4 } else { 6 };
    all().into_iter().filter(is_small).collect()
}

/// Found by trying all operands.
fn least_wrong(block: &Block) -> Result<Option<WrongOperands>, u32> {
    let made = &block.made;
    least_wrong_operands(made.counts, &made.table, made.records, block.reading.kind())
}

fn answer(block: &Block, limit: u64, order: &[u32]) -> Answer {
    run(block, limit, order).unwrap().answer
}

#[test]
fn names_tell_the_operand_bits_and_the_outputs() {
    let blocks = all();
    assert_eq!(blocks.len(), 33 + 8 + 5 + 4);
    assert_eq!(blocks.iter().filter(|b| b.reading.adds()).count(), 5 + 4);
    for block in blocks {
        let (n, counts) = (block.n, block.made.counts);
        assert_eq!(block.reading.inputs(n), counts.i, "{}", block.name);
        assert_eq!(block.reading.outputs(n), counts.o);
    }
}

#[test]
fn small_blocks_are_right_at_all_pairs() {
    for block in small_blocks() {
        let brute = least_wrong(&block);
        assert_eq!(brute, Ok(None), "{}", block.name);
    }
}

#[test]
fn small_blocks_never_differ_in_any_order_and_are_finished_in_honest_ones() {
    for block in small_blocks() {
        for order in orders_for(&block, 10) {
            let honest = is_honest(&block.made.netlist(), &order.steps);
            assert!(honest || !order.is_honest);
            let answer = answer(&block, 1_024, &order.steps);
            assert!(is_believable(&answer, honest), "{} {answer:?}", block.name);
        }
    }
}

#[test]
fn small_blocks_are_equal_where_there_is_room() {
    for block in small_blocks() {
        for order in orders_for(&block, 3).iter().filter(|o| o.is_honest) {
            let roomy = run(&block, 16_384, &order.steps).unwrap();
            let first_over = roomy.log.iter().position(|step| step.terms > 1_024);
            let steps = order.steps.len() as u32;
            let expected = match (first_over, roomy.answer) {
                (None, Answer::OutOfRoom { step, .. }) => step,
                (None, _) => 0,
                (Some(place), _) => place as u32 + 1,
            };
            match answer(&block, 1_024, &order.steps) {
                Answer::Equal { steps: done, .. } => assert_eq!((expected, done), (0, steps)),
                Answer::OutOfRoom { step, .. } => assert_eq!(step, expected),
                other => panic!("{} {other:?}", block.name),
            }
        }
    }
}

#[test]
fn small_blocks_are_equal_in_the_falling_order_with_all_the_room() {
    for block in small_blocks() {
        let order = second::orders::falling(block.made.counts);
        let steps = order.len() as u32;
        let equal = Answer::Equal { steps, terms: 0 };
        assert_eq!(answer(&block, 16_384, &order), equal, "{}", block.name);
    }
}

#[test]
fn blocks_need_the_terms_that_their_readme_tells() {
    for block in all() {
        let order = second::orders::falling(block.made.counts);
        let falling = run(&block, 16_384, &order).unwrap();
        match block.name.as_str() {
            "abc-blast-u8" => assert_eq!(most_terms(&falling), 87),
            "abc-booth-u8" => assert_eq!(most_terms(&falling), 381),
            "yosys-lut3-u6" => assert_eq!(most_terms(&falling), 5_359),
            "yosys-lut3-s5" => assert_eq!(most_terms(&falling), 135),
            "yosys-lut3-t8" => assert_eq!(most_terms(&falling), 95),
            "yosys-synth-m2" => assert_eq!(most_terms(&falling), 25),
            "yosys-synth-m4" => assert_eq!(most_terms(&falling), 51),
            "yosys-synth-ms2" => assert_eq!(most_terms(&falling), 35),
            "yosys-techmap-m3" => assert_eq!(most_terms(&falling), 189),
            "yosys-techmap-ms3" => assert_eq!(most_terms(&falling), 427),
            "yosys-lut3-s8" => assert!(matches!(falling.answer, Answer::OutOfRoom { .. })),
            "yosys-techmap-u8" | "yosys-techmap-s8" => {
                assert!(matches!(falling.answer, Answer::OutOfRoom { .. }));
                let better = thrifty_order(&block, 16_384).steps;
                assert!(is_honest(&block.made.netlist(), &better));
                let run = run(&block, 16_384, &better).unwrap();
                assert!(matches!(run.answer, Answer::Equal { .. }));
                assert!(most_terms(&run) < 200);
            }
            _ => {}
        }
    }
}

/// A block under another reading is called different in the falling order, with the operands found by trying all.
fn differs_under(block: Block, reading: Reading, limit: u64) {
    let order = second::orders::falling(block.made.counts);
    let other = Block { reading, ..block };
    let answer = answer(&other, limit, &order);
    assert!(
        matches!(answer, Answer::Differs { .. }),
        "{} {answer:?}",
        other.name
    );
    assert_eq!(Ok(wrong_operands(&answer)), least_wrong(&other));
}

#[test]
fn plain_blocks_differ_when_read_as_signed() {
    for block in small_blocks() {
        // The others have no room for it in this order.
        let has_room = block.name.starts_with("abc") || block.name == "yosys-lut3-u4";
        if block.reading == Reading::Plain && has_room {
            differs_under(block, Reading::Signed, 1_024);
        }
    }
}

#[test]
fn blocks_that_add_are_equal_in_the_falling_order_and_the_widest_differs_when_plain() {
    for block in all().into_iter().filter(|block| block.reading.adds()) {
        let order = second::orders::falling(block.made.counts);
        let steps = order.len() as u32;
        let equal = Answer::Equal { steps, terms: 0 };
        assert_eq!(answer(&block, 16_384, &order), equal, "{}", block.name);
        if block.name == "yosys-lut3-ms6" {
            // -32·1 is 4,064 modulo 4,096; the top bit of a with the lowest of b is the least that has a sign.
            let wrong = WrongOperands {
                a: 32,
                b: 1,
                c: 0,
                got: 4_064,
                wanted: 32,
            };
            let reading = Reading::Adding;
            let plain = answer(&Block { reading, ..block }, 16_384, &order);
            assert_eq!(wrong_operands(&plain), Some(wrong));
        }
    }
}

#[test]
fn blocks_that_add_differ_under_each_other_reading_that_takes_them() {
    let blocks = small_blocks().into_iter().filter(|b| b.reading.adds());
    for block in blocks {
        // u and s want as many outputs as inputs; t wants half as many, as m and ms do.
        for reading in [Reading::Plain, Reading::Signed] {
            let other = Block {
                reading,
                ..block.clone()
            };
            assert_eq!(run(&other, 128, &[]).err(), Some(9), "{}", block.name);
        }
        let others = [Reading::Truncated, Reading::Adding, Reading::SignedAdding];
        for reading in others.into_iter().filter(|&r| r != block.reading) {
            differs_under(block.clone(), reading, 16_384);
        }
    }
}

#[test]
fn blocks_that_only_multiply_differ_under_the_readings_that_add() {
    for block in small_blocks() {
        let by_fours = block.made.counts.i.is_multiple_of(4);
        for reading in [Reading::Adding, Reading::SignedAdding] {
            let other = Block {
                reading,
                ..block.clone()
            };
            match block.reading {
                Reading::Truncated if by_fours => differs_under(block.clone(), reading, 16_384),
                _ if block.reading.adds() => {}
                _ => assert_eq!(run(&other, 128, &[]).err(), Some(9), "{}", block.name),
            }
        }
    }
}

#[test]
fn larger_blocks_show_the_wanted_word_at_random_pairs() {
    let mut random = second::random::Random::new(3);
    for block in all() {
        for _ in 0..200 {
            let (a, b, c) = (random.word(), random.word(), random.word());
            let operands = Operands { a, b, c };
            let got = block.made.word_for(block.reading, operands);
            let kind = block.reading.kind();
            assert_eq!(got, Ok(wanted(kind, block.n, a, b, c)), "{}", block.name);
        }
    }
}
