//! The evaluator: the library against the second program.

use compare::mirror::{number_of, Mirror};
use compare::outcome::{first_difference, numbers_given, Guarded, Outcome};
use compare::types::counts_for_library;
use hraskell::{raw, Counts};
use second::blocks::{self, Block};
use second::cases::pairs::{self, PairCase};
use second::random::Random;
use second::reading::{low_bits, Operands};
use second::{wanted, Records};
use std::sync::LazyLock;

type Generator = fn(&mut Random, Records) -> PairCase;

/// Each generator of cases, and how many of each kind of record are taken from it.
const GENERATORS: [(usize, Generator); 6] = [
    (6_000, pairs::sound),
    (2_000, pairs::of_sums),
    (3_000, pairs::random),
    (2_000, pairs::of_wrong_counts),
    (1_500, pairs::of_short_table),
    (3_000, pairs::of_unsound_table),
];

#[derive(Debug)]
struct EvaluateCase {
    pair: PairCase,
    cells: u32,
    result_words: usize,
}

impl EvaluateCase {
    /// The turn chooses the number that names cells.
    fn new(pair: PairCase, turn: usize, result_words: usize) -> EvaluateCase {
        EvaluateCase {
            cells: number_of(pair.records, turn),
            pair,
            result_words,
        }
    }

    /// What a call on fresh buffers leaves, whoever answers it.
    fn outcome(
        &self,
        evaluator: impl Fn(Counts, &[u32], u32, u64, u64, &mut [u64]) -> u32,
    ) -> Outcome {
        let PairCase { counts, x, y, .. } = self.pair;
        let counts = counts_for_library(counts);
        let table = Guarded::holding(&self.pair.table);
        let mut word = Guarded::<u64>::marked(self.result_words);
        let number = evaluator(counts, table.lent(), self.cells, x, y, word.lent_mut());
        Outcome {
            number,
            buffers: vec![table.named("table"), word.named("word")],
        }
    }

    fn by(&self, mirror: &Mirror) -> Outcome {
        self.outcome(|counts, table, cells, x, y, word| {
            mirror.evaluate(counts, table, cells, x, y, word)
        })
    }
}

/// Made once for all tests of this file.
static CASES: LazyLock<Vec<EvaluateCase>> = LazyLock::new(cases);

fn cases() -> Vec<EvaluateCase> {
    let mut cases = Vec::new();
    for (turn, pair) in pairs::edges().into_iter().enumerate() {
        for result_words in [1, 0, 3] {
            cases.push(EvaluateCase::new(pair.clone(), turn, result_words));
        }
    }
    let mut random = Random::new(2);
    for (count, generator) in GENERATORS {
        for turn in 0..count {
            for records in Records::ALL {
                let pair = generator(&mut random, records);
                let result_words = random.pick(&[0, 1, 1, 1, 1, 1, 1, 2, 4]);
                cases.push(EvaluateCase::new(pair, turn, result_words));
            }
        }
    }
    cases
}

#[test]
fn evaluating_gives_the_same_numbers_and_words() {
    assert!(CASES.len() >= 30_000);
    println!("{} cases of evaluating", CASES.len());
    let document = Mirror::of_document();
    let library = |case: &EvaluateCase| case.outcome(raw::evaluate);
    let difference = first_difference(&CASES, library, |case| case.by(&document));
    assert!(difference.is_none(), "{}", difference.unwrap());
}

/// The real blocks at random operands: the library shows the word that their reading wants, whatever stands in the bits
/// from I/2 up.
#[test]
fn evaluating_real_blocks_gives_the_wanted_word() {
    let mut random = Random::new(3);
    for block in blocks::all() {
        let Block {
            reading, n, made, ..
        } = &block;
        for _ in 0..100 {
            let (a, b, c) = (random.word(), random.word(), random.word());
            let (x, y) = reading.words(*n, Operands { a, b, c });
            let above = !low_bits(made.counts.half());
            let (x, y) = (x ^ random.word() & above, y ^ random.word() & above);
            let mut word = [0];
            let cells = number_of(made.records, 0);
            let counts = counts_for_library(made.counts);
            let number = raw::evaluate(counts, &made.table, cells, x, y, &mut word);
            let expected = wanted(reading.kind(), *n, a, b, c);
            assert_eq!((number, word), (0, [expected]), "{}", block.name);
        }
    }
}

#[test]
fn the_cases_of_evaluating_meet_every_number() {
    let document = Mirror::of_document();
    let (gates, cells): (Vec<&EvaluateCase>, Vec<&EvaluateCase>) =
        CASES.iter().partition(|case| case.cells == 0);
    for cases in [gates, cells] {
        let numbers = numbers_given(&cases, |case| case.by(&document));
        assert_eq!(numbers, [0, 102, 103, 108, 112]);
    }
}

#[test]
fn the_cases_of_evaluating_tell_every_mutant() {
    let document = Mirror::of_document();
    let mutants = Mirror::mutants_of("evaluate");
    assert!(mutants.len() >= 5);
    for (name, mutant) in &mutants {
        let told = first_difference(&CASES, |case| case.by(mutant), |case| case.by(&document));
        assert!(told.is_some(), "{name}: no case of evaluating tells it");
    }
    println!("{} mutants of evaluating told", mutants.len());
}
