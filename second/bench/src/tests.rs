//! The C programs are plain, but they have to be right: a time to a wrong answer says nothing.

use crate::judges::{by_hash, by_second, Lent, LentToHash, Question, Verdict};
use crate::pairs::{try_all, Tried};
use second::brute::least_wrong_operands;
use second::cases::marked_steps;
use second::netlists::{random_for, right_multiplier, with_fault, Made};
use second::orders;
use second::random::Random;
use second::reading::Reading;
use second::Records;
use std::collections::BTreeSet;

/// A right, a faulty or a random netlist with as many outputs as its reading has, some of them large.
fn netlist(random: &mut Random, records: Records, reading: Reading, most_bits: usize) -> Made {
    // With c there are twice as many inputs.
    let most = if reading.adds() { 3 } else { most_bits };
    let n = 1 + random.below(most) as u32;
    match random.below(4) {
        0 => {
            let count = random.pick(&[0, 3, 20, 70, 400]);
            random_for(random, records, reading, n, count)
        }
        1 => right_multiplier(random, records, reading, n),
        _ => {
            let right = right_multiplier(random, records, reading, n);
            with_fault(random, &right)
        }
    }
}

/// Falling, honest, shuffled, or any gates any number of times.
fn order(random: &mut Random, made: &Made) -> Vec<u32> {
    match random.below(6) {
        0 => orders::shuffled(random, made.counts),
        1 => orders::arbitrary(random, made.counts, 40),
        2 => orders::honest(random, &made.netlist()),
        _ => orders::falling(made.counts),
    }
}

/// What the hash judge answers, if the second program answers the same, counts the same and logs the same.
fn agreed(made: &Made, reading: Reading, limit: u64, order: &[u32]) -> Verdict {
    let question = Question::of(made, reading, limit, order);
    let (mut to_hash, mut to_second) = (LentToHash::to(&question), Lent::to(&question));
    // A number that is left out has to be seen, and so has a record of the step of R.
    to_hash.occurrences.fill(u32::MAX);
    to_hash.log.copy_from_slice(&marked_steps(order.len()));
    to_second.log.copy_from_slice(&marked_steps(order.len()));
    let hash = by_hash(&question, &mut to_hash);
    let second = by_second(&question, &mut to_second);
    let asked = format!("{made:?}, {reading:?}, T {limit}, {order:?}");
    assert_eq!(hash, second, "{asked}");
    assert_eq!(to_hash.occurrences, to_second.occurrences, "{asked}");
    assert_eq!(to_hash.log, to_second.log, "{asked}");
    hash
}

#[test]
fn the_hash_judge_answers_as_the_second_program() {
    let mut random = Random::new(1);
    for records in Records::ALL {
        let mut letters = BTreeSet::new();
        for _ in 0..3_000 {
            let reading = random.pick(&Reading::ALL);
            let made = netlist(&mut random, records, reading, 5);
            let order = order(&mut random, &made);
            let limit = random.pick(&[128, 200, 1_024]);
            letters.insert(agreed(&made, reading, limit, &order).letter);
        }
        assert_eq!(letters, BTreeSet::from(['D', 'E', 'R', 'U']));
    }
}

#[test]
fn the_hash_judge_answers_as_the_second_program_at_the_most_variables() {
    let mut random = Random::new(2);
    for reading in [Reading::ALL, Reading::ALL].concat() {
        for records in Records::ALL {
            let made = random_for(&mut random, records, reading, reading.most_bits(), 959);
            let order = orders::falling(made.counts);
            agreed(&made, reading, 16_384, &order[..40]);
            agreed(&made, reading, 128, &order[..40]);
        }
    }
}

#[test]
fn trying_all_pairs_finds_what_the_second_program_finds() {
    let mut random = Random::new(3);
    let mut found = [0, 0];
    for _ in 0..1_600 {
        let reading = random.pick(&Reading::ALL);
        let made = netlist(&mut random, Records::Gates, reading, 5);
        let kind = reading.kind();
        let wrong = least_wrong_operands(made.counts, &made.table, made.records, kind);
        let expected = match wrong.expect("a netlist with the outputs of its reading") {
            Some(_) => Tried::SomeWrong,
            None => Tried::AllRight,
        };
        assert_eq!(try_all(&made, kind), expected, "{made:?}");
        found[usize::from(expected == Tried::AllRight)] += 1;
    }
    assert!(found.iter().all(|&times| times > 100), "{found:?}");
}
