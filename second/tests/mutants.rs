//! Each bent rule is told from the document's by the case generators.

mod common;

use common::DOCUMENT;
use second::cases::{desks, judgements, occurrences, pairs, texts};
use second::random::Random;
use second::{desk_by, Records, Rules};

const RANDOM_CASES: u64 = 400;

/// Asserts that some case shows something else by each mutant's rules than by the document's.
fn all_are_caught<C, S: PartialEq>(function: &str, cases: Vec<C>, seen: impl Fn(&C, &Rules) -> S) {
    let right: Vec<S> = cases.iter().map(|case| seen(case, &DOCUMENT)).collect();
    let mutants = Rules::mutants_of(function);
    assert!(mutants.len() >= 5);
    for (name, bent) in mutants {
        let told_apart = |(case, right): &(&C, &S)| seen(case, &bent) != **right;
        let caught = cases.iter().zip(&right).filter(told_apart).count();
        println!("{function}: {caught} of {} tell {name}", cases.len());
        assert!(caught > 0, "{name}: not caught by the cases of {function}");
    }
}

fn with_random<C>(edges: Vec<C>, random: fn(&mut Random) -> C) -> Vec<C> {
    let made = (0..RANDOM_CASES).map(|seed| random(&mut Random::new(seed)));
    edges.into_iter().chain(made).collect()
}

/// Gates and cells in turn.
fn with_random_of_both<C>(edges: Vec<C>, random: fn(&mut Random, Records) -> C) -> Vec<C> {
    let made = (0..RANDOM_CASES).map(|seed| {
        let records = Records::ALL[seed as usize % 2];
        random(&mut Random::new(seed), records)
    });
    edges.into_iter().chain(made).collect()
}

#[test]
fn mutants_of_reading_are_caught() {
    let cases = with_random(texts::edges(), texts::random);
    all_are_caught("read", cases, |case, rules| case.seen(rules));
}

#[test]
fn mutants_of_the_evaluator_are_caught() {
    let cases = with_random_of_both(pairs::edges(), pairs::random);
    all_are_caught("evaluate", cases, |case, rules| case.seen(rules));
}

#[test]
fn mutants_of_judging_are_caught() {
    let edges = with_random_of_both(judgements::edges(), judgements::random);
    let cases = with_random_of_both(edges, occurrences::random);
    all_are_caught("judge", cases, |case, rules| case.seen(rules));
}

#[test]
fn mutants_of_the_desk_are_caught() {
    let cases = with_random(desks::edges(), desks::random);
    all_are_caught("desk", cases, |case, rules| desk_by(rules, case));
}

#[test]
fn bent_rules_of_cells_leave_gates_alone() {
    let cases: Vec<_> = (0..100)
        .map(|seed| judgements::random(&mut Random::new(seed), Records::Gates))
        .collect();
    let mut mutants = Rules::mutants_of("judge");
    mutants.retain(|(_, bent)| bent.cells != DOCUMENT.cells);
    assert_eq!(mutants.len(), 10);
    for case in cases {
        let right = case.seen(&DOCUMENT);
        for (name, bent) in &mutants {
            assert!(case.seen(bent) == right, "{name}");
        }
    }
}

#[test]
fn bent_rules_of_adding_leave_the_other_kinds_alone() {
    let mut random = Random::new(7);
    let mut mutants = Rules::mutants_of("judge");
    mutants.retain(|(_, bent)| bent.adding != DOCUMENT.adding);
    assert_eq!(mutants.len(), 9);
    for turn in 0..100 {
        let case = judgements::random(&mut random, Records::ALL[turn % 2]);
        if case.kind > 2 {
            continue;
        }
        let right = case.seen(&DOCUMENT);
        for (name, bent) in &mutants {
            assert!(case.seen(bent) == right, "{name}");
        }
    }
}

#[test]
fn every_mutant_bends_something_and_no_two_are_alike() {
    let mutants = Rules::mutants();
    for (place, (name, bent)) in mutants.iter().enumerate() {
        assert_ne!(*bent, DOCUMENT, "{name}");
        assert!(mutants[place + 1..]
            .iter()
            .all(|(other, rules)| other != name && rules != bent));
    }
}
