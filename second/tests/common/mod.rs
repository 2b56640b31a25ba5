//! What several tests need.
#![allow(dead_code)]

use second::brute::WrongOperands;
use second::cases::judgements::{JudgeCase, JudgeSeen};
use second::netlists::Made;
use second::{Answer, Rules, Step};

pub const DOCUMENT: Rules = Rules::of_document();

/// Judges with exactly the least words lent.
pub fn judged(made: &Made, kind: u32, limit: u64, order: &[u32]) -> JudgeSeen {
    JudgeCase::new(made, kind, limit, order.to_vec()).seen(&DOCUMENT)
}

pub fn answered(made: &Made, kind: u32, limit: u64, order: &[u32]) -> Answer {
    judged(made, kind, limit, order).answer
}

/// The operands and words of D; none for any other answer.
pub fn wrong_operands(answer: &Answer) -> Option<WrongOperands> {
    match *answer {
        Answer::Differs {
            a,
            b,
            c,
            got,
            wanted,
            ..
        } => Some(WrongOperands {
            a,
            b,
            c,
            got,
            wanted,
        }),
        _ => None,
    }
}

/// Whether the store begins with these words and is zero after them.
pub fn holds(store: &[u64], words: &[u64]) -> bool {
    store[..words.len()] == *words && store[words.len()..].iter().all(|&word| word == 0)
}

/// The records with these gates, terms after each step, and terms before gathering.
pub fn records(gates: &[u32], terms: &[u32], peaks: &[u32]) -> Vec<Step> {
    assert_eq!((gates.len(), gates.len()), (terms.len(), peaks.len()));
    let all = gates.iter().zip(terms).zip(peaks);
    all.map(|((&gate, &terms), &made)| Step { gate, terms, made })
        .collect()
}
