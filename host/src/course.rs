//! The course of a judgement: how many terms are held after each step, and the most of them.

use crate::judging::Judgement;
use hraskell::{Answer, Step};

/// A number of terms, and the step that it belongs to; step 0 is the start.
#[derive(Clone, Copy, Debug, PartialEq, Eq)]
pub struct Point {
    pub step: u64,
    pub terms: u64,
}

/// The terms held after each step completed. The log does not tell those of the start: they are known, as the terms of the
/// answer, only where no step was completed and the start had room.
pub fn held(judgement: &Judgement) -> Vec<Point> {
    let points = points(&judgement.log, |step| step.terms);
    match judgement.answer {
        Answer::OutOfRoom { step: 0, .. } => points,
        Answer::Equal { terms, .. }
        | Answer::Differs { terms, .. }
        | Answer::Unfinished { terms, .. }
        | Answer::OutOfRoom { terms, .. }
            if points.is_empty() =>
        {
            vec![Point { step: 0, terms }]
        }
        _ => points,
    }
}

/// The most terms held, at the first step that has them; none where the start had no room.
pub fn most_held(judgement: &Judgement) -> Option<Point> {
    first_largest(held(judgement))
}

/// The most terms before gathering, at the first step that has them; none where no step was completed.
pub fn most_made(judgement: &Judgement) -> Option<Point> {
    first_largest(points(&judgement.log, |step| step.made))
}

fn points(log: &[Step], terms: impl Fn(&Step) -> u32) -> Vec<Point> {
    let numbered = (1..).zip(log);
    numbered
        .map(|(step, record)| Point {
            step,
            terms: u64::from(terms(record)),
        })
        .collect()
}

fn first_largest(points: Vec<Point>) -> Option<Point> {
    // Of equal ones the last is the maximum, hence from behind.
    points.into_iter().rev().max_by_key(|point| point.terms)
}
