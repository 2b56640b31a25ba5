//! The steps of a judgement as tab-separated text.

use crate::told::{Outcome, Told};
use std::fmt::Write;

/// A line with the names of the columns, then one for each step completed: its number, its gate, the terms after it and those
/// before gathering. A refusal has no step.
pub fn log(told: &Told) -> String {
    let mut text = String::from("step\tgate\tterms\tmade\n");
    if let Outcome::Judged { judgement, .. } = &told.outcome {
        for (step, record) in (1..).zip(&judgement.log) {
            let (gate, terms, made) = (record.gate, record.terms, record.made);
            let step: u64 = step;
            let _ = writeln!(text, "{step}\t{gate}\t{terms}\t{made}");
        }
    }
    text
}
