//! Blocks and judgements that the tests of what is told share.
#![allow(dead_code)] // no test file needs all of them

pub mod json_value;
pub mod tags;

#[allow(unused_imports)] // nor all of these
pub use crate::calls::{all_false, without_gates, ADD, AND};

use host::block::Block;
use host::judging::{judge, Judgement};
use host::reading::Reading;
use host::refusals::line_at_fault;
use host::told::{Outcome, Rule, Taken, Told};
use hraskell::{Answer, Counts, Step};

/// The desk example of document 01.
pub const DESK: &str = "aag 3 2 0 2 1\n2\n4\n7\n0\n6 5 3\n";

/// Two bits, right under u.
pub const TWO_BITS: &str = "aag 14 4 0 4 10\n2\n4\n6\n8\n10\n22\n28\n24\n10 6 2\n12 8 2\n14 6 4\n16 8 4\n18 14 12\n20 15 13\n22 21 19\n24 18 16\n26 19 17\n28 27 25\n";

/// What becomes of a text under a reading, M down to I + 1.
pub fn told(text: &str, letters: &str, limit: u64) -> Told {
    told_by(text, letters, limit, Rule::Falling, None)
}

/// The same by an order that is handed in.
pub fn told_in_order(text: &str, letters: &str, order: &[u32]) -> Told {
    let rule = Rule::File("order.txt".to_string());
    told_by(text, letters, 128, rule, Some(order))
}

fn told_by(text: &str, letters: &str, limit: u64, rule: Rule, order: Option<&[u32]>) -> Told {
    let reading = Reading::of_letters(letters).unwrap();
    let block = Block::of_text(text.as_bytes());
    let outcome = match &block {
        Err(refused) => Outcome::Refused {
            number: refused.0,
            line: line_at_fault(text.as_bytes(), refused.0),
        },
        Ok(block) => {
            let order = order.map_or_else(|| block.falling(), <[u32]>::to_vec);
            match judge(block, reading, limit, &order) {
                Ok(judgement) => Outcome::Judged {
                    taken: Taken { rule, order },
                    judgement,
                },
                Err(refused) => Outcome::Refused {
                    number: refused.0,
                    line: None,
                },
            }
        }
    };
    Told {
        name: "block.aag".to_string(),
        bytes: text.len() as u64,
        sha256: Some("0123456789abcdef".repeat(4)),
        counts: block.ok().map(|block| block.counts),
        reading,
        limit,
        outcome,
    }
}

/// A judgement that nothing was judged for: these records, this answer, with I inputs and as many outputs.
pub fn made_up(letters: &str, inputs: u32, log: &[Step], answer: Answer) -> Told {
    let gates = 5000;
    let order: Vec<u32> = log.iter().map(|step| step.gate).collect();
    Told {
        name: "block.aag".to_string(),
        bytes: 1,
        sha256: None,
        counts: Some(Counts {
            m: inputs + gates,
            i: inputs,
            l: 0,
            o: inputs,
            a: gates,
        }),
        reading: Reading::of_letters(letters).unwrap(),
        limit: 16_384,
        outcome: Outcome::Judged {
            taken: Taken {
                rule: Rule::LookAhead,
                order,
            },
            judgement: Judgement {
                answer,
                log: log.to_vec(),
                occurrences: vec![0; 1 + (inputs + gates) as usize],
            },
        },
    }
}

/// Records with these terms; before gathering there is one more.
pub fn records(terms: impl IntoIterator<Item = u32>) -> Vec<Step> {
    let numbered = (1..).zip(terms);
    numbered
        .map(|(number, terms)| Step {
            gate: 100 + number,
            terms,
            made: terms + 1,
        })
        .collect()
}

/// Names that are hard on a terminal, on markup or on JSON.
pub const ODD_NAMES: [&str; 9] = [
    "a<b>&c.aag",
    "\"quoted\" and 'quoted'.aag",
    "back\\slash\\u0041.aag",
    "two\nlines\tand\r\u{1b}[31mred.aag",
    "nul\0 del\u{7f} next\u{85}.aag",
    "turned\u{202e}gaa.kcolb",
    "Prüfling-乗算器-🔢.aag",
    "]]>-->{{}}</svg></script>.aag",
    "",
];
