//! One judgement by the proved library: what it is lent, and what it leaves.

use crate::block::Block;
use crate::reading::Reading;
use hraskell::{Answer, Lent, Question, Records, Refused, Step};

/// The least and the most term limit T that is taken.
pub const TERMS_LEAST: u64 = 128;
pub const TERMS_MOST: u64 = 16_384;

/// What a judgement answers, and what it tells on the way.
#[derive(Clone, Debug, PartialEq, Eq)]
pub struct Judgement {
    pub answer: Answer,
    /// A record for each step completed.
    pub log: Vec<Step>,
    /// For each variable up to M in how many terms of the last polynomial it occurs; at 0 how many terms that has.
    pub occurrences: Vec<u32>,
}

/// Judges a block under a reading by an order, with at most `limit` terms held.
pub fn judge(
    block: &Block,
    reading: Reading,
    limit: u64,
    order: &[u32],
) -> Result<Judgement, Refused> {
    let question = Question {
        counts: block.counts,
        table: &block.table,
        records: Records::Gates,
        kind: reading.0,
        limit,
        order,
    };
    // A limit that is refused must not be asked for in memory first.
    let room = Question {
        limit: limit.min(TERMS_MOST),
        ..question
    };
    let mut store = vec![0; room.store_words()];
    let mut scratch = vec![0; room.scratch_words()];
    let mut log = vec![Step::default(); order.len()];
    let mut occurrences = vec![0; question.occurrence_words()];
    let answer = hraskell::judge(
        &question,
        Lent {
            store: &mut store,
            scratch: &mut scratch,
            log: &mut log,
            occurrences: &mut occurrences,
        },
    )?;
    log.truncate(completed(&answer));
    Ok(Judgement {
        answer,
        log,
        occurrences,
    })
}

/// The steps completed.
fn completed(answer: &Answer) -> usize {
    match *answer {
        Answer::Equal { steps, .. }
        | Answer::Differs { steps, .. }
        | Answer::Unfinished { steps, .. } => steps as usize,
        Answer::OutOfRoom { step, .. } => (step as usize).saturating_sub(1),
    }
}
