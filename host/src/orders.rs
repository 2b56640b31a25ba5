//! The order of a judgement: handed in, or found for whoever has none. The finder is no part of what is believed: whatever
//! it proposes, the proved library judges.

mod parts; // what stands for a gate, and the polynomial of the start
mod polynomial; // the finder's own polynomial
mod search; // least growth, and look-ahead
mod state; // the gates taken, and what follows from them

use crate::block::Block;
use crate::judging::{judge, Judgement};
use crate::reading::Reading;
use crate::told::{Rule, Taken};
use hraskell::{Answer, Refused};
use search::{sought, Choice, Sought};

/// Told while an order is sought, from the thread that seeks it.
pub trait Watch {
    /// A rule is tried.
    fn tries(&self, rule: &Rule);
    /// So many steps of how many are in the order, and so many terms are held.
    fn reached(&self, step: usize, of: usize, terms: usize);
    /// Whether to give up.
    fn is_stopped(&self) -> bool;
}

/// An order by a rule; none where the finder itself had no room within `limit` terms, or was stopped. A file is not
/// opened here: it proposes none.
pub fn proposed(
    block: &Block,
    reading: Reading,
    limit: u64,
    rule: &Rule,
    watch: &dyn Watch,
) -> Option<Vec<u32>> {
    watch.tries(rule);
    let choice = match rule {
        Rule::Falling => return Some(block.falling()),
        Rule::LeastGrowth => Choice::LeastGrowth,
        Rule::LookAhead => Choice::LookAhead,
        Rule::File(_) | Rule::Desk => return None,
    };
    match sought(block, reading, limit, choice, watch) {
        Sought::Order(order) => Some(order),
        Sought::NoRoom(_) | Sought::Stopped => None,
    }
}

/// Judged by the first rule of falling, least growth and look-ahead that is not out of room; else by the one that got
/// furthest. Where it is stopped, judged by the best rule so far, which is at least falling.
pub fn found(
    block: &Block,
    reading: Reading,
    limit: u64,
    watch: &dyn Watch,
) -> Result<(Taken, Judgement), Refused> {
    watch.tries(&Rule::Falling);
    let rule = Rule::Falling;
    let order = block.falling();
    let mut best = handed_in(block, reading, limit, Taken { rule, order })?;
    for (rule, choice) in [
        (Rule::LeastGrowth, Choice::LeastGrowth),
        (Rule::LookAhead, Choice::LookAhead),
    ] {
        if !may_be_bettered(&best.1) {
            break;
        }
        watch.tries(&rule);
        let order = match sought(block, reading, limit, choice, watch) {
            // Out of room it is judged all the same: it may get further than the one before.
            Sought::Order(order) | Sought::NoRoom(order) => order,
            Sought::Stopped => break,
        };
        let next = handed_in(block, reading, limit, Taken { rule, order })?;
        if reach(&next.1) > reach(&best.1) {
            best = next;
        }
    }
    Ok(best)
}

/// Judged by an order handed in.
pub fn handed_in(
    block: &Block,
    reading: Reading,
    limit: u64,
    taken: Taken,
) -> Result<(Taken, Judgement), Refused> {
    let judgement = judge(block, reading, limit, &taken.order)?;
    Ok((taken, judgement))
}

/// How far an order had room: to the step that had none, or to the end.
fn reach(judgement: &Judgement) -> u64 {
    match judgement.answer {
        Answer::OutOfRoom { step, .. } => step,
        _ => u64::MAX,
    }
}

/// Whether another order may get further. Where the start has no room none does: it is the same for all orders.
fn may_be_bettered(judgement: &Judgement) -> bool {
    matches!(judgement.answer, Answer::OutOfRoom { step: 1.., .. })
}
