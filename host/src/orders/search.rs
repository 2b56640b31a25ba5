//! The search for an order: of the gates whose readers are all taken, the one of least growth, with or without a look at
//! the steps that follow.

use super::state::{Gates, State};
use super::Watch;
use crate::block::Block;
use crate::judging::TERMS_MOST;
use crate::reading::Reading;
use std::collections::BTreeSet;

/// So many gates are tried when looking ahead, those of least growth.
const TRIES: usize = 8;
/// So many steps a try looks ahead.
const STEPS: usize = 6;

/// A try that has more terms than this is given up: such a hill is not come down from within a few steps.
fn most_terms_of_try(terms_before: usize) -> usize {
    3 * terms_before + 500
}

/// How a search ends. Each order is honest.
pub enum Sought {
    /// With an order that has room throughout.
    Order(Vec<u32>),
    /// Without room after some step; the order goes on from there with the largest gate first.
    NoRoom(Vec<u32>),
    Stopped,
}

/// How the next steps are chosen.
#[derive(Clone, Copy, Debug, PartialEq, Eq)]
pub enum Choice {
    LeastGrowth,
    LookAhead,
}

/// Seeks an order with at most `limit` terms after each step.
pub fn sought(
    block: &Block,
    reading: Reading,
    limit: u64,
    choice: Choice,
    watch: &dyn Watch,
) -> Sought {
    let gates = Gates::of(block);
    let mut state = State::first(block, reading, &gates);
    let seeker = Seeker {
        gates,
        // More than any judgement holds is more than anyone waits for.
        limit: limit.min(TERMS_MOST) as usize,
        watch,
    };
    while !watch.is_stopped() {
        let reached = state.order().len();
        watch.reached(reached, block.counts.a as usize, state.terms());
        if state.terms() > seeker.limit {
            return Sought::NoRoom(completed(block, state.order()));
        }
        if reached == block.counts.a as usize {
            return Sought::Order(state.order().to_vec());
        }
        for gate in seeker.next_steps(&state, choice) {
            state.take(&seeker.gates, gate);
        }
    }
    Sought::Stopped
}

/// An order that goes on with the gates it misses, the largest first: that is honest, as it is honest so far.
fn completed(block: &Block, order: &[u32]) -> Vec<u32> {
    let taken: BTreeSet<u32> = order.iter().copied().collect();
    let missed = block.falling().into_iter().filter(|v| !taken.contains(v));
    order.iter().copied().chain(missed).collect()
}

/// What stays the same throughout a search.
struct Seeker<'a> {
    gates: Gates,
    limit: usize,
    watch: &'a dyn Watch,
}

/// Steps that a try has taken, and how many terms are there after them.
struct Prefix {
    steps: Vec<u32>,
    terms: usize,
}

impl Seeker<'_> {
    /// The gates to be taken next. There is at least one, unless all are taken or the search is stopped.
    fn next_steps(&self, state: &State, choice: Choice) -> Vec<u32> {
        match choice {
            Choice::LeastGrowth => self.of_least_growth(state).into_iter().collect(),
            Choice::LookAhead => self.looked_ahead(state),
        }
    }

    /// The gates that may be taken next, the smallest first, each with its growth before it.
    fn growths<'s>(&'s self, state: &'s State) -> impl Iterator<Item = (i64, u32)> + 's {
        // Where the polynomial is large a single growth takes a while.
        let ready = state.ready().take_while(|_| !self.watch.is_stopped());
        ready.map(|gate| (state.growth(&self.gates, gate), gate))
    }

    /// The gate of least growth; of several the smallest.
    fn of_least_growth(&self, state: &State) -> Option<u32> {
        self.growths(state).min().map(|(_, gate)| gate)
    }

    /// Tries the gates of least growth and some steps after each: the steps that come down to the fewest terms.
    fn looked_ahead(&self, state: &State) -> Vec<u32> {
        let mut firsts: Vec<(i64, u32)> = self.growths(state).collect();
        firsts.sort_unstable();
        firsts.truncate(TRIES);
        let tries = firsts.iter().map(|&(_, gate)| self.tried(state, gate));
        let best = tries.min_by_key(|prefix| prefix.terms);
        best.map(|prefix| prefix.steps).unwrap_or_default()
    }

    /// Takes a gate, then those of least growth: the steps up to where the terms are fewest.
    fn tried(&self, state: &State, first: u32) -> Prefix {
        let most = self.limit.min(most_terms_of_try(state.terms()));
        let mut attempt = state.clone();
        let mut best = Prefix {
            steps: vec![first],
            terms: usize::MAX,
        };
        let mut steps = Vec::new();
        let mut next = Some(first);
        while let Some(gate) = next {
            attempt.take(&self.gates, gate);
            steps.push(gate);
            if attempt.terms() < best.terms {
                best.steps.clone_from(&steps);
                best.terms = attempt.terms();
            }
            if steps.len() == STEPS || attempt.terms() > most {
                break;
            }
            next = self.of_least_growth(&attempt);
        }
        best
    }
}
