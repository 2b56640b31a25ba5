//! How far a search has come: the gates taken, those that may be taken next, and the polynomial that the steps leave.

use super::parts::{parts_of_gate, start};
use super::polynomial::{Part, Polynomial};
use crate::block::Block;
use crate::reading::Reading;
use std::collections::BTreeSet;

/// A block's gates as the finder needs them, each at its variable.
pub struct Gates {
    parts: Vec<Vec<Part>>,
    /// The gates that a gate reads, twice where it reads one twice.
    read: Vec<Vec<u32>>,
}

/// The steps taken so far, and what follows from them.
#[derive(Clone)]
pub struct State {
    order: Vec<u32>,
    polynomial: Polynomial,
    /// The gates not taken whose readers are all taken.
    ready: BTreeSet<u32>,
    /// How many times each variable is read by gates not taken.
    readers_left: Vec<u32>,
}

impl Gates {
    pub fn of(block: &Block) -> Gates {
        let counts = block.counts;
        let mut parts = vec![Vec::new(); counts.m as usize + 1];
        let mut read = vec![Vec::new(); counts.m as usize + 1];
        for gate in counts.i + 1..=counts.m {
            let literals = block.literals(gate);
            parts[gate as usize] = parts_of_gate(literals);
            let variables = literals.into_iter().map(|literal| literal / 2);
            read[gate as usize] = variables.filter(|&v| v > counts.i).collect();
        }
        Gates { parts, read }
    }
}

impl State {
    /// Before the first step.
    pub fn first(block: &Block, reading: Reading, gates: &Gates) -> State {
        let counts = block.counts;
        let mut readers_left = vec![0; counts.m as usize + 1];
        for &read in gates.read.iter().flatten() {
            readers_left[read as usize] += 1;
        }
        let is_ready = |&gate: &u32| readers_left[gate as usize] == 0;
        let mut first = State {
            order: Vec::new(),
            polynomial: start(block, reading),
            ready: (counts.i + 1..=counts.m).filter(is_ready).collect(),
            readers_left,
        };
        first.take_those_not_held(gates);
        first
    }

    pub fn order(&self) -> &[u32] {
        &self.order
    }

    pub fn terms(&self) -> usize {
        self.polynomial.terms()
    }

    /// The gates that may be taken next, the smallest first. There is none once all are taken.
    pub fn ready(&self) -> impl Iterator<Item = u32> + '_ {
        self.ready.iter().copied()
    }

    /// By how many terms the polynomial grows when a gate is taken.
    pub fn growth(&self, gates: &Gates, gate: u32) -> i64 {
        self.polynomial.growth(gate, &gates.parts[gate as usize])
    }

    /// Takes a gate that is ready, and after it all that no term holds.
    pub fn take(&mut self, gates: &Gates, gate: u32) {
        self.take_one(gates, gate);
        self.take_those_not_held(gates);
    }

    /// Once its readers are taken, nothing brings a gate that no term holds back: it costs nothing to take it at once.
    fn take_those_not_held(&mut self, gates: &Gates) {
        while let Some(gate) = self.ready_and_not_held() {
            self.take_one(gates, gate);
        }
    }

    fn ready_and_not_held(&self) -> Option<u32> {
        self.ready().find(|&gate| !self.polynomial.holds(gate))
    }

    fn take_one(&mut self, gates: &Gates, gate: u32) {
        self.polynomial.replace(gate, &gates.parts[gate as usize]);
        self.order.push(gate);
        self.ready.remove(&gate);
        for &read in &gates.read[gate as usize] {
            self.readers_left[read as usize] -= 1;
            if self.readers_left[read as usize] == 0 {
                self.ready.insert(read);
            }
        }
    }
}
