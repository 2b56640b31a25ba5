//! Orders of steps: the usual one, honest ones, and any others.

use crate::polynomial::Polynomial;
use crate::random::Random;
use crate::reading::Reading;
use crate::rules::Rules;
use crate::table::{Counts, Netlist};
use std::collections::BTreeSet;

/// M down to I + 1. It is honest, because a gate reads only variables below it.
pub fn falling(counts: Counts) -> Vec<u32> {
    (counts.i + 1..=counts.m).rev().collect()
}

/// Each gate exactly once, in no particular sequence.
pub fn shuffled(random: &mut Random, counts: Counts) -> Vec<u32> {
    let mut order = falling(counts);
    random.shuffle(&mut order);
    order
}

/// Any gates, any number of times; empty when there is no gate.
pub fn arbitrary(random: &mut Random, counts: Counts, steps: usize) -> Vec<u32> {
    let gates = falling(counts);
    if gates.is_empty() {
        return gates;
    }
    (0..steps).map(|_| random.pick(&gates)).collect()
}

/// A random honest order: at each place one of the gates whose readers have all been taken.
pub fn honest(random: &mut Random, netlist: &Netlist) -> Vec<u32> {
    let mut readers = reader_counts(netlist);
    let mut ready: Vec<u32> = netlist
        .gates()
        .filter(|&gate| readers[gate as usize] == 0)
        .collect();
    let mut order = Vec::new();
    while !ready.is_empty() {
        let gate = ready.swap_remove(random.below(ready.len()));
        order.push(gate);
        for read in gates_read(netlist, gate) {
            readers[read as usize] -= 1;
            if readers[read as usize] == 0 {
                ready.push(read);
            }
        }
    }
    order
}

/// An honest order that takes, of the gates ready, the one that leaves the fewest terms.
///
/// It is found by trying, so it is slow; where a random honest order runs out of room this one often does not.
pub fn thrifty(netlist: &Netlist, reading: Reading, most_terms: usize) -> Vec<u32> {
    let mut readers = reader_counts(netlist);
    let rules = Rules::of_document();
    let mut held = Polynomial::start(&rules, netlist, reading);
    let mut left: BTreeSet<u32> = netlist.gates().collect();
    let mut order = Vec::new();
    while let Some((gate, next)) = left
        .iter()
        .rev()
        .filter(|&&gate| readers[gate as usize] == 0)
        .map(|&gate| (gate, held.step(&rules, gate, netlist.record(gate))))
        .min_by_key(|(_, next)| next.count())
    {
        order.push(gate);
        left.remove(&gate);
        for read in gates_read(netlist, gate) {
            readers[read as usize] -= 1;
        }
        held = next;
        if held.count() > most_terms {
            break;
        }
    }
    // Past the limit only honesty matters.
    order.extend(left.into_iter().rev());
    order
}

/// Whether an order has each gate exactly once, after every gate that reads it.
pub fn is_honest(netlist: &Netlist, order: &[u32]) -> bool {
    let mut gates = order.to_vec();
    gates.sort_unstable();
    let place = |gate: u32| order.iter().position(|&other| other == gate);
    gates == netlist.gates().collect::<Vec<_>>()
        && order.iter().all(|&gate| {
            gates_read(netlist, gate)
                .iter()
                .all(|&read| place(gate) < place(read))
        })
}

/// How many times each variable is read by a gate.
fn reader_counts(netlist: &Netlist) -> Vec<u32> {
    let mut readers = vec![0; netlist.counts.m as usize + 1];
    for gate in netlist.gates() {
        for read in gates_read(netlist, gate) {
            readers[read as usize] += 1;
        }
    }
    readers
}

/// The gates or cells among the variables that one reads; one read twice is named twice.
fn gates_read(netlist: &Netlist, gate: u32) -> Vec<u32> {
    let variables = netlist.record(gate).variables();
    variables
        .into_iter()
        .filter(|&variable| netlist.counts.is_gate(variable))
        .collect()
}
