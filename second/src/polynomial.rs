//! Polynomials over variables that are 0 or 1, with coefficients modulo 2^l.

use crate::reading::{low_bits, Layout, Reading};
use crate::records::{literal_parts, Record};
use crate::rules::{JudgingRules, Rules};
use crate::table::Netlist;
use std::collections::BTreeMap;

/// A set of variables, written from the highest down.
///
/// Written so, the ordinary order of lists is the order of sets read as one
/// number: the first difference is at the highest variable that only one of
/// them has.
pub type Set = Vec<u16>;

#[derive(Clone, Debug, PartialEq, Eq)]
pub struct Polynomial {
    terms: BTreeMap<Set, u64>,
    coefficient_bits: u64,
    gathering: Gathering,
}

/// What was put in, and what became of it when like terms met. The log asks for the first, bent rules for all.
#[derive(Clone, Debug, Default, PartialEq, Eq)]
struct Gathering {
    /// How many terms were put in.
    put_in: usize,
    /// The sets of terms that met a like one and stayed, once for each time.
    joined: Vec<Set>,
    /// The sets of terms that met a like one and went with it, once for each time.
    cancelled: Vec<Set>,
}

impl Polynomial {
    fn zero(rules: &JudgingRules, l: u32) -> Polynomial {
        Polynomial {
            terms: BTreeMap::new(),
            coefficient_bits: low_bits(if rules.coefficients_have_l_bits {
                l
            } else {
                64
            }),
            gathering: Gathering::default(),
        }
    }

    /// The sum of 2^i times output i, minus the specification: the product, and c where it is added.
    pub fn start(rules: &Rules, netlist: &Netlist, reading: Reading) -> Polynomial {
        let layout = reading.layout(&rules.adding, netlist.counts.i);
        let mut start = Polynomial::zero(&rules.judging, reading.outputs(layout.n));
        for (place, &literal) in (0..).zip(netlist.outputs()) {
            for (variables, sign) in literal_parts(literal) {
                let set = variables.iter().map(|&v| v as u16).collect();
                start.add(set, times(power(place), sign));
            }
        }
        start.take_away_product(&rules.judging, reading, layout);
        if rules.adding.c_is_in_the_start {
            for k in 0..layout.bits_of_c {
                let c_k = (1 + layout.before_c + k) as u16;
                start.add(vec![c_k], times(power(k), -1));
            }
        }
        start
    }

    /// Takes the sum of 2^(i+j) a_i b_j away, where a term may have a sign.
    fn take_away_product(&mut self, rules: &JudgingRules, reading: Reading, layout: Layout) {
        let Layout { n, before_b, .. } = layout;
        for i in 0..n {
            for j in 0..n {
                let (a_i, b_j) = ((1 + i) as u16, (1 + before_b + j) as u16);
                let signed = rules.signed_terms_have_signs && reading.term_is_negative(n, i, j);
                let sign = if signed { 1 } else { -1 };
                self.add(vec![b_j, a_i], times(power(i + j), sign));
            }
        }
    }

    /// Every term with the variable is replaced by itself with the record's polynomial in the variable's place.
    pub fn step(&self, rules: &Rules, variable: u32, record: Record) -> Polynomial {
        let variable = variable as u16;
        let parts = record.parts(rules);
        let joins = record.squares_join(rules);
        let mut next = Polynomial {
            terms: BTreeMap::new(),
            gathering: Gathering::default(),
            ..*self
        };
        for (set, &coefficient) in &self.terms {
            if !set.contains(&variable) {
                next.add(set.clone(), coefficient);
                continue;
            }
            let rest: Set = set.iter().copied().filter(|&v| v != variable).collect();
            for (variables, whole) in &parts {
                let product = variables
                    .iter()
                    .fold(rest.clone(), |set, &v| with(set, v as u16, joins));
                next.put_made(rules, product, times(coefficient, *whole));
            }
        }
        next
    }

    /// Puts in a term that the replacement made. One that vanishes modulo 2^l is counted as any other, and goes.
    fn put_made(&mut self, rules: &Rules, set: Set, coefficient: u64) {
        let vanishes = coefficient & self.coefficient_bits == 0;
        if vanishes && !rules.cells.vanished_terms_go {
            self.gathering.put_in += 1;
            self.terms.entry(set).or_insert(0);
        } else if !vanishes || rules.peak.vanished_terms_count {
            self.add(set, coefficient);
        }
    }

    /// Gathers one term in; a coefficient that becomes zero takes its term away.
    fn add(&mut self, set: Set, coefficient: u64) {
        self.gathering.put_in += 1;
        let before = self.terms.get(&set).copied().unwrap_or(0);
        let after = before.wrapping_add(coefficient) & self.coefficient_bits;
        if after != 0 {
            if before != 0 {
                self.gathering.joined.push(set.clone());
            }
            self.terms.insert(set, after);
        } else if self.terms.remove(&set).is_some() {
            self.gathering.cancelled.push(set);
        }
    }

    /// How many gathered terms there are.
    pub fn count(&self) -> usize {
        self.terms.len()
    }

    /// How many terms there were before gathering, each counted as it was put in.
    pub fn ungathered_count(&self) -> usize {
        self.gathering.put_in
    }

    /// The sets of the gathered terms.
    pub fn sets(&self) -> impl Iterator<Item = &Set> {
        self.terms.keys()
    }

    /// The sets that met a like one in gathering and stayed, once for each time.
    pub fn joined_sets(&self) -> &[Set] {
        &self.gathering.joined
    }

    /// The sets that met a like one in gathering and went with it, once for each time.
    pub fn cancelled_sets(&self) -> &[Set] {
        &self.gathering.cancelled
    }

    /// The gathered terms, sets rising.
    pub fn terms(&self) -> impl DoubleEndedIterator<Item = (&Set, u64)> {
        self.terms
            .iter()
            .map(|(set, &coefficient)| (set, coefficient))
    }

    pub fn mentions(&self, variable: u32) -> bool {
        self.terms
            .keys()
            .any(|set| set.contains(&(variable as u16)))
    }

    /// Whether a variable above the inputs occurs.
    pub fn mentions_above(&self, inputs: u32) -> bool {
        self.terms
            .keys()
            .any(|set| set.iter().any(|&v| u32::from(v) > inputs))
    }

    /// The value modulo 2^l when each variable has the value given.
    pub fn value(&self, values: &[bool]) -> u64 {
        let mut sum: u64 = 0;
        for (set, coefficient) in self.terms() {
            if set.iter().all(|&v| values[v as usize]) {
                sum = sum.wrapping_add(coefficient);
            }
        }
        sum & self.coefficient_bits
    }
}

/// 2^place modulo 2^64.
fn power(place: u32) -> u64 {
    1u64.checked_shl(place).unwrap_or(0)
}

/// A coefficient times a whole number, modulo 2^64.
fn times(coefficient: u64, whole: i64) -> u64 {
    coefficient.wrapping_mul(whole as u64)
}

/// A set with one more variable; x·x is x.
fn with(mut set: Set, variable: u16, joins: bool) -> Set {
    if !(joins && set.contains(&variable)) {
        let place = set.partition_point(|&other| other > variable);
        set.insert(place, variable);
    }
    set
}
