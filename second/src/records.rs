//! The two kinds of record that a table can have, and one record of either kind.

use crate::cells::Cell;
use crate::rules::{CellRules, Rules};
use std::collections::BTreeMap;

/// What the records of a table are. The caller names it; a table has records of one kind only.
#[derive(Clone, Copy, Debug, PartialEq, Eq)]
pub enum Records {
    /// AND gates: two literals.
    Gates,
    /// Lookup cells: a truth byte and three variables.
    Cells,
}

impl Records {
    pub const ALL: [Records; 2] = [Records::Gates, Records::Cells];

    /// The table words of one record.
    pub fn words(self) -> usize {
        match self {
            Records::Gates => 2,
            Records::Cells => 4,
        }
    }

    /// The most terms that a step makes of one, and so the words of scratch for each word of the store.
    pub fn most_made(self) -> usize {
        match self {
            Records::Gates => 4,
            Records::Cells => 8,
        }
    }

    /// The kind by which refusal 3 measures a table.
    pub fn measured(self, rules: &CellRules) -> Records {
        if rules.record_has_four_words {
            self
        } else {
            Records::Gates
        }
    }

    /// The kind by which refusal 12 measures scratch.
    pub fn measured_in_scratch(self, rules: &CellRules) -> Records {
        if rules.scratch_is_eightfold {
            self
        } else {
            Records::Gates
        }
    }
}

/// What a variable above the inputs stands for.
#[derive(Clone, Copy, Debug, PartialEq, Eq)]
pub enum Record {
    /// The AND of two literals.
    Gate(u32, u32),
    Cell(Cell),
}

/// A part of a record's polynomial: variables to multiply with, and a whole coefficient.
pub type Part = (Vec<u32>, i64);

impl Record {
    /// The variables that the record reads; one read twice is named twice, and a constant is variable 0.
    pub fn variables(self) -> Vec<u32> {
        match self {
            Record::Gate(rhs0, rhs1) => vec![rhs0 / 2, rhs1 / 2],
            Record::Cell(cell) => cell.variables.to_vec(),
        }
    }

    /// The record's polynomial, multiplied out and not yet gathered. A gate is the product of its two literals.
    pub fn parts(self, rules: &Rules) -> Vec<Part> {
        let parts = match self {
            Record::Gate(rhs0, rhs1) => product(factor(rules, rhs0), factor(rules, rhs1)),
            Record::Cell(cell) => cell.terms(rules),
        };
        if rules.peak.squares_join_after_counting {
            parts
        } else {
            gathered(parts)
        }
    }

    /// Whether x·x is x when this record is put in place of its variable.
    pub fn squares_join(self, rules: &Rules) -> bool {
        match self {
            Record::Gate(..) => rules.judging.squares_join,
            Record::Cell(_) => rules.cells.squares_join,
        }
    }
}

/// Every part of one times every part of the other; x·x is left as it is.
fn product(one: Vec<Part>, other: Vec<Part>) -> Vec<Part> {
    let mut parts = Vec::new();
    for (x, x_sign) in &one {
        for (y, y_sign) in &other {
            parts.push(([&x[..], y].concat(), x_sign * y_sign));
        }
    }
    parts
}

/// A literal as a factor of a gate. By a bent rule literal 0 is a part as well, whose coefficient is 0.
fn factor(rules: &Rules, literal: u32) -> Vec<Part> {
    if literal == 0 && !rules.peak.literal_0_makes_none {
        return vec![(vec![], 0)];
    }
    literal_parts(literal)
}

/// The same polynomial with x·x as x and like parts as one. Only a bent rule asks for it.
fn gathered(parts: Vec<Part>) -> Vec<Part> {
    let mut sums = BTreeMap::new();
    for (mut variables, whole) in parts {
        variables.sort_unstable();
        variables.dedup();
        *sums.entry(variables).or_insert(0) += whole;
    }
    sums.into_iter().filter(|&(_, sum)| sum != 0).collect()
}

/// A literal stands for 0, 1, x or 1 - x.
pub fn literal_parts(literal: u32) -> Vec<Part> {
    let variable = literal / 2;
    match literal {
        0 => vec![],
        1 => vec![(vec![], 1)],
        _ if literal.is_multiple_of(2) => vec![(vec![variable], 1)],
        _ => vec![(vec![], 1), (vec![variable], -1)],
    }
}
