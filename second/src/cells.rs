//! A lookup cell: when it is sound, its value, and the polynomial that stands for it.

use crate::records::Part;
use crate::rules::{CellRules, Rules};

/// Three variables can be chosen in so many ways, and a truth byte has so many bits.
const SUBSETS: usize = 8;
/// The byte of x1 xor x2 xor x3.
const PARITY: u32 = 150;
const ALL_THREE: usize = 7;

/// A truth byte and the three variables that choose one of its bits; variable 0 is the constant false.
#[derive(Clone, Copy, Debug, PartialEq, Eq)]
pub struct Cell {
    pub byte: u32,
    pub variables: [u32; 3],
}

impl Cell {
    /// A byte has eight bits, and a cell reads only what stands before it.
    pub fn is_sound(&self, rules: &CellRules, own: u32) -> bool {
        let is_below =
            |&variable: &u32| variable < own || (variable == own && !rules.cell_reads_below_itself);
        self.byte <= rules.most_byte && self.variables.iter().all(is_below)
    }

    /// The value when each variable has the value given.
    pub fn value(&self, rules: &CellRules, values: &[bool]) -> bool {
        let chosen = self.variables.map(|variable| match variable {
            0 => !rules.variable_0_is_false,
            _ => values[variable as usize],
        });
        self.bit(rules, chosen)
    }

    /// Bit x1 + 2·x2 + 4·x3 of the byte.
    fn bit(&self, rules: &CellRules, mut chosen: [bool; 3]) -> bool {
        if !rules.first_variable_is_lowest {
            chosen.reverse();
        }
        let index = (0..3).fold(0, |index, place| index | u32::from(chosen[place]) << place);
        self.byte >> index & 1 == 1
    }

    /// The whole coefficient of each subset of the variables; bit 0 of a subset is x1.
    ///
    /// A function of x is its value at 0 plus x times the difference of its two values. Taken for each of the three
    /// variables in turn, this turns the values into the coefficients.
    pub fn coefficients(&self, rules: &CellRules) -> [i64; SUBSETS] {
        let mut numbers = [0; SUBSETS];
        for (subset, number) in numbers.iter_mut().enumerate() {
            *number = i64::from(self.bit(rules, [0, 1, 2].map(|place| has(subset, place))));
        }
        for place in 0..3 {
            for subset in (0..SUBSETS).filter(|&subset| has(subset, place)) {
                numbers[subset] -= numbers[subset ^ 1 << place];
            }
        }
        if self.byte == PARITY && !rules.last_of_parity_is_plus {
            numbers[ALL_THREE] = -numbers[ALL_THREE];
        }
        numbers
    }

    /// The polynomial's terms: a coefficient that is not 0, and the variables of its subset, equal ones not yet joined.
    ///
    /// A subset with the constant false makes none.
    pub fn terms(&self, rules: &Rules) -> Vec<Part> {
        let mut terms = Vec::new();
        let coefficients = self.coefficients(&rules.cells);
        for (subset, coefficient) in coefficients.into_iter().enumerate() {
            let mut chosen: Vec<u32> = (0..3)
                .filter(|&place| has(subset, place))
                .map(|place| self.variables[place])
                .collect();
            if !rules.cells.variable_0_is_false {
                chosen.retain(|&variable| variable != 0);
            }
            if coefficient == 0 {
                continue;
            }
            if !chosen.contains(&0) {
                terms.push((chosen, coefficient));
            } else if !rules.peak.subset_with_false_makes_none {
                terms.push((vec![], 0));
            }
        }
        terms
    }
}

fn has(subset: usize, place: usize) -> bool {
    subset >> place & 1 == 1
}
