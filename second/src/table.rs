//! Counts, sound tables, and the value of a netlist at one choice of its inputs.

use crate::cells::Cell;
use crate::reading::low_bits;
use crate::records::{Record, Records};
use crate::rules::{self, CountRules, Rules, TableRules};

/// The five numbers of a header line.
#[derive(Clone, Copy, Debug, PartialEq, Eq)]
pub struct Counts {
    pub m: u32,
    pub i: u32,
    pub l: u32,
    pub o: u32,
    pub a: u32,
}

impl Counts {
    /// Half of the inputs. The evaluator's two words have so many bits each; where c is not added, that is n.
    pub fn half(self) -> u32 {
        self.i / 2
    }

    /// The table words these counts need: the outputs, then those of each record.
    pub fn table_words(self, records: Records) -> u64 {
        u64::from(self.o) + records.words() as u64 * u64::from(self.a)
    }

    /// The 64-bit words of one term: its coefficient, then its set.
    pub fn term_words(self) -> usize {
        self.m as usize / 64 + 2
    }

    pub fn is_gate(self, variable: u32) -> bool {
        // I + A is M for counts within their limits.
        variable > self.i && u64::from(variable) <= u64::from(self.i) + u64::from(self.a)
    }

    /// Refusal 2. Sums are those of whole numbers, so they are taken in 64 bits.
    pub fn within_limits(self, rules: &CountRules) -> Result<(), u32> {
        let sum = u64::from(self.i) + u64::from(self.a);
        let sum_holds = if rules.sum_is_exact {
            u64::from(self.m) == sum
        } else {
            u64::from(self.m) >= sum
        };
        let inputs_hold = (rules.least_inputs..=rules.most_inputs).contains(&self.i)
            && (self.i.is_multiple_of(2) || !rules.inputs_are_even);
        let outputs_hold = (1..=rules.most_outputs).contains(&self.o);
        let others_hold = self.l <= rules.most_latches && self.m <= rules.most_variables;
        if sum_holds && inputs_hold && outputs_hold && others_hold {
            Ok(())
        } else {
            Err(rules::COUNTS)
        }
    }
}

/// An output is any literal of the netlist, constants and inverses too.
pub fn output_is_sound(rules: &TableRules, counts: Counts, literal: u32) -> bool {
    let last_variable = 2 * counts.m;
    literal <= last_variable || (literal == last_variable + 1 && rules.last_inverse_is_an_output)
}

/// A gate reads only what stands before it, the higher literal first.
pub fn gate_is_sound(rules: &TableRules, lhs: u32, rhs0: u32, rhs1: u32) -> bool {
    let higher = rhs0.max(rhs1);
    let below = higher < lhs || (higher == lhs && !rules.gate_reads_below_itself);
    below && (rhs0 >= rhs1 || !rules.gate_literals_fall)
}

/// Counts and table words that passed the checks 2, 3 and 8.
#[derive(Clone, Copy, Debug)]
pub struct Netlist<'a> {
    pub counts: Counts,
    pub records: Records,
    table: &'a [u32],
}

impl<'a> Netlist<'a> {
    /// Refusals 2 and 3; the words themselves are looked at by `soundness`.
    pub fn of(
        rules: &Rules,
        counts: Counts,
        table: &'a [u32],
        records: Records,
    ) -> Result<Netlist<'a>, u32> {
        counts.within_limits(&rules.counts)?;
        let needed = counts.table_words(records.measured(&rules.cells));
        if (table.len() as u64) < needed {
            return Err(rules::TABLE_SHORT);
        }
        Ok(Netlist {
            counts,
            records,
            table,
        })
    }

    /// Refusal 8.
    pub fn soundness(&self, rules: &Rules) -> Result<(), u32> {
        let outputs_hold = self
            .outputs()
            .iter()
            .all(|&literal| output_is_sound(&rules.table, self.counts, literal));
        let records_hold = self.gates().all(|gate| match self.record(gate) {
            Record::Gate(rhs0, rhs1) => gate_is_sound(&rules.table, 2 * gate, rhs0, rhs1),
            Record::Cell(cell) => cell.is_sound(&rules.cells, gate),
        });
        if outputs_hold && records_hold {
            Ok(())
        } else {
            Err(rules::UNSOUND)
        }
    }

    pub fn outputs(&self) -> &'a [u32] {
        &self.table[..self.counts.o as usize]
    }

    /// The variables of gates or cells, lowest first.
    pub fn gates(&self) -> std::ops::RangeInclusive<u32> {
        self.counts.i + 1..=self.counts.i + self.counts.a
    }

    /// What a variable above the inputs stands for.
    pub fn record(&self, variable: u32) -> Record {
        let before = (variable - self.counts.i - 1) as usize;
        let first = self.counts.o as usize + self.records.words() * before;
        // A bent rule may take a table that ends before its last record does.
        let word = |place: usize| self.table.get(first + place).copied().unwrap_or(0);
        match self.records {
            Records::Gates => Record::Gate(word(0), word(1)),
            Records::Cells => Record::Cell(Cell {
                byte: word(0),
                variables: [word(1), word(2), word(3)],
            }),
        }
    }

    /// The value of every variable where the inputs have the bits of two words; place 0 stands for the constant false.
    pub fn values(&self, rules: &Rules, x: u64, y: u64) -> Vec<bool> {
        let mut values = vec![false; self.counts.m as usize + 1];
        for input in 1..=self.counts.i {
            values[input as usize] = input_value(&rules.table, self.counts.half(), input, x, y);
        }
        for gate in self.gates() {
            values[gate as usize] = record_value(rules, &values, self.record(gate));
        }
        values
    }

    /// The same for a set of inputs, input v at bit v - 1.
    pub fn values_at(&self, rules: &Rules, inputs: u128) -> Vec<bool> {
        let half = self.counts.half();
        let x = inputs as u64 & low_bits(half);
        self.values(rules, x, (inputs >> half) as u64)
    }

    /// The word the outputs show for these values, output 0 lowest.
    pub fn word(&self, rules: &TableRules, values: &[bool]) -> u64 {
        let count = self.counts.o;
        let mut word = 0;
        for (place, &literal) in (0..count).zip(self.outputs()) {
            let drop = if rules.output_inverters_count { 0 } else { 1 };
            let weight = if rules.output_0_is_lowest {
                place
            } else {
                count - 1 - place
            };
            if literal_value(rules, values, literal & !drop) {
                word |= 1 << weight;
            }
        }
        word
    }
}

/// The first half of the inputs are bits of x, the others are bits of y: a and b, or a + 2^n·b and c.
fn input_value(rules: &TableRules, half: u32, input: u32, x: u64, y: u64) -> bool {
    let (first, second) = if rules.first_operand_comes_first {
        (x, y)
    } else {
        (y, x)
    };
    if input <= half {
        return first >> (input - 1) & 1 == 1;
    }
    let place = input - half - 1;
    // The bent rule joins the words without cutting them, so that the first bit above the half meets bit 0 of the other.
    let leak = !rules.operand_bits_from_n_are_absent && first >> (half + place) & 1 == 1;
    second >> place & 1 == 1 || leak
}

fn record_value(rules: &Rules, values: &[bool], record: Record) -> bool {
    match record {
        Record::Gate(rhs0, rhs1) => {
            let drop = if rules.table.gate_inverters_count {
                0
            } else {
                1
            };
            let value = |literal: u32| literal_value(&rules.table, values, literal & !drop);
            value(rhs0) && value(rhs1)
        }
        Record::Cell(cell) => cell.value(&rules.cells, values),
    }
}

pub fn literal_value(rules: &TableRules, values: &[bool], literal: u32) -> bool {
    if literal == 1 {
        return rules.literal_1_is_true;
    }
    let inverted = literal % 2 == 1;
    values[literal as usize / 2] != inverted
}

/// The word the outputs show where the inputs have the bits of two words. Any O will do: no reading is asked for.
pub fn evaluate(
    counts: Counts,
    table: &[u32],
    records: Records,
    x: u64,
    y: u64,
) -> Result<u64, u32> {
    evaluate_by(&Rules::of_document(), counts, table, records, x, y)
}

pub fn evaluate_by(
    rules: &Rules,
    counts: Counts,
    table: &[u32],
    records: Records,
    x: u64,
    y: u64,
) -> Result<u64, u32> {
    let netlist = Netlist::of(rules, counts, table, records)?;
    netlist.soundness(rules)?;
    let values = netlist.values(rules, x, y);
    Ok(netlist.word(&rules.table, &values))
}
