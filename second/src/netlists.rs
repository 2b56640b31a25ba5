//! Made netlists: random sound ones, right multipliers, and multipliers with one fault.

use crate::cell_netlists::{cell_multiplier, change_cell, random_cells};
use crate::judge::Question;
use crate::random::Random;
use crate::reading::{Operands, Reading};
use crate::records::{Record, Records};
use crate::rules::Rules;
use crate::table::{evaluate, Counts, Netlist};

/// A netlist with its own table.
#[derive(Clone, Debug, PartialEq, Eq)]
pub struct Made {
    pub counts: Counts,
    pub records: Records,
    pub table: Vec<u32>,
}

impl Made {
    pub fn new(inputs: u32, outputs: &[u32], gates: &[(u32, u32)]) -> Made {
        let mut table = outputs.to_vec();
        for &(rhs0, rhs1) in gates {
            table.extend([rhs0, rhs1]);
        }
        let a = gates.len() as u32;
        let counts = Counts {
            m: inputs + a,
            i: inputs,
            l: 0,
            o: outputs.len() as u32,
            a,
        };
        Made {
            counts,
            records: Records::Gates,
            table,
        }
    }

    pub fn netlist(&self) -> Netlist<'_> {
        let rules = Rules::of_document();
        Netlist::of(&rules, self.counts, &self.table, self.records).expect("a made netlist")
    }

    /// What the judge is asked of this netlist, by the document's rules, or the number of refusal.
    pub fn question<'a>(
        &'a self,
        kind: u32,
        limit: u64,
        order: &'a [u32],
    ) -> Result<Question<'a>, u32> {
        let rules = Rules::of_document();
        let (counts, records) = (self.counts, self.records);
        Question::checked(&rules, counts, &self.table, records, kind, limit, order)
    }

    /// The word that the outputs show for the evaluator's two words, by the document's rules.
    pub fn word_at(&self, x: u64, y: u64) -> Result<u64, u32> {
        evaluate(self.counts, &self.table, self.records, x, y)
    }

    /// The word that the outputs show for the operands of a reading.
    pub fn word_for(&self, reading: Reading, operands: Operands) -> Result<u64, u32> {
        let n = self.counts.i / reading.inputs(1);
        let (x, y) = reading.words(n, operands);
        self.word_at(x, y)
    }

    /// The netlist text, also of a netlist that breaks the rules. Only gates have one.
    pub fn text(&self) -> Vec<u8> {
        let Counts { m, i, l, o, a } = self.counts;
        let mut text = format!("aag {m} {i} {l} {o} {a}\n");
        for input in 1..=i {
            text += &format!("{}\n", 2 * input);
        }
        let (outputs, gates) = self.table.split_at(o as usize);
        for output in outputs {
            text += &format!("{output}\n");
        }
        for (gate, literals) in (i + 1..).zip(gates.chunks(2)) {
            text += &format!("{} {} {}\n", 2 * gate, literals[0], literals[1]);
        }
        text.into_bytes()
    }
}

/// A sound table of either kind with nothing in mind.
pub fn random_records(
    random: &mut Random,
    records: Records,
    inputs: u32,
    outputs: u32,
    count: u32,
) -> Made {
    match records {
        Records::Gates => random_sound(random, inputs, outputs, count),
        Records::Cells => random_cells(random, inputs, outputs, count),
    }
}

/// The same with as many inputs and outputs as a block of the reading has whose a and b have n bits.
pub fn random_for(
    random: &mut Random,
    records: Records,
    reading: Reading,
    n: u32,
    count: u32,
) -> Made {
    random_records(
        random,
        records,
        reading.inputs(n),
        reading.outputs(n),
        count,
    )
}

/// A multiplier of either kind that is right under the reading.
pub fn right_multiplier(random: &mut Random, records: Records, reading: Reading, n: u32) -> Made {
    match records {
        Records::Gates => multiplier(random, reading, n),
        Records::Cells => cell_multiplier(random, reading, n),
    }
}

/// A sound netlist with nothing in mind. Half of the literals are near the gate, so that gates hang together.
pub fn random_sound(random: &mut Random, inputs: u32, outputs: u32, gates: u32) -> Made {
    let pairs: Vec<(u32, u32)> = (inputs + 1..=inputs + gates)
        .map(|gate| {
            let one = literal_below(random, 2 * gate);
            let other = literal_below(random, 2 * gate);
            (one.max(other), one.min(other))
        })
        .collect();
    let past = 2 * (inputs + gates) + 2;
    let shown: Vec<u32> = (0..outputs).map(|_| literal_below(random, past)).collect();
    Made::new(inputs, &shown, &pairs)
}

/// A sound netlist: mostly small, sometimes of any size, now and then with M 1,023. Of the larger ones some have I or O 64.
pub fn random_size(random: &mut Random, records: Records) -> Made {
    let inputs = (2 * (1 + random.below(40)) as u32).min(64);
    let outputs = (1 + random.below(80) as u32).min(64);
    match random.below(16) {
        0 => random_records(random, records, inputs, outputs, 1_023 - inputs),
        1..=4 => {
            let count = random.below(80) as u32;
            random_records(random, records, inputs, outputs, count)
        }
        _ => {
            let count = random.below(8) as u32;
            random_records(random, records, 2 + inputs % 6, 1 + outputs % 6, count)
        }
    }
}

/// A literal below this one, half of the time near it.
pub fn literal_below(random: &mut Random, past: u32) -> u32 {
    let near = random.one_in(2);
    let span = if near { past.min(8) } else { past };
    past - 1 - random.below(span as usize) as u32
}

/// Grows a netlist gate by gate.
struct Maker {
    inputs: u32,
    gates: Vec<(u32, u32)>,
    /// Whether an AND with a constant or with its own variable is spared.
    spares: bool,
}

impl Maker {
    fn and(&mut self, x: u32, y: u32) -> u32 {
        let (high, low) = (x.max(y), x.min(y));
        if self.spares {
            match low {
                0 => return 0,
                1 => return high,
                _ if high == low => return high,
                _ if high == low ^ 1 => return 0,
                _ => {}
            }
        }
        self.gates.push((high, low));
        2 * (self.inputs + self.gates.len() as u32)
    }

    fn or(&mut self, x: u32, y: u32) -> u32 {
        self.and(x ^ 1, y ^ 1) ^ 1
    }

    fn xor(&mut self, x: u32, y: u32) -> u32 {
        let both = self.and(x, y);
        let none = self.and(x ^ 1, y ^ 1);
        self.and(both ^ 1, none ^ 1)
    }

    /// Adds a row to the sum from this place up; the carry out of the top is dropped.
    fn add_row(&mut self, sum: &mut [u32], row: &[u32], place: usize) {
        let mut carry = 0;
        for (total, &bit) in sum[place..].iter_mut().zip(row) {
            let half = self.xor(*total, bit);
            let both = self.and(*total, bit);
            let passed = self.and(half, carry);
            *total = self.xor(half, carry);
            carry = self.or(both, passed);
        }
        if let Some(above) = sum.get_mut(place + row.len()) {
            // Rows are added lowest first, so nothing stands above the row yet.
            *above = carry;
        }
    }
}

/// A multiplier that is right under the reading: rows of partial products, added with ripple carry. Where c is added,
/// it is sometimes there before all rows and sometimes comes last.
pub fn multiplier(random: &mut Random, reading: Reading, n: u32) -> Made {
    let l = reading.outputs(n) as usize;
    let mut maker = Maker {
        inputs: reading.inputs(n),
        gates: Vec::new(),
        spares: random.one_in(2),
    };
    let (first, second) = if random.one_in(2) {
        (1, n + 1)
    } else {
        (n + 1, 1)
    };
    let x = operand(reading, first, n, l);
    let y = operand(reading, second, n, l);
    let added = added(reading, n);
    let c_comes_first = reading.adds() && random.one_in(2);
    let mut sum = vec![0; l];
    if c_comes_first {
        sum.copy_from_slice(&added);
    }
    for (place, &multiplier) in y.iter().enumerate().take(rows(reading, n)) {
        let width = width(reading, n, place);
        let row: Vec<u32> = x[..width]
            .iter()
            .map(|&bit| maker.and(bit, multiplier))
            .collect();
        if place == 0 && !c_comes_first {
            sum[..width].copy_from_slice(&row);
        } else {
            maker.add_row(&mut sum, &row, place);
        }
    }
    if reading.adds() && !c_comes_first {
        maker.add_row(&mut sum, &added, 0);
    }
    Made::new(maker.inputs, &sum, &maker.gates)
}

/// An operand's l literals: a signed operand goes on with its top bit.
pub fn operand(reading: Reading, first: u32, n: u32, l: usize) -> Vec<u32> {
    (0..l as u32)
        .map(|bit| match reading {
            _ if bit < n => 2 * (first + bit),
            _ if reading.is_signed() => 2 * (first + n - 1),
            _ => 0,
        })
        .collect()
}

/// The literals of c, or none where it is not added.
pub fn added(reading: Reading, n: u32) -> Vec<u32> {
    let first = 2 * n + 1;
    (first..=reading.inputs(n)).map(|input| 2 * input).collect()
}

/// How many rows of partial products there are: a plain operand has no bits from n up, a signed one goes on.
pub fn rows(reading: Reading, n: u32) -> usize {
    let all = reading.outputs(n);
    (if reading.is_signed() { all } else { n }) as usize
}

/// How wide the row at a place is. Where nothing stands above a plain row, n bits and a carry are enough.
pub fn width(reading: Reading, n: u32, place: usize) -> usize {
    match reading {
        Reading::Plain => n as usize,
        _ => reading.outputs(n) as usize - place,
    }
}

/// Changes one word of the table and keeps it sound. The netlist may still be right afterwards.
pub fn with_fault(random: &mut Random, made: &Made) -> Made {
    let mut faulty = made.clone();
    let at = random.below(faulty.table.len());
    let outputs = made.counts.o as usize;
    if at < outputs {
        faulty.table[at] = literal_below(random, 2 * made.counts.m + 2);
        return faulty;
    }
    let words = made.records.words();
    let place = (at - outputs) / words;
    let own = made.counts.i + 1 + place as u32;
    let changed = match made.netlist().record(own) {
        Record::Gate(rhs0, rhs1) => {
            let kept = random.pick(&[rhs0, rhs1]);
            let other = literal_below(random, 2 * own);
            vec![kept.max(other), kept.min(other)]
        }
        Record::Cell(mut cell) => {
            change_cell(random, &mut cell, own);
            [&[cell.byte][..], &cell.variables].concat()
        }
    };
    let first = outputs + words * place;
    faulty.table[first..first + words].copy_from_slice(&changed);
    faulty
}
