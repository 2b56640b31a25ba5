//! The five readings: where the operands stand, how many outputs there are, which word is wanted.

use crate::rules::{AddingRules, Rules};
use crate::table::Counts;

#[derive(Clone, Copy, Debug, PartialEq, Eq)]
pub enum Reading {
    Plain,
    Signed,
    Truncated,
    /// a·b + c, both factors plain.
    Adding,
    /// a·b + c, both factors two's complement.
    SignedAdding,
}

/// The operands of a reading as plain words. A reading without c has 0 there.
#[derive(Clone, Copy, Debug, Default, PartialEq, Eq)]
pub struct Operands {
    pub a: u64,
    pub b: u64,
    pub c: u64,
}

/// Where the operands stand among the inputs: a's bits are the first, b's and c's have so many inputs before them.
#[derive(Clone, Copy, Debug, PartialEq, Eq)]
pub struct Layout {
    /// The bits of a, and of b.
    pub n: u32,
    pub before_b: u32,
    pub before_c: u32,
    /// None where the reading has no c.
    pub bits_of_c: u32,
}

impl Reading {
    pub const ALL: [Reading; 5] = [
        Reading::Plain,
        Reading::Signed,
        Reading::Truncated,
        Reading::Adding,
        Reading::SignedAdding,
    ];

    /// A kind is a 32-bit number from 0 to 4, and no other number stands for these.
    pub fn of_kind(rules: &Rules, kind: u32) -> Option<Reading> {
        let seen = if rules.judging.kind_is_32_bits {
            kind
        } else {
            kind % 256
        };
        let reading = Reading::ALL.into_iter().find(|r| r.kind() == seen)?;
        if reading == Reading::SignedAdding && !rules.adding.ms_has_signs {
            return Some(Reading::Adding);
        }
        Some(reading)
    }

    /// The reading that a kind line or a word of a command names.
    pub fn of_name(name: &[u8]) -> Option<Reading> {
        Reading::ALL
            .into_iter()
            .find(|r| r.name().as_bytes() == name)
    }

    pub fn kind(self) -> u32 {
        match self {
            Reading::Plain => 0,
            Reading::Signed => 1,
            Reading::Truncated => 2,
            Reading::Adding => 3,
            Reading::SignedAdding => 4,
        }
    }

    pub fn name(self) -> &'static str {
        match self {
            Reading::Plain => "u",
            Reading::Signed => "s",
            Reading::Truncated => "t",
            Reading::Adding => "m",
            Reading::SignedAdding => "ms",
        }
    }

    /// Whether there is an operand c.
    pub fn adds(self) -> bool {
        matches!(self, Reading::Adding | Reading::SignedAdding)
    }

    /// Whether a and b are two's complement.
    pub fn is_signed(self) -> bool {
        matches!(self, Reading::Signed | Reading::SignedAdding)
    }

    /// The inputs of a block whose a and b have n bits; c has 2n.
    pub fn inputs(self, n: u32) -> u32 {
        if self.adds() {
            4 * n
        } else {
            2 * n
        }
    }

    /// The most bits of a and of b: there are at most 64 inputs.
    pub fn most_bits(self) -> u32 {
        64 / self.inputs(1)
    }

    /// The outputs l that a block has whose a and b have n bits.
    pub fn outputs(self, n: u32) -> u32 {
        match self {
            Reading::Truncated => n,
            _ => 2 * n,
        }
    }

    /// Whether a block with these counts can be read so; if not, that is refusal 9.
    pub fn fits(self, rules: &AddingRules, counts: Counts) -> bool {
        let has_quarters =
            !self.adds() || counts.i.is_multiple_of(4) || !rules.inputs_come_by_fours;
        has_quarters && self.outputs(self.layout(rules, counts.i).n) == counts.o
    }

    /// Where this reading finds its operands among so many inputs.
    pub fn layout(self, rules: &AddingRules, inputs: u32) -> Layout {
        let n = if self.adds() && rules.n_is_a_quarter {
            inputs / 4
        } else {
            inputs / 2
        };
        let bits_of_c = match (self.adds(), rules.c_has_2n_bits) {
            (false, _) => 0,
            // A bent n may leave c no inputs.
            (true, true) => (2 * n).min(inputs - 2 * n),
            (true, false) => n.min(inputs - 2 * n),
        };
        if rules.b_comes_before_c {
            Layout {
                n,
                before_b: n,
                before_c: 2 * n,
                bits_of_c,
            }
        } else {
            Layout {
                n,
                before_b: n + bits_of_c,
                before_c: n,
                bits_of_c,
            }
        }
    }

    /// A product term is subtracted from the product when exactly one top bit of a signed operand is in it.
    pub fn term_is_negative(self, n: u32, i: u32, j: u32) -> bool {
        self.is_signed() && (i == n - 1) != (j == n - 1)
    }

    /// The wanted word, taken from whole numbers.
    pub fn wanted(self, n: u32, operands: Operands) -> u64 {
        self.wanted_by(&Rules::of_document().adding, n, operands)
    }

    pub fn wanted_by(self, rules: &AddingRules, n: u32, operands: Operands) -> u64 {
        let Operands { a, b, c } = operands;
        let product = whole(n, a, self.is_signed()) * whole(n, b, self.is_signed());
        let l = self.outputs(n);
        if !self.adds() {
            return product as u64 & low_bits(l);
        }
        // Read as two's complement c changes by 2^l, which the l bits of the sum do not show.
        let sum = product + whole(2 * n, c, !rules.sum_has_l_bits);
        if rules.sum_has_l_bits {
            sum as u64 & low_bits(l)
        } else {
            sum as u64
        }
    }

    /// The two words by which the evaluator is handed these operands.
    pub fn words(self, n: u32, operands: Operands) -> (u64, u64) {
        let Operands { a, b, c } = operands;
        if self.adds() {
            (a & low_bits(n) | (b & low_bits(n)) << n, c)
        } else {
            (a, b)
        }
    }
}

impl Layout {
    /// The operands that a set of inputs makes, input v at bit v - 1.
    pub fn operands(self, inputs: u128) -> Operands {
        let part = |before: u32, bits: u32| (inputs >> before) as u64 & low_bits(bits);
        Operands {
            a: part(0, self.n),
            b: part(self.before_b, self.n),
            c: part(self.before_c, self.bits_of_c),
        }
    }

    /// Whether this input is a bit of c.
    pub fn is_of_c(self, input: u32) -> bool {
        let first = self.before_c + 1;
        (first..first + self.bits_of_c).contains(&input)
    }
}

/// What the low bits of a word stand for, plain or as two's complement.
fn whole(bits: u32, word: u64, is_signed: bool) -> i128 {
    let plain = i128::from(word & low_bits(bits));
    let top_is_set = word >> (bits - 1) & 1 == 1;
    if is_signed && top_is_set {
        plain - (1 << bits)
    } else {
        plain
    }
}

/// A word with the lowest `count` bits set.
pub fn low_bits(count: u32) -> u64 {
    if count >= 64 {
        u64::MAX
    } else {
        (1 << count) - 1
    }
}

/// The word that a right netlist shows. Kinds are 0 to 4; n is 1 to 32, and 1 to 16 where c is added.
///
/// Bits of a and b from n up and of c from 2n up are absent. A kind without c takes no notice of it.
pub fn wanted(kind: u32, n: u32, a: u64, b: u64, c: u64) -> u64 {
    let reading = Reading::ALL
        .into_iter()
        .find(|r| r.kind() == kind)
        .expect("a kind is a number from 0 to 4");
    let most = reading.most_bits();
    assert!(
        (1..=most).contains(&n),
        "a and b have 1 to {most} bits under this kind"
    );
    reading.wanted(n, Operands { a, b, c })
}
