//! The five readings: their letters, their names, and how they read operands.

use hraskell::{Counts, Kind};

/// A reading that a block is judged under.
#[derive(Clone, Copy, Debug, PartialEq, Eq)]
pub struct Reading(pub Kind);

/// All five, in the order in which `any` asks for them.
pub const ALL: [Reading; 5] = [
    Reading(Kind::Plain),
    Reading(Kind::Signed),
    Reading(Kind::Truncated),
    Reading(Kind::MultiplyAdd),
    Reading(Kind::MultiplyAddSigned),
];

impl Reading {
    /// The reading with these letters.
    pub fn of_letters(letters: &str) -> Option<Reading> {
        ALL.into_iter().find(|reading| reading.letters() == letters)
    }

    pub fn letters(self) -> &'static str {
        match self.0 {
            Kind::Plain => "u",
            Kind::Signed => "s",
            Kind::Truncated => "t",
            Kind::MultiplyAdd => "m",
            Kind::MultiplyAddSigned => "ms",
        }
    }

    pub fn name(self) -> &'static str {
        match self.0 {
            Kind::Plain => "plain",
            Kind::Signed => "two's complement",
            Kind::Truncated => "truncated",
            Kind::MultiplyAdd => "multiply and add, plain",
            Kind::MultiplyAddSigned => "multiply and add, two's complement",
        }
    }

    /// Whether the factors are read in two's complement.
    pub fn is_signed(self) -> bool {
        matches!(self.0, Kind::Signed | Kind::MultiplyAddSigned)
    }

    /// Whether c is added.
    pub fn adds(self) -> bool {
        matches!(self.0, Kind::MultiplyAdd | Kind::MultiplyAddSigned)
    }

    /// n, the bits of a and of b.
    pub fn operand_bits(self, counts: Counts) -> u32 {
        counts.i / if self.adds() { 4 } else { 2 }
    }

    /// l, the bits of the wanted word.
    pub fn output_bits(self, counts: Counts) -> u32 {
        match self.0 {
            Kind::Truncated => self.operand_bits(counts),
            _ => 2 * self.operand_bits(counts),
        }
    }
}

/// A plain word of so many bits read as two's complement.
pub fn signed(word: u64, bits: u32) -> i64 {
    let unused = 64 - bits;
    ((word << unused) as i64) >> unused
}
