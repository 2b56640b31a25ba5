//! A block: the counts and the table that the library reads from a netlist text.

use hraskell::{Counts, Refused};

/// No netlist of gates needs a longer table.
const TABLE_WORDS_MOST: usize = 2106;

/// A netlist of AND gates, as the library has read it.
#[derive(Clone, Debug, PartialEq, Eq)]
pub struct Block {
    pub counts: Counts,
    /// The O outputs, then the two literals of each gate.
    pub table: Vec<u32>,
}

impl Block {
    /// Reads a netlist text.
    pub fn of_text(text: &[u8]) -> Result<Block, Refused> {
        let mut table = vec![0; TABLE_WORDS_MOST];
        let counts = hraskell::read(text, &mut table)?;
        table.truncate((counts.o + 2 * counts.a) as usize);
        Ok(Block { counts, table })
    }

    /// The two literals of gate v.
    pub fn literals(&self, v: u32) -> [u32; 2] {
        let at = (self.counts.o + 2 * (v - self.counts.i - 1)) as usize;
        [self.table[at], self.table[at + 1]]
    }

    /// The literals of the outputs, the lowest first.
    pub fn outputs(&self) -> &[u32] {
        &self.table[..self.counts.o as usize]
    }

    /// M down to I + 1.
    pub fn falling(&self) -> Vec<u32> {
        (self.counts.i + 1..=self.counts.m).rev().collect()
    }
}
