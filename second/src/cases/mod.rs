//! Cases for comparisons: edges that the document names, and seeded random ones.
//!
//! `seen` runs a case by given rules and shows the answer and every lent
//! word. The words are marked beforehand, so a word that was left alone can
//! be told from one that was written.

pub mod adding;
pub mod cells;
pub mod damages;
pub mod desks;
pub mod judgements;
pub mod occurrences;
pub mod pairs;
pub mod peak;
pub mod runs;
pub mod texts;
pub mod wrong;

use crate::words::Step;

/// Words that no answer leaves by chance.
pub fn marked_words(count: usize) -> Vec<u64> {
    (0..count as u64)
        .map(|place| 0xa5a5_0000_0000_0000 + place)
        .collect()
}

/// The same for 32-bit words.
pub fn marked_numbers(count: usize) -> Vec<u32> {
    (0..count as u32).map(|place| 0xa5a5_0000 + place).collect()
}

/// The same for records; each of the three numbers has marks of its own.
pub fn marked_steps(count: usize) -> Vec<Step> {
    marked_numbers(3 * count)
        .chunks(3)
        .map(|mark| Step {
            gate: mark[0],
            terms: mark[1],
            made: mark[2],
        })
        .collect()
}
