//! The files in which tables of lookup cells are handed over. They are no format of the product.
//!
//! A line with the counts M I L O A, then one output literal a line, then one cell a line: byte x1 x2 x3. Numbers are
//! decimal, with white space between those of a line.

use crate::netlists::Made;
use crate::records::Records;
use crate::table::Counts;

/// The counts and the table of a file; none when it does not have the lines that its counts tell.
///
/// Nothing else is looked at: whether counts and table are sound is for the judge to say.
pub fn read_cells(text: &str) -> Option<Made> {
    let mut lines = text.lines().map(numbers);
    let [m, i, l, o, a] = lines.next()??[..] else {
        return None;
    };
    let mut table = Vec::new();
    for wanted in std::iter::repeat_n(1, o as usize).chain(std::iter::repeat_n(4, a as usize)) {
        let line = lines.next()??;
        if line.len() != wanted {
            return None;
        }
        table.extend(line);
    }
    let made = Made {
        counts: Counts { m, i, l, o, a },
        records: Records::Cells,
        table,
    };
    lines.next().is_none().then_some(made)
}

/// The numbers of a line; none when a word of it is no number of 32 bits.
fn numbers(line: &str) -> Option<Vec<u32>> {
    line.split_ascii_whitespace()
        .map(|word| word.parse().ok())
        .collect()
}
