//! The verdict a second time, by trying all operands.

use crate::judge::reading_of;
use crate::reading::{Operands, Reading};
use crate::records::Records;
use crate::rules::Rules;
use crate::table::{Counts, Netlist};

/// Operands for which the outputs do not show the wanted word. Where the kind has no c, it is 0.
#[derive(Clone, Copy, Debug, PartialEq, Eq)]
pub struct WrongOperands {
    pub a: u64,
    pub b: u64,
    pub c: u64,
    pub got: u64,
    pub wanted: u64,
}

/// The most inputs for which all operands are tried.
pub const MOST_INPUTS: u32 = 16;

/// The wrong operands with the fewest 1 bits, of those the ones with the smallest a + 2^n·b, where c is added
/// a + 2^n·b + 2^(2n)·c.
///
/// There are none when the netlist is right. Refuses by 2, 3, 8 and 9 as judging does. I is at most 16.
pub fn least_wrong_operands(
    counts: Counts,
    table: &[u32],
    records: Records,
    kind: u32,
) -> Result<Option<WrongOperands>, u32> {
    let rules = Rules::of_document();
    let netlist = Netlist::of(&rules, counts, table, records)?;
    netlist.soundness(&rules)?;
    let reading = reading_of(&rules, counts, kind)?;
    assert!(counts.i <= MOST_INPUTS, "too many operands to try");
    let all = 0..1u64 << counts.i;
    Ok(all
        .filter_map(|bits| wrong_at(&rules, &netlist, reading, bits).map(|wrong| (bits, wrong)))
        .min_by_key(|&(bits, _)| (bits.count_ones(), bits))
        .map(|(_, wrong)| wrong))
}

/// The operands written one above the other, a lowest, if they are wrong.
fn wrong_at(
    rules: &Rules,
    netlist: &Netlist,
    reading: Reading,
    bits: u64,
) -> Option<WrongOperands> {
    let n = netlist.counts.i / reading.inputs(1);
    let (a, b, c) = (bits % (1 << n), (bits >> n) % (1 << n), bits >> (2 * n));
    let operands = Operands { a, b, c };
    let (x, y) = reading.words(n, operands);
    let got = netlist.word(&rules.table, &netlist.values(rules, x, y));
    let wanted = reading.wanted(n, operands);
    (got != wanted).then_some(WrongOperands {
        a,
        b,
        c,
        got,
        wanted,
    })
}
