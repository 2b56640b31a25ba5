//! Counts and tables handed in wrong: one thing at a time, of every kind.

use crate::random::Random;
use crate::records::Records;
use crate::table::Counts;

/// Sound counts with one limit broken; where the limit is that of one count, the sum still holds.
pub fn wrong_counts(random: &mut Random, right: Counts) -> Counts {
    let mut counts = right;
    let word = random.word() as u32;
    match random.below(16) {
        0 => counts.m += 1,
        1 => counts.m -= 1,
        2 => (counts.m, counts.a) = (1_024, 1_024 - right.i),
        3 => (counts.m, counts.i) = (right.m + 1, right.i + 1),
        4 => (counts.m, counts.i) = (right.a, 0),
        5 => (counts.m, counts.i) = (right.a + 66, 66),
        6 => counts.l = 1,
        7 => counts.l = word | 256,
        8 => counts.o = 0,
        9 => counts.o = 65,
        10 => counts.o = word | 128,
        11 => counts.a += 1,
        12 => counts.a = right.a.wrapping_sub(1),
        13 => (counts.i, counts.a) = wrapping_sum(right.m),
        14 => counts.m = word | 1_024,
        _ => (counts.m, counts.i, counts.a) = (word, word, word),
    }
    counts
}

/// An even I above M, and the A with which I + A comes to M once the sum wraps.
fn wrapping_sum(m: u32) -> (u32, u32) {
    let i = m / 2 * 2 + 2;
    (i, m.wrapping_sub(i))
}

/// Sets one word of a sound table against the rules of its outputs and records.
pub fn make_unsound(random: &mut Random, counts: Counts, records: Records, table: &mut [u32]) {
    let Counts { m, i, o, a, .. } = counts;
    if a == 0 || random.one_in(3) {
        table[random.below(o as usize)] = past(random, 2 * m + 1);
        return;
    }
    let place = random.below(a as usize);
    let own = i + 1 + place as u32;
    let at = o as usize + records.words() * place;
    match (records, random.below(2)) {
        (Records::Gates, 0) => table[at] = past(random, 2 * own - 1),
        (Records::Gates, _) => table[at + 1] = past(random, table[at]),
        (Records::Cells, 0) => table[at] = past(random, 255),
        (Records::Cells, _) => table[at + 1 + random.below(3)] = past(random, own - 1),
    }
}

/// A number above the most: just above, far above, or right again in its low bits.
fn past(random: &mut Random, most: u32) -> u32 {
    let past = [
        most + 1,
        most + 2,
        u32::MAX,
        0x1_0000 + most,
        0x8000_0000 + most,
    ];
    random.pick(&past)
}
