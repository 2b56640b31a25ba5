//! Reading a netlist text and evaluating one operand pair, beside the second program.

use crate::timing::{met, Least};
use compare::types::{counts_for_library, records_for_library};
use second::cell_netlists::random_cells;
use second::desk::TABLE_WORDS;
use second::netlists::{random_sound, Made};
use second::random::Random;
use std::hint::black_box;

const REPEATS: usize = 5_000;
const GATES: u32 = 900;
/// Calls that are timed as one, so that looking at the clock does not count.
const CALLS: usize = 8;
/// A processor learns the branches of one pair by heart when it comes again and again; those of so many it cannot.
const PAIRS: usize = 1_024;

/// Prints a row for each function; says whether both programs give the same.
pub fn run() -> bool {
    let mut random = Random::new(1);
    let netlist = random_sound(&mut random, 64, 64, GATES);
    let pairs: Vec<(u64, u64)> = (0..PAIRS).map(|_| (random.word(), random.word())).collect();
    let text = netlist.text();
    let bytes = text.len();
    println!(
        "{GATES} gates or cells, I = 64, O = 64, {bytes} bytes; least of {REPEATS}, microseconds a call"
    );
    println!(
        "{:<20} {:>10} {:>10} {:>9}",
        "", "library", "second", "lib/sec"
    );
    let read = reads_the_same(&text);
    let cells = random_cells(&mut random, 64, 64, GATES);
    let evaluates = evaluates_the_same("evaluate, one pair", &netlist, &pairs[..1])
        & evaluates_the_same("evaluate, many pairs", &netlist, &pairs)
        & evaluates_the_same("cells, one pair", &cells, &pairs[..1])
        & evaluates_the_same("cells, many pairs", &cells, &pairs);
    read && evaluates
}

fn reads_the_same(text: &[u8]) -> bool {
    let (mut one, mut other) = ([0; TABLE_WORDS], [0; TABLE_WORDS]);
    let by_library = |_| hraskell::read(black_box(text), &mut one).ok();
    let by_second = |_| {
        let counts = second::read(black_box(text), &mut other);
        counts.ok().map(counts_for_library)
    };
    gives_the_same("read", by_library, by_second) && one == other
}

fn evaluates_the_same(name: &str, netlist: &Made, pairs: &[(u64, u64)]) -> bool {
    let pair = |call: usize| black_box(pairs[call % pairs.len()]);
    let counts = counts_for_library(netlist.counts);
    let records = records_for_library(netlist.records);
    let by_library = |call| {
        let (a, b) = pair(call);
        hraskell::evaluate(counts, &netlist.table, records, a, b).ok()
    };
    let by_second = |call| {
        let (a, b) = pair(call);
        netlist.word_at(a, b).ok()
    };
    gives_the_same(name, by_library, by_second)
}

/// Times both in turn and prints the row; says whether both gave the same, and neither refused.
fn gives_the_same<R: PartialEq>(
    name: &str,
    mut by_library: impl FnMut(usize) -> Option<R>,
    mut by_second: impl FnMut(usize) -> Option<R>,
) -> bool {
    let (mut library, mut second) = (Least::new(), Least::new());
    for repetition in 0..REPEATS {
        let first = repetition * CALLS;
        let one = library.time(|| last_of_calls(first, &mut by_library));
        let other = second.time(|| last_of_calls(first, &mut by_second));
        if one != other || one.is_none() {
            println!("{name}: DISAGREE");
            return false;
        }
    }
    let [library, second] = [library, second].map(|time| time.microseconds() / CALLS as f64);
    let ratio = library / second;
    let target = met(ratio <= 1.0);
    println!("{name:<20} {library:>10.3} {second:>10.3} {ratio:>9.3}  (at most 1.0: {target})");
    true
}

/// Makes the calls that are timed as one.
fn last_of_calls<R>(first: usize, mut call: impl FnMut(usize) -> R) -> R {
    for number in first..first + CALLS - 1 {
        black_box(call(number));
    }
    call(first + CALLS - 1)
}
