//! The time of one step, for more and more terms held.
//!
//! The polynomial is (1 + x)·(1 - y_1)···(1 - y_c) - ab, where the y are all
//! different and two of them are the inputs a and b. It has a term for every
//! set of its variables, save one that ab may take away. The gate of x is the
//! inverse of another gate, and so on down a chain: a step puts 1 - w in
//! place of x. That changes the half of the terms that hold x, makes half as
//! many again, gathers as many, and leaves a polynomial of the same form. So
//! any number of steps can be taken at one number of terms.

use crate::judges::{by_library, Lent, Question};
use crate::timing::{met, Least};
use hraskell::Step;
use second::netlists::Made;
use second::reading::Reading;

const LIMIT: u64 = 16_384;
const REPEATS: u32 = 10;
/// With so many variables a set has 16 words.
const VARIABLES: u32 = 1_023;
const INPUTS: u32 = 2;
/// The steps that are timed, all on one chain.
const STEPS: u32 = 64;
/// The gates from here up are only there to be replaced before the timing begins.
const FIRST_TOP_GATE: u32 = 1_000;
/// Doubling the terms may take so many times as long.
const MOST_TO_ROW_BEFORE: f64 = 2.2;

/// Where the gate replaced stands among the variables held.
#[derive(Clone, Copy)]
enum Place {
    Highest,
    Middle,
}

/// A netlist with the steps that build its polynomial, and those that keep its size.
struct Growth {
    made: Made,
    building: Vec<u32>,
    keeping: Vec<u32>,
}

/// Prints a table for each place; says whether every step had the terms that it was to have.
pub fn run() -> bool {
    println!("M = {VARIABLES}, T = {LIMIT}, {STEPS} steps, least of {REPEATS}");
    let mut all_hold = true;
    for place in [Place::Highest, Place::Middle] {
        all_hold &= print_table(place);
    }
    all_hold
}

fn print_table(place: Place) -> bool {
    println!();
    println!(
        "{}",
        match place {
            Place::Highest => "the gate replaced is the highest variable held",
            Place::Middle => "about half of the variables held stand above the gate replaced",
        }
    );
    println!(
        "{:>7} {:>15} {:>9} {:>18}",
        "terms", "microsec./step", "ns/term", "to the row before"
    );
    let mut before: Option<f64> = None;
    let mut most = 0.0f64;
    for doublings in 10..=14 {
        let Some(step) = step_microseconds(&growth(place, doublings), 1 << doublings) else {
            return false;
        };
        let ratio = before.map(|before| step / before);
        print_row(1 << doublings, step, ratio);
        most = most.max(ratio.unwrap_or(0.0));
        before = Some(step);
    }
    println!(
        "doubling the terms takes at most {most:.2} times as long (at most {MOST_TO_ROW_BEFORE}: {})",
        met(most <= MOST_TO_ROW_BEFORE)
    );
    true
}

fn print_row(terms: u32, step: f64, ratio: Option<f64>) {
    let each = 1_000.0 * step / f64::from(terms);
    let ratio = ratio.map_or("-".to_string(), |ratio| format!("{ratio:.2}"));
    println!("{terms:>7} {step:>15.2} {each:>9.2} {ratio:>18}");
}

/// The time of an order with the steps that keep the size, less that without them, for each of them.
fn step_microseconds(growth: &Growth, terms: u32) -> Option<f64> {
    let long = [growth.building.as_slice(), &growth.keeping].concat();
    let made = &growth.made;
    let short = Question::of(made, Reading::Plain, LIMIT, &growth.building);
    let long = Question::of(made, Reading::Plain, LIMIT, &long);
    let mut lent = Lent::to(&long);
    let (mut without, mut with) = (Least::new(), Least::new());
    for _ in 0..REPEATS {
        without.time(|| by_library(&short, &mut lent));
        let verdict = with.time(|| by_library(&long, &mut lent));
        let log = &lent.log[growth.building.len()..];
        let has_size = |step: &Step| step.terms == terms || step.terms == terms - 1;
        if verdict.letter != 'U' || !log.iter().all(has_size) {
            println!("{terms} terms were to be held; the answer is {verdict}, the log {log:?}");
            return None;
        }
    }
    Some((with.microseconds() - without.microseconds()) / f64::from(STEPS))
}

/// The netlist for 2^doublings terms: output 0 is (1 - x)·r and output 1 is x·r, where r is the product of the 1 - y.
fn growth(place: Place, doublings: u32) -> Growth {
    let chain = chain(place);
    let mut gates = Gates::new();
    for pair in chain.windows(2) {
        gates.set(pair[0], 2 * pair[1] + 1, 1);
    }
    let x = 2 * chain[0];
    let mut product = 1;
    let mut building = Vec::new();
    for (gate, other) in (FIRST_TOP_GATE..).zip(others(doublings - 1)) {
        gates.set(gate, product, 2 * other + 1);
        product = 2 * gate;
        building.push(gate);
    }
    gates.set(VARIABLES - 1, product, x + 1);
    gates.set(VARIABLES, product, x);
    building.extend([VARIABLES - 1, VARIABLES]);
    building.reverse();
    let outputs = [2 * VARIABLES - 2, 2 * VARIABLES];
    Growth {
        made: Made::new(INPUTS, &outputs, &gates.literals),
        building,
        keeping: chain[..STEPS as usize].to_vec(),
    }
}

/// The gates of the chain from x down, one more than there are steps.
fn chain(place: Place) -> Vec<u32> {
    let first = match place {
        Place::Highest => FIRST_TOP_GATE - 1,
        Place::Middle => 540,
    };
    (first - STEPS..=first).rev().collect()
}

/// The variables y: the inputs, then gates that are never replaced, as many below the chain as above its middle place.
fn others(count: u32) -> impl Iterator<Item = u32> {
    // Far apart, so that the sets differ in all of their words.
    let low = [40, 110, 170, 230, 300, 380];
    let high = [590, 650, 710, 780, 850, 920];
    let gates = high
        .into_iter()
        .zip(low)
        .flat_map(|(high, low)| [high, low]);
    [1, 2].into_iter().chain(gates).take(count as usize)
}

/// The literals of all gates; a gate that nothing is said of is the AND of the inputs.
struct Gates {
    literals: Vec<(u32, u32)>,
}

impl Gates {
    fn new() -> Gates {
        Gates {
            literals: vec![(4, 2); (VARIABLES - INPUTS) as usize],
        }
    }

    fn set(&mut self, gate: u32, x: u32, y: u32) {
        self.literals[(gate - INPUTS - 1) as usize] = (x.max(y), x.min(y));
    }
}
